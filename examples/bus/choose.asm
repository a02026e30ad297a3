; A core of a bus. The secret word m becomes the greater of the secret words m and s, which stand in block 0 of
; encrypted memory. Its window is the first cycle of each 8,000, so its transfers end by cycle 662 of a period.
.object 2 3 1 70 2 3 8000 0 1
.bank 1 634
.bank 1 662
.symbol m secret scalar 1 0 0 1
.symbol s secret scalar 1 0 1 1

        li r1 1
        ldb 0 E r0
        ldw r2 0 r0             ; m
        ldw r3 0 r1             ; s
        br gt r3 r2 -> greater
        nop                     ; a branch that is taken takes two cycles more
        nop
        stw r2 0 r0
        jmp -> behind
greater:
        stw r3 0 r0
        nop                     ; and the jump of the other way takes three
        nop
        nop
behind:
        stb 0
        halt
