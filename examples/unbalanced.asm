; As choose.asm, but the way that isn't taken is two cycles shorter: refused at the branch, with reason 10.
.object 1 3 1 70 2 3
.bank 1 634
.bank 1 662
.symbol m secret scalar 1 0 0 1
.symbol s secret scalar 1 0 1 1

        li r1 1
        ldb 0 E r0
        ldw r2 0 r0             ; m
        ldw r3 0 r1             ; s
        br gt r3 r2 -> greater
        stw r2 0 r0
        jmp -> behind
greater:
        stw r3 0 r0
        nop
        nop
        nop
behind:
        stb 0
        halt
