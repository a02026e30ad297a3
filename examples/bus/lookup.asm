; A core of a bus. Looks up the word of a table at a secret index, in an oblivious bank. Its window is cycles 700 to
; 2,999 of each 8,000, and a transfer may last 4,262 cycles, so its transfers end by cycle 7,261 of a period.
.object 2 3 1 70 2 3 8000 700 3000
.bank 1 634
.bank 1 662
.bank 4 4262
.symbol at secret scalar 1 0 0 1
.symbol found secret scalar 1 0 1 1
.symbol table secret array 2 0 0 32

        li r1 3
        ldb 0 E r0
        ldw r2 0 r0             ; at
        shr r3 r2 r1            ; the block's number
        ldb 1 O2 r3
        ldw r4 1 r2             ; the word
        li r5 1
        stw r4 0 r5             ; found
        stb 0
        halt
