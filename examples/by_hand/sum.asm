; programs/sum.gr as a person writes it, with its variables where the compiler places them: the sum and the place stay in
; registers up to the end, and the block of a is loaded once.
.object 1 9 1 70 2 3
.bank 1 634
.bank 2 662
.symbol n public scalar 0 0 0 1
.symbol i public scalar 0 0 1 1
.symbol s secret scalar 1 0 0 1
.symbol a secret array 1 1 0 32

        li r1 1
        li r8 31
        ldb 0 D r0
        ldb 1 E r0              ; s
        ldb 4 E r1              ; a
        ldw r2 0 r0             ; n
        jmp -> test
next:                           ; r3, the sum, and r5 may be secret
        .note 00000028 0 1 - - 1 - - -
        and r7 r4 r8
        ldw r5 4 r7             ; the word at i modulo 32
        add r3 r3 r5
        add r4 r4 r1
test:
        .note 00000028 0 1 - - 1 - - -
        br lt r4 r2 -> next
        stw r4 0 r1
        stw r3 1 r0
        stb 0
        stb 1
        halt
