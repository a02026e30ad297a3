; programs/findmax.gr as a person writes it, with its variables where the compiler places them: the greatest word and its
; place stay in registers up to the end. Both ways of the branch on secrets take eight cycles.
.object 1 9 1 70 2 3
.bank 1 634
.bank 2 662
.symbol n public scalar 0 0 0 1
.symbol i public scalar 0 0 1 1
.symbol best secret scalar 1 0 0 1
.symbol at secret scalar 1 0 1 1
.symbol a secret array 1 1 0 32

        li r1 1
        li r8 31
        ldb 0 D r0
        ldb 1 E r0              ; best and at
        ldb 4 E r1              ; a
        ldw r2 0 r0             ; n
        ldw r3 4 r0             ; the greatest so far
        li r4 1                 ; i
        jmp -> test
next:                           ; r3, r5, the place of the greatest, and r6 may be secret
        .note 00000068 0 1 - - 1 - - -
        and r7 r4 r8
        ldw r6 4 r7             ; the word at i modulo 32
        br gt r6 r3 -> greater
        nop
        nop
        nop
        nop
        jmp -> behind
greater:
        add r3 r6 r0
        add r5 r4 r0
        nop
        nop
        nop
behind:
        add r4 r4 r1
test:
        .note 00000068 0 1 - - 1 - - -
        br lt r4 r2 -> next
        stw r4 0 r1
        stw r3 1 r0
        stw r5 1 r1
        stb 0
        stb 1
        halt
