; suite/psi.gr as a person writes it, with its variables where `compile --fast` places them: the count stays in a register,
; and r8 counts through the words of b. Both ways of the branch on secrets take four cycles.
.object 1 9 1 70 2 3
.bank 1 634
.bank 1 662
.symbol i public scalar 0 0 510 1
.symbol j public scalar 0 0 511 1
.symbol a secret array 1 0 0 64
.symbol b secret array 1 0 64 64
.symbol in secret array 1 0 128 64
.symbol count secret scalar 1 0 511 1

        ldb 0 D r0              ; i and j
        ldb 1 E r0              ; the arrays and count
        li r1 1
        li r2 64
        li r3 128
        li r4 0                 ; i
        li r5 0                 ; count
outer:                          ; r5, the count, r6, r7 and r9 may be secret
        .note 000002e0 0 1 - - - - - -
        ldw r6 1 r4             ; a[i]
        li r7 0
        li r8 64                ; where b begins
inner:
        .note 000002e0 0 1 - - - - - -
        ldw r9 1 r8             ; b[j]
        br eq r9 r6 -> hit
        jmp -> join
hit:
        li r7 1
join:
        add r8 r8 r1
        br lt r8 r3 -> inner
        add r10 r4 r3
        stw r7 1 r10            ; in[i]
        add r5 r5 r7
        add r4 r4 r1
        br lt r4 r2 -> outer
        li r11 510
        stw r4 0 r11
        li r11 511
        stw r2 0 r11
        stw r5 1 r11
        stb 0
        stb 1
        halt
