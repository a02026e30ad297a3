; suite/bubble.gr as a person writes it, with its variables where `compile --fast` places them: the word at j stays in a
; register. Both ways of the branch on secrets take eight cycles.
.object 1 9 1 70 2 3
.bank 1 634
.bank 1 662
.symbol n public scalar 0 0 509 1
.symbol i public scalar 0 0 510 1
.symbol j public scalar 0 0 511 1
.symbol a secret array 1 0 0 64
.symbol t secret scalar 1 0 511 1

        ldb 0 D r0              ; n, i and j
        ldb 1 E r0              ; a and t
        li r1 1
        li r2 63                ; the length of a, less 1
        li r11 509
        ldw r3 0 r11
        sub r3 r3 r1            ; n - 1
        li r4 0                 ; i
        li r13 511
        ldw r5 0 r13            ; j
        ldw r6 1 r13            ; t
        jmp -> otest
outer:                          ; r6, which is t, r9 and r14 may be secret
        .note 00004240 0 1 - - - - - -
        li r5 0
        li r7 0                 ; j modulo 64
        sub r8 r3 r4
        ldw r9 1 r7             ; a[j]
        jmp -> itest
inner:
        .note 00004240 0 1 - - - - - -
        add r10 r7 r1
        and r10 r10 r2
        ldw r14 1 r10           ; a[j + 1]
        br gt r9 r14 -> swap
        nop
        stw r9 1 r7
        or r9 r14 r14
        jmp -> join
swap:
        stw r14 1 r7
        or r6 r9 r9
        nop
        nop
join:
        or r7 r10 r10
        add r5 r5 r1
itest:
        .note 00004240 0 1 - - - - - -
        br lt r5 r8 -> inner
        stw r9 1 r7
        add r4 r4 r1
otest:
        .note 00004240 0 1 - - - - - -
        br lt r4 r3 -> outer
        li r12 510
        stw r4 0 r12
        stw r5 0 r13
        stw r6 1 r13
        stb 0
        stb 1
        halt
