; programs/histogram.gr as a person writes it, with its variables where the compiler places them. The block of counts is
; loaded and stored once to clear it, and once for each item.
.object 1 9 1 70 2 3
.bank 1 634
.bank 2 662
.bank 1 4262
.symbol n public scalar 0 0 0 1
.symbol i public scalar 0 0 1 1
.symbol a secret array 1 1 0 64
.symbol counts secret array 2 0 0 16

        li r1 1
        li r8 63
        li r9 15
        li r10 16
        li r11 9
        ldb 0 D r0
        ldb 4 E r1              ; a
        ldw r2 0 r0             ; n
        ldb 6 O2 r0             ; counts
clear:
        .note 00000000 0 - - - 1 - 2 -
        stw r0 6 r4
        add r4 r4 r1
        br lt r4 r10 -> clear
        stb 6
        li r4 0
        jmp -> test
next:                           ; r3, r5 and r6 may be secret
        .note 00000068 0 - - - 1 - 2 -
        and r7 r4 r8
        ldw r5 4 r7             ; the item at i modulo 64
        and r5 r5 r9            ; its place in counts
        shr r3 r5 r11           ; the block of that place
        ldb 6 O2 r3
        ldw r6 6 r5
        add r6 r6 r1
        stw r6 6 r5
        stb 6
        add r4 r4 r1
test:
        .note 00000068 0 - - - 1 - 2 -
        br lt r4 r2 -> next
        stw r4 0 r1
        stb 0
        halt
