; The greatest of eight secret words. The branch in the loop is on secrets: both ways take the same cycles.
.object 1 3 1 70 2 3
.bank 1 634
.bank 2 662
.symbol best secret scalar 1 0 0 1
.symbol a secret array 1 1 0 8

        li r1 1
        li r2 8
        ldb 0 E r0
        ldb 1 E r1              ; a
        ldw r3 1 r0             ; the greatest so far
        li r4 1                 ; the place
next:                           ; r3 and r5 may be secret, and the slots 0 and 1 hold encrypted memory
        .note 00000028 1 1 - - - - - -
        br ge r4 r2 -> done
        ldw r5 1 r4
        br gt r5 r3 -> greater
        nop
        nop
        add r3 r3 r0
        jmp -> behind
greater:
        add r3 r5 r0
        nop
        nop
        nop
behind:
        add r4 r4 r1
        jmp -> next
done:
        .note 00000028 1 1 - - - - - -
        stw r3 0 r0
        stb 0
        halt
