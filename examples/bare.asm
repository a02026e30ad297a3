; The loop of sum.asm, written without notes: the check refuses it, since it knows nothing where the jumps arrive.
; `infer` writes the object with the notes that it needs.
.object 1 3 1 70 2 3
.bank 1 634
.bank 5 662
.symbol n public scalar 0 0 0 1
.symbol s secret scalar 1 0 0 1
.symbol a secret array 1 1 0 32

        li r2 1
        li r3 8
        ldb 2 D r0
        ldw r4 2 r0             ; n
        ldb 0 E r0              ; the block of s stays in slot 0
next:
        br ge r1 r4 -> done
        div r7 r1 r3
        add r7 r7 r2            ; the block of a[r1]
        ldb 1 E r7
        ldw r5 1 r1             ; its word: r1 modulo 8
        ldw r6 0 r0
        add r6 r6 r5
        stw r6 0 r0
        add r1 r1 r2
        jmp -> next
done:
        stb 0
        halt
