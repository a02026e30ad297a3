; Refused as a core beside choose.asm: its period is another one.
.object 2 3 1 70 2 3 7000 700 701
.bank 4 634
.bank 4 662
li r1 0
ldb 0 D r1
halt
