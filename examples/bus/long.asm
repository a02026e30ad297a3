; Refused as a core beside choose.asm: its transfers may end behind the period.
.object 2 3 1 70 2 3 8000 7500 7501
.bank 4 634
.bank 4 662
li r1 0
ldb 0 D r1
halt
