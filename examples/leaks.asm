; Copies a word of encrypted memory to plain memory, where it would be seen: refused at place 4.
.object 1 3 1 70 2 3
.bank 4 634
.bank 4 662
li r1 0
ldb 1 E r1
ldw r2 1 r1
ldb 0 D r1
stw r2 0 r1
halt
