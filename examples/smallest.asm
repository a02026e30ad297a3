; One halt, in the smallest memory that an object may have.
.object 1 3 1 70 2 3
.bank 1 634
.bank 1 662
halt
