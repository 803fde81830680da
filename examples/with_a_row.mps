NAME a row: twice x is at least 3, so the least x is 3/2
ROWS
 N cost
 G least
COLUMNS
 x cost 1 least 2
RHS
 r least 3
ENDATA
