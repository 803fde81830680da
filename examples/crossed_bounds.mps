NAME a lower bound above the upper one: no point is feasible
ROWS
 N cost
COLUMNS
 x cost 1
BOUNDS
 LO b x 3
 UP b x 2
ENDATA
