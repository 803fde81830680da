NAME one column between 2 and 5: the least cost is at its lower bound
ROWS
 N cost
COLUMNS
 x cost 1
BOUNDS
 LO b x 2
 UP b x 5
ENDATA
