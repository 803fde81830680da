NAME a cost below 0 and no upper bound: better without end
ROWS
 N cost
COLUMNS
 x cost -1
ENDATA
