NAME what is bought costs, what is sold (a negative cost) earns: each at its best bound
ROWS
 N cost
COLUMNS
 flour cost 40
 sugar cost 95
 bread cost -130
 cake cost -310
 store cost 0
BOUNDS
 LO demand flour 12
 LO demand sugar 3
 UP demand bread 20
 LO demand bread 5
 UP demand cake 4
 UP demand store 100
ENDATA
