NAME a diet: the cheapest food with enough energy, protein and calcium
ROWS
 N cost
 G energy
 G protein
 G calcium
COLUMNS
 oats cost 3 energy 110
 oats protein 4 calcium 2
 chicken cost 24 energy 205
 chicken protein 32 calcium 12
 eggs cost 13 energy 160
 eggs protein 13 calcium 54
 milk cost 9 energy 160
 milk protein 8 calcium 285
 pie cost 20 energy 420
 pie protein 4 calcium 22
 pork cost 19 energy 260
 pork protein 14 calcium 80
RHS
 R energy 2000 protein 55
 R calcium 800
BOUNDS
 UP b oats 4
 UP b chicken 3
 UP b eggs 2
 UP b milk 8
 UP b pie 2
 UP b pork 2
ENDATA
