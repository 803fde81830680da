/* A school's day: seven lessons in two rooms, so that lessons which share a class or a teacher are not at the same
   hour, and the day ends as early as it can. `last` is a number that is integer, the others are 0 or 1. */

set LESSONS;
set CLASHES, within {LESSONS, LESSONS};

param rooms := 2;
param hours := 6;

set HOURS := 1..hours;

var is_at{LESSONS, HOURS}, binary;
var last, integer, >= 0, <= hours;

minimize day: last;

s.t. once{l in LESSONS}: sum{h in HOURS} is_at[l,h] = 1;
s.t. in_rooms{h in HOURS}: sum{l in LESSONS} is_at[l,h] <= rooms;
s.t. apart{(k,l) in CLASHES, h in HOURS}: is_at[k,h] + is_at[l,h] <= 1;
s.t. ends{l in LESSONS}: sum{h in HOURS} h * is_at[l,h] <= last;

solve;

for{h in HOURS: h <= last} {
   printf "hour %d:", h;
   printf{l in LESSONS: is_at[l,h] = 1}: " %s", l;
   printf "\n";
}

data;

set LESSONS := algebra biology chemistry drawing english french geometry;

set CLASHES :=
   (algebra, biology)
   (algebra, chemistry)
   (algebra, geometry)
   (algebra, french)
   (biology, chemistry)
   (biology, geometry)
   (chemistry, geometry)
   (drawing, english)
   (english, french)
   (geometry, french) ;

end;
