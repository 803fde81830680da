/* A bag for a walk: the most worth within the weight that it holds. Each thing is taken whole or left; who takes
   them by worth for weight, as long as they fit, gets 254, and the best is 265. */

set THINGS;

/* grams, and points */
param weight{THINGS}, > 0;
param worth{THINGS}, >= 0;

/* grams */
param most := 9000;

var taken{THINGS}, binary;

maximize total: sum{t in THINGS} worth[t] * taken[t];

s.t. fits: sum{t in THINGS} weight[t] * taken[t] <= most;

solve;

printf "%g points in %g grams:", total, fits;
printf{t in THINGS: taken[t] = 1}: " %s", t;
printf "\n";

data;

param : THINGS :  weight  worth :=
   tent             3200     90
   stove            1100     32
   food             2500     75
   water            2000     60
   camera            900     22
   book              600     12
   coat             1300     40
   rope             1700     41
   lamp              400     13 ;

end;
