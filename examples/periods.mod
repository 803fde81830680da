/* A plan of production over six months: what is made beyond the demand is stored, at a cost. */

param months := 6;
set MONTHS := 1..months;

param demand{t in MONTHS} := 100 + 20 * (t mod 3) + 10 * t;
param making_cost{t in MONTHS} := 7 + (t mod 2) / 2;
param storing_cost := 3/10;
param capacity := 160;

var made{MONTHS} >= 0, <= capacity;
var stored{0..months} >= 0;

minimize cost: sum{t in MONTHS} (making_cost[t] * made[t] + storing_cost * stored[t]);

s.t. nothing_at_first: stored[0] = 0;
s.t. balance{t in MONTHS}: stored[t-1] + made[t] = demand[t] + stored[t];

solve;

printf "month  made  stored\n";
printf{t in MONTHS}: "%5d %5g %7g\n", t, made[t], stored[t];

end;
