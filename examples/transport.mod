/* Goods from two plants to three markets, at the least cost. */

set PLANTS;
set MARKETS;

/* cases */
param supply{PLANTS}, >= 0;
param demand{MARKETS}, >= 0;

/* kilometres */
param distance{PLANTS, MARKETS}, > 0;

/* a case costs 9 cents for each kilometre */
param freight := 9/100;

check: sum{p in PLANTS} supply[p] >= sum{m in MARKETS} demand[m];

var shipped{PLANTS, MARKETS} >= 0;

minimize cost: sum{p in PLANTS, m in MARKETS} freight * distance[p,m] * shipped[p,m];

s.t. within_supply{p in PLANTS}: sum{m in MARKETS} shipped[p,m] <= supply[p];
s.t. meets_demand{m in MARKETS}: sum{p in PLANTS} shipped[p,m] >= demand[m];

solve;

printf "The cost is %.2f.\n", cost;
printf{p in PLANTS, m in MARKETS: shipped[p,m] > 0}: "%5s to %-5s %5g cases\n", p, m, shipped[p,m];

data;

set PLANTS := north south;
set MARKETS := coast hills town;

param supply :=
   north  350
   south  600;

param demand :=
   coast  325
   hills  300
   town   275;

param distance :  coast  hills  town :=
   north           250    170   180
   south           250    180   140;

end;
