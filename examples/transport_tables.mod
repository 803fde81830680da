/* Goods from plants to markets, at the least cost: plants.csv, markets.csv and distances.csv are read, and shipments.csv is written. */

set PLANTS;
set MARKETS;
set ROADS, within PLANTS cross MARKETS;

/* cases */
param supply{PLANTS}, >= 0;
param demand{MARKETS}, >= 0;

/* kilometres */
param distance{ROADS}, > 0;

/* a case costs 9 cents for each kilometre */
param freight := 9/100;

table plants IN "CSV" "plants.csv": PLANTS <- [plant], supply ~ cases;
table markets IN "CSV" "markets.csv": MARKETS <- [market], demand ~ cases;
table distances IN "CSV" "distances.csv": ROADS <- [plant, market], distance ~ kilometres;

check: sum{p in PLANTS} supply[p] >= sum{m in MARKETS} demand[m];

var shipped{ROADS} >= 0;

minimize cost: sum{(p,m) in ROADS} freight * distance[p,m] * shipped[p,m];

s.t. within_supply{p in PLANTS}: sum{(p,m) in ROADS} shipped[p,m] <= supply[p];
s.t. meets_demand{m in MARKETS}: sum{(p,m) in ROADS} shipped[p,m] >= demand[m];

solve;

table shipments{(p,m) in ROADS: shipped[p,m] > 0} OUT "CSV" "shipments.csv":
   p ~ plant, m ~ market, shipped[p,m] ~ cases, freight * distance[p,m] * shipped[p,m] ~ cost;

end;
