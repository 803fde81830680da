/* The cheapest food with enough energy, protein and calcium: foods are read from foods.csv, and the plan is written to menu.csv. */

set FOODS;

/* cents, kilocalories, grams and milligrams a serving */
param price{FOODS}, >= 0;
param energy{FOODS}, >= 0;
param protein{FOODS}, >= 0;
param calcium{FOODS}, >= 0;

/* servings a day */
param most{FOODS}, integer, >= 0;

table foods IN "CSV" "foods.csv":
   FOODS <- [food], price, energy ~ kilocalories, protein, calcium, most ~ servings;

var servings{f in FOODS} >= 0, <= most[f];

minimize cost: sum{f in FOODS} price[f] * servings[f];

s.t. enough_energy: sum{f in FOODS} energy[f] * servings[f] >= 2000;
s.t. enough_protein: sum{f in FOODS} protein[f] * servings[f] >= 55;
s.t. enough_calcium: sum{f in FOODS} calcium[f] * servings[f] >= 800;

solve;

printf "A day's food for %.1f cents.\n", cost;

table menu{f in FOODS: servings[f] > 0} OUT "CSV" "menu.csv":
   f ~ food, servings[f] ~ servings, price[f] * servings[f] ~ cents;

end;
