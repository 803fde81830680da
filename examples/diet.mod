/* The cheapest food with enough energy, protein and calcium. */

set FOODS;

/* cents, kilocalories, grams and milligrams a serving */
param price{FOODS}, >= 0;
param energy{FOODS}, >= 0;
param protein{FOODS}, >= 0;
param calcium{FOODS}, >= 0;

/* servings a day */
param most{FOODS}, integer, default 2;

var servings{f in FOODS} >= 0, <= most[f];

minimize cost: sum{f in FOODS} price[f] * servings[f];

s.t. enough_energy: sum{f in FOODS} energy[f] * servings[f] >= 2000;
s.t. enough_protein: sum{f in FOODS} protein[f] * servings[f] >= 55;
s.t. enough_calcium: sum{f in FOODS} calcium[f] * servings[f] >= 800;

solve;

printf "A day's food for %.1f cents:\n", cost;
printf{f in FOODS: servings[f] > 0}: "%-8s %5.2f servings\n", f, servings[f];

data;

param : FOODS :   price  energy  protein  calcium  most :=
   oats              3     110       4        2      4
   chicken          24     205      32       12      3
   eggs             13     160      13       54      .
   milk              9     160       8      285      8
   pie              20     420       4       22      .
   pork             19     260      14       80      . ;

end;
