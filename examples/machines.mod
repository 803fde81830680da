/* Eight jobs for three machines: each job is done by one machine, whole, and no machine works longer than its day.
   Where the jobs may be parted (`--nomip`), the cost is less. */

set JOBS;
set MACHINES;

/* hours */
param hours{JOBS, MACHINES}, > 0;
param day{MACHINES}, >= 0;

/* the cost of the job on that machine */
param cost{JOBS, MACHINES}, >= 0;

var does{JOBS, MACHINES}, binary;

minimize total: sum{j in JOBS, m in MACHINES} cost[j,m] * does[j,m];

s.t. done{j in JOBS}: sum{m in MACHINES} does[j,m] = 1;
s.t. within_day{m in MACHINES}: sum{j in JOBS} hours[j,m] * does[j,m] <= day[m];

solve;

for{m in MACHINES} {
   printf "%-6s %2g hours:", m, within_day[m];
   printf{j in JOBS: does[j,m] > 0}: " %s", j;
   printf "\n";
}

data;

set JOBS := axle bolts cover dial edge frame gear hinge;
set MACHINES := lathe mill press;

param day :=
   lathe   9
   mill    8
   press  10 ;

param hours :  lathe  mill  press :=
   axle            4     3      5
   bolts           2     3      3
   cover           5     4      3
   dial            3     3      4
   edge            2     4      2
   frame           4     3      6
   gear            3     2      4
   hinge           3     4      2 ;

param cost :   lathe  mill  press :=
   axle           20    27     16
   bolts          11    14     12
   cover          25    21     24
   dial           14    12     13
   edge            9     7     11
   frame          22    26     17
   gear           15    19     12
   hinge          10    13     14 ;

end;
