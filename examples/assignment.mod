/* Four workers and four jobs: each worker does one job, in the least time altogether. Since the numbers are
   whole, so is the solution that a basis has, though nothing asks for it. */

set WORKERS := 1..4;
set JOBS := 1..4;

/* minutes */
param minutes{w in WORKERS, j in JOBS} := 3 + (5 * w + 7 * j + w * j) mod 11;

var does{WORKERS, JOBS} >= 0;

minimize time: sum{w in WORKERS, j in JOBS} minutes[w,j] * does[w,j];

s.t. one_job{w in WORKERS}: sum{j in JOBS} does[w,j] = 1;
s.t. one_worker{j in JOBS}: sum{w in WORKERS} does[w,j] = 1;

solve;

printf{w in WORKERS, j in JOBS: does[w,j] > 0}: "worker %d does job %d in %g minutes\n", w, j, minutes[w,j];

end;
