#!/usr/bin/env bash
# What a step costs whose rows are kept, with 100, 10,000 and 100,000 jobs, and what it costs to open with so many rows of
# jobs: the processor's time of the tests' program with other cases. The jobs are held, so none starts. Of each size there
# are four runs: one that makes the keeper alone, one that opens too, one with 200,000 lines behind that, each of which
# releases or holds one of the jobs, and one with 400,000 lines more. Each figure is the difference of a run and the one
# before it: of the opening, of the first steps, which also pay for the memory that the opening gave back, as the C library
# joins it when it is used again, and of the steps behind these. Of each run it is the least of five, all of them by turns.
# The keeper is the one in memory, whose own part doesn't grow with the rows. TESTED names another such program to measure.
set -eu
cd "$(dirname "$0")/.."
program=$(realpath "${TESTED:-crates/wm_test_history/out/wm_test_history}")
if [ ! -x "$program" ]; then
  (cd crates/wm_test_history && rt run >/dev/null)
fi
folder=$(mktemp -d)
taken=$(mktemp)
trap 'rm -rf "$folder" "$taken"' EXIT
cd "$folder"
sizes=(100 10000 100000)
runs=(rows opened first next)

# rows COUNT: the questions that make a keeper of the opening objects and so many held jobs
rows() {
  cat <<'ROWS'
== Held jobs
> row 1|QGPL/QBATCH|CRTCLS CLS(QGPL/QBATCH) RUNPTY(50) TIMESLICE(2000) DFTWAIT(30)
> row 2|QGPL/ECHO|CRTPGMREF PGM(QGPL/ECHO) PATH('/bin/echo')
> row 3|QGPL/QBATCH|CRTJOBQ JOBQ(QGPL/QBATCH)
> row 5|QGPL/QBATCH|CRTSBSD SBSD(QGPL/QBATCH) MAXJOBS(*NOMAX)
ROWS
  awk -v count="$1" -v q="'" 'BEGIN {
    for (n = 1; n <= count; n++) {
      printf "> row 11|%020d|JOB SERIAL(%d) NUMBER(%d) USER(QUSER) NAME(J%06d) TYPE(BCH) JOBQ(QGPL/QBATCH) JOBPTY(5) PLACE(%d) ", n, n, n, n, n
      printf "RTGDTA(%sQCMDB%s) RQSDTA(%sCALL PGM(QGPL/ECHO)%s) HOLD(*YES) DUE(1000) PHASE(WAITING)\n", q, q, q, q
    }
    printf "> row 12|NUMBER|%d\n> row 12|PLACE|%d\n> row 12|SCHEMA|1\n> row 12|SERIAL|%d\n> keeper\n", n, n, n
  }'
}

# lines COUNT FROM TO: the lines of these numbers with their answers, which release and hold so many jobs by turns
lines() {
  awk -v count="$1" -v from="$2" -v to="$3" 'BEGIN {
    for (at = from; at <= to; at++) {
      round = int((at - 1) / count)
      n = (at - 1) % count + 1
      job = sprintf("%06d/QUSER/J%06d", n, n)
      if (round % 2 == 0) printf "> RLSJOB %s\n%d OK %s released\n", job, at, job
      else printf "> HLDJOB %s\n%d OK %s held\n", job, at, job
    }
  }'
}

# run FOLDER: the program with these cases, each of which must have its wanted answer
run() {
  (cd "$1" && "$program") >"$taken"
  if ! grep -q '^stored.txt: [0-9]* answers$' "$taken"; then
    head -n 20 "$taken" >&2
    exit 1
  fi
}

# cases SIZE: the four runs of that many jobs, each in a folder of its own
cases() {
  local name
  for name in "${runs[@]}"; do
    mkdir -p "$1/$name"
    # The other files of cases have none here.
    touch "$1/$name"/{jobs,log,queues,subsystems,monitors}.txt
  done
  rows "$1" >"$1/rows/stored.txt"
  printf '> open\nOPEN\n' | cat "$1/rows/stored.txt" - >"$1/opened/stored.txt"
  lines "$1" 1 200000 | cat "$1/opened/stored.txt" - >"$1/first/stored.txt"
  lines "$1" 200001 600000 | cat "$1/first/stored.txt" - >"$1/next/stored.txt"
}

# times: of each run the seconds of a processor, five times by turns
times() {
  local TIMEFORMAT='%U %S' size name
  for _ in 1 2 3 4 5; do
    for size in "${sizes[@]}"; do
      for name in "${runs[@]}"; do
        printf '%s %s ' "$size" "$name"
        { time run "$size/$name"; } 2>&1
      done
    done
  done
}

# peak FOLDER: the most KiB that a run with these cases has
peak() {
  (cd "$1" && /usr/bin/time -o "$taken" -f '%M' "$program" >/dev/null)
  tail -n 1 "$taken"
}

for size in "${sizes[@]}"; do
  cases "$size"
done
times >times.txt
printf '%8s %16s %16s %14s %13s %13s\n' jobs 'opening us/job' 'opening seconds' 'opening KiB' 'first us/step' 'next us/step'
for size in "${sizes[@]}"; do
  kib=$(($(peak "$size/opened") - $(peak "$size/rows")))
  awk -v size="$size" -v kib="$kib" '$1 == size { used = $3 + $4; if (!($2 in least) || used < least[$2]) least[$2] = used }
    END {
      opening = least["opened"] - least["rows"]
      printf "%8d %16.2f %16.2f %14d", size, 1e6 * opening / size, opening, kib
      printf " %13.2f %13.2f\n", 1e6 * (least["first"] - least["opened"]) / 200000, 1e6 * (least["next"] - least["first"]) / 400000
    }' times.txt
done
