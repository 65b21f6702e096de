#!/usr/bin/env bash
# What a submit costs whose rows are on the disk before it is answered, over a file with 100, 10,000 and 100,000 jobs, beside
# the same transactions by Python's sqlite3, by turns over copies of one file; and what it costs to open a file of so many
# jobs. The jobs are held, so none starts. A submit's time by the clock is that of a run of 2,000 lines less that of a run of
# none, divided by their number: reading, the step and the reply included. Each figure is the least of five.
set -eu
cd "$(dirname "$0")/.."
. bench/program.sh
python=$PWD/bench/transactions.py
# The folder is to be on a disk: in one that is memory a sync costs nothing.
folder=$(mktemp -d "${1:-$PWD}/store.XXXXXX")
trap 'rm -rf "$folder"' EXIT
cd "$folder"
most=2000

# submits COUNT: so many held jobs
submits() {
  awk -v count="$1" 'BEGIN { for (n = 1; n <= count; n++) printf "SBMJOB CMD(CALL PGM(ECHO) PARM(%d)) JOB(A) HOLD(*YES)\n", n }'
}

# fresh: a copy of the file of so many jobs
fresh() {
  rm -f rows.db rows.db-wal rows.db-shm
  cp all.db rows.db
}

# clock SCRIPT: the seconds by the clock of a run of the lines over a fresh copy
clock() {
  local TIMEFORMAT='%R'
  fresh
  { time "$program" run --store rows.db <"$1" >/dev/null; } 2>&1
}

# least A B: the lesser
least() {
  awk -v a="$1" -v b="$2" 'BEGIN { print (a < b) ? a : b }'
}

submits "$most" >lines
: >none
printf '%8s %14s %14s %7s %12s %12s\n' jobs 'submit us' 'Python us' ratio 'opening s' 'opening KiB'
for count in 100 10000 100000; do
  rm -f all.db
  submits "$count" | "$program" run --store all.db >/dev/null
  open=1e9 run=1e9 theirs=1e9
  for _ in 1 2 3 4 5; do
    open=$(least "$open" "$(clock none)")
    run=$(least "$run" "$(clock lines)")
    fresh
    theirs=$(least "$theirs" "$(python3 "$python" rows.db "$most" $((count + 1)))")
  done
  fresh
  /usr/bin/time -o peak -f '%M' "$program" run --store rows.db <none >/dev/null
  awk -v jobs="$count" -v n="$most" -v open="$open" -v run="$run" -v theirs="$theirs" -v peak="$(tail -n 1 peak)" 'BEGIN {
    ours = 1e6 * (run - open) / n
    python = 1e6 * theirs / n
    printf "%8d %14.1f %14.1f %7.2f %12.3f %12d\n", jobs, ours, python, ours / python, open, peak
  }'
done
