#!/usr/bin/env bash
# bench/waiting.sh [RUNS]
# What a line costs that releases, holds or changes a job that waits, with 100, 1,000 and 10,000 of them, and what it costs
# to clear 10,000 jobs in queues of 20 to 10,000. The jobs are submitted held, to queues that no subsystem has, so none
# starts. Each case has as many lines, or clears as many jobs, at each size. The cost is the processor's time of a run with
# these lines less that of a run with the lines before them alone: the least of so many runs of each, nine where nothing is
# said. All cases and sizes are run by turns, so that a slow while of the machine falls on all of them.
set -eu
cd "$(dirname "$0")/.."
. bench/program.sh
runs=${1:-9}
folder=$(mktemp -d)
trap 'rm -rf "$folder"' EXIT

# lines COUNT TEXT: the text so many times, with the number of the line in place of #, in five digits, so that a line is as
# long whatever its number
lines() {
  awk -v count="$1" -v text="$2" 'BEGIN {
    for (n = 1; n <= count; n++) { line = text; gsub(/#/, sprintf("%05d", n), line); print line }
  }'
}

# submits COUNT: a queue, and so many held jobs on it
submits() {
  echo 'CRTJOBQ WAITING'
  lines "$1" 'SBMJOB CMD(CALL PGM(ECHO) PARM(#)) JOB(J#) JOBQ(WAITING) HOLD(*YES)'
}

# queues SIZE: so many queues of so many held jobs that they are 10,000
queues() {
  local many=$((10000 / $1))
  lines "$many" 'CRTJOBQ Q#'
  for ((n = 0; n < $1; n++)); do
    lines "$many" 'SBMJOB CMD(CALL PGM(ECHO) PARM(#)) JOB(J#) JOBQ(Q#) HOLD(*YES)'
  done
}

# rounds COUNT TEXT TEXT: 20,000 lines, each text for all of so many jobs by turns
rounds() {
  for ((n = 0; n < 10000 / $1; n++)); do
    lines "$1" "$2"
    lines "$1" "$3"
  done
}

# add CASE SIZE COUNT BEFORE: a case, with the lines of standard input behind those of a file
add() {
  local script="$folder/script-$1-$2"
  cat "$4" - >"$script"
  printf '%s\t%s\t%s\t%s\t%s\n' "$1" "$2" "$3" "$4" "$script" >>"$folder/cases"
}

for count in 100 1000 10000; do
  before=$folder/jobs-$count
  submits "$count" >"$before"
  rounds "$count" 'RLSJOB 0#/QUSER/J#' 'HLDJOB 0#/QUSER/J#' | add 'a line, in full' "$count" 20000 "$before"
  rounds "$count" 'RLSJOB J#' 'HLDJOB J#' | add 'a line, by name' "$count" 20000 "$before"
  rounds "$count" 'CHGJOB J# JOBPTY(1)' 'CHGJOB J# JOBPTY(5)' | add 'a line, change' "$count" 20000 "$before"
done
for size in 20 100 1000 10000; do
  before=$folder/queues-$size
  queues "$size" >"$before"
  lines $((10000 / size)) 'CLRJOBQ Q#' | add 'a job that is cleared' "$size" 10000 "$before"
done

# A refused line would show another cost.
TIMEFORMAT='%U %S'
for ((run = 0; run < runs; run++)); do
  for file in "$folder"/jobs-* "$folder"/queues-* "$folder"/script-*; do
    used=$({ time "$program" run <"$file" >/dev/null; } 2>&1) || { echo "$file: a line is refused" >&2; exit 1; }
    printf '%s\t%s\n' "$file" "$used" >>"$folder/times"
  done
done

awk -F '\t' '
  NR == FNR { split($2, part, " "); used = part[1] + part[2]; if (!($1 in least) || used < least[$1]) least[$1] = used; next }
  FNR == 1 { printf "%-22s %8s %14s\n", "case", "jobs", "processor us" }
  { printf "%-22s %8d %14.2f\n", $1, $2, 1e6 * (least[$5] - least[$4]) / $3 }
' "$folder/times" "$folder/cases"
