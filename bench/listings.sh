#!/usr/bin/env bash
# What a listing costs with 100, 10,000 and 100,000 jobs that wait, of which 10 are on the queue that is listed, and 10 that are
# active: the processor's time of a run with 20,000 such lines less that of a run without them, divided by their number, each the
# least of five by turns. WRKSBMJOB lists all jobs, so its cost is given for a job.
set -eu
cd "$(dirname "$0")/.."
. bench/program.sh
before=$(mktemp)
script=$(mktemp)
trap 'rm -f "$before" "$script"' EXIT

# submits COUNT: 10 jobs that sleep, and two queues, 10 held jobs on the one and the rest on the other
submits() {
  cat <<'LINES'
CRTPGMREF PGM(NAP) PATH('/bin/sleep')
CRTJOBQ NAPS
CRTSBSD NAPS
ADDJOBQE SBSD(NAPS) JOBQ(NAPS) MAXACT(10)
ADDRTGE SBSD(NAPS) SEQNBR(10) CMPVAL(*ANY) PGM(QSYS/QCMD) CLS(QBATCH)
STRSBS NAPS
LINES
  for ((n = 0; n < 10; n++)); do echo "SBMJOB CMD(CALL PGM(NAP) PARM('600')) JOB(NAP) JOBQ(NAPS)"; done
  printf 'CRTJOBQ SMALL\nCRTJOBQ LARGE\n'
  awk -v count="$1" 'BEGIN {
    for (n = 1; n <= count; n++)
      printf "SBMJOB CMD(CALL PGM(ECHO) PARM(%d)) JOB(J%06d) JOBQ(%s) HOLD(*YES)\n", n, n, n % (count / 10) == 0 ? "SMALL" : "LARGE"
  }'
}

# least: the seconds of a processor that a run of $before and a run of $script take, each the least of five
least() {
  local TIMEFORMAT='%U %S'
  for _ in 1 2 3 4 5; do
    { time "$program" run <"$before" >/dev/null; } 2>&1
    { time "$program" run <"$script" >/dev/null; } 2>&1
  done | awk '{ used = $1 + $2; side = NR % 2; if (NR <= 2 || used < best[side]) best[side] = used }
    END { print best[1], best[0] }'
}

# measure COUNT TEXT LINES FOR: the cost of a line, or for a job of the count
measure() {
  local last='PWRDWNSYS OPTION(*IMMED)'
  { submits "$1"; for ((n = 0; n < $3; n++)); do echo "$2"; done; echo "$last"; } >"$script"
  { submits "$1"; echo "$last"; } >"$before"
  read -r without with < <(least)
  awk -v jobs="$1" -v text="$2" -v lines="$3" -v per="$4" -v without="$without" -v with="$with" 'BEGIN {
    printf "%-28s %8d %12.1f\n", text, jobs, 1e6 * (with - without) / lines / per
  }'
}

printf '%-28s %8s %12s\n' line jobs 'us'
for count in 100 10000 100000; do
  measure "$count" 'DSPJOB JOB(J000077)' 20000 1
  measure "$count" 'WRKJOBQ SMALL' 20000 1
  measure "$count" WRKACTJOB 20000 1
  measure "$count" WRKSBS 20000 1
  measure "$count" WRKSBMJOB 5 "$count"
done
