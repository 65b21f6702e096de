#!/usr/bin/env bash
# What a line that submits a job costs with 100, 1,000, 10,000 and 100,000 of them, and how much memory at the most, without
# what a run of one such line has at the most.
# Held jobs start nothing: their lines' processor time is the program's own, without that of a run of no lines.
# Started jobs run one at a time, each a /bin/echo: of their lines' time by the clock these programs have most.
# A line that is refused stands beside them: it is read, called and answered, and makes no job.
set -eu
cd "$(dirname "$0")/.."
. bench/program.sh
script=$(mktemp)
taken=$(mktemp)
trap 'rm -f "$script" "$taken"' EXIT

# lines COUNT TEXT: the text so many times, with the number of the line in place of #
lines() {
  awk -v count="$1" -v text="$2" 'BEGIN { for (n = 1; n <= count; n++) { line = text; gsub(/#/, n, line); print line } }' >"$script"
}

# seconds TIMES: of so many runs of the script, one after another: of a processor, and by the clock
seconds() {
  local TIMEFORMAT='%U %S %R'
  { time for ((i = 0; i < $1; i++)); do "$program" run <"$script" >/dev/null || true; done; } 2>&1 | awk '{ print $1 + $2, $3 }'
}

# peak: the most KiB that a run of the script has
peak() {
  /usr/bin/time -o "$taken" -f '%M' "$program" run <"$script" >/dev/null || true
  tail -n 1 "$taken"
}

lines 0 ''
# the first runs read the program from the disk
seconds 20 >/dev/null
read -r start _ < <(seconds 20)

# measure CASE COUNT TEXT
measure() {
  local times=1 used clock one
  if [ "$2" -le 1000 ]; then times=20; fi
  lines 1 "$3"
  one=$(peak)
  lines "$2" "$3"
  read -r used clock < <(seconds "$times")
  awk -v name="$1" -v n="$2" -v times="$times" -v used="$used" -v start="$start" -v clock="$clock" -v peak="$(peak)" -v one="$one" 'BEGIN {
    printf "%8s %8d %18.1f %16.1f %10d %12.0f\n", name, n, 1e6 * (used / times - start / 20) / n, 1e6 * clock / times / n, peak, 1024 * (peak - one) / (n - 1)
  }'
}

printf '%8s %8s %18s %16s %10s %12s\n' case lines 'processor us/line' 'clock us/line' 'peak KiB' 'bytes a line'
for count in 100 1000 10000 100000; do
  measure refused "$count" 'CRTCLS QBATCH'
done
for count in 100 1000 10000 100000; do
  measure held "$count" 'SBMJOB CMD(CALL PGM(ECHO) PARM(#)) JOB(A) HOLD(*YES)'
done
for count in 100 1000 10000 100000; do
  measure started "$count" 'SBMJOB CMD(CALL PGM(ECHO) PARM(#)) JOB(A)'
done
