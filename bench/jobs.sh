#!/usr/bin/env bash
# How many jobs a second run, each a /bin/true: jobs.sh JOBS ROUNDS takes so many jobs through a subsystem with MAXJOBS(1)
# and with MAXJOBS(8), in memory and over a file, beside a loop of posix_spawn and xargs at the same width. Each round runs
# all of them by turns, and the best of the rounds counts, the reading of the lines and the end of the run included. A share
# is of posix_spawn at the same width.
set -eu
cd "$(dirname "$0")/.."
jobs=${1:-2000}
rounds=${2:-5}
. bench/program.sh
folder=$(mktemp -d)
trap 'rm -rf "$folder"' EXIT
cd "$folder"

# The floor: so many children, with so many at once.
cat >spawn.py <<'PYTHON'
import os
import sys

left, width, out = int(sys.argv[1]), int(sys.argv[2]), 0
while left or out:
    if left and out < width:
        os.posix_spawn("/bin/true", ["/bin/true"], {})
        left, out = left - 1, out + 1
    else:
        os.wait()
        out -= 1
PYTHON

# submits WIDTH: a subsystem that runs so many jobs at once, and the jobs
submits() {
  cat <<CL
CRTPGMREF PGM(TRUE) PATH('/bin/true')
CRTJOBQ WORK
CRTSBSD WORK MAXJOBS($1)
ADDJOBQE SBSD(WORK) JOBQ(WORK) MAXACT(*NOMAX)
ADDRTGE SBSD(WORK) SEQNBR(9999) CMPVAL(*ANY) PGM(QSYS/QCMD) CLS(QBATCH)
STRSBS WORK
CL
  for ((n = 1; n <= jobs; n++)); do
    echo "SBMJOB CMD(CALL PGM(TRUE)) JOB(A) JOBQ(WORK)"
  done
}

# The ways, each with its width.
spawned() { python3 -S -E spawn.py "$jobs" "$1"; }
with_xargs() { seq "$jobs" | xargs -P"$1" -n1 /bin/true; }
in_memory() { "$program" run <"script$1" >answers; }
over_a_file() {
  rm -f rows.db*
  "$program" run --store rows.db <"script$1" >answers
}

# best WAY WIDTH: takes the way once, and keeps the least time that it took in any round
best() {
  local begun took
  begun=$(date +%s%N)
  "$1" "$2"
  took=$(($(date +%s%N) - begun))
  if [ -z "${least[$1.$2]:-}" ] || [ "$took" -lt "${least[$1.$2]}" ]; then least[$1.$2]=$took; fi
}

ways='spawned with_xargs in_memory over_a_file'
declare -A least
for width in 1 8; do submits "$width" >"script$width"; done
for ((round = 1; round <= rounds; round++)); do
  for width in 1 8; do
    for way in $ways; do best "$way" "$width"; done
  done
done

printf '%-12s %7s %10s %7s\n' way 'at once' 'jobs/s' share
for width in 1 8; do
  for way in $ways; do
    awk -v way="${way//_/ }" -v width="$width" -v jobs="$jobs" -v took="${least[$way.$width]}" -v floor="${least[spawned.$width]}" 'BEGIN {
      printf "%-12s %7d %10.0f %7.2f\n", way, width, 1e9 * jobs / took, floor / took
    }'
  done
done
