#!/usr/bin/env bash
# bench/prestart.sh [RUNS]
# What an EVOKE and its ENDUSE cost with 3 and with 900 jobs in the prestart entry, and with 3 jobs and 100,000 others in the
# list that have ended; and what a refused line costs in each of these. The aim is that each is within a fifth of the cheapest.
# A run's input is held open. The cost is the processor's time of the run's main thread, which reads the lines, takes the steps and
# writes the answers, between the answers to two lines: so neither the workers nor the threads that wait for them are in it. It is
# the least of so many runs, three where nothing is said. Jobs that have ended are held ones that were cleared with their queue.
# A worker is examples/tour/worker, which waits for ten minutes; an accepted PWRDWNSYS ends them all.
set -eu
cd "$(dirname "$0")/.."
. bench/program.sh
runs=${1:-3}
pairs=5000
folder=$(mktemp -d)
run=
trap '[ -z "$run" ] || kill "$run" 2>/dev/null || true; rm -rf "$folder"' EXIT
mkfifo "$folder/lines"

# lines COUNT LINE..: the lines so many times
lines() {
  local count=$1 n
  shift
  for ((n = 0; n < count; n++)); do printf '%s\n' "$@"; done
}

# answered COUNT: waits until so many lines are written
answered() {
  local look
  for ((look = 0; look < 6000; look++)); do
    [ "$(wc -l <"$folder/answers")" -ge "$1" ] && return
    kill -0 "$run" 2>/dev/null || break
    sleep 0.05
  done
  echo "$1 lines aren't answered: $(tail -n 1 "$folder/answers")" >&2
  exit 1
}

# give COUNT: the lines of standard input, of which so many are written as answers
given=0
give() {
  cat >&3
  given=$((given + $1))
  answered "$given"
}

# used: the processor's time of the run's main thread, in nanoseconds
used() { cut -d ' ' -f 1 "/proc/$run/task/$run/schedstat"; }

# begin JOBS ENDED: a run with so many workers that wait for requests, and so many jobs that have ended
begin() {
  : >"$folder/answers"
  given=0
  "$program" run <"$folder/lines" >"$folder/answers" &
  run=$!
  exec 3>"$folder/lines"
  give 1 <<<'CRTJOBQ OTHERS'
  if [ "$2" -gt 0 ]; then
    give "$2" < <(lines "$2" 'SBMJOB CMD(CALL PGM(ECHO)) JOB(OTHER) JOBQ(OTHERS) HOLD(*YES)')
  fi
  give 5 <<END
CLRJOBQ OTHERS
CRTPGMREF PGM(WORKER) PATH('$PWD/examples/tour/worker')
CRTSBSD POOL
ADDPJE SBSD(POOL) PGM(WORKER) INLJOBS($1) THRESHOLD(1) ADLJOBS(0) MAXJOBS($1) MAXUSE(*NOMAX) CLS(QBATCH)
STRSBS POOL
END
  if grep -q '^[CN]' "$folder/answers"; then
    echo "a line is refused: $(grep '^[CN]' "$folder/answers" | head -n 1)" >&2
    exit 1
  fi
  # A turn starts 256 programs at the most.
  give $(($1 / 256 + 1)) < <(lines $(($1 / 256 + 1)) 'CLRJOBQ OTHERS')
  give $(($1 + 4)) <<<WRKACTJOB
  if [ "$(tail -n $(($1 + 4)) "$folder/answers" | grep -c ' PJ   PSRW$')" -ne "$1" ]; then
    echo "$1 workers don't wait for requests" >&2
    exit 1
  fi
}

# measure CASE JOBS ENDED COUNT LINE..: what a line costs
measure() {
  local name=$1 jobs=$2 ended=$3 count=$4 before
  shift 4
  lines "$count" "$@" >"$folder/script"
  before=$(used)
  give $((count * $#)) <"$folder/script"
  printf '%s\t%s\t%s\t%s\n' "$name" "$jobs" "$ended" $((($(used) - before) / (count * $#))) >>"$folder/costs"
}

# end: all workers are killed, and the run is over
end() {
  give 1 <<<'PWRDWNSYS OPTION(*IMMED)'
  exec 3>&-
  wait "$run" || [ $? -eq 1 ]
  run=
}

for ((round = 0; round < runs; round++)); do
  for sizes in '3 0' '900 0' '3 100000'; do
    read -r jobs ended <<<"$sizes"
    begin "$jobs" "$ended"
    first=$(printf '%06d' $((ended + 1)))
    measure 'an EVOKE or ENDUSE' "$jobs" "$ended" "$pairs" 'EVOKE SBS(POOL) PGM(WORKER)' "ENDUSE JOB($first/QUSER/WORKER)"
    if [ "$(tail -n $((2 * pairs)) "$folder/answers" | grep -c '^OK')" -ne $((2 * pairs)) ]; then
      echo "a line is refused: $(tail -n $((2 * pairs)) "$folder/answers" | grep -v '^OK' | head -n 1)" >&2
      exit 1
    fi
    measure 'a refused line' "$jobs" "$ended" "$pairs" 'CRTJOBQ OTHERS'
    end
  done
done

awk -F '\t' '
  { key = $1 FS $2 FS $3 }
  !(key in least) { order[++cases] = key; least[key] = $4 }
  $4 < least[key] { least[key] = $4 }
  { if (!($1 in cheapest) || $4 < cheapest[$1]) cheapest[$1] = $4 }
  END {
    printf "%-20s %8s %8s %14s %22s\n", "case", "jobs", "ended", "processor us", "times the cheapest"
    for (at = 1; at <= cases; at++) {
      split(order[at], part, FS)
      printf "%-20s %8d %8d %14.2f %22.2f\n", part[1], part[2], part[3], least[order[at]] / 1000, least[order[at]] / cheapest[part[1]]
    }
    print "The aim is 1.20 at the most for an EVOKE or ENDUSE."
  }' "$folder/costs"
