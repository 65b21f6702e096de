#!/usr/bin/env bash
# What a disk that fails leaves of a store: disk.sh EACH makes runs over a new file, and over one that an earlier run has left, in
# each of which one call of the system on the file or its log fails, or all from that one on, or the run is killed at it. Each
# such call of the two runs is tried in these three ways; EACH takes every EACH-th of these tries alone. After each a run over
# what was left. `lost` counts the answered commands that this later run doesn't know, `twice` the jobs that ran more than once,
# `unopened` the runs that didn't open the file, and `misnamed` those whose status was none of 5, 0 with all lines answered, and
# that of a kill. It ends with status 0 where all of these are 0. It needs strace.
set -eu
cd "$(dirname "$0")/.."
each=${1:-1}
. bench/program.sh
folder=$(mktemp -d)
trap 'rm -rf "$folder"' EXIT
cd "$folder"

# The program that each job runs: it writes its parameter behind what the others wrote.
cat >note <<'NOTE'
#!/bin/sh
echo "$1" >>"${0%/*}/ran"
NOTE
chmod +x note
touch ran
calls=(pwrite64 fdatasync fsync ftruncate pread64)
ways=(once on kill)

# lines ROUND: six commands, of which one takes a row away and two start a job.
lines() {
  printf '%s\n' 'CRTJOBQ B' "SBMJOB CMD(CALL PGM(NOTE) PARM('$1.1')) JOB(A)" 'HLDJOBQ B' \
    "SBMJOB CMD(CALL PGM(NOTE) PARM('$1.2')) JOB(A)" 'RLSJOBQ B' 'CRTJOBQ C'
}

# store KIND: the file that a run of this kind finds, and the script that makes its program known.
store() {
  rm -f rows.db rows.db-wal
  : >script
  case $1 in
    new) echo "CRTPGMREF PGM(NOTE) PATH('$folder/note')" >script ;;
    old) cp begun.db rows.db; cp begun.db-wal rows.db-wal ;;
  esac
}

# traced WORD..: a run of the script over the file, whose calls on the file and the log strace goes through. The shell would tell
# of a kill.
traced() {
  (timeout 30 strace -f -qq -o trace -P "$folder/rows.db" -P "$folder/rows.db-wal" "$@" \
    "$program" run --store "$folder/rows.db" <script >answers
    exit $?) 2>/dev/null
}

# try KIND CALL WAY AT ROUND: a run that fails so, and the run behind it.
try() {
  local status=0 fault
  store "$1"
  lines "$5" >>script
  case $3 in
    once) fault=error=EIO:when=$4 ;;
    on) fault=error=EIO:when=$4+ ;;
    kill) fault=signal=KILL:when=$4 ;;
  esac
  traced -e trace="$2" -e inject="$2:$fault" || status=$?
  # How many calls a run makes differs by one or two, as its jobs end earlier or later.
  if ! grep -q 'INJECTED\|killed by SIGKILL' trace; then return 0; fi
  tried=$((tried + 1))
  case $3.$status in
    once.5 | on.5 | kill.137) ;;
    once.0 | on.0) if [ "$(wc -l <answers)" -ne "$(wc -l <script)" ]; then misnamed=$((misnamed + 1)); fi ;;
    *) misnamed=$((misnamed + 1)) ;;
  esac
  # Whoever makes again what is there is told that it exists, and RLSJOB changes nothing of a job that isn't held.
  sed -n -e 's/^OK CRTJOBQ QGPL/CRTJOBQ QGPL/p' -e "s|^OK CRTPGMREF .*|CRTPGMREF PGM(NOTE) PATH('/x')|p" \
    -e 's/^OK \([0-9]*\/QUSER\/A\) submitted .*/RLSJOB JOB(\1)/p' answers >asked
  status=0
  timeout 60 "$program" run --store "$folder/rows.db" <asked >known || status=$?
  if [ "$status" -gt 1 ]; then unopened=$((unopened + 1)); fi
  lost=$((lost + $(wc -l <asked) - $(grep -c 'EXISTS\|NOTHELD\|WRONGPHASE' known || true)))
}

store new
echo 'CRTJOBQ A' >>script
timeout 60 "$program" run --store begun.db <script >answers
lost=0
unopened=0
misnamed=0
tried=0
at=0
for kind in new old; do
  store "$kind"
  lines "$kind" >>script
  traced -e trace="$(IFS=,; echo "${calls[*]}")"
  cp trace whole
  for call in "${calls[@]}"; do
    count=$(grep -c "^[0-9]* *$call(" whole || true)
    for ((number = 1; number <= count; number++)); do
      for way in "${ways[@]}"; do
        at=$((at + 1))
        if [ $((at % each)) -eq 0 ]; then try "$kind" "$call" "$way" "$number" "$at"; fi
      done
    done
  done
done
# What the last killed run started may still be writing.
sleep 1
twice=$(sort ran | uniq -d | wc -l)
echo "tries $tried of $at lost $lost twice $twice unopened $unopened misnamed $misnamed (jobs that ran $(sort -u ran | wc -l))"
[ "$lost" -eq 0 ] && [ "$twice" -eq 0 ] && [ "$unopened" -eq 0 ] && [ "$misnamed" -eq 0 ]
