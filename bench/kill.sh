#!/usr/bin/env bash
# What a kill leaves of a store: kill.sh KILLS makes so many runs over one file, each killed by SIGKILL at a random moment
# while it takes 40 submits, and after each a run over what was left. Each job writes a number of its own into a file.
# `lost` counts the answered submits that a later run doesn't know, `twice` the jobs that ran more than once, `unopened` the
# runs that didn't open the file within ten seconds, `held` those that found it held at first, by a child of the killed run that
# had yet to become its program, and `unanswered` the kills that came before the first answer. It ends with status 0 where
# nothing was lost, nothing ran twice and each run opened the file.
set -eu
cd "$(dirname "$0")/.."
kills=${1:-200}
. bench/program.sh
folder=$(mktemp -d)
trap 'rm -rf "$folder"' EXIT
cd "$folder"

# The program that each job runs: it writes its parameter behind what the others wrote.
cat >note <<'NOTE'
#!/bin/sh
echo "$1" >>"${0%/*}/ran"
NOTE
chmod +x note
touch ran

# submits ROUND: the program's reference, and 40 submits of it
submits() {
  echo "CRTPGMREF PGM(NOTE) PATH('$folder/note')"
  for ((n = 1; n <= 40; n++)); do
    echo "SBMJOB CMD(CALL PGM(NOTE) PARM('$1.$n')) JOB(A)"
  done
}

# now: the clock in milliseconds
now() {
  date +%s%3N
}

# measure NAME: how long a whole run takes, which is what a kill may come in; its jobs ran, and count as the others do. A store
# with more jobs takes longer to open, so this is measured anew.
measure() {
  submits "$1" >script
  local begun status=0
  begun=$(now)
  timeout 60 "$program" run --store rows.db <script >answers || status=$?
  whole=$(($(now) - begun))
  # The program's reference is there from the second time on, which is refused.
  if [ "$status" -gt 1 ]; then
    echo "a run that isn't killed ended with status $status"
    exit 1
  fi
}

lost=0
unopened=0
held=0
unanswered=0
for ((round = 1; round <= kills; round++)); do
  if [ $((round % 50)) -eq 1 ]; then measure "whole$round"; fi
  submits "$round" >script
  "$program" run --store rows.db <script >answers &
  run=$!
  wait_ms=$((RANDOM % (whole + 1)))
  sleep "$((wait_ms / 1000)).$(printf %03d $((wait_ms % 1000)))"
  kill -KILL "$run" 2>/dev/null || true
  wait "$run" 2>/dev/null || true
  # RLSJOB changes nothing of a job that isn't held: one that the store has is answered NOTHELD or WRONGPHASE.
  sed -n 's/^OK \([0-9]*\/QUSER\/A\) submitted .*/RLSJOB JOB(\1)/p' answers >asked
  if [ ! -s asked ]; then unanswered=$((unanswered + 1)); fi
  for ((look = 0; look < 100; look++)); do
    status=0
    timeout 60 "$program" run --store rows.db <asked >known || status=$?
    [ "$status" -eq 5 ] || break
    sleep 0.1
  done
  if [ "$look" -gt 0 ]; then held=$((held + 1)); fi
  if [ "$status" -gt 1 ]; then unopened=$((unopened + 1)); fi
  lost=$((lost + $(wc -l <asked) - $(grep -c 'NOTHELD\|WRONGPHASE' known || true)))
done
# What the last killed run started may still be writing.
sleep 1
twice=$(sort ran | uniq -d | wc -l)
if command -v sqlite3 >/dev/null; then
  echo "PRAGMA integrity_check: $(sqlite3 rows.db 'PRAGMA integrity_check')"
fi
echo "kills $kills lost $lost twice $twice unopened $unopened (held $held, unanswered $unanswered, jobs that ran $(sort -u ran | wc -l))"
[ "$lost" -eq 0 ] && [ "$twice" -eq 0 ] && [ "$unopened" -eq 0 ]
