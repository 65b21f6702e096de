#!/usr/bin/env bash
# bench/turnstile.sh [ROUNDS]
# Entries a second through the turnstile, beside std's `Mutex` with the same work in the same rounds, of which each lock's best
# counts: five where nothing is said. First with turns of no work and then with turns that sleep for 0.1 ms, at 1, 2, 4, 8 and
# 16 threads; last what 16 threads with turns that sleep for 1 ms take of a processor, all waiters together. Beside each rate
# stands which share of the turns went to another thread than the one before: the turnstile hands turns out in order, and
# whoever lets go of the `Mutex` mostly has it again. It wants a quiet machine.
set -eu
cd "$(dirname "$0")/.."
rounds=${1:-5}
program=$PWD/crates/wm_test_parts/out/wm_test_parts
if [ ! -x "$program" ]; then
  echo 'build it first: (cd crates/wm_test_parts && rt run)' >&2
  exit 2
fi

# best ENTRIES MICROS THREADS: the line of a table, from the least microseconds of each lock, by turns
best() {
  for ((round = 0; round < rounds; round++)); do
    for lock in turnstile mutex; do
      echo "$lock $("$program" "$lock" "$3" "$1" "$2")"
    done
  done | awk -v threads="$3" '
    !($1 in least) || $3 < least[$1] { least[$1] = $3; rate[$1] = $2 * 1e6 / $3; hands[$1] = $4 / $2 }
    END {
      printf "| %d | %.0f | %.3f ", threads, rate["turnstile"], hands["turnstile"]
      printf "| %.0f | %.3f | %.2f |\n", rate["mutex"], hands["mutex"], rate["turnstile"] / rate["mutex"]
    }'
}

# table ENTRIES MICROS: a line for each number of threads
table() {
  echo '| Threads | Turnstile, entries a second | to another thread | Mutex, entries a second | to another thread | Share |'
  echo '|---|---|---|---|---|---|'
  for threads in 1 2 4 8 16; do
    best "$1" "$2" "$threads"
  done
}

# processors LOCK: processor seconds for each second of 16 threads with turns of 1 ms
processors() {
  local TIMEFORMAT='%R %U %S'
  { time "$program" "$1" 16 2000 1000 >/dev/null; } 2>&1 | awk -v lock="$1" '{ printf "%s: %.2f\n", lock, ($2 + $3) / $1 }'
}

echo 'Turns of no work'
table 400000 0
echo 'Turns of 0.1 ms'
table 4000 100
echo 'Processors that 16 threads take with turns of 1 ms'
processors turnstile
processors mutex
