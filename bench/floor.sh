#!/usr/bin/env bash
# bench/floor.sh [ROUNDS]
# Calls a second of a floor in memory: held SBMJOBs by 1, 2 and 4 threads, each read from its text and called by a pass of its
# own, the best of five rounds where nothing is said; and how long a look at a history of 100,000 entries takes, which is how
# long it makes another caller wait. At most 5 ms are wanted. It wants a quiet machine.
set -eu
cd "$(dirname "$0")/.."
rounds=${1:-5}
program=$PWD/crates/wm_test_floor/out/wm_test_floor
if [ ! -x "$program" ]; then
  echo 'build it first: (cd crates/wm_test_floor && rt run)' >&2
  exit 2
fi

# submit THREADS: the line of a table, from the least microseconds
submit() {
  for ((round = 0; round < rounds; round++)); do
    "$program" submit "$1" 100000
  done | awk -v threads="$1" '
    !least || $2 < least { least = $2; entries = $1 }
    END { printf "| %d | %.0f |\n", threads, entries * 1e6 / least }'
}

echo '| Threads | Calls a second |'
echo '|---|---|'
for threads in 1 2 4; do
  submit "$threads"
done
"$program" log 100000 50 | awk '{ printf "a look at 100,000 entries: %.2f ms\n", $2 / $1 / 1000 }'
