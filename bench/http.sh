#!/usr/bin/env bash
# bench/http.sh [ROUNDS]
# What a request over HTTP costs over memory: a listing (GET /subsystems), and a command that is kept (POST of a held SBMJOB).
# Of each there are two runs of the tests' program, with 1 and with 11 connections over one floor, each of 10,000 requests, as
# many as one may have, in a source and a sink in memory. Each figure is the difference of the two for each of the 100,000
# requests between them: of the processor's time, and by the clock. Of each run it is the least of ROUNDS, five where nothing is
# said, all of them by turns. The keeper is the one in memory. It wants a quiet machine.
set -eu
cd "$(dirname "$0")/.."
rounds=${1:-5}
program=$PWD/crates/wm_test_serve/out/wm_test_serve
if [ ! -x "$program" ]; then
  echo 'build it first: (cd crates/wm_test_serve && rt run)' >&2
  exit 2
fi
folder=$(mktemp -d)
trap 'rm -rf "$folder"' EXIT
cd "$folder"
body='SBMJOB CMD(CALL PGM(ECHO)) JOB(A) HOLD(*YES)'
get='GET /subsystems HTTP/1.1\r\nHost: localhost\r\n\r\n'
post='POST /users/ann/commands HTTP/1.1\r\nHost: localhost\r\nContent-Length: '${#body}'\r\n\r\n'$body

# cases NAME CONNECTIONS REQUEST: the file of a run
cases() {
  printf '%s\n' "== $1" "> again $2 {10000 $3}" "$2""0000 calls" >"$1$2.txt"
}

# times: of each run its seconds by the clock and of a processor
times() {
  local TIMEFORMAT='%R %U %S' name count
  for ((round = 0; round < rounds; round++)); do
    for name in GET POST; do
      for count in 1 11; do
        printf '%s %s ' "$name" "$count"
        { time "$program" "$name$count.txt" >told.txt; } 2>&1
        if [ "$(cat told.txt)" != "$name$count.txt: 1 answers" ]; then
          cat told.txt >&2
          exit 1
        fi
      done
    done
  done
}

for count in 1 11; do
  cases GET "$count" "$get"
  cases POST "$count" "$post"
done
times >times.txt
awk '
  {
    used = $4 + $5
    if (!(($1, $2) in least) || used < least[$1, $2]) least[$1, $2] = used
    if (!(($1, $2) in clock) || $3 < clock[$1, $2]) clock[$1, $2] = $3
  }
  END {
    for (at = 1; at <= 2; at++) {
      name = at == 1 ? "GET" : "POST"
      used = least[name, 11] - least[name, 1]
      taken = clock[name, 11] - clock[name, 1]
      printf "%s: %.2f us of a processor a request, %.0f requests a second\n", name, 1e6 * used / 100000, 100000 / taken
    }
  }' times.txt
