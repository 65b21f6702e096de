#!/usr/bin/env bash
# What the server does in a second: serve.sh [ROUNDS [SECONDS]]. GET /subsystems on one connection and on eight, and with one and
# eight clients that connect for each request, beside Python's http.server and, where it is installed, nginx, which give a file of
# the same bytes (http.server only with a connection for each request, as it is made for); a held SBMJOB in memory and over a file, on
# one connection and on eight; and jobs of /bin/true with 1, 2 and 4 monitors, 16 at once, beside a loop of posix_spawn of one
# thread. All of them come by turns in each round, and the best of the rounds counts. The clients are processes of Python, which
# take a good part of the machine. It wants a quiet machine.
set -eu
cd "$(dirname "$0")/.."
root=$PWD
rounds=${1:-5}
seconds=${2:-2}
. bench/program.sh
folder=$(mktemp -d)
server=
trap 'kill $server 2>/dev/null; rm -rf "$folder"' EXIT
cd "$folder"
asked() { python3 -B -S -E "$root/bench/asked.py" "$@"; }

# best NAME FIGURE: keeps the greatest figure of that name
declare -A most
names=()
best() {
  [ -n "${most[$1]:-}" ] || names+=("$1")
  if [ -z "${most[$1]:-}" ] || [ "$2" -gt "${most[$1]}" ]; then most[$1]=$2; fi
}

# start WORD..: a server at a free port
start() {
  port=$(python3 -B "$root/.ci/peers.py" port)
  "$program" serve --listen "127.0.0.1:$port" "$@" >ready &
  server=$!
  until [ -s ready ]; do sleep 0.05; done
}

stop() {
  curl -s -d 'PWRDWNSYS OPTION(*IMMED)' "localhost:$port/users/QSYSOPR/commands" >/dev/null
  wait "$server"
}

# up: waits until somebody listens at the port
up() { until curl -s -o page "localhost:$port/subsystems"; do sleep 0.05; done; }

# gets HOW NAME: listings of one client and of eight
gets() {
  for count in 1 8; do best "GET $count $2, $1" "$(asked "$1" "$port" "$count" "$seconds" /subsystems)"; done
}

for ((round = 0; round < rounds; round++)); do
  start --workers 16
  curl -s "localhost:$port/subsystems" >subsystems
  gets get wrkmgr
  gets each wrkmgr
  for count in 1 8; do best "POST $count memory" "$(asked post "$port" "$count" "$seconds")"; done
  stop
  python3 -m http.server -b 127.0.0.1 "$port" >/dev/null 2>&1 &
  server=$!
  up
  gets each http.server
  kill "$server"
  wait "$server" || true
  if command -v nginx >/dev/null; then
    {
      [ "$(id -u)" -ne 0 ] || echo 'user root;'
      echo "daemon off; error_log /dev/null; pid $folder/pid; worker_processes auto; events {}"
      echo 'http { access_log off; keepalive_requests 10000;'
      for kind in client_body proxy fastcgi uwsgi scgi; do echo "${kind}_temp_path $folder/$kind;"; done
      echo "server { listen 127.0.0.1:$port; root $folder; } }"
    } >conf
    nginx -c "$folder/conf" -p "$folder" >/dev/null 2>&1 &
    server=$!
    up
    gets get nginx
    gets each nginx
    kill "$server"
    wait "$server" || true
  fi
  rm -f rows.db*
  start --workers 16 --store rows.db
  for count in 1 8; do best "POST $count store" "$(asked post "$port" "$count" "$seconds")"; done
  stop
  for monitors in 1 2 4; do
    start --monitors "$monitors"
    best "jobs $monitors monitors" "$(asked jobs "$port" 2000 16)"
    stop
  done
  best 'jobs posix_spawn' "$(asked spawn 2000 16)"
done
for name in "${names[@]}"; do printf '%-20s %8d a second\n' "$name" "${most[$name]}"; done
