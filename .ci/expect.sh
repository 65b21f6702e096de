# expect WHAT STATUS WANTED: the run ended with the wanted status, and wrote into $got the bytes of $want.
expect() {
  if [ "$2" -ne "$3" ] || ! cmp "$got" "$want"; then
    echo "$1: status $2, or other bytes than the wanted ones"
    exit 1
  fi
}
