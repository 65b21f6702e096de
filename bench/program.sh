# Sets `program` to the program that bin/wrkmgr runs, or to the one that WRKMGR names, for what is sourced at the top of the
# repository.
if [ -n "${WRKMGR:-}" ]; then
  program=$(realpath "$WRKMGR")
else
  bin/wrkmgr run </dev/null
  if bin/sources | cmp -s - <(grep -v '^kit: ' release/SOURCES); then
    program=$PWD/release/wrkmgr-x86_64-linux
  else
    program=$PWD/crates/wrkmgr/out/wrkmgr
  fi
fi
