#!/usr/bin/env bash
# Runs the built program on files and outputs that aren't plain files, as docs/hostile.md lists them:
# devices.sh [PROGRAM]. Prints each run that ends otherwise, and ends with 1 if there is one.
set -u
top=$(dirname "$(dirname "$(readlink -f "$0")")")
program=$(readlink -f "${1:-$top/crates/pgmtool/out/pgmtool}")
cd "$top" || exit 1
if [ ! -x "$program" ]; then
  echo "devices: $program isn't there" >&2
  exit 1
fi
failed=0

# What a run is, the status that it has to have, and the one that it had.
expect() {
  [ "$2" = "$3" ] && return
  echo "devices: $1: status $3 in place of $2"
  failed=1
}

# A run's status and its one line; the other words are the program's.
refuses() {
  local status=0 text
  text=$("$program" "${@:3}" 2>/dev/null) || status=$?
  expect "${*:3}" "$1" "$status"
  if [ "$text" != "$2" ]; then
    echo "devices: ${*:3}: '$text' in place of '$2'"
    failed=1
  fi
}

four=data/four.keys
long=$(printf 'x%.0s' {1..4096})
"$program" build $four >/dev/full
expect 'a text to a full device' 4 $?
"$program" query $four /dev/null >/dev/full
expect 'an empty text to a full device' 0 $?
"$program" build data >/dev/full
expect 'a fault to a full device' 3 $?
"$program" build $four >&-
expect 'a closed output' 4 $?
"$program" explain data/primes.keys --eps 0 | head -n 1 >/dev/null
expect 'a pipe whose reader ends' 4 "${PIPESTATUS[0]}"
refuses 3 'fault read' build data
refuses 3 'fault read' build data/absent
refuses 3 'fault read' build "$long"
refuses 5 'fault keys short 0' build /dev/null
refuses 5 'fault keys trailing 0' build /dev/zero
refuses 6 'fault script too long' query $four /dev/zero
refuses 2 'fault usage' build $'\xff'
bytes() {
  local i
  for i in {0..39}; do dd if=$four bs=1 count=1 skip="$i" status=none; done
}
refuses 0 "$("$program" build $four)" build <(bytes)
[ $failed = 1 ] || echo 'devices: ok'
exit $failed
