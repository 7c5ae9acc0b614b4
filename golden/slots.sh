#!/usr/bin/env bash
# The built program `slots` under want: killed at each of its system calls, and with files, streams and memory that fail.
# After each, the map is the old one or the new one, whole. `bash golden/slots.sh [PROGRAM]`: without the path of a built
# program it is proved and built first. It needs strace.
set -euo pipefail
cd "$(dirname "$0")/.."
if [ $# = 0 ]; then
  (cd crates/slots && rt run -- data/map show)
fi
program=$(realpath "${1:-crates/slots/out/slots}")
folder=$(mktemp -d)
trap 'rm -rf "$folder"' EXIT
cd "$folder"

fail() {
  echo "$*"
  exit 1
}

# A map of 32,768 places, all taken but those of the last byte; with three of these taken; with six.
{ head -c 4095 /dev/zero | tr '\0' '\377'; printf '\0'; } > before
{ head -c 4095 before; printf '\7'; } > after
{ head -c 4095 before; printf '\77'; } > later

# expect NAME STATUS TEXT MAP WORD..: on these words the program prints just this line, ends with this status, and leaves
# this map and no other file beside it
expect() {
  local got=0
  "$program" "${@:5}" > printed 2> complaints || got=$?
  [ ! -s complaints ] || fail "$1: $(cat complaints)"
  printf '%s\n' "$3" | cmp -s - printed || fail "$1: $(head -c 200 printed)"
  [ "$got" = "$2" ] || fail "$1: status $got, and not $2"
  cmp -s map "$4" || fail "$1: another map"
  [ ! -e map.new ] || fail "$1: a file is left beside the map"
  echo "$1: $3, status $2"
}

# ---- killed

cp before map
strace -f -o trace "$program" map take 3 > printed
cmp -s map after || fail 'another map'
sed -n 's/^[0-9]* *\([a-z0-9_]*\)(.*/\1/p' trace | grep -vx execve > calls
kills=0 old=0 new=0 told=0
for call in $(sort -u calls); do
  for number in $(seq "$(grep -cx "$call" calls)"); do
    cp before map
    rm -f map.new
    got=0
    { strace -f -o /dev/null -e inject="$call:signal=KILL:when=$number" "$program" map take 3 > printed || got=$?; } 2> /dev/null
    [ $got = 137 ] || fail "not killed at $call $number: status $got"
    if cmp -s map before; then
      old=$((old + 1))
      [ ! -s printed ] || fail "killed at $call $number: told of places that aren't taken"
      want=after
    elif cmp -s map after; then
      new=$((new + 1))
      want=later
    else
      fail "killed at $call $number: neither the old map nor the new one"
    fi
    [ ! -s printed ] || told=$((told + 1))
    # what the kill left beside the map is no obstacle
    "$program" map take 3 > printed || fail "killed at $call $number: the next call failed"
    cmp -s map $want || fail "killed at $call $number: the next call left another map"
    kills=$((kills + 1))
  done
done
[ $old != 0 ] && [ $new != 0 ] || fail "the old map $old times, the new one $new times"
echo "killed at each of $kills system calls: the old map $old times, the new one $new times, and told $told times"
cp before map
got=0
{ (ulimit -f 2; exec "$program" map take 3) > printed || got=$?; } 2> /dev/null
[ $got = 153 ] && [ ! -s printed ] && cmp -s map before && [ "$(stat -c %s map.new)" = 2048 ] || fail "killed in mid-write: status $got"
"$program" map take 3 > printed && cmp -s map after || fail 'killed in mid-write: the next call failed'
echo 'killed when half of the new map was written: the old map, and the next call goes on'

# ---- files and streams that fail

cp before map
expect 'no such file' 3 "the map can't be read" before none take 3
expect 'a folder' 3 "the map can't be read" before . show
expect 'no room' 2 'refused: no such run of free places' before map take 9
expect 'not taken' 2 'refused: not all taken' before map give 32760
expect 'beyond the map' 2 'refused: not all taken' before map give 32768
expect 'other words' 2 'usage: slots FILE take COUNT | give START [COUNT] | show' before map take
expect 'a byte FF in a word' 2 'usage: slots FILE take COUNT | give START [COUNT] | show' before map take $'3\xFF'
mkdir map.new
got=0
"$program" map take 3 > printed || got=$?
printf "the new map can't be written\n" | cmp -s - printed || fail "a folder beside the map: $(cat printed)"
[ $got = 3 ] && cmp -s map before || fail "a folder beside the map: status $got"
rmdir map.new
echo "a folder where the new map is written: status 3"
for blocks in 0 1 2 3; do
  got=0
  (trap '' XFSZ; ulimit -f $blocks; exec "$program" map take 3) > /dev/null || got=$?
  [ $got = 3 ] && cmp -s map before && [ ! -e map.new ] || fail "files of $blocks KiB: status $got"
done
echo 'a disk that is full after 0, 1, 2 and 3 KiB of 4: status 3, the old map, and no other file'
got=0
"$program" map take 9 > /dev/full || got=$?
[ $got = 1 ] || fail "a full output, refused: status $got"
got=0
"$program" map show > /dev/full || got=$?
[ $got = 1 ] && cmp -s map before || fail "a full output, show: status $got"
got=0
"$program" map take 3 > /dev/full || got=$?
[ $got = 1 ] && cmp -s map after || fail "a full output, take: status $got"
echo 'a full output: status 1; what was to be taken is taken'

# ---- memory: from the first limit under which the program starts up to the first under which it answers

cp before map
limit=1500 first=0 refused=0
while :; do
  got=0
  prlimit --as=$((limit * 1024)) "$program" map take 3 > printed 2> complaints || got=$?
  if [ $first = 0 ] && [ $got = 127 ]; then
    limit=$((limit + 4))
    continue
  fi
  [ $first != 0 ] || first=$limit
  [ ! -s complaints ] || fail "under $limit KiB: $(cat complaints)"
  if [ $got = 0 ]; then break; fi
  printf 'out of memory\n' | cmp -s - printed || fail "under $limit KiB: $(head -c 200 printed)"
  [ $got = 3 ] && cmp -s map before && [ ! -e map.new ] || fail "under $limit KiB: status $got"
  refused=$((refused + 1))
  limit=$((limit + 4))
done
cmp -s map after || fail "under $limit KiB: another map"
echo "out of memory and the old map under each of $refused limits from $first KiB on, and the new one under $limit KiB"
