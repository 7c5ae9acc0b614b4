#!/usr/bin/env bash
# The built program `bitdo` under want: a long input, little memory, standard streams that are closed or fail, and words
# that aren't UTF-8. `bash golden/bitdo.sh [PROGRAM]`: without the path of a built program it is proved and built first.
set -euo pipefail
cd "$(dirname "$0")/.."
if [ $# = 0 ]; then
  (cd crates/bitdo && rt run -- 8 lsb0 00 - 0 8 < /dev/null)
fi
program=$(realpath "${1:-crates/bitdo/out/bitdo}")
folder=$(mktemp -d)
trap 'rm -rf "$folder"' EXIT
cd "$folder"

fail() {
  echo "$*"
  exit 1
}

# is NAME GOT WANTED: a status
is() {
  [ "$2" = "$3" ] || fail "$1: status $2, and not $3"
  echo "$1: status $3"
}

# expect NAME STATUS TEXT WORD..: on these words the program prints just this line and ends with this status.
expect() {
  local got=0
  "$program" "${@:4}" > printed 2> complaints || got=$?
  [ ! -s complaints ] || fail "$1: $(cat complaints)"
  printf '%s\n' "$3" | cmp -s - printed || fail "$1: $(head -c 200 printed)"
  is "$1: $3" "$got" "$2"
}

# The window has the bits 1,1,0,1,1,0,1,0.
words=(8 lsb0 5B 00 0 8)
cat > lines << 'END'
0 8 count_ones
0 8 invert
0 8 count_ones
0 9 any
0 8 get 18446744073709551615
0 8 invert
0 8 first_zero
0 8 starts_with 1 2
3 3 all
0 8 cmp 0 8
END
cat > replies << 'END'
count 5
done
count 3
refused range
refused index
done
index 2
bit 0
bit 1
order greater
END
cp lines few
{ cat replies; echo '= 5B'; } > of_few
for _ in 1 2 3 4 5; do
  for it in lines replies; do
    cat $it $it $it $it $it $it $it $it $it $it > more
    mv more $it
  done
done
echo '= 5B' >> replies

# measure NAME INPUT REPLIES: a run with status 0, its seconds and its greatest memory in KiB in `seconds` and `peak`
measure() {
  /usr/bin/time -f '%e %M' -o measured "$program" "${words[@]}" < "$2" > printed || fail "$1: status $?"
  cmp -s printed "$3" || fail "$1: other replies"
  read -r seconds peak < measured
  echo "$1: $seconds s, $peak KiB for $(($(stat -c %s "$2") / 1024)) KiB of input"
}

measure '10^6 lines' lines replies
[ "${seconds%.*}" -lt 10 ] || fail "10^6 lines: $seconds s"

# One line, which leaves one step: a second copy of the input would show.
{ printf '0 8 get '; head -c 67108864 /dev/zero | tr '\0' 0; echo 1; } > line
printf 'bit 1\n= 5B\n' > of_line
measure 'one line of 64 MiB' line of_line
[ "$peak" -lt $((65536 + 8192)) ] || fail "one line of 64 MiB: $peak KiB"

# under LIMIT INPUT WORD..: the program with so many KiB of address space
under() {
  prlimit --as=$(($1 * 1024)) "$program" "${@:3}" < "$2" > printed 2> complaints
}

# limits NAME STEP INPUT REPLIES WORD..: from the first limit under which the program starts, by STEP KiB up to the first
# under which the run is whole, each gives the line and the status for want of memory. Below, the system's loader finds
# no room for the C library: it says so itself, and ends with status 127.
limits() {
  local limit=1500 first=0 refused=0 got
  while :; do
    got=0
    under $limit "$3" "${@:5}" || got=$?
    if [ $first = 0 ] && [ $got = 127 ]; then
      limit=$((limit + 4))
      continue
    fi
    [ $first != 0 ] || first=$limit
    [ ! -s complaints ] || fail "$1 under $limit KiB: $(cat complaints)"
    if [ $got = 0 ]; then break; fi
    printf 'run error: memory\n' | cmp -s - printed || fail "$1 under $limit KiB: $(head -c 200 printed)"
    [ $got = 3 ] || fail "$1 under $limit KiB: status $got"
    refused=$((refused + 1))
    limit=$((limit + $2))
  done
  cmp -s printed "$4" || fail "$1 under $limit KiB: other replies"
  echo "$1: run error: memory under each of $refused limits from $first KiB on, and whole under $limit KiB"
}

zeros=$(printf '00,%.0s' {1..40000})
zeros=${zeros%,}
printf '= %s\n' "$zeros" > of_zeros
head -n 10000 lines > some
{ head -n 10000 replies; echo '= 5B'; } > of_some
limits 'ten lines' 4 few of_few "${words[@]}"
limits '40,000 elements' 4 /dev/null of_zeros 8 lsb0 "$zeros" "$zeros" 0 320000
limits '10^4 lines' 16 some of_some "${words[@]}"
limits '10^6 lines' 2048 lines replies "${words[@]}"
got=0
under 65536 /dev/zero "${words[@]}" || got=$?
printf 'run error: memory\n' | cmp -s - printed || fail "an input without end: $(head -c 200 printed)"
is 'an input without end, under 64 MiB: run error: memory' $got 3

expect 'closed input' 2 'bad input' "${words[@]}" <&-
expect 'a folder as input' 2 'bad input' "${words[@]}" < /tmp
expect 'closed input, five words' 2 'bad arguments' "${words[@]::5}" <&-
for input in few /tmp; do
  got=0
  "$program" "${words[@]}" < $input > /dev/full || got=$?
  is "a full output, input $input" $got 1
  got=0
  "$program" "${words[@]}" < $input >&- || got=$?
  is "closed output, input $input" $got 1
done
got=0
"$program" < few >&- || got=$?
is 'closed output, no words' $got 1
got=0
(trap '' XFSZ; ulimit -f 1; exec "$program" "${words[@]}") < lines > part || got=$?
is 'an output that fails after 1,024 bytes' $got 1
head -c 1024 replies | cmp -s - part || fail 'an output that fails after 1,024 bytes: other bytes'
got=0
"$program" "${words[@]}" < lines | head -n 1 > part || got=$?
is 'an output whose reader ends' $got 1

for place in 0 1 2 3 4 5; do
  others=("${words[@]}")
  others[place]+=$'\xFF'
  expect "a byte FF in word $((place + 1))" 2 'bad arguments' "${others[@]}" < few
done
expect 'a seventh word that ends in a character' 2 'bad arguments' "${words[@]}" $'\xC3' < few
