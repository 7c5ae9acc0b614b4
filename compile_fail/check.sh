#!/usr/bin/env bash
# Functions that must not compile, of a caller who depends on `bitvec` alone. Each file here is a module whose first line
# is the error that its function, named as the file, has to be refused by: `CALL-requires` by the prover, since what CALL
# requires isn't given, any other by the compiler, which looks at borrows once names and types are well. Beside one that
# the prover refuses stands a right caller of the same call, which has to be proved. All modules of a kind are one crate, and
# nothing is left behind.
#
# `compile_fail/check.sh` takes the compiler's over the libraries as sources, so that nothing has to be proved before;
# `compile_fail/check.sh proved` takes the prover's over the libraries that `rt ci` left.
set -euo pipefail
cd "$(dirname "$0")/.."
top=$PWD
mode=${1:-} built=
case $mode in
  '') kinds=(types borrows) ;;
  proved)
    kinds=(prover)
    if compile_fail/callers.py --built; then
      built=yes
    else
      echo "compile_fail/check.sh: what stands in out/ isn't of these sources, so libraries are read as sources, in minutes" >&2
    fi
    ;;
  *) echo "usage: compile_fail/check.sh [proved]" >&2; exit 2 ;;
esac
tools=$(dirname "$(readlink -f "$(command -v rt)")")
kit=$(dirname "$tools")
room=$(mktemp -d)
trap 'rm -rf "$room"' EXIT

# the libraries, lowest first, each with those that it names
declare -A below seen
declare -a wanted=()
while IFS=: read -r name names; do below[$name]=$names; done < <(grep -E '^[a-z_0-9]+:' crates.txt)
libraries=(--extern "core=$kit/rlibs/core.rlib" --extern "std=$kit/rlibs/std.rlib" -L "dependency=$kit/rlibs")
visit() {
  local name on=core,std
  [ -z "${seen[$1]:-}" ] || return 0
  seen[$1]=1
  if [ -z "${below[$1]+here}" ]; then
    [ -n "$built" ] || libraries+=(--extern "$1=$kit/rlibs/$1.rlib")
    return 0
  fi
  for name in ${below[$1]}; do visit "$name"; on+=,$name; done
  if [ -n "$built" ]; then
    libraries+=(-L "dependency=$top/crates/$1/out/rlib")
  else
    libraries+=(--lib "$1:$on=$top/crates/$1/src/lib.rt")
  fi
}
visit bitvec
if [ -n "$built" ]; then libraries+=(--extern "bitvec=$top/crates/bitvec/out/rlib/bitvec.rlib"); fi

# Checks the modules of one kind, and leaves what is said: check KIND WORD..
check() {
  local kind=$1
  shift
  (cd "$room/$kind" && "$tools/rattle" check --crate-name refused src/lib.rt "${libraries[@]}" \
    --antt-project "$kit/rattle/logic/antt-project.json" --logic-built "$kit/logic_built" --jobs 1 "$@") > "$room/$kind/said" 2>&1 || true
}

for kind in "${kinds[@]}"; do mkdir -p "$room/$kind/src"; echo '#![tactic(auto)]' > "$room/$kind/src/lib.rt"; done
for file in compile_fail/*.txt; do
  read -r want < "$file"
  name=$(basename "$file" .txt)
  case $want in
    *-requires) kind=prover ;;
    borrow-*) kind=borrows ;;
    *) kind=types ;;
  esac
  [ -d "$room/$kind" ] || continue
  tail -n +2 "$file" > "$room/$kind/src/$name.rt"
  echo "pub mod $name;" >> "$room/$kind/src/lib.rt"
  wanted[${#wanted[@]}]="$kind $name $want"
done

if [ "$mode" = proved ]; then
  check prover
  compile_fail/callers.py "$room/prover/said"
  exit
fi
failed=0
for kind in "${kinds[@]}"; do check "$kind" --only ''; done
for row in "${wanted[@]}"; do
  read -r kind name want <<< "$row"
  if grep -qs -e "^src/$name.rt:[0-9:]* error\[$want\]" "$room/$kind/said"; then
    echo "$name: $want"
  else
    echo "$name: not refused by $want"
    failed=1
  fi
done
if [ "$failed" = 1 ]; then cat "$room"/*/said; fi
exit "$failed"
