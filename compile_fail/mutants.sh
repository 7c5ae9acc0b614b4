#!/usr/bin/env bash
# Wrong bodies that tests show. Every clause admits most of them: their calls say nothing of what their lender is afterwards,
# may always answer that memory was refused, or are held to no number of operations. The others are of crates without edits in
# the gate. The first line of each patch in compile_fail/mutants names a tests' crate and the tests that must fail with it,
# and the next one says what it breaks. Patches are applied to a copy of the tree, and a run of the crate's tests, with no
# proofs, has to show each named test as failed. Patches of one crate are tried together where they name different tests. They
# change different lines, and no test that one names makes a call that another breaks; one that breaks such calls says `alone`
# before its tests. With names as arguments these patches alone are tried, each in a run of its own.
set -euo pipefail
cd "$(dirname "$0")/.."
mutants=$PWD/compile_fail/mutants
copy=$(mktemp -d)
trap 'rm -rf "$copy"' EXIT
tar --exclude=out --exclude=.git -cf - . | tar -xf - -C "$copy"

# The crate of a patch, and the tests that it names.
crate_of() { head -1 "$1" | cut -d' ' -f1; }
tests_of() { head -1 "$1" | cut -d' ' -f2- | sed 's/^alone //'; }

# Runs the tests of a crate with some patches, and looks for the tests that these name.
try() {
  local crate=$1 patch said test missed=
  shift
  for patch in "$@"; do
    (cd "$copy" && git apply "$patch") || { echo "$(basename "$patch"): doesn't apply"; exit 1; }
  done
  said=$(cd "$copy/crates/$crate" && rt try --test 2>&1) || true
  for patch in "$@"; do
    (cd "$copy" && git apply --reverse "$patch")
    for test in $(tests_of "$patch"); do
      if grep -q -e "^test $test \.\.\. FAILED" <<< "$said"; then
        echo "$(basename "$patch" .patch): $test"
      else
        echo "$(basename "$patch" .patch): $test DID NOT FAIL"
        missed=yes
      fi
    done
  done
  if [ -n "$missed" ]; then echo "$said"; exit 1; fi
}

# Tries some patches of a crate in as few runs as they allow.
try_all() {
  local crate=$1 patch test taken later named fits
  shift
  while [ $# -gt 0 ]; do
    taken=() later=() named=" "
    for patch in "$@"; do
      fits=yes
      if [ "$named" = alone ]; then fits=; fi
      if grep -q "^$crate alone " <(head -1 "$patch") && [ ${#taken[@]} -gt 0 ]; then fits=; fi
      for test in $(tests_of "$patch"); do
        case $named in *" $test "*) fits= ;; esac
      done
      if [ -z "$fits" ]; then later+=("$patch"); continue; fi
      taken+=("$patch")
      named+="$(tests_of "$patch") "
      if grep -q "^$crate alone " <(head -1 "$patch"); then named=alone; fi
    done
    try "$crate" "${taken[@]}"
    set -- ${later[@]+"${later[@]}"}
  done
}

if [ $# -gt 0 ]; then
  for name in "$@"; do
    try "$(crate_of "$mutants/$name.patch")" "$mutants/$name.patch"
  done
else
  for crate in $(head -qn1 "$mutants"/*.patch | cut -d' ' -f1 | sort -u); do
    mapfile -t patches < <(grep -l "^$crate " "$mutants"/*.patch)
    try_all "$crate" "${patches[@]}"
  done
fi
