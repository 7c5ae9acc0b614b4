#!/bin/sh
# run.sh [LAYOUTS]: builds the library, its peers and the driver, times them in 16 layouts, or so many, writes RESULTS.md, which
# README.md explains, and draws speeds.svg.
# What it builds goes to bench/out and to out/ of bindings, crates/bitvec_c, crates/bitvec_c_run,
# crates/sieve and crates/bitmatrix.
set -eu
cd "$(dirname "$0")"

processor=x86-64-v2
layouts=${1:-16}
registry=/usr/share/cargo/registry

missing=
for package in g++ make python3 python3-dev cython3 python3-bitarray libboost-dev librust-fixedbitset-dev librust-bit-vec-dev; do
    dpkg-query -W -f '${Status}' "$package" 2>/dev/null | grep -q ' installed' || missing="$missing $package"
done
command -v rustc >/dev/null || missing="$missing rustc"
if [ -n "$missing" ]; then
    echo "run.sh: installing$missing" >&2
    apt-get update >&2
    # shellcheck disable=SC2086
    DEBIAN_FRONTEND=noninteractive apt-get install -y $missing >&2
fi

rm -rf out/layouts
mkdir -p out
(cd ../crates/bitvec_c && rt lib) >&2
(cd ../crates/sieve && rt run -- count 0) >/dev/null
(cd ../crates/bitmatrix && rt run -- chain 0) >/dev/null
make -s -C ../bindings wheel PYTHON=/usr/bin/python3 >&2
./unproved.py bitvec_times out/bitvec_times >&2
/usr/bin/python3 -m zipfile -e ../bindings/out/fehimbary-*.whl out/python

# rust NAME KIND SOURCE FLAGS..: compiles one crate of the peers
rust() {
    name=$1 kind=$2 source=$3
    shift 3
    rustc --crate-name "$name" --crate-type "$kind" --out-dir out \
        -C opt-level=3 -C "target-cpu=$processor" -C panic=abort --cap-lints allow "$@" "$source"
}
rust fixedbitset rlib "$registry"/fixedbitset-*/src/lib.rs --edition 2018 --cfg 'feature="std"'
rust bit_vec rlib "$registry"/bit-vec-*/src/lib.rs --edition 2018 --cfg 'feature="std"'
rust peers staticlib peers.rs --edition 2021 \
    --extern fixedbitset=out/libfixedbitset.rlib --extern bit_vec=out/libbit_vec.rlib

for program in driver programs sieve closure; do
    # gcc takes the lists of checks.hpp for ones that could be as long as the memory
    g++ -std=c++17 -O3 "-march=$processor" -ffunction-sections -Wall -Wextra -Wno-stringop-overflow -c "$program.cpp" -o "out/$program.o"
done

{
    echo "# Results"
    echo
    echo "What \`bench/run.sh\` wrote on the machine named below. README.md says what each table measures. A ratio above 1 means that the library is faster."
    echo
    echo "- machine: $(lscpu | sed -n 's/^Model name: *//p'), $(nproc) processors"
    echo "- kit: $(rt version)"
    echo "- compilers: $(g++ --version | head -n 1), -O3 -march=$processor; $(rustc --version), -C opt-level=3 -C target-cpu=$processor"
    echo "- layouts: $layouts; a number is their median, but for the packages for Python and Rust, which have one"
    echo "- load at the start: $(cut -d ' ' -f 1 /proc/loadavg)"
    echo
    ./layouts.py "$layouts"
    echo
    PYTHONPATH=out/python /usr/bin/python3 beside_bitarray.py
    ./rust.py ../crates/bitvec_c/out/libbitvec_c.a
} > out/results.md
mv out/results.md RESULTS.md
for layout in out/layouts/[1-4]; do
    "$layout/driver" plot
done | python3 plot.py > speeds.svg
