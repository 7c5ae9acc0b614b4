#!/usr/bin/env bash
# The library from C, C++ and Python, as it is installed: `bindings/check.sh [--install] [LIBRARY..]`, by hand. Without archives
# that were built before it is proved and built first. Clients compare every function with loops over single bits (10,000 windows
# from C for each element type, with the sanitizers, and fewer under valgrind, from C++ and from Python). The names of the header
# are those of the archive and of the shared library; a status that is dropped is warned of; views of const elements have no call
# that writes; CMake finds both libraries, and not for another version; the examples of docs/C.md are built as it says, and
# print what it says.
#
# The wheel is installed into a new environment, and a source distribution builds it again. The package is compared with Debian's
# `bitarray`: a million operations, a hundred thousand under a Python with debug checks, and ten thousand under valgrind. Each
# method is called with operands that run code meanwhile, with the sanitizer of addresses and under debug checks. That package's own tests run on fehimbary.bitarray.
# The stubs fit the package, and the picture of Life is that of a plain model.
#
# What is missing of the compilers, valgrind, Python, its packages and pkg-config is named; with --install it is installed by
# apt-get, as root.
set -euo pipefail
from=$PWD
cd "$(dirname "$0")"
install=
if [ "${1:-}" = --install ]; then
  install=1
  shift
fi
library=${1:+LIBRARY=$(cd "$from" && realpath "$@" | tr '\n' ' ')}
room=$(mktemp -d)
trap 'rm -rf "$room"' EXIT

missing=()
for package in gcc g++ clang cmake make valgrind pkg-config binutils python3 python3-dev python3-dbg python3-venv python3-numpy \
  python3-bitarray cython3 mypy; do
  dpkg-query -W -f '${Status}' "$package" 2> /dev/null | grep -q ' installed' || missing+=("$package")
done
if [ "${#missing[@]}" != 0 ] && [ -z "$install" ]; then
  echo "check.sh: missing: ${missing[*]}. \`bindings/check.sh --install\` installs them by apt-get, as root" >&2
  exit 1
elif [ "${#missing[@]}" != 0 ]; then
  echo "check.sh: installing ${missing[*]}" >&2
  apt-get update >&2
  DEBIAN_FRONTEND=noninteractive apt-get install -y "${missing[@]}" >&2
fi

make -s install PREFIX="$room" ${library:+"$library"} >&2
export PKG_CONFIG_PATH=$room/lib/pkgconfig PYTHONDONTWRITEBYTECODE=1
read -ra flags < <(pkg-config --cflags --libs fehimbary)
read -ra include < <(pkg-config --cflags fehimbary)
strict=(-Wall -Wextra -Wpedantic -Wshadow -Werror)
watched=(-g '-fsanitize=address,undefined' -fno-sanitize-recover=all)

for standard in c99 c11 c17; do
  echo '#include <fehimbary.h>' | gcc -std=$standard "${strict[@]}" -fsyntax-only "${include[@]}" -x c -
done
for standard in c++11 c++17 c++20; do
  echo '#include <fehimbary.h>' | g++ -std=$standard "${strict[@]}" -fsyntax-only "${include[@]}" -x c++ -
done
echo '#include <fehimbary.h>' | gcc -E "${include[@]}" -x c - | grep -o 'fb_u[0-9]*_[a-z_]*(' | tr -d '(' | sort > "$room/declared"
nm --defined-only "$room/lib/libfehimbary.a" | sed -n 's/.* T \(fb_.*\)/\1/p' | sort > "$room/defined"
diff "$room/declared" "$room/defined"
nm -D --defined-only "$room/lib/libfehimbary.so" | sed 's/.* //' | sort > "$room/exported"
diff "$room/declared" "$room/exported"
echo "names: the header, the archive and the shared library have the same $(wc -l < "$room/declared") functions"
for build in 'gcc -std=c11 -x c' 'clang -std=c11 -x c' 'g++ -std=c++11 -x c++' 'g++ -std=c++17 -x c++' 'clang++ -std=c++17 -x c++'; do
  for call in 'fb_u8_fill(FB_LSB0, 0, 0, 0, 0, true)' 'fb_u64_invert(FB_MSB0, 0, 0, 0, 0)'; do
    read -ra compile <<< "$build -Werror -S -o /dev/null"
    dropped="#include <fehimbary.h>
      void drop(void) { $call; }"
    if "${compile[@]}" "${include[@]}" - <<< "$dropped" 2> /dev/null; then
      echo "a status is dropped without a warning: $build, $call" >&2
      exit 1
    fi
    "${compile[@]}" '-DFB_NODISCARD=' "${include[@]}" - <<< "$dropped"
  done
done

client=(tests/client.c tests/model.c tests/random.c)
gcc -std=c11 -O1 "${strict[@]}" "${watched[@]}" "${client[@]}" "${flags[@]}" -o "$room/client"
echo 'C, with the sanitizers of addresses and of undefined behaviour:'
"$room/client" 10000
gcc -std=c11 -O1 "${strict[@]}" -g "${client[@]}" "${flags[@]}" -o "$room/bare_client"
echo 'C, under valgrind:'
valgrind --quiet --error-exitcode=1 --leak-check=full "$room/bare_client" 300

for compiler in g++ clang++; do
  for standard in c++17 c++20; do
    $compiler -std=$standard "${strict[@]}" "${watched[@]}" tests/native.cpp "${flags[@]}" -o "$room/native"
    "$room/native"
    $compiler -std=$standard "${strict[@]}" "${watched[@]}" tests/sequences.cpp "${flags[@]}" -o "$room/sequences"
    "$room/sequences" 1000
    echo "C++: ranges, operators and sequences ($compiler, $standard), with the same sanitizers"
    echo '#include <fehimbary.hpp>' | $compiler -std=$standard "${strict[@]}" -DFEHIMBARY_NOT_IN_STD -fsyntax-only "${include[@]}" -x c++ -
  done
  # each WRITE_.. is a call that a view of const elements refuses by name
  for write in $(sed -n 's/.*defined(\(WRITE_[A-Z_]*\)).*/\1/p' tests/refused.cpp); do
    if $compiler -std=c++17 "-D$write" -fsyntax-only "${include[@]}" tests/refused.cpp 2> "$room/said"; then
      echo "tests/refused.cpp: $compiler takes $write" >&2
      exit 1
    fi
    grep -q 'a view of const elements is only read' "$room/said"
  done
  $compiler -std=c++17 "${strict[@]}" -fsyntax-only "${include[@]}" tests/refused.cpp
done
for build in 'g++ -std=c++17' 'clang++ -std=c++20'; do
  $build "${strict[@]}" "${watched[@]}" tests/client.cpp "${flags[@]}" -o "$room/cpp_client"
  echo "C++ ($build), with the same sanitizers:"
  "$room/cpp_client" 500
done

g++ -std=c++17 -O1 "${strict[@]}" -g tests/sequences.cpp "${flags[@]}" -o "$room/bare_sequences"
echo 'C++, under valgrind:'
valgrind --quiet --error-exitcode=1 --leak-check=full "$room/bare_sequences" 200

# found WANTED: has CMake find a version, and builds the examples with both libraries
found() {
  rm -rf "$room/cmake"
  cmake -S tests/cmake -B "$room/cmake" "-DCMAKE_PREFIX_PATH=$room" "-DWANTED=$1" &> "$room/said" && make -s -C "$room/cmake" >&2
}
for version in '' "$(sed -n 's/^#define FEHIMBARY_VERSION "\(.*\)\..*"$/\1/p' fehimbary.h)"; do
  found "$version"
  "$room/cmake/c" > /dev/null
  "$room/cmake/cpp" > /dev/null
  ldd "$room/cmake/cpp" | grep -q "$room/lib/libfehimbary.so"
done
for version in 0.1 1 99.0; do
  if found "$version"; then
    echo "CMake takes the library for version $version" >&2
    exit 1
  fi
done
echo 'CMake: find_package finds both libraries, and no other version'

# environment PYTHON NAME: a new environment with the wheel for a Python
environment() {
  make -s wheel PYTHON="$1" ${library:+"$library"} >&2
  "$1" -m venv --system-site-packages "$room/$2"
  "$room/$2/bin/python" -m pip install --quiet --disable-pip-version-check --no-index --no-deps out/fehimbary-*.whl
}

environment /usr/bin/python3-dbg debug
debug_python=$room/debug/bin/python
echo 'Python with debug checks:'
"$debug_python" tests/client.py 20
"$debug_python" tests/oracle.py 100000
"$debug_python" -X dev -m unittest --quiet tests/native.py tests/safety.py tests/cycles.py tests/extras.py
"$debug_python" tests/evil.py 0.3

make -s wheel PYTHON=/usr/bin/python3 CFLAGS='-O1 -g -fsanitize=address' ${library:+"$library"} >&2
/usr/bin/python3 -m zipfile -e out/fehimbary-*.whl "$room/watched"
echo 'Python, with the sanitizer of addresses:'
LD_PRELOAD=$(gcc -print-file-name=libasan.so) ASAN_OPTIONS=detect_leaks=0:allocator_may_return_null=1 PYTHONMALLOC=malloc \
  PYTHONPATH=$room/watched /usr/bin/python3 tests/evil.py

environment /usr/bin/python3 python
python=$room/python/bin/python
echo 'Python, under valgrind:'
# bitarray itself reads bits that it hasn't written
PYTHONMALLOC=malloc valgrind --quiet --error-exitcode=1 --undef-value-errors=no "$python" tests/oracle.py 10000
PYTHONMALLOC=malloc valgrind --quiet --error-exitcode=1 "$python" tests/client.py 5
echo 'Python:'
"$python" tests/client.py 100
"$python" tests/oracle.py 1000000
"$python" -m unittest --quiet tests/native.py tests/safety.py tests/cycles.py tests/extras.py
"$python" tests/drop_in.py
"$python" -c 'import doctest, fehimbary.bits; print(sum(doctest.testmod(it).failed for it in (fehimbary, fehimbary.bits)), "doctests fail")'
"$python" tests/packages.py out/fehimbary-*.whl "$room"
mypy --strict --cache-dir "$room/mypy" python/wheel_of.py python/signatures.py tests/example.py
mypy --strict --cache-dir "$room/mypy" --python-executable "$python" -p fehimbary
mypy --strict --cache-dir "$room/mypy" --python-executable "$python" tests/typed.py
"$python" tests/typed.py
"$python" examples/life.py "$room/life.png"
"$python" tests/life.py "$room/life.png"
cmp "$room/life.png" examples/life.png

gcc tests/header.c "${flags[@]}" -o "$room/header"
"$room/header"
"$python" tests/header.py
gcc tests/example.c "${flags[@]}" -o "$room/c"
g++ -std=c++17 tests/example.cpp "${flags[@]}" -o "$room/cpp"
"$room/c" > "$room/c.said"
"$room/cpp" > "$room/cpp.said"
"$python" tests/example.py > "$room/py.said"
"$python" - ../docs/C.md tests/example.c "$room/c.said" tests/example.cpp "$room/cpp.said" tests/example.py "$room/py.said" << 'END'
import pathlib, sys, textwrap
page, *texts = (pathlib.Path(path) for path in sys.argv[1:])
for path in texts:
    if textwrap.indent(path.read_text(), "    ") not in page.read_text():
        raise SystemExit(f"docs/C.md doesn't have {path.name}: {path.read_text()}")
END
echo 'examples: docs/C.md has the three, and what they print'
