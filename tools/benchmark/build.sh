#!/usr/bin/env bash
# Builds the benchmark: the original kriging.rs, unchanged but for its inner doc comments, and the port's archive in one program.
# Usage: tools/benchmark/build.sh PATH-OF-KRIGING.RS     writes target/bench/ and nothing else; needs libnakwemol.a and libtimed.a in target/staticlib/
set -euo pipefail
source=${1:?path of the original kriging.rs}
here=$(cd "$(dirname "$0")" && pwd)
root=$(cd "$here/../.." && pwd)
archive=${NAKWEMOL_ARCHIVE:-$root/target/staticlib}
out=$root/target/bench
for name in nakwemol timed; do
    if [ ! -f "$archive/lib$name.a" ]; then
        echo "$archive/lib$name.a is not there: make it by tools/build $name, or name its folder in NAKWEMOL_ARCHIVE" >&2
        exit 1
    fi
done
mkdir -p "$out"

# An inner doc comment (//!) may stand only at the head of a file, and include! puts the text into a module.
sed '/^\/\/!/d' "$source" > "$out/kriging.rs"

# For any x86-64, as the archive is. Symbols stay, for profiles.
flags=(--edition 2021 -C opt-level=3 -C codegen-units=1 -C debuginfo=0)
rustc "${flags[@]}" --crate-type rlib --crate-name scirs2_core "$root/tools/oracle/ndarray.rs" -o "$out/libscirs2_core.rlib"
BENCH_SOURCE="$out/kriging.rs" rustc "${flags[@]}" --crate-name bench -A dead_code -A unused_imports \
    --extern scirs2_core="$out/libscirs2_core.rlib" -L "native=$archive" -l static=nakwemol -l static=timed "$here/main.rs" -o "$out/bench"
echo "$out/bench"
