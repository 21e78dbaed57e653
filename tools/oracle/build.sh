#!/usr/bin/env bash
# Builds the oracle: the original kriging.rs behind a driver that answers calls, unchanged but for its inner doc comments and for `exp`, which is the port's.
# And a second one, oracle_same_spot, in which the one constant below which a variogram is 0 is read from the call.
# Usage: tools/oracle/build.sh PATH-OF-KRIGING.RS [RUSTC-FLAG..]     writes target/oracle/ and nothing else; needs target/staticlib/libnakwemol.a
set -euo pipefail
source=${1:?path of the original kriging.rs}
shift
here=$(cd "$(dirname "$0")" && pwd)
root=$(cd "$here/../.." && pwd)
archive=${NAKWEMOL_ARCHIVE:-$root/target/staticlib}
out=${ORACLE_OUT:-$root/target/oracle}
if [ ! -f "$archive/libnakwemol.a" ]; then
    echo "$archive/libnakwemol.a is not there: make it by tools/build nakwemol, or name its folder in NAKWEMOL_ARCHIVE" >&2
    exit 1
fi
mkdir -p "$out"
out=$(cd "$out" && pwd)
flags=("${@:--O}")

# An inner doc comment (//!) may stand only at the head of a file, and include! puts the text into a module.
# A method of f64 cannot be put aside by another of its name, so the calls of `exp` are given the name of the one in exponential.rs.
sed -e '/^\/\/!/d' -e 's/\.exp()/.port_exp()/g' "$source" > "$out/kriging.rs"
sha256sum < "$source" | cut -d ' ' -f 1 > "$out/source.sha256"

# `evaluate` is the only place that compares a distance with the constant. The two eliminations compare a pivot with it, and keep it.
place='if h < f64::EPSILON {'
if [ "$(grep -cF "$place" "$out/kriging.rs")" != 1 ]; then
    echo "$source does not have '$place' exactly once" >&2
    exit 1
fi
sed "s/$place/if h < crate::same_spot::same_spot() {/" "$out/kriging.rs" > "$out/kriging_same_spot.rs"

linked() { # NAME SOURCE [RUSTC-FLAG..]
    local name=$1
    ORACLE_SOURCE=$2 rustc --edition 2021 "${flags[@]}" --crate-name "$name" -A dead_code --check-cfg 'cfg(same_spot)' "${@:3}" \
        --extern scirs2_core="$out/libscirs2_core.rlib" -L "native=$archive" -l static=nakwemol "$here/main.rs" -o "$out/$name"
    echo "$out/$name"
}

rustc --edition 2021 "${flags[@]}" --crate-type rlib --crate-name scirs2_core "$here/ndarray.rs" -o "$out/libscirs2_core.rlib"
linked oracle "$out/kriging.rs"
linked oracle_same_spot "$out/kriging_same_spot.rs" --cfg same_spot
