#!/bin/sh
# Tries the comparison on the stand-in: no difference without a mutation, and a
# difference for every mutation of mutations.txt. Usage: check.sh WORK_FOLDER
set -eu
here=$(cd "$(dirname "$0")" && pwd)
work=${1:?a folder for the builds}
mkdir -p "$work/lib"
export LOOKAHEAD_LIB_DIR="$work/lib" CARGO_TARGET_DIR="$work/target"

# Builds the stand-in with one mutation and links the comparison with it.
build() {
    gcc -O2 -DMUTATION="$1" -I"$here/../../../include" -c "$here/stub.c" -o "$work/stub.o"
    rm -f "$work/lib/liblookahead_c.a"
    ar rcs "$work/lib/liblookahead_c.a" "$work/stub.o"
    (cd "$here/.." && cargo build --release --offline --quiet)
}

build 0
"$work/target/release/compare" | tail -n 1
missed=0
while read -r number what; do
    build "$number"
    status=0
    "$work/target/release/compare" > "$work/out.txt" || status=$?
    if [ "$status" -eq 1 ]; then
        echo "caught $number ($what): $(grep -m 1 difference "$work/out.txt")"
    else
        echo "MISSED $number ($what), status $status"
        missed=$((missed + 1))
    fi
done < "$here/mutations.txt"
echo "$missed missed"
[ "$missed" -eq 0 ]
