#!/usr/bin/env bash
# Builds the static library, the Rust crate with its command, and the C example against the library as install.sh leaves it, and holds what they write
# against host/tests/expected. With --built it takes the static library that stands.
set -euo pipefail
cd "$(dirname "$0")/.."

need() {
    command -v "$1" > /dev/null || { apt-get update -qq && apt-get install -y -qq "$2"; }
}
need cargo cargo
need gcc gcc
need sqlite3 sqlite3
# A shell's patterns give files in the order of their bytes.
export LC_ALL=C

[ "${1:-}" = --built ] || python3 host/library.py
(cd host && cargo build --release --offline --quiet && cargo test --release --offline --quiet)

# The flags of the installed library: by pkg-config, or as the file has them where that is not at hand.
installed=$(mktemp -d)
trap 'rm -rf "$installed"' EXIT
bash host/install.sh "$installed"
if command -v pkg-config > /dev/null; then
    flags=$(PKG_CONFIG_PATH="$installed/lib/pkgconfig" pkg-config --cflags --libs kuhlabires)
else
    flags=$(sed -n 's/^Cflags: //p; s/^Libs: //p' "$installed/lib/pkgconfig/kuhlabires.pc" | sed "s|\${includedir}|$installed/include|; s|\${libdir}|$installed/lib|" | tr '\n' ' ')
fi
# shellcheck disable=SC2086
gcc -std=c11 -O2 -Wall -Wextra -Werror examples/points.c $flags -o target/points
! command -v g++ > /dev/null || g++ -std=c++11 -Wall -Wextra -Werror -fsyntax-only -x c++ include/kuhlabires.h
watched=-fsanitize=undefined,address
echo 'int main(void) { return 0; }' | gcc $watched -xc - -o target/lent 2> /dev/null || watched=
# shellcheck disable=SC2086
gcc -std=c11 -O1 -Wall -Wextra -Werror $watched host/tests/lent.c $flags -o target/lent

command=host/target/release/kuhlabires
passed=0
failed=0

# holds NAME STATUS PROGRAM ARGUMENT..: the program writes expected/NAME.txt and ends with that status.
holds() {
    local name=$1 status=$2 got=0
    shift 2
    "$@" > target/written.txt 2>&1 || got=$?
    if [ "$got" = "$status" ] && cmp -s target/written.txt "host/tests/expected/$name.txt"; then
        passed=$((passed + 1))
    else
        failed=$((failed + 1))
        echo "$name: $* ended with $got, not $status, or wrote something else:"
        diff "host/tests/expected/$name.txt" target/written.txt | head -n 5 || true
    fi
}

while read -r name status arguments; do
    case $name in '' | '#'*) continue ;; esac
    # shellcheck disable=SC2086
    holds "$name" "$status" "$command" $arguments < /dev/null
done < host/tests/calls.txt
holds plate-tidy 0 "$command" tidy - < examples/plate.obj
holds plate-weights 0 "$command" tidy --weights - < examples/plate.obj
while read -r name file; do
    case $name in '' | '#'*) continue ;; esac
    rm -rf target/database
    "$command" tables "$file" --csv target/database
    (cd target/database && sqlite3 part.db < load.sql)
    holds "$name" 0 sqlite3 target/database/part.db < host/tests/parts.sql
done < host/tests/databases.txt
holds rail-points 0 target/points examples/chair-rail.obj 1 16
holds wing-points 0 target/points examples/foam-wing.obj 1 100
holds seat-points-curv2 0 target/points examples/seat.obj 1 5
holds wing-polyline 0 target/points examples/foam-wing.obj 1 polyline 500
holds seat-polyline-curv2 0 target/points examples/seat.obj 2 polyline 10000
holds lent 0 target/lent
for arguments in "" "check" "points examples/plate.obj 1" "points examples/plate.obj one 8" "polyline examples/foam-wing.obj 1" \
    "polyline examples/foam-wing.obj 1 fine" "polyline examples/foam-wing.obj 1 0.0000005" "polyline examples/foam-wing.obj 1 3000" "cubic examples/chair-rail.obj" "tidy no-such-file.obj" "check examples/plate.obj --weights" "tables examples/plate.obj" "tables examples/plate.obj --csv" "tables examples/plate.obj --csv examples/plate.obj" "paint examples/plate.obj"; do
    got=0
    # shellcheck disable=SC2086
    "$command" $arguments > /dev/null 2>&1 || got=$?
    if [ "$got" = 2 ]; then passed=$((passed + 1)); else failed=$((failed + 1)) && echo "'$arguments' ended with $got, not 2"; fi
done
for arguments in "" "examples/chair-rail.obj 1" "examples/chair-rail.obj one 8" "examples/chair-rail.obj 1 8x" "examples/chair-rail.obj 1 -8" \
    "examples/chair-rail.obj 4294967296 8" "examples/chair-rail.obj 1 polyline" "examples/chair-rail.obj 1 polyline -5" \
    "examples/chair-rail.obj 1 polyline 2147483648" "examples/chair-rail.obj 1 polyline 500 more" "examples/chair-rail.obj 1 run 500" \
    "no-such-file.obj 1 8"; do
    got=0
    # shellcheck disable=SC2086
    target/points $arguments > /dev/null 2>&1 || got=$?
    if [ "$got" = 2 ]; then passed=$((passed + 1)); else failed=$((failed + 1)) && echo "points '$arguments' ended with $got, not 2"; fi
done

echo "host: $passed passed, $failed failed"
[ "$failed" = 0 ]
