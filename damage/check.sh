#!/usr/bin/env bash
# The short run, after `python3 host/library.py`: seeded damage against second/, plain and under valgrind; the fuzzer's corpus and every stored case
# through its target. docs/DAMAGE.md says how the long ones are run.
set -euo pipefail
cd "$(dirname "$0")/.."

need() {
    command -v "$1" > /dev/null || { apt-get update -qq && apt-get install -y -qq "$1"; }
}
need gcc
need valgrind

python3 damage/run.py 2026 2000
gcc -std=c11 -O2 -Wall -Wextra -Werror -DREPLAY -Iinclude damage/fuzz.c target/staticlib/libkuhlabires.a -o target/replay
find damage/corpus second/cases examples -type f -name '*.obj' -exec target/replay {} +
find damage/corpus -type f -exec valgrind --quiet --error-exitcode=9 --leak-check=full target/replay {} +
