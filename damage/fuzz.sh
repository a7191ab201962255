#!/usr/bin/env bash
# bash damage/fuzz.sh SECONDS: builds the proved library once more, with AddressSanitizer and libFuzzer's counters in it, and fuzzes it for so long.
#
# The library is compiled from the same LLVM module as the one that is shipped: the kit's clang is called through a wrapper that keeps the module.
# Made in target/damage/: fuzz (the fuzzer), drive (drive.c with AddressSanitizer, for run.py), corpus/ (what the fuzzer found worth keeping),
# found-* (texts that broke something).
set -euo pipefail
cd "$(dirname "$0")/.."

command -v clang > /dev/null && command -v valgrind > /dev/null ||
    { apt-get update -qq && apt-get install -y -qq clang llvm libclang-rt-14-dev valgrind; }

tools=$(dirname "$(dirname "$(readlink -f "$(command -v rt)")")")/toolchain
made=$PWD/target/damage
mkdir -p "$made/corpus"
# Outside the repository: rt ci takes no link in it.
wrapped=$(mktemp -d)
trap 'rm -rf "$wrapped"' EXIT
mkdir "$wrapped/bin"
ln -s "$tools/lib" "$wrapped/lib"
for tool in "$tools"/bin/*; do ln -s "$tool" "$wrapped/bin/"; done
rm "$wrapped/bin/clang"
cat > "$wrapped/bin/clang" << END
#!/bin/sh
cp module.bc "$made/module.bc"
exec "$tools/bin/clang" "\$@"
END
chmod +x "$wrapped/bin/clang"
python3 host/library.py --with "$wrapped" "$made/libkuhlabires.a" > "$made/library.log" || { cat "$made/library.log"; exit 1; }

target=--target=x86_64-unknown-linux-gnu
"$tools/bin/clang" $target -Xclang -disable-llvm-passes -S -emit-llvm -x ir "$made/module.bc" -o "$made/module.ll"
sed -i '/^attributes .*"probe-stack"/s/{/{ sanitize_address/' "$made/module.ll"
grep -q '{ sanitize_address' "$made/module.ll"
"$tools/bin/clang" $target -fsanitize=address,fuzzer-no-link -fno-sanitize-ignorelist -fPIC -O2 -c -x ir "$made/module.ll" -o "$made/module.o"
flags="-std=c11 -O1 -g -Wall -Wextra -Werror -Iinclude"
# shellcheck disable=SC2086
clang $flags -fsanitize=fuzzer,address damage/fuzz.c "$made/module.o" -o "$made/fuzz"
# shellcheck disable=SC2086
clang $flags -fsanitize=address damage/drive.c "$made/module.o" -o "$made/drive"

python3 damage/kinds.py > "$made/words"
mapfile -t seeds < <(find second/cases -type d)
nice -n 19 "$made/fuzz" -seed=2026 -max_len=2048 -max_total_time="$1" -dict="$made/words" -print_final_stats=1 -artifact_prefix="$made/found-" \
    "$made/corpus" damage/corpus examples "${seeds[@]}" 2>&1 | tee "$made/fuzz.log" | grep -e INITED -e DONE -e Done -e stat:: -e 'not so' -e ERROR
