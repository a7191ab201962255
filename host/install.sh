#!/usr/bin/env bash
# Installs the C library below PREFIX: include/kuhlabires.h, lib/libkuhlabires.a and lib/pkgconfig/kuhlabires.pc. A C program is then built by
#     cc program.c $(pkg-config --cflags --libs kuhlabires)
# and the Rust crate by KUHLABIRES_ARCHIVE=PREFIX/lib/libkuhlabires.a. The archive is made by `python3 host/library.py` where it is not there.
set -euo pipefail
if [ $# != 1 ] || [ -z "$1" ]; then
    echo "usage: host/install.sh PREFIX" >&2
    exit 2
fi
mkdir -p "$1"
prefix=$(cd "$1" && pwd)
cd "$(dirname "$0")/.."
archive=target/staticlib/libkuhlabires.a
[ -f "$archive" ] || python3 host/library.py

version=$(sed -n 's/^#define KUHLABIRES_VERSION "\(.*\)"$/\1/p' include/kuhlabires.h)
install -d "$prefix/include" "$prefix/lib/pkgconfig"
install -m 644 include/kuhlabires.h "$prefix/include/kuhlabires.h"
install -m 644 "$archive" "$prefix/lib/libkuhlabires.a"
cat > "$prefix/lib/pkgconfig/kuhlabires.pc" << END
prefix=$prefix
includedir=\${prefix}/include
libdir=\${prefix}/lib

Name: kuhlabires
Description: A verified reader, tidier and sampler of Wavefront .obj files
Version: $version
Cflags: -I\${includedir}
Libs: -L\${libdir} -lkuhlabires
END
echo "kuhlabires $version below $prefix"
