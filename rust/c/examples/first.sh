#!/usr/bin/env bash
# Installs the library, and compiles and runs the file first.c of the current folder. PACKAGE is the
# folder of the package, and PREFIX the folder in which the library is installed.
# shellcheck disable=SC2046 # What pkg-config prints are several arguments.
set -eu
"$PACKAGE/install.sh" "$PREFIX"
export PKG_CONFIG_PATH="$PREFIX/lib/pkgconfig"
cc -std=c11 -o first first.c $(pkg-config --cflags --libs deodarsieve)
LD_LIBRARY_PATH="$PREFIX/lib" ./first
