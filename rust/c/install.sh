#!/usr/bin/env bash
# Builds the C library with cargo, and installs it.
set -euo pipefail

usage() {
    cat <<'TEXT'
usage: install.sh [--static] PREFIX

Builds the C library with cargo, and installs in the folder PREFIX

  include/deodarsieve.h
  lib/libdeodarsieve_c.a
  lib/libdeodarsieve_c.so        without --static
  lib/pkgconfig/deodarsieve.pc

With --static it removes a shared library that an earlier call installed in PREFIX, so that the linker
takes the static library. CARGO is the cargo command to run, by default cargo.
TEXT
}

is_static=no
if [ "${1-}" = --static ]; then
    is_static=yes
    shift
fi
case "$#:${1-}" in
1:--help)
    usage
    exit
    ;;
1: | 1:-*)
    usage >&2
    exit 2
    ;;
1:*) prefix=$(realpath -m -- "$1") ;;
*)
    usage >&2
    exit 2
    ;;
esac
cargo=${CARGO:-cargo}
[[ $cargo != */* ]] || cargo=$(realpath -- "$cargo")
cd "$(dirname "$(readlink -f "$0")")"

# Cargo prints the files that it built on standard output. On standard error rustc prints the system
# libraries that a program needs if it links the static library.
log=$(mktemp)
trap 'rm -f "$log"' EXIT
files=$("$cargo" rustc --release --lib --message-format json-render-diagnostics -- \
    --print native-static-libs 2>"$log") || {
    cat "$log" >&2
    exit 1
}
built=$(grep -om 1 '[^"]*/libdeodarsieve_c\.a"' <<<"$files")
std_libs=$(sed -n 's/^note: native-static-libs: //p' "$log")
version=$("$cargo" pkgid | sed 's/.*[#@]//')

mkdir -p "$prefix/include" "$prefix/lib/pkgconfig"
cp include/deodarsieve.h "$prefix/include/"
cp "${built%\"}" "$prefix/lib/"
if [ $is_static = yes ]; then
    rm -f "$prefix/lib/libdeodarsieve_c.so"
else
    cp "${built%.a\"}.so" "$prefix/lib/"
fi
template=$(<deodarsieve.pc.in)
# pkg-config splits paths at spaces, except at those after a backslash.
escaped=${prefix//' '/'\ '}
template=${template//@PREFIX@/"$escaped"}
template=${template//@VERSION@/"$version"}
echo "${template//@STD_LIBS@/"$std_libs"}" >"$prefix/lib/pkgconfig/deodarsieve.pc"
