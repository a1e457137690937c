#!/usr/bin/env bash
# Builds a program of products modulo x^SIZE + 1, with functions of `spiral-fast`.
# usage: build.sh SIZE M 'WORDS OF THE REQUEST' PROGRAM [FLAG ..]
#        build.sh kyber PROGRAM [FLAG ..]
#   build.sh 1024 12289 'lanes 8 unroll 16' falcon -O3 -march=native
# The programs are `spiral` and `spiral-fast` of the path, or else of bin/. CC names the compiler (cc). LISTING_OPTIONS are of
# negacyclic.py ('--twist 1753 --order reversed'), FAST_OPTIONS of spiral-fast ('--words 52 --lanes 8').
set -euo pipefail
if [ "${1:-}" = kyber ] && [ $# -ge 2 ]; then
  program=$2 kyber=-DKYBER
  shift 2
elif [ $# -ge 4 ]; then
  size=$1 modulus=$2 words=$3 program=$4 kyber=
  shift 4
else
  sed -n '3,4s/^# //p' "$0" >&2
  exit 2
fi
here=$(cd "$(dirname "$0")" && pwd)
PATH=$PATH:$here/../../bin
folder=$program.texts
read -ra listing_options <<<"${LISTING_OPTIONS:-}"
read -ra fast_options <<<"${FAST_OPTIONS:-}"
mkdir -p "$folder"
sources=("$folder"/{forward,back}.c)
for name in forward back; do
  if [ -n "$kyber" ]; then
    "$here/kyber.py" "$name" | spiral compile --mod 3329
  else
    "$here/negacyclic.py" "$name" "$size" "$modulus" "$words" "${listing_options[@]}"
  fi | "$here/../function.sh" "$folder/$name" "${fast_options[@]}"
done
if [ -z "$kyber" ]; then
  "$here/negacyclic.py" forward "$size" "$modulus" "$words" "${listing_options[@]}" |
    "$here/../function.sh" "$folder/forward" --times "${fast_options[@]}"
  sources+=("$folder/forward_times.c")
fi
word=$(sed -n 's/^void forward(\(uint[0-9]*_t\) .*/\1/p' "$folder/forward.h")
exec "${CC:-cc}" -std=gnu11 -Wall -Wextra -Werror -Wno-psabi "${@:--O2}" ${kyber:+"$kyber"} -DWORD="$word" \
  -I"$folder" "$here/negacyclic.c" "${sources[@]}" -o "$program"
