#!/usr/bin/env bash
# Compares the transform in examples/ready with what the programs write today, and runs it.
set -euo pipefail
top=$(cd "$(dirname "$0")/.." && pwd)
PATH=$top/bin:$PATH
folder=$(mktemp -d)
trap 'rm -rf "$folder"' EXIT
"$top/examples/ready/make.sh" "$folder"
for file in dft1024.c dft1024.h; do
  cmp "$folder/$file" "$top/examples/ready/$file"
done
for compiler in gcc clang; do
  "$compiler" -std=gnu11 -O2 -Wall -Wextra -Werror -Wno-psabi "$top"/examples/ready/{main,dft1024}.c -o "$folder/main"
  [ "$("$folder/main")" = 'all 1024 results are right' ]
done
echo 'ready: the transform in examples/ready is what the programs write, and right'
