#!/usr/bin/env bash
# examples/tune/tune.py on a small transform: it measures, keeps the choice, answers from there a second time, and writes the function.
set -euo pipefail
top=$(cd "$(dirname "$0")/.." && pwd)
folder=$(mktemp -d)
trap 'rm -rf "$folder"' EXIT
cd "$folder"
request='dft 64 mod 193 root 11'
"$top/examples/tune/tune.py" --quick --write forward "$request" >measured
tail -n 1 measured >choice
"$top/examples/tune/tune.py" "$request" >kept
cmp choice kept
cc -Wall -Werror -Wno-psabi -c forward.c
echo "tune: $(($(wc -l <measured) - 1)) candidates were timed, and the choice is kept"
