#!/usr/bin/env bash
# Builds the program of products of integers by three primes of 50 bits, with functions of `spiral-fast`.
# usage: build_three.sh SIZE 'WORDS OF THE REQUESTS' PROGRAM [FLAG ..]
#   build_three.sh 32768 'lanes 8 unroll 16' three -O3 -march=native
# Two integers of together at most SIZE limbs of 64 bits can be multiplied. BITS=52 takes words of 52 bits, not 64,
# which are faster where the processor multiplies 52-bit numbers (AVX-512 IFMA). LANES=8 makes eight lanes of the
# loops of requests without lanes. The programs are `spiral` and `spiral-fast` of the path, or else of bin/. CC names the
# compiler (cc), and MAIN the main file, if not main.c.
set -euo pipefail
if [ $# -lt 3 ]; then
  sed -n '3s/^# //p' "$0" >&2
  exit 2
fi
here=$(cd "$(dirname "$0")" && pwd)
PATH=$PATH:$here/../../bin
size=$1 words=$2 program=$3
shift 3
folder=$program.texts
mkdir -p "$folder"

# text NAME ROOT: a function and its header
text() {
  echo "dft $size mod $modulus root $2${words:+ $words}" | spiral code |
    "$here/../function.sh" "$folder/$1" --words "${BITS:-64}" ${LANES:+--lanes "$LANES"}
}

chosen=$(python3 "$here/../choose.py" "$size" 50 3)
number=0
while read -r modulus root _; do
  text "forward$number" "$root"
  text "back$number" "$(python3 -c "print(pow($root, -1, $modulus))")"
  number=$((number + 1))
done <<<"$chosen"
read -ra libraries <<<"${LIBRARIES:-}"
exec "${CC:-cc}" -std=gnu11 -Wall -Wextra -Werror -Wno-psabi -pthread "${@:--O2}" -DTHREE -DSIZE="$size" -I"$folder" \
  "${MAIN:-$here/main.c}" "$folder"/{forward,back}{0,1,2}.c -o "$program" "${libraries[@]}"
