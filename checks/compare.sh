#!/usr/bin/env bash
# Compiles the C text and the fast C text of each request of the tables with each compiler that is there, and compares
# what they make of some vectors with what `spiral run` writes, request beside request. The table of fast texts has its
# own requests, for moduli and lanes at the limits of words, and there each is also written as two functions to link,
# which run at once. Some also with ThreadSanitizer, and with AddressSanitizer and UBSan.
set -euo pipefail
top=$(cd "$(dirname "$0")/.." && pwd)
PATH=$top/bin:$PATH
program=$(build spiral)
fast=$(build spiral_fast)
all=$(mktemp -d)
trap 'rm -rf "$all"' EXIT

# begin FUNCTION WORD ..: calls it with a folder of its own, $work, beside as many others as there are processors
begin() {
  while [ "$(jobs -rp | wc -l)" -ge "$(nproc)" ]; do
    wait -n || true
  done
  count=$((${count:-0} + 1))
  (
    work=$(printf '%s/%03d' "$all" "$count")
    passed=0
    failed=0
    mkdir "$work"
    "$@" >"$work/said" 2>&1
    echo "$passed $failed" >"$work/count"
  ) &
}

# vectors SIZE COUNT: numbers below 2^64, the same at each run
vectors() {
  awk -v size="$1" -v count="$2" 'BEGIN { srand(7); for (v = 0; v < count; v++) for (k = 0; k < size; k++)
    printf "%d%s", int(rand() * 2147483648) * (1 + v), (k + 1 < size ? " " : "\n") }'
}

# size_of REQUEST: how many words a vector has; several sizes are joined by x
size_of() {
  echo "$(($(echo "$1" | cut -d' ' -f2 | tr x '*')))"
}

# extremes SIZE MODULUS: the greatest residue, 0, both by turns, and both at random
extremes() {
  awk -v size="$1" -v most="$(($2 - 1))" 'BEGIN { srand(7); for (v = 0; v < 4; v++) for (k = 0; k < size; k++) {
    great = v == 0 || (v == 2 && k % 2) || (v == 3 && rand() < 0.5)
    printf "%s%s", (great ? most : "0"), (k + 1 < size ? " " : "\n") } }'
}

# judged NAME SCRIPT WORD .. -- COMPILER [FLAG ..]: what the script makes of the words and of $work/program, by
# the compiler; the data and results stand beside it
judged() {
  local name=$1 script=$2 words=()
  shift 2
  while [ "$1" != -- ]; do
    words+=("$1")
    shift
  done
  shift
  if ! command -v "$1" >/dev/null; then
    echo "skipped: $1 is not here"
    return
  fi
  : >"$work/got"
  if "$script" "${words[@]}" "$work/program" "$@" 2>"$work/errors" &&
    "$work/program" <"$work/data" >"$work/got" 2>>"$work/errors" && cmp -s "$work/got" "$work/wanted"; then
    passed=$((passed + 1))
  else
    failed=$((failed + 1))
    echo "differs: $name by $*"
    head -n 5 "$work/errors"
    diff "$work/wanted" "$work/got" | head -n 4 | cut -c1-200 || true
  fi
}

# compared NAME COMPILER [FLAG ..]: the text in $work/text.c
compared() {
  local name=$1
  shift
  judged "$name" "$top/examples/compile.sh" "$work/text.c" -- "$@"
}

# linked NAME COMPILER [FLAG ..]: the functions `first` and `second` in $work
linked() {
  local name=$1
  shift
  judged "$name" "$top/checks/compile_named.sh" "$work" first second -- "$@"
}

# prepared REQUEST: the results that are wanted for the data
prepared() {
  { echo "$1" && cat "$work/data"; } | "$program" run >"$work/wanted"
}

# says WORDS TEXT: the text says that its arrays may hold these before the first phase
says() {
  grep -q ": $1 before the first phase" "$2" || { failed=$((failed + 1)) && echo "does not say $1: $2"; }
}

# fast_text REQUEST [WORD ..]: as the text
fast_text() {
  local request=$1
  shift
  echo "$request" | "$program" code | "$fast" "$@" >"$work/text.c"
  says 'any words' "$work/text.c"
}

# functions REQUEST [WORD ..]: as a function, and as another one with these words, each with its header
functions() {
  local request=$1
  shift
  echo "$request" | "$program" code | "$top/examples/function.sh" "$work/first"
  echo "$request" | "$program" code | "$top/examples/function.sh" "$work/second" "$@"
}

# by_request REQUEST: the C text and the fast C text of it
by_request() {
  vectors "$(size_of "$1")" 5 >"$work/data"
  prepared "$1"
  echo "$1" | "$program" c >"$work/text.c"
  compared "$1" gcc -O2
  compared "$1" clang -O2
  fast_text "$1"
  compared "fast text of $1" gcc -O2
  compared "fast text of $1" clang -O2
}

# sanitized REQUEST: the C text of it with sanitizers
sanitized() {
  vectors "$(size_of "$1")" 5 >"$work/data"
  prepared "$1"
  echo "$1" | "$program" c >"$work/text.c"
  compared "$1" gcc -O1 -g -fsanitize=thread
  compared "$1" gcc -O1 -g -fsanitize=address,undefined
}

# by_fast_request REQUEST: fast texts of it, with arrays and as functions to link
by_fast_request() {
  local request=$1 size modulus wide=64
  size=$(size_of "$request")
  modulus=$(echo "$request" | cut -d' ' -f4)
  { extremes "$size" "$modulus" && vectors "$size" 2; } >"$work/data"
  prepared "$request"
  fast_text "$request"
  compared "fast text of $request" gcc -O2
  compared "fast text of $request" clang -O3 -march=native
  if [ "$size" -le 256 ]; then
    compared "fast text of $request" gcc -O1 -g -fsanitize=address,undefined
  elif [[ $request == *procs* ]]; then
    compared "fast text of $request" gcc -O1 -g -fsanitize=thread
  fi
  [ "$modulus" -ge $((1 << 51)) ] || wide=52
  functions "$request" --words "$wide"
  says 'any words' "$work/first.h"
  linked "functions of $request" gcc -O2
  linked "functions of $request" clang -O3 -march=native
  if [ "$size" -le 256 ]; then
    linked "functions of $request" gcc -O1 -g -fsanitize=address,undefined
    linked "functions of $request" gcc -O1 -g -fsanitize=thread
  elif [[ $request == *procs* ]]; then
    linked "functions of $request" gcc -O1 -g -fsanitize=thread
  fi
}

# on_lanes REQUEST: fast texts with lanes from loops, where the listing is of one lane
on_lanes() {
  local request=$1 size
  size=$(size_of "$request")
  { extremes "$size" "$(echo "$request" | cut -d' ' -f4)" && vectors "$size" 2; } >"$work/data"
  prepared "$request"
  for lanes in 2 4 8 16; do
    fast_text "$request" --lanes "$lanes"
    compared "$lanes lanes from loops of $request" clang -O3 -march=native
  done
  compared "16 lanes from loops of $request" gcc -O2
  if [ "$size" -le 256 ]; then
    compared "16 lanes from loops of $request" gcc -O1 -g -fsanitize=address,undefined
  elif [[ $request == *procs* ]]; then
    compared "16 lanes from loops of $request" gcc -O1 -g -fsanitize=thread
  fi
}

# in_words_of_52 REQUEST: words of 52 bits, with the operation for their products and without it
in_words_of_52() {
  local request=$1 size
  size=$(size_of "$request")
  { extremes "$size" "$(echo "$request" | cut -d' ' -f4)" && vectors "$size" 2; } >"$work/data"
  prepared "$request"
  fast_text "$request" --words 52
  compared "52-bit words of $request" gcc -O2
  compared "52-bit words of $request" clang -O3 -march=native
  compared "52-bit words of $request" clang -O3 -march=native -mno-avx512ifma
  if [ "$size" -le 256 ]; then
    compared "52-bit words of $request" gcc -O1 -g -fsanitize=address,undefined
  fi
}

# in_words_of_16 REQUEST: words of 16 bits, in texts, with lanes from loops too, and in a function
in_words_of_16() {
  local request=$1 size
  size=$(size_of "$request")
  { extremes "$size" "$(echo "$request" | cut -d' ' -f4)" && vectors "$size" 2; } >"$work/data"
  prepared "$request"
  fast_text "$request" --words 16
  compared "16-bit words of $request" gcc -O2
  compared "16-bit words of $request" clang -O3 -march=native
  if [ "$size" -le 256 ]; then
    compared "16-bit words of $request" gcc -O1 -g -fsanitize=address,undefined
    compared "16-bit words of $request" clang -O1 -g -fsanitize=address,undefined
  fi
  functions "$request" --words 16
  linked "functions of 16-bit words of $request" gcc -O3 -march=native
  [[ $request != *lanes* ]] || return 0
  for lanes in 4 16; do
    fast_text "$request" --words 16 --lanes "$lanes"
    compared "$lanes lanes of 16-bit words from loops of $request" gcc -O3 -march=native
  done
}

# A listing with a place of constants alone, which numbers of 32 bits do not hold: as `exec` runs it
constant_place() {
  cat >"$work/listing" <<'END'
program size 8 mod 17 procs 1 line 1 lanes 1 regs 1
phase
ld r0 X[0+(0+(65536)/1*65536)%7*1]
st Y[0] r0
end
END
  vectors 8 5 >"$work/data"
  { cat "$work/listing" && echo && cat "$work/data"; } | "$program" exec >"$work/wanted"
  "$fast" <"$work/listing" >"$work/text.c"
  compared "fast text of a listing" gcc -O2
  compared "fast text of a listing" clang -O2
  compared "fast text of a listing" gcc -O1 -g -fsanitize=address,undefined
}

# by_listing BEFORE NAME [WORD ..]: the fast text of $work/listing, whose arrays may hold this before the first phase
by_listing() {
  local before=$1 name=$2
  shift 2
  vectors "$(sed -n '1s/.* size \([0-9]*\) .*/\1/p' "$work/listing")" 5 >"$work/data"
  { cat "$work/listing" && echo && cat "$work/data"; } | "$program" exec >"$work/wanted"
  "$fast" "$@" <"$work/listing" >"$work/text.c"
  says "$before" "$work/text.c"
  compared "fast text of $name" gcc -O2
  compared "fast text of $name" clang -O2
}

# by_formula MODULUS FORMULA [WORD ..]: the fast text of its listing
by_formula() {
  local modulus=$1 formula=$2
  shift 2
  echo "$formula" | "$program" compile --mod "$modulus" >"$work/listing"
  by_listing 'any words' "$formula" "$@"
}

# by_convolution REQUEST LIST [WORD ..]: the fast text of its listing
by_convolution() {
  local request=$1 list=$2
  shift 2
  { echo "$request" && echo "$list"; } | "$program" convolve --code >"$work/listing"
  by_listing 'any words' "$request" "$@"
}

# A listing that loads a word that it has not stored: before each vector that is 0, as `exec` has it
leftover_word() {
  cat >"$work/listing" <<'END'
program size 2 mod 17 procs 1 line 1 lanes 1 regs 2
phase
ld r0 X[0]
ld r1 A[0]
add r1 r0 r1
st A[0] r1
st Y[0] r1
st Y[1] r0
end
END
  by_listing 0 'a listing with leftovers'
}

while read -r request; do
  [ -n "$request" ] || continue
  begin by_fast_request "$request"
  [[ $request == *lanes* ]] || begin on_lanes "$request"
  [ "$(echo "$request" | cut -d' ' -f4)" -ge $((1 << 51)) ] || begin in_words_of_52 "$request"
  [ "$(echo "$request" | cut -d' ' -f4)" -ge $((1 << 15)) ] || begin in_words_of_16 "$request"
done <"$top/checks/fast_requests"
while read -r request; do
  [ -n "$request" ] || continue
  last=$request
  begin by_request "$request"
done <"$top/checks/requests"
begin sanitized "$last"
begin constant_place
begin leftover_word
begin by_formula 17 'SUM(TIMES(LEFT(DFT(2,16),2),L(4,2)),DFT(9,2))'
begin by_formula 2147389441 'TIMES(WHT(64),L(64,8))' --lanes 4
begin by_convolution 'conv 4 mod 17 root 4 unroll 2' '1 2 0 0'
begin by_convolution 'conv 4 mod 17 root 4' '1 2 0 0' --lanes 2
wait

passed=0
failed=0
for work in "$all"/*; do
  cat "$work/said"
  # what ended before it had counted has failed
  read -r right wrong <"$work/count" || { right=0 wrong=1 && echo "ended early: $work"; }
  passed=$((passed + right))
  failed=$((failed + wrong))
done
echo "examples: $passed passed, $failed failed"
[ "$failed" -eq 0 ]
