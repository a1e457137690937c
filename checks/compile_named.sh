#!/usr/bin/env bash
# Compiles two functions of `spiral-fast --name` for one transform into one program, with checks/named.c. Of each there
# are NAME.c and NAME.h in the folder.
# usage: compile_named.sh FOLDER NAME OTHER_NAME PROGRAM [COMPILER [FLAG ..]]
set -euo pipefail
here=$(cd "$(dirname "$0")" && pwd)
folder=$(readlink -f "$1")
first=$2
second=$3
program=$4
compiler=${5:-cc}
shift 4
[ $# -eq 0 ] || shift

# word_of NAME: the type of its words
word_of() {
  sed -n 's/^void .*(\(uint[0-9]*_t\) \*out.*/\1/p' "$folder/$1.h" | head -n 1
}

# what the arrays but the input hold before the first phase, by the header: any bytes, or 0
before=0
if grep -q ': any words before the first phase' "$folder/$first.h"; then
  before=165
fi
capitals=$(echo "$first" | tr a-z A-Z)
# (the texts have macros of their own, so those of named.c are for it alone)
compile=("$compiler" -std=gnu11 -Wall -Wextra -Werror -pthread "$@")
"${compile[@]}" \
  -DFIRST="$first" -DFIRST_PHASE="${first}_phase" -DFIRST_HEADER="\"$folder/$first.h\"" -DFIRST_WORD="$(word_of "$first")" \
  -DSECOND="$second" -DSECOND_HEADER="\"$folder/$second.h\"" -DSECOND_WORD="$(word_of "$second")" \
  -DSIZE="${capitals}_SIZE" -DARRAY_WORDS="${capitals}_WORDS" -DWORK="${capitals}_WORK" -DMODULUS="${capitals}_MODULUS" \
  -DPROCS="${capitals}_PROCS" -DPHASES="${capitals}_PHASES" -DBEFORE=$before -c "$here/named.c" -o "$program.o"
exec "${compile[@]}" "$program.o" "$folder/$first.c" "$folder/$second.c" -o "$program"
