#!/usr/bin/env bash
# Refuses each allocation of some calls of both programs in turn: each run has to end with status 12, `spiral: out of memory`
# and no output, and the first run that is refused nothing has to write and say what the call does. Prints how many were refused.
set -euo pipefail
top=$(cd "$(dirname "$0")/.." && pwd)
program=$("$top/bin/build" spiral)
fast=$("$top/bin/build" spiral_fast)
work=$(mktemp -d)
trap 'rm -rf "$work"' EXIT
cc -O1 -shared -fPIC -Wall -Wextra -o "$work/refuse.so" "$top/checks/refuse.c" -ldl

# refused_in_turn REQUEST PROGRAM WORD ..: the call with these words on $work/input
refused_in_turn() {
  local request=$1 program=$2 number=1 status note refused
  shift 2
  "$program" "$@" <"$work/input" >"$work/wanted" 2>"$work/wanted note"
  refused="12 $(basename "$program"): out of memory"
  while true; do
    status=0
    REFUSED=$number LD_PRELOAD=$work/refuse.so "$program" "$@" <"$work/input" >"$work/got" 2>"$work/note" || status=$?
    mapfile -t note <"$work/note"
    [ ! -s "$work/got" ] && [ "$status ${note[*]}" = "$refused" ] || break
    number=$((number + 1))
  done
  if [ "$status" -ne 0 ] || ! cmp -s "$work/note" "$work/wanted note" || ! cmp -s "$work/got" "$work/wanted" || [ "$number" -eq 1 ]; then
    echo "wrong: $request: $(basename "$program") $*: allocation $number refused, status $status: $(head -c 200 "$work/note")"
    exit 1
  fi
  echo "$request: $(basename "$program") $*: $((number - 1)) refused"
}

# of_request REQUEST VECTOR
of_request() {
  local request=$1 vector=$2 command
  printf '%s\n%s\n' "$request" "$vector" >"$work/input"
  for command in plan formula cert code c run sample; do
    refused_in_turn "$request" "$program" "$command"
  done
  refused_in_turn "$request" "$program" trace --schedule rr:3
  refused_in_turn "$request" "$program" run --buffers
  { echo "$request" && echo "$request" | "$program" cert; } >"$work/input"
  refused_in_turn "$request" "$program" check
  { echo "$request" | "$program" code && echo && echo "$vector"; } >"$work/input"
  refused_in_turn "$request" "$program" exec
  echo "$request" | "$program" code >"$work/input"
  refused_in_turn "$request" "$fast"
  refused_in_turn "$request" "$fast" --words 52
  refused_in_turn "$request" "$fast" --lanes 2
  refused_in_turn "$request" "$fast" --name transform
  refused_in_turn "$request" "$fast" --name transform --header
  refused_in_turn "$request" "$fast" --name transform --times
  refused_in_turn "$request" "$fast" --name transform --times --header
}

of_request 'dft 4 mod 17 root 4' '1 2 3 4'
of_request 'dft 4 mod 17 root 4 procs 2 line 1' '1 2 3 4'
of_request 'dft 16 mod 17 root 3 unroll 4' '0 1 0 0 0 0 0 0 0 0 0 0 0 0 0 0'
of_request 'dft 16 mod 17 root 3 procs 2 line 2 lanes 2' '0 1 0 0 0 0 0 0 0 0 0 0 0 0 0 0'
