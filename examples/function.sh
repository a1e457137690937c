#!/usr/bin/env bash
# Writes a function of C and its header, NAME.c and NAME.h, of a listing on standard input; with --times NAME_times.c and NAME_times.h.
# usage: function.sh [FOLDER/]NAME [OPTION ..] <LISTING     with options of `spiral-fast`
# The program is the `spiral-fast` of the path, or else that of bin/.
set -euo pipefail
if [ $# -eq 0 ]; then
  sed -n '3s/^# //p' "$0" >&2
  exit 2
fi
PATH=$PATH:$(cd "$(dirname "$0")/.." && pwd)/bin
place=$1 name=${1##*/}
shift
for option; do
  if [ "$option" = --times ]; then place+=_times; fi
done
listing=$(mktemp)
trap 'rm -f "$listing"' EXIT
cat >"$listing"
spiral-fast --name "$name" "$@" <"$listing" >"$place.c"
spiral-fast --header "$@" --name "$name" <"$listing" >"$place.h"
