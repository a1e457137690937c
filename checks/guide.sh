#!/usr/bin/env bash
# Runs the commands of a page and compares what they answer with what the page says, letter for letter.
# usage: guide.sh [--write] [PAGE.md]     --write puts the answers into the page, which is docs/GUIDE.md if no other is named
#
# In a block ```console a line `$ COMMAND` is a command, lines `> ..` after it go on with it, and what follows up to
# the next command is its answer: standard output and standard error. All run in one shell, in an empty folder with
# examples/ in it. Blocks of other names are not run; a block ```console if TOOL is run where the command TOOL is there.
# The pictures that the commands leave are those beside the page.
set -uo pipefail
top=$(cd "$(dirname "$0")/.." && pwd)
write=
[ "${1:-}" = --write ] && write=yes && shift
page=$(readlink -f "${1:-$top/docs/GUIDE.md}")
program=$("$top/bin/build" spiral) && fast=$("$top/bin/build" spiral_fast) || exit 1
work=$(mktemp -d)
trap 'rm -rf "$work"' EXIT
mkdir "$work/bin" "$work/here"
ln -s "$program" "$work/bin/spiral"
ln -s "$fast" "$work/bin/spiral-fast"
ln -s "$top/examples" "$work/here/examples"
cd "$work/here" || exit 1
PATH=$work/bin:$PATH
export PATH

fence='```'
inside=
command=
status=0
commands=0

# Runs the command that was read, and writes what it answers.
run_command() {
  [ -n "$command" ] || return
  commands=$((commands + 1))
  (exit "$status")
  eval "$command" >"$work/answer" 2>&1 </dev/null
  status=$?
  cat "$work/answer"
  if [ -s "$work/answer" ] && [ -n "$(tail -c 1 "$work/answer")" ]; then
    echo
  fi
  command=
}

while IFS= read -r line <&3; do
  if [ "$inside" = console ]; then
    case $line in
    "> "*)
      command+=$'\n'${line#> }
      echo "$line"
      continue
      ;;
    '$ '* | "$fence") run_command ;;
    *) continue ;;
    esac
    [ "$line" = "$fence" ] && inside=
    [ "$line" = "$fence" ] || command=${line#\$ }
  elif [ -n "$inside" ]; then
    [ "$line" = "$fence" ] && inside=
  elif [[ $line == "$fence"* ]]; then
    inside=${line#"$fence"}
    inside=${inside:-text}
    if [[ $inside == "console if "* ]]; then
      tool=${inside#console if }
      inside=console
      command -v "$tool" >/dev/null || { inside=text && echo "skipped: $tool is not here" >&2; }
    fi
  fi
  echo "$line"
done 3<"$page" >"$work/page"

pictures=$(dirname "$page")/pictures
for picture in *.svg; do
  [ -e "$picture" ] || continue
  if [ -n "$write" ]; then
    mkdir -p "$pictures" && cp "$picture" "$pictures/"
  elif ! cmp "$picture" "$pictures/$picture"; then
    echo "guide: the picture differs"
    exit 1
  fi
done

if [ -n "$write" ]; then
  cp "$work/page" "$page"
elif ! diff -u "$page" "$work/page"; then
  echo "guide: ${page##*/} and the answers differ"
  exit 1
fi
echo "guide: ${page##*/}: $commands commands answered as written"
