#!/usr/bin/env bash
# Writes dft1024.c and dft1024.h here: the transform of 1024 words modulo a prime of 60 bits, in eight lanes.
# usage: make.sh [FOLDER]     into another folder
set -euo pipefail
here=$(cd "$(dirname "$0")" && pwd)
PATH=$PATH:$here/../../bin
echo 'dft 1024 mod 1152921504606830593 root 984081769261068913 lanes 8 unroll 16' | spiral code |
  "$here/../function.sh" "${1:-$here}/dft1024"
