#!/usr/bin/env bash
# Prints how long the planner takes: the search for the least plan, and the check of its certificate. It judges nothing.
set -euo pipefail
top=$(cd "$(dirname "$0")/.." && pwd)
cd "$top/crates/plan_times"
[ -x out/plan_times ] || rt run </dev/null >/dev/null 2>&1
for request in 'dft 65536 mod 65537 root 3' 'dft 65520 mod 65521 root 17' 'dft 30030 mod 120121 root 106676'; do
  echo "$request"
  echo "$request" | out/plan_times
done
