#!/usr/bin/env bash
# Counts the arrangements of a puzzle in parts, side by side, and adds them up.
#
# usage: count_parts.sh PROGRAM PUZZLE PARTS
#
# As many parts are counted at once as there are processors. It prints a line `arrangements N`, and fails where a part
# does, or where `edgematch total` refuses what they print.
set -euo pipefail

said=$(sed -n '2,/^set/s/^# \{0,1\}//p' "$0")
case ${1:-} in
  --help | -h)
    echo "$said"
    exit
    ;;
esac
if [ $# -ne 3 ] || [[ ! $3 =~ ^[1-9][0-9]*$ ]]; then
  echo "$said" >&2
  exit 2
fi
program=$1 puzzle=$2 parts=$3
if ! command -v -- "$program" >/dev/null || [ ! -f "$puzzle" ]; then
  echo "count_parts: there is no program $program, or no puzzle $puzzle" >&2
  exit 2
fi

seq "$parts" | xargs -P "$(nproc)" -I "{}" "$program" count "$puzzle" --part "{}/$parts" | "$program" total -
