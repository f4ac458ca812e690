#!/bin/sh
# population.sh RULES FILE [OPTION..]: what 'fisca calc RULES FILE --lines' writes, in order, worked out on all cores by
# GNU parallel.
#
# FILE has a situation on each line; 1000 of them, or as many as BLOCK says, are given to a process at a time. Options
# are those of parallel, such as --jobs 4. Faults are told of the lines of '-'. The status is the greatest of all lines,
# as that of one process.

if [ "$1" = --block ]; then
  # the numbers of a block's lines become those of the file, on both outputs
  before=$((($2 - 1) * BLOCK))
  room=$(mktemp -d) || exit 5
  trap 'rm -r "$room"' EXIT
  "$FISCA" calc --lines -- "$RULES" - >"$room/out" 2>"$room/told"
  status=$?
  awk -F '\t' -v OFS='\t' -v before="$before" '{ $1 += before } 1' "$room/out"
  awk -F : -v OFS=: -v before="$before" '$2 == " -" && $3 ~ /^[0-9]+$/ { $3 += before } 1' "$room/told" >&2
  exit "$status"
fi

RULES=$(realpath "$1") file=$2 SCRIPT=$(realpath "$0") FISCA=${FISCA:-fisca} BLOCK=${BLOCK:-1000}
export RULES SCRIPT FISCA BLOCK
shift 2
log=$(mktemp) || exit 5
trap 'rm -f "$log"' EXIT
parallel --will-cite --pipe --keep-order -N "$BLOCK" --block 16M --joblog "$log" "$@" '"$SCRIPT" --block {#}' <"$file"
exit "$(awk -F '\t' '
  NR > 1 { status = $8 > 0 ? 128 + $8 : $7; if (status > most) most = status }
  END { print most + 0 }' "$log")"
