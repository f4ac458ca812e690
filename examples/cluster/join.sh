#!/bin/sh
# join.sh FOLDER N OUT: the N parts of a run, as part.sh leaves them in FOLDER, in one file: what one run writes.
# Status 1 where one is missing.
folder=$1 parts=$2 out=$3

for part in $(seq "$parts"); do
  [ -e "$folder/$part" ] || { echo "join.sh: part $part is missing" >&2; exit 1; }
done
for part in $(seq "$((parts - 1))"); do
  head -n -1 "$folder/$part" || exit
done >"$out.begun" && cat "$folder/$parts" >>"$out.begun" && mv "$out.begun" "$out"
