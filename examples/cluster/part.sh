#!/bin/sh
#SBATCH --job-name=fisca --cpus-per-task=1 --requeue
# part.sh RULES FILE FOLDER [I N]: part I of N of a run, in FOLDER under the name I, whole or not at all. Where it is
# there nothing is done.
#
# As a Slurm array I and N are those of the task:  sbatch --wait --array=1-16 part.sh RULES FILE FOLDER
# The same line once more works out the parts that are missing. Status: that of fisca, 75 where a part was cut short.
rules=$1 file=$2 folder=$3
part=${4:-$SLURM_ARRAY_TASK_ID} parts=${5:-$SLURM_ARRAY_TASK_COUNT}
fisca=${FISCA:-fisca}

[ -e "$folder/$part" ] && exit
size=$("$fisca" size -- "$rules" "$file") || exit
stop=$((size * part / parts))
begun=$(mktemp "$folder/$part.XXXXXX") || exit 5
trap 'rm -f "$begun"' EXIT
trap 'exit 143' TERM INT
"$fisca" run --part="$part/$parts" -- "$rules" "$file" >"$begun" || exit
# only a part whose last line is right gets its name
if [ "$stop" = "$size" ]; then last=end; else last="more $stop"; fi
[ "$(tail -n 1 "$begun")" = "$last" ] || exit 75
mv "$begun" "$folder/$part"
