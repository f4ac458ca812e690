# shellcheck shell=bash
# What the scripts of bench/ share, by `source`. They go on from the top of the repository.
#
# FISCA names a built program to measure, in the place of crates/fisca/out/fisca, which bin/fisca builds; FISCA_BENCH
# one in the place of crates/fisca_bench/out/fisca_bench, which rt builds. BENCH_WITH has words that stand before each
# measured command, as `chrt -f 50`.
for name in FISCA FISCA_BENCH FISCA_BEFORE; do
  [ -z "${!name:-}" ] || export "$name=$(readlink -m "${!name}")"
done
cd "$(dirname "${BASH_SOURCE[0]}")/../.." || exit 2
me=bench/$(basename "$0")
out=bench/out
peers=$out/peers
mkdir -p "$peers"
read -r -a with <<<"${BENCH_WITH:-}"

# tell WORD..: a line on standard error
tell() { echo "$me: $*" >&2; }

# need COMMAND..: ends the script where one of these commands is missing
need() {
  local tool
  for tool in "$@"; do
    command -v "$tool" >/dev/null || { tell "no command $tool on PATH: $PATH"; exit 127; }
  done
}

# find_program: sets `fisca` to the program, which is built where there is none
find_program() {
  fisca=${FISCA:-crates/fisca/out/fisca}
  [ -n "${FISCA:-}" ] || [ -x "$fisca" ] || bin/fisca --version >/dev/null
  [ -x "$fisca" ] || { tell "no program $fisca"; exit 1; }
}

# find_bench: sets `bench` to the program that measures the crates, which is brought up to date
find_bench() {
  bench=${FISCA_BENCH:-crates/fisca_bench/out/fisca_bench}
  if [ -z "${FISCA_BENCH:-}" ]; then
    need rt
    tell "building fisca_bench"
    (cd crates/fisca_bench && rt run >/dev/null) || { tell "fisca_bench did not build"; exit 1; }
  fi
  [ -x "$bench" ] || { tell "no program $bench"; exit 1; }
}

# compile SOURCE [OPTION..]: makes a program of bench/out/peers from a Rust source of bench/
compile() {
  local source=$1
  shift
  need rustc
  rustc -O --edition 2024 "$@" -o "$peers/$(basename "$source" .rs)" "bench/$source" ||
    { tell "bench/$source did not compile"; exit 1; }
}

# seconds FILE WORD..: the user and system seconds of one run that writes FILE
seconds() {
  local file=$1
  shift
  { TIMEFORMAT='%U %S'; time "${with[@]}" "$@" >"$file"; } 2>&1 | awk 'END { print $1 + $2 }'
}

# spent COUNT FILE WORD..: the user and system seconds of one of so many runs that write FILE
spent() {
  local count=$1 file=$2 i
  shift 2
  { TIMEFORMAT='%U %S'; time for ((i = 0; i < count; i++)); do "${with[@]}" "$@" >"$file"; done; } 2>&1 |
    awk -v count="$count" 'END { printf "%.6f\n", ($1 + $2) / count }'
}

# microseconds WORD..: the time of one run from start to end
microseconds() {
  local start=${EPOCHREALTIME/[.,]/}
  "${with[@]}" "$@" >/dev/null
  echo $((${EPOCHREALTIME/[.,]/} - start))
}

# least NUMBER..: the least of them
least() { printf '%s\n' "$@" | sort -g | head -1; }

# least_and_sum: the least time of the lines "nanoseconds checksum" on standard input, and their one checksum
least_and_sum() {
  awk 'NR == 1 || $1 < best { best = $1 } NR > 1 && $2 != sum { bad = 1 } { sum = $2 } END { if (bad) exit 1; print best, sum }'
}

# peak WORD..: the peak resident size in KiB, where the machine tells it
peak() {
  if [ -x /usr/bin/time ]; then
    { /usr/bin/time -f %M "$@" >/dev/null; } 2>&1 | tail -1
  else
    echo '?'
  fi
}
