# What the benchmarks share: the built program, a folder for texts, and how a run is measured. Where FAST names a program,
# that one is measured, and nothing is built.
set -u
here=$(cd "$(dirname "${BASH_SOURCE[0]}")/.." && pwd)
folder=$(mktemp -d)
trap 'rm -rf "$folder"' EXIT

if [ -n "${FAST-}" ]; then
  program=$FAST
else
  "$here/fast" run /dev/null >/dev/null
  program=$here/crates/fast/out/fast
fi

# The milliseconds of a processor that the command takes on the file, the best of three.
milliseconds() {
  local least= took TIMEFORMAT=%U
  for _ in 1 2 3; do
    took=$( { time "$program" "$1" "$2" >/dev/null 2>&1; } 2>&1 | tr -d .)
    took=$((10#$took))
    if [ -z "$least" ] || [ "$took" -lt "$least" ]; then least=$took; fi
  done
  echo "$least"
}

# The instructions that the command takes on the file, which repeat whatever else the machine does; where there is no
# valgrind, the best of five times in microseconds.
if command -v valgrind >/dev/null; then
  unit=instructions
  work() {
    valgrind --tool=callgrind --callgrind-out-file=/dev/null "$program" "$1" "$2" 2>&1 >/dev/null |
      sed -n 's/.*Collected : //p'
  }
else
  unit=microseconds
  work() {
    local least= start took
    for _ in 1 2 3 4 5; do
      start=$(date +%s%N)
      "$program" "$1" "$2" >/dev/null
      took=$((($(date +%s%N) - start) / 1000))
      if [ -z "$least" ] || [ "$took" -lt "$least" ]; then least=$took; fi
    done
    echo "$least"
  }
fi

# Runs the command on texts of this kind, for each of these K: the kind is a function that prints the text for a K.
# Prints bytes and milliseconds, with the ratio to the line before, and the refusal where a text has one.
table() {
  local command=$1 kind=$2 count took previous=
  shift 2
  printf '%-12s %8s %8s %14s %8s\n' "$kind" K bytes milliseconds ratio
  for count in "$@"; do
    "$kind" "$count" >"$folder/text"
    "$program" "$command" "$folder/text" 2>/dev/null | grep '^refused'
    took=$(milliseconds "$command" "$folder/text")
    awk -v count="$count" -v bytes="$(wc -c <"$folder/text")" -v took="$took" -v previous="$previous" 'BEGIN {
      printf "%-12s %8s %8d %14d", "", count, bytes, took
      if (previous > 0) printf " %8.2f", took / previous
      printf "\n"
    }'
    previous=$took
  done
}

# Runs the command on texts of these many bytes: the kind is a function that fills the text to so many bytes. Prints the
# work less that of an empty text, with the ratio to the line before.
growth() {
  local command=$1 kind=$2 bytes took base previous=
  shift 2
  : >"$folder/empty"
  base=$(work "$command" "$folder/empty")
  printf '%-12s %8s %14s %8s\n' "$kind" bytes "$unit" ratio
  for bytes in "$@"; do
    "$kind" "$bytes"
    took=$(($(work "$command" "$folder/text") - base))
    awk -v bytes="$bytes" -v took="$took" -v previous="$previous" 'BEGIN {
      printf "%-12s %8d %14d", "", bytes, took
      if (previous > 0) printf " %8.2f", took / previous
      printf "\n"
    }'
    previous=$took
  done
}
