#!/usr/bin/env bash
# Tries the wrong bodies that the gate leaves out for the time that they take: the prover must refuse each. The words are
# crates; without words it is all that have a folder of wrong bodies. It works on a copy. A crate takes the time of its proof,
# and half a minute for each body. The last line counts the crates below and their edits, too.
set -u
cd "$(dirname "$0")/.." || exit 1
copy=$(mktemp -d)
trap 'rm -rf "$copy"' EXIT
tried=()
git ls-files -z crates crates.txt HANDLES | xargs -0 cp --parents -t "$copy"
for folder in crates/*/wrong-bodies; do
  name=$(basename "$(dirname "$folder")")
  if [ $# -gt 0 ] && ! printf '%s\n' "$@" | grep -qx "$name"; then continue; fi
  mkdir -p "$copy/crates/$name/must-fail"
  mv "$copy/$folder"/*.edit "$copy/crates/$name/must-fail/"
  rmdir "$copy/$folder"
  tried+=("$name")
done
if [ ${#tried[@]} -eq 0 ]; then
  echo "no such crate has wrong bodies: $*" >&2
  exit 2
fi
names=$(IFS='|'; echo "${tried[*]}")
cd "$copy" && rt ci "${tried[@]}" | tee "$copy/log" | grep -E "^rt: must-fail ($names)/|NOT PROVED"
tail -n 1 "$copy/log"
