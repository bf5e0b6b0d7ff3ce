#!/usr/bin/env bash
# Runs each program of docs/LANGUAGE.md as it stands, and compares its report with the one that stands there. Ends with 0 where
# all are the same.
. "$(dirname "${BASH_SOURCE[0]}")/common.sh"
python3 "$here/bench/guide.py" "$program"
