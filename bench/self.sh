#!/usr/bin/env bash
# Measures the program that is made from a number: its text is made, read, checked and run.
. "$(dirname "${BASH_SOURCE[0]}")/common.sh"

printf '%8s %14s %8s %s\n' N milliseconds ratio report
previous=
for count in 1 5 20 25 50 100 200; do
  took=$(milliseconds self "$count")
  awk -v count="$count" -v took="$took" -v previous="$previous" -v report="$("$program" self "$count")" 'BEGIN {
    printf "%8s %14d %8s %s\n", count, took, (previous > 0 ? sprintf("%.2f", took / previous) : ""), report
  }'
  previous=$took
done
