#!/usr/bin/env bash
# Prints how long reading the largest plan takes: 4,096 cuts, rows and moves included. Not a test.
# Build the program first: (cd crates/read_trials && rt run < stdin)
set -eu
cd "$(dirname "$0")/.."
names() { for i in $(seq 1 "$2"); do printf '%s' "$1"; printf "\\x$(printf %x $((97 + i % 26)))\\x$(printf %x $((97 + i / 26)))"; [ "$i" = "$2" ] || printf .; done; }
plan="|($(names p 31),$(names q 33)).a"
times=${1:-100}
input=$(mktemp)
trap 'rm -f "$input"' EXIT
for _ in $(seq 1 "$times"); do printf 'w %s\n' "$plan"; done > "$input"
start=$(date +%s%N)
crates/read_trials/out/read_trials < "$input" | sort | uniq -c
end=$(date +%s%N)
echo "$times times in $(((end - start) / 1000000)) ms"
