#!/usr/bin/env bash
# Prints how long calls on a sheet of the largest plan take: 4,096 cuts, 65 stamps, every question after each. Not a test.
# Build the program first: (cd crates/sheet_desk && rt run < ../../samples/calls.txt)
set -eu
cd "$(dirname "$0")/.."
name() { printf '%s' "$1"; printf "\\x$(printf %x $((97 + $2 % 26)))\\x$(printf %x $((97 + $2 / 26)))"; }
line() { for i in $(seq 1 "$2"); do name "$1" "$i"; [ "$i" = "$2" ] || printf .; done; }
input=$(mktemp)
trap 'rm -f "$input"' EXIT
{
  printf '|(%s,%s).a\n' "$(line p 31)" "$(line q 33)"
  for i in $(seq 1 33); do
    for l in p q; do
      [ "$l$i" = p32 ] || [ "$l$i" = p33 ] || printf 'stamp %s\nnext\ndistance\namount\nreading\n' "$(name $l "$i")"
    done
  done
  printf 'stamp a\nnext\ndistance\namount\nreading\n'
} > "$input"
calls=$(($(wc -l < "$input") - 1))
start=$(date +%s%N)
crates/sheet_desk/out/sheet_desk < "$input" | sed -n '1p;$p' | cut -c1-60
end=$(date +%s%N)
echo "$calls calls in $(((end - start) / 1000000)) ms"
