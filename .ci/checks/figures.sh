#!/usr/bin/env bash
# The figures of docs/ are those that the scripts in docs/figures draw.
set -u
cd "$(dirname "$0")/../.." || exit 1
room=$(mktemp -d)
trap 'rm -rf "$room"' EXIT
mkdir -p "$room/docs/internals"
cp -r docs/figures "$room/docs"
cp docs/internals/BENCHMARKS.md "$room/docs/internals"
cp docs/BUILD.md "$room/docs"
cp crates.txt "$room"
"$room/docs/figures/draw.sh" >/dev/null || exit 1
drawn=0
for figure in "$room"/docs/*.svg; do
  name=$(basename "$figure")
  cmp -s "$figure" "docs/$name" || { echo "docs/$name is not what docs/figures/${name%.svg}.py draws"; exit 1; }
  drawn=$((drawn + 1))
done
echo "ok: $drawn figures"
