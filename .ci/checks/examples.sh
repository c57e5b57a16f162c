#!/usr/bin/env bash
# The examples in the docs of the library and the recipes of docs/USING.md pass as tests, and the program of docs/RATTLE.md
# prints what it should. Other blocks of code: docs.sh.
set -u
cd "$(dirname "$0")/../.." || exit 1
room=$(mktemp -d)
trap 'rm -rf "$room"' EXIT
.ci/examples "$room" || exit 1
cd "$room/crates/doc_examples" || exit 1
said=$(rt try --test 2>&1)
ended=$?
printf '%s\n' "$said"
[ "$ended" = 0 ] || exit 1
passed=$(sed -n 's/^test result: ok. \([0-9]*\) passed; 0 failed.*/\1/p' <<<"$said")
cd ../rattle_page || exit 1
printf 'sow\nreap\n' >"$room/names"
ran=$(echo hello | rt try --data names="$room/names" -- names 2>"$room/said")
if [ "$ran" != $'107\n2 nodes [1, 4, 9]\nsow\nreap\nread hello' ] || ! grep -q '^weight 1: a cycle$' "$room/said"; then
  echo "the program of docs/RATTLE.md prints $ran"
  cat "$room/said"
  exit 1
fi
echo "ok: $passed examples and the program of a page"
