#!/usr/bin/env bash
# Each definition of specs/ has a comment that says what it means, and docs/internals/MODEL.md has the table that .ci/believed prints.
set -u
cd "$(dirname "$0")/../.." || exit 1
table=$(.ci/believed) || { printf '%s\n' "$table" | grep 'has no comment'; exit 1; }
case "$(cat docs/internals/MODEL.md)" in
  *"$table"*) ;;
  *) echo 'the table in docs/internals/MODEL.md is not that of .ci/believed'; exit 1 ;;
esac
echo "ok: $(tail -n 1 <<<"$table" | awk '{ print $4 }') definitions"
