#!/usr/bin/env bash
# docs/reference is what .ci/reference makes of the sources: it has each item that users can name, and each clause and link of
# it. And `daggy` re-exports each definition that its contracts cite.
set -u
cd "$(dirname "$0")/../.." || exit 1
said=$(.ci/reference --check) || { printf '%s\n' "$said"; exit 1; }
.ci/reference --definitions || { echo 'daggy/specs/Lib.antt lacks these'; exit 1; }
echo "ok: $said"
