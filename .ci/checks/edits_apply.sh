#!/usr/bin/env bash
# Each old text of each edit (crates/NAME/must-fail, refused, controls) stands exactly once where the edit names it, so that
# a change of layout silences none of them. Whether the prover refuses them is another matter: .ci/refused_edits.
set -u
cd "$(dirname "$0")/../.." || exit 1
said=$(.ci/refused_edits --texts)
ended=$?
printf '%s\n' "$said"
[ "$ended" = 0 ] && echo "ok: ${said##*$'\n'}" | sed 's/ passed, 0 failed/ edits/'
