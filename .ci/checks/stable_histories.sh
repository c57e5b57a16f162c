#!/usr/bin/env bash
# Random histories of a stable dag, and random changes of computed values over a dag of either kind, agree with the models,
# as those of a compact dag do that `rt ci` plays.
set -u
. "$(dirname "$0")/../refusing.sh"
program=$(built histories histories) || exit 1

agree() { # KIND COUNT WORDS: that many calls of that kind agree, and WORDS say so
  local said
  said=$("$program" "$1" 7 "$2") || { echo "$said"; exit 1; }
  if ! grep -q "^$1: $2 $3 agree, seed 7\$" <<<"$said"; then
    echo "$said"
    exit 1
  fi
}

agree stable 100000 'calls in [1-9][0-9]* histories'
agree computed 20000 changes
agree computed-stable 20000 changes
echo 'ok: 140000 calls'
