#!/usr/bin/env bash
# Times changes with a refresh, beside computing all nodes that are affected, and all nodes, one run of each in turn, and
# counts instructions under callgrind. Prints the tables of docs/internals/BENCHMARKS.md.
#   measure.sh [NODES EDGES]
# Needs Debian's valgrind and gcc for the instructions. With BENCH in the environment, that program is run, and nothing is
# built.
set -eu
nodes=${1:-100000}
edges=${2:-500000}
here=$(cd "$(dirname "$0")" && pwd)
work=$(mktemp -d)
trap 'rm -rf "$work"' EXIT
bench=${BENCH:-$here/out/benchmarks_computed}
if [ -z "${BENCH:-}" ]; then
  (cd "$here" && rt run > "$work/build" 2>&1) || [ -x "$bench" ] || { cat "$work/build"; exit 1; }
fi
gcc -O2 -shared -fPIC -o "$work/count_timed.so" "$here/../benchmarks/count_timed.c"

median() { sort -g "$1" | awk '{ x[NR] = $1 } END { print x[int((NR + 1) / 2)] }'; }

told() { awk -v word="$1" '/^check/ { for (i = 1; i < NF; i++) if ($i == word) print $(i + 1) }' "$work/told"; }

seconds() { # SHAPE KIND: how many nodes each way computes, the medians, and whether the values are the same
  local same=equal value=
  for way in refresh affected all; do : > "$work/$way"; done
  for _ in 1 2 3 4 5; do
    for way in refresh affected all; do
      "$bench" "$way" "$1" "$nodes" "$edges" --kind "$2" --reps 11 2> "$work/told" | awk '{ print $NF }' >> "$work/$way"
      told computed > "$work/$way.computed"
      value=${value:-$(told value)}
      [ "$(told value)" = "$value" ] || same=DIFFERENT
    done
  done
  printf '| %s, %s |' "$1" "$2"
  for way in refresh affected all; do printf ' %s | %.3g |' "$(cat "$work/$way.computed")" "$(median "$work/$way")"; done
  echo " $same |"
}

instructions() { # SHAPE KIND: millions of instructions of a round, and how many for each computed node
  printf '| %s, %s |' "$1" "$2"
  for way in refresh affected all; do
    LD_PRELOAD=$work/count_timed.so valgrind --tool=callgrind --collect-atstart=no --callgrind-out-file=/dev/null \
      "$bench" "$way" "$1" "$nodes" "$edges" --kind "$2" --reps 10 > /dev/null 2> "$work/told"
    awk -v computed="$(told computed)" '/Collected/ { printf " %.3g | %.0f |", $4 / 1e7, $4 / 10 / computed }' "$work/told"
  done
  echo
}

echo '| dag | `refresh`: nodes | s | `affected`: nodes | s | all: nodes | s | values |'
echo '|---|---|---|---|---|---|---|---|'
for shape in chain fan sums greatest; do
  for kind in compact stable; do seconds "$shape" "$kind"; done
done
echo
echo '| dag | `refresh`: million instructions | for each node | `affected` | for each node | all | for each node |'
echo '|---|---|---|---|---|---|---|'
for shape in chain fan sums greatest; do
  for kind in compact stable; do instructions "$shape" "$kind"; done
done
