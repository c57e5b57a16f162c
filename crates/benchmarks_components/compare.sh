#!/usr/bin/env bash
# Times this library and a peer on graphs that may have cycles, one run of each in turn, and prints the tables of
# docs/internals/BENCHMARKS.md: the medians, their ratio and that of the least times, and then the memory.
#   compare.sh PEER [ROW]
# PEER NAME NODES EDGES [--kind stable] --reps COUNT prints a line that ends with seconds, the median of COUNT runs in one
# process, and on standard error `check .. VALUE`: the program in .ci/peer. It calls itself, so it gets a stack of any size.
# With ROW, only the rows whose text contains it are printed. Needs gcc.
set -eu
peer=$(realpath "$1")
wanted=${2:-}
here=$(cd "$(dirname "$0")" && pwd)
work=$(mktemp -d)
trap 'rm -rf "$work"' EXIT
ulimit -s unlimited

if [ -z "${OUR_BENCH:-}" ]; then
  (cd "$here" && rt run -- components_mixed 10 10 > "$work/build" 2>&1) || { cat "$work/build"; exit 1; }
fi
ours=${OUR_BENCH:-$here/out/benchmarks_components}
gcc -O2 -shared -fPIC -o "$work/count_memory.so" "$here/count_memory.c"

asked() { case "$1" in *"$wanted"*) true ;; *) false ;; esac; }

rounds=5

times() { # REPS NAME NODES EDGES ..: a row of the first table
  local reps=$1 same=equal our_check their_check
  shift
  asked "$*" || return 0
  : > "$work/ours"
  : > "$work/theirs"
  for _ in $(seq "$rounds"); do
    "$ours" "$@" --reps "$reps" 2> "$work/check" | awk '{ print $NF }' >> "$work/ours"
    our_check=$(awk '/^check/ { print $NF }' "$work/check")
    "$peer" "$@" --reps "$reps" 2> "$work/check" | awk '{ print $NF }' >> "$work/theirs"
    their_check=$(awk '/^check/ { print $NF }' "$work/check")
    [ -n "$our_check" ] && [ "$our_check" = "$their_check" ] || same="$our_check and $their_check"
  done
  paste <(sort -g "$work/ours") <(sort -g "$work/theirs") | awk -v row="$*" -v same="$same" '
    { a[NR] = $1; b[NR] = $2 }
    END { m = int((NR + 1) / 2); printf "| %s | %.3g | %.3g | %.2g | %.2g | %s |\n", row, a[m], b[m], a[m] / b[m], a[1] / b[1], same }'
}

memory() { # NAME NODES EDGES: a row of the second table
  asked "$*" || return 0
  for program in "$ours" "$peer"; do
    LD_PRELOAD=$work/count_memory.so "$program" "$@" 2>&1 > /dev/null | awk '/^memory/ { print $2, $3 }'
  done | awk -v row="$*" '
    { resident[NR] = $1; asked[NR] = $2 }
    END { printf "| %s | %d | %d | %.2f | %d | %d | %.2f |\n", row, resident[1], resident[2], resident[1] / resident[2],
      asked[1], asked[2], asked[1] / asked[2] }'
}

each() { # COMMAND SIZES ..: with each question and shape
  for question in $questions; do
    for shape in mixed grouped acyclic; do
      "${@:1:$#-1}" "${question}_$shape" ${!#}
    done
  done
}

echo '| Workload, nodes, edges | ours, s | theirs, s | ratio | least | check values |'
echo '|---|---|---|---|---|---|'
questions='components condensed_dag all_edges fold find_cycle is_acyclic feedback_arc_set'
each times 301 '1000 3000'
questions='components condensed_dag all_edges fold find_cycle is_acyclic'
each times 9 '30000 150000'
rounds=3
each times 1 '1000000 5000000'
rounds=5
questions='components find_cycle is_acyclic'
each times 301 '1000 3000 --kind stable'
each times 9 '30000 150000 --kind stable'
rounds=3
each times 1 '1000000 5000000 --kind stable'
echo
echo '| kB; workload, nodes, edges | touched: ours | theirs | ratio | asked for: ours | theirs | ratio |'
echo '|---|---|---|---|---|---|---|'
questions='components condensed_dag all_edges fold'
for sizes in '1000 3000' '30000 150000' '1000000 5000000'; do
  each memory "$sizes"
done
