#!/usr/bin/env bash
# Times this library and a peer on the same workloads, one run of each in turn, and prints the table of
# docs/internals/BENCHMARKS.md: two series, of each the medians, their ratio, and the ratio of the least times.
#   compare.sh PEER_BENCH PEER_PROGRAM [ROW]
# Either program may be -, and its rows are left out; with ROW, only the rows whose text contains it are printed.
# PEER_BENCH NAME NODES EDGES [--kind stable] --reps COUNT prints a line that ends with seconds, the median of COUNT
# runs in one process, and on standard error `check .. VALUE`.
# With PEER_QUESTIONS in the environment, a second table compares questions, schedules, dags of other types and reductions
# below all nodes with that program, of the same form as PEER_BENCH: the one in .ci/peer.
# PEER_PROGRAM compact reads command lines and writes replies.
set -eu
peer_bench=$([ "$1" = - ] && echo - || realpath "$1")
peer_program=$([ "$2" = - ] && echo - || realpath "$2")
wanted=${3:-}
here=$(cd "$(dirname "$0")" && pwd)
work=$(mktemp -d)
trap 'rm -rf "$work"' EXIT

(cd "$here" && rt run -- commands 1 > "$work/build" 2>&1) || { cat "$work/build"; exit 1; }
our_bench=$here/out/benchmarks
our_program=$here/../dagbench/out/dagbench

median() { sort -g "$1" | awk '{ x[NR] = $1 } END { print x[int((NR + 1) / 2)] }'; }

least() { sort -g "$1" | head -n 1; }

series() { # from the files ours and theirs: medians, their ratio, and that of the least times
  awk -v ours="$(median "$work/ours")" -v theirs="$(median "$work/theirs")" \
    -v our_least="$(least "$work/ours")" -v their_least="$(least "$work/theirs")" 'BEGIN {
      printf " %.3g | %.3g | %.2g | %.2g |", ours, theirs, ours / theirs, our_least / their_least }'
}

asked() { case "$1" in *"$wanted"*) true ;; *) false ;; esac; }

reps=1 # how often a workload is repeated in each process

workload() { # ROUNDS NAME NODES EDGES ..: two series of ROUNDS rounds
  local rounds=$1 same=equal ours theirs
  shift
  [ "$peer_bench" != - ] || return 0
  asked "$*" || return 0
  printf '| %s |' "$*"
  for _ in 1 2; do
    : > "$work/ours"
    : > "$work/theirs"
    for _ in $(seq "$rounds"); do
      "$our_bench" "$@" --reps "$reps" 2> "$work/check" | awk '{ print $NF }' >> "$work/ours"
      ours=$(awk '/^check/ { print $NF }' "$work/check")
      "$peer_bench" "$@" --reps "$reps" 2> "$work/check" | awk '{ print $NF }' >> "$work/theirs"
      theirs=$(awk '/^check/ { print $NF }' "$work/check")
      [ -n "$ours" ] && [ "$ours" = "$theirs" ] || same=DIFFERENT
    done
    series
  done
  echo " $same |"
}

small() { # NODES EDGES REPS: dags of the sizes that most people have, of both kinds, in warm caches
  reps=$3
  for name in build_sorted build_random build_lowhigh add_edges add_child_tree walk_children map_weights copy \
    edge_list update_hit remove_edges remove_nodes; do
    workload 5 "$name" "$1" "$2"
    workload 5 "$name" "$1" "$2" --kind stable
  done
  reps=1
}

program() { # ROUNDS
  local same=equal
  asked "line program" || return 0
  (cd "$here/../dagbench" && rt run -- compact > "$work/build" 2>&1) || { cat "$work/build"; exit 1; }
  "$our_bench" commands 200000 > "$work/lines"
  printf '| line program, 200000 commands |'
  for _ in 1 2; do
    : > "$work/ours"
    : > "$work/theirs"
    for _ in $(seq "$1"); do
      { TIMEFORMAT=%R; time "$our_program" compact < "$work/lines" > "$work/our_replies"; } 2>> "$work/ours"
      { TIMEFORMAT=%R; time "$peer_program" compact < "$work/lines" > "$work/peer_replies"; } 2>> "$work/theirs"
      [ -s "$work/our_replies" ] && cmp -s "$work/our_replies" "$work/peer_replies" || same=DIFFERENT
    done
    series
  done
  echo " $same |"
}

questions() { # NODES EDGES REPS NAME ..: these workloads over random dags of both kinds
  local nodes=$1 edges=$2
  reps=$3
  shift 3
  for name in "$@"; do
    workload 3 "$name" "$nodes" "$edges"
    workload 3 "$name" "$nodes" "$edges" --kind stable
  done
  reps=1
}

head_of_table() {
  local series='ours, s | theirs, s | ratio | least'
  echo "| Workload, nodes, edges | $series | second series: $series | check values |"
  echo "|---|---|---|---|---|---|---|---|---|---|"
}

head_of_table
workload 15 build_sorted 100000 500000
workload 15 add_edges 100000 500000
workload 15 add_child_tree 1000000 0
workload 15 walk_children 100000 500000
workload 15 map_weights 100000 500000
workload 15 copy 100000 500000
workload 15 edge_list 100000 500000
workload 15 remove_edges 100000 500000
workload 15 remove_nodes 100000 500000
workload 15 build_sorted 100000 500000 --kind stable
workload 15 add_edges 100000 500000 --kind stable
workload 15 add_child_tree 1000000 0 --kind stable
workload 15 churn 20000 60000 --kind stable
workload 15 walk_children 100000 500000 --kind stable
workload 15 map_weights 100000 500000 --kind stable
workload 15 copy 100000 500000 --kind stable
workload 15 edge_list 100000 500000 --kind stable
workload 15 remove_edges 100000 500000 --kind stable
workload 15 remove_nodes 100000 500000 --kind stable
workload 5 build_random 10000 100000
workload 2 build_lowhigh 3000 100000
workload 2 build_mixed 10000 100000
workload 15 build_older 100000 500000
workload 15 build_older 100000 500000 --kind stable
workload 15 fold_children 100000 500000
workload 15 take_even 100000 500000
workload 21 remove_nodes 1000 5000
workload 21 remove_nodes 1000 5000 --kind stable
workload 5 remove_nodes 400000 400000
workload 5 remove_nodes 400000 400000 --kind stable
for kind in compact stable; do
  workload 7 many_small 5 100000 --kind "$kind"
  workload 7 many_emptied 5 100000 --kind "$kind"
  workload 7 chain_back 100000 0 --kind "$kind"
  workload 7 hub_back 100000 0 --kind "$kind"
done
small 30 60 8001
small 300 900 2001
small 3000 9000 301
small 10000 50000 41
workload 11 reduce 10 10
workload 11 json_write 100000 500000
workload 11 json_read 100000 500000
[ "$peer_program" = "-" ] || program 5
if [ -n "${PEER_QUESTIONS:-}" ]; then
  peer_bench=$(realpath "$PEER_QUESTIONS")
  echo
  head_of_table
  names=(reaches path descendants bfs dfs postorder toposort ready schedule)
  questions 1000 3000 301 "${names[@]}"
  questions 100000 500000 7 "${names[@]}"
  questions 1000000 5000000 1 ready schedule
  types=(find_edge walk_u16 walk_usize build_texts)
  questions 300 900 2001 "${types[@]}"
  questions 10000 50000 41 "${types[@]}"
  questions 100000 500000 7 find_edge walk_usize build_texts
  workload 7 reduce_random 2000 20000
  workload 7 reduce_random 4000 40000
  workload 3 reduce_random 16000 160000
  workload 3 reduce_local 20000 100000
  workload 7 reduce_complete 1000 499500
  workload 7 reduce_diamonds 121 160
fi
