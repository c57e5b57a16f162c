#!/usr/bin/env bash
# Counts what the workloads of small dags execute while they are timed, in this library and in a peer, and prints a table:
# instructions and misses of the first-level data cache, as callgrind simulates it, for each node or edge.
#   instructions.sh PEER_BENCH NODES EDGES
# PEER_BENCH is as for compare.sh, and reads CLOCK_PROCESS_CPUTIME_ID before and after what it times. Needs Debian's
# valgrind and gcc. With OUR_BENCH in the environment, that program is counted as ours, and nothing is built.
set -eu
peer_bench=$(realpath "$1")
nodes=$2
edges=$3
here=$(cd "$(dirname "$0")" && pwd)
work=$(mktemp -d)
trap 'rm -rf "$work"' EXIT

gcc -O2 -shared -fPIC -o "$work/count_timed.so" "$here/count_timed.c"
our_bench=${OUR_BENCH:-$here/out/benchmarks}
if [ -z "${OUR_BENCH:-}" ]; then
  (cd "$here" && rt run -- commands 1 > "$work/build" 2>&1) || { cat "$work/build"; exit 1; }
fi

count() { # UNITS PROGRAM NAME ..: instructions and misses for each unit
  local units=$1
  shift
  LD_PRELOAD=$work/count_timed.so valgrind --tool=callgrind --collect-atstart=no --cache-sim=yes \
    --callgrind-out-file=/dev/null "$@" --reps "$reps" 2>&1 |
    awk -v units="$units" -v reps="$reps" '/Collected/ { printf " %.1f | %.2f |", $4 / units / reps, ($8 + $9) / units / reps }'
}

reps=10
echo '| Workload | unit | ours: instructions | misses | theirs: instructions | misses |'
echo '|---|---|---|---|---|---|'
while read -r name unit units; do
  for kind in compact stable; do
    words=("$name" "$nodes" "$edges" --kind "$kind")
    echo "| $name, $kind | $unit |$(count "$units" "$our_bench" "${words[@]}")$(count "$units" "$peer_bench" "${words[@]}")"
  done
done << END
build_sorted edge $edges
build_random edge $edges
build_lowhigh edge $edges
add_edges edge $edges
add_child_tree node $nodes
walk_children step $((10 * edges))
map_weights edge $edges
copy edge $edges
edge_list step $((10 * edges))
update_hit edge $edges
remove_edges edge $edges
remove_nodes node $nodes
chain_back node $nodes
hub_back node $nodes
END
