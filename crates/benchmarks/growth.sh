#!/usr/bin/env bash
# Times each workload of this library at sizes that double, and prints one table: the least of nine runs, by how much it grew, and
# how many times the time of the first size the last one took.
set -eu
here=$(cd "$(dirname "$0")" && pwd)
(cd "$here" && rt run -- commands 1 > /dev/null 2>&1)

least() { # NAME NODES EDGES ..
  for _ in 1 2 3 4 5 6 7 8 9; do "$here/out/benchmarks" "$@" 2> /dev/null | awk '{ print $NF }'; done | sort -g | head -n 1
}

grow() { # NAME NODES EDGES NODE_FACTOR EDGE_FACTOR ..: three sizes
  local name=$1 nodes=$2 edges=$3 by=$4 edges_by=$5
  shift 5
  local a b c
  a=$(least "$name" "$nodes" "$edges" "$@")
  b=$(least "$name" $((nodes * by)) $((edges * edges_by)) "$@")
  c=$(least "$name" $((nodes * by * by)) $((edges * edges_by * edges_by)) "$@")
  awk -v name="$name $*" -v sizes="$nodes, $edges" -v a="$a" -v b="$b" -v c="$c" \
    'BEGIN { printf "| %s | %s | %.4f | %.4f | %.4f | %.2f | %.2f |\n", name, sizes, a, b, c, b / a, c / b }'
}

echo "| Workload | first nodes, edges | first, s | doubled | doubled again | growth | growth again |"
echo "|---|---|---|---|---|---|---|"
for name in build_sorted build_random build_lowhigh build_older build_mixed add_edges walk_children fold_children take_even edge_list \
  map_weights copy remove_edges remove_nodes plan json_write json_read; do
  case $name in
    build_mixed) grow $name 5000 50000 2 2 ;;
    build_random | build_lowhigh | build_older) grow $name 25000 250000 2 2 ;;
    *) grow $name 50000 250000 2 2 ;;
  esac
done
grow add_child_tree 250000 0 2 1
grow reduce 15 20 2 1
grow reduce_random 1000 10000 2 2
