#!/usr/bin/env bash
# Each allocation of the line program refused in turn, until there are no more, for both kinds of graph: it ends before it reads,
# or one command is answered `memory`, and with none refused neither is so. The same of the script of `tests_lines`, by the
# program and by `serve`, and of a plan.
set -u
. "$(dirname "$0")/../refusing.sh"
program=$(built dagbench dagbench) || exit 1
lines=$'node 1\nnode 2\nedge 0 1 7\nedge 1 0 5\nedges 0 1 8 0 1 9\nchildren 0\n'
for kind in compact stable; do
  untold=0
  for number in $(seq 1 1000); do
    out=$(printf '%s' "$lines" | refusing "$number" dagbench "$program" "$kind" 2>&1)
    ended=$?
    case "$(printf '%s\n' "$out" | paste -sd, -)" in
      'dagbench: out of memory') status=1 ;;
      'n0,n1,e0,cycle 5,e1 e2,e2:1 e1:1 e0:1' | 'memory,n0,missing,missing,missing 8,-' | 'n0,memory,missing,missing,missing 8,-' | \
      'n0,n1,memory,e0,cycle 9 8,-' | 'n0,n1,e0,cycle 5,memory 8,e0:1' | 'n0,n1,e0,cycle 5,memory 9 8,e0:1' | \
      'n0,n1,e0,cycle 5,memory,e0:1' | 'n0,n1,e0,cycle 5,e1 e2,memory') status=0 ;;
      *) status=none ;;
    esac
    if [ "$ended" != "$status" ] || ! is_told_once "$out"; then
      printf '%s, allocation %s, status %s:\n%s\n' "$kind" "$number" "$ended" "$out"
      exit 1
    fi
    was_refused || break
  done
  had_refusals "$number" 8 || exit 1
done

script=$'node 1\nnode 2\nchild 0 5 3\nparent 1 6 4\nedge 0 1 7\nupdate 0 1 8\nedges 1 2 9 3 2 10\nfind 0 1\nends 0\nchildren 0\n'
script+=$'parents 2\nreduce 3\njson\nrmedge 0\nrmnode 1\nclearedges\nclear\n'

# The replies are those to the whole script, or those to the script without one line, with `memory` in its place.
are_replies() { # KIND REPLIES
  [ "$2" = "${without[$1 0]}" ] && return
  for line in $(seq 1 17); do
    case "$(printf '%s' "$2" | sed -n "${line}p")" in
      memory*) [ "$(printf '%s' "$2" | sed "${line}d")" = "${without[$1 $line]}" ] && return ;;
    esac
  done
  return 1
}

declare -A without
for kind in compact stable; do
  without[$kind 0]=$(printf '%s' "$script" | "$program" "$kind")
  for line in $(seq 1 17); do
    without[$kind $line]=$(printf '%s' "$script" | sed "${line}d" | "$program" "$kind")
  done
  untold=0
  for number in $(seq 1 1000); do
    out=$(printf '%s' "$script" | refusing "$number" dagbench "$program" "$kind" 2>&1)
    ended=$?
    if ! is_told_once "$out" ||
      { [ "$ended $out" != '1 dagbench: out of memory' ] && ! { [ "$ended" = 0 ] && are_replies "$kind" "$out"; }; }; then
      printf '%s, the script, allocation %s, status %s:\n%s\n' "$kind" "$number" "$ended" "$out"
      exit 1
    fi
    was_refused || break
  done
  had_refusals "$number" 8 || exit 1
done

tests=$(built tests_lines tests_lines_tests) || exit 1
for number in $(seq 1 1000); do
  if ! out=$(refusing "$number" tests_lines_tests "$runner" --filter a_refused_request "$tests" 2>&1); then
    printf 'serve, allocation %s:\n%s\n' "$number" "$out"
    exit 1
  fi
  was_refused || break
done
had_refusals "$number" 8 && echo "ok: $((number - 1)) allocations of the script"
