# For the checks that run what `rt ci` built: where it is, and a run in which one allocation is refused.
top=$(cd "$(dirname "${BASH_SOURCE[0]}")/.." && pwd)
runner=$(dirname "$(rt doc)")/bin/rattle-test
shim=$(mktemp -d)/fail_allocation.so
trap 'rm -rf "$(dirname "$shim")"' EXIT
cc -O2 -shared -fPIC -o "$shim" "$top/.ci/fail_allocation.c" || exit 1

built() { # CRATE FILE: the path of an executable that `rt ci` left, or the end of the check
  local path=$top/crates/$1/out/$2
  if [ ! -x "$path" ]; then
    echo "$path is not there: run rt ci first" >&2
    return 1
  fi
  echo "$path"
}

refusing() { # NUMBER PROGRAM COMMAND..: runs the command; in the program of that name that allocation finds no memory
  local number=$1 program=$2
  shift 2
  rm -f "$shim.mark"
  LD_PRELOAD=$shim FAIL_ALLOCATION=$number FAIL_ALLOCATION_OF=$program FAIL_ALLOCATION_MARK=$shim.mark "$@"
}

was_refused() { # whether the last run that was refusing had that many allocations
  [ -e "$shim.mark" ]
}

# How many refusals went untold. A program asks for memory once at its start that it can do without.
untold=0

is_told_once() { # TEXT: whether it speaks of memory once if an allocation was refused, but for one, and else not at all
  local count
  count=$(grep -c memory <<<"$1")
  if was_refused && [ "$count" = 0 ]; then untold=$((untold + 1)); fi
  if was_refused; then [ "$count" = 1 ] || { [ "$count" = 0 ] && [ "$untold" = 1 ]; }; else [ "$count" = 0 ]; fi
}

had_refusals() { # NUMBER LEAST: whether at least LEAST allocations were refused before this one, which was not; else says how many were
  [ "$1" -gt "$2" ] || { echo "only $(($1 - 1)) allocations"; return 1; }
}
