#!/usr/bin/env bash
# The tests of `tests_allocation` with no allocation refused, and then with each refused in turn, until no test has that many: in
# each test exactly one call answers that there was no memory if an allocation of the test was refused, and none does otherwise.
# Then those of schedules, names, traversals and components that make a refused call again.
set -u
. "$(dirname "$0")/../refusing.sh"
tests=$(built tests_allocation tests_allocation_tests) || exit 1
number=0
while :; do
  out=$(refusing "$number" tests_allocation_tests "$runner" --seconds 60 "$tests" 2>&1)
  if ! printf '%s\n' "$out" | grep -q 'test result: ok. [0-9]* passed; 0 failed'; then
    printf 'allocation %s:\n%s\n' "$number" "$out"
    exit 1
  fi
  if [ "$number" -gt 0 ] && ! was_refused; then break; fi
  number=$((number + 1))
done
had_refusals "$number" 40 || exit 1
tried=$((number - 1))

for crate in tests_queries tests_store tests_components; do
  tests=$(built "$crate" "${crate}_tests") || exit 1
  for number in $(seq 1 1000); do
    out=$(refusing "$number" "${crate}_tests" "$runner" --filter refused_calls "$tests" 2>&1)
    if ! printf '%s\n' "$out" | grep -q 'test result: ok. [1-9][0-9]* passed; 0 failed'; then
      printf '%s, allocation %s:\n%s\n' "$crate" "$number" "$out"
      exit 1
    fi
    was_refused || break
  done
  had_refusals "$number" 4 || exit 1
  tried=$((tried + number - 1))
done
echo "ok: $tried allocations"
