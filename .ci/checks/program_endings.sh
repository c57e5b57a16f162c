#!/usr/bin/env bash
# The line program's statuses and its texts on standard error, which no contract sees.
set -u
. "$(dirname "$0")/../refusing.sh"
program=$(built dagbench dagbench) || exit 1
lines=$'node 1\nnode 2\nedge 0 1 7\nedge 1 0 5\nchildren 0\n'
replies=$'n0\nn1\ne0\ncycle 5\ne0:1'
usage='usage: dagbench compact|stable|plan compact|plan stable'

tried=0
expect() { # STATUS OUTPUT ERROR REFUSED WORDS..: the program ends so and writes so
  local status=$1 output=$2 error=$3 refused=$4
  shift 4
  local wrote complained ended
  tried=$((tried + 1))
  wrote=$(printf '%s' "$lines" | refusing "$refused" dagbench "$program" "$@" 2>"$shim.err")
  ended=$?
  complained=$(cat "$shim.err")
  if [ "$ended" != "$status" ] || [ "$wrote" != "$output" ] || [ "$complained" != "$error" ]; then
    printf 'with %s: status %s, output %s, error %s\n' "$*" "$ended" "$wrote" "$complained"
    exit 1
  fi
}

fails() { # ERROR INPUT OUTPUT WORDS..: from that file to that one, the program ends with status 1 and this error
  local error=$1 input=$2 output=$3
  shift 3
  local complained ended
  tried=$((tried + 1))
  complained=$("$program" "$@" 2>&1 <"$input" >"$output")
  ended=$?
  if [ "$ended" != 1 ] || [ "$complained" != "$error" ]; then
    printf 'with %s, from %s to %s: status %s, error %s\n' "$*" "$input" "$output" "$ended" "$complained"
    exit 1
  fi
}

expect 2 '' "$usage" 0
expect 2 '' "$usage" 0 dense
expect 2 '' "$usage" 0 compact compact
expect 2 '' "$usage" 0 plan
# The help is told on standard output, with the usage first and every kind.
help=$("$program" --help </dev/null 2>"$shim.err")
ended=$?
tried=$((tried + 1))
if [ "$ended" != 0 ] || [ -s "$shim.err" ] || [ "${help%%$'\n'*}" != "$usage" ] || ! grep -q '^  stable ' <<<"$help"; then
  printf 'with --help: status %s, output %s, error %s\n' "$ended" "$help" "$(cat "$shim.err")"
  exit 1
fi
expect 0 "$help" '' 0 -h
expect 2 '' "$usage" 0 --help compact
expect 1 '' 'dagbench: out of memory' 1 compact
expect 0 "$replies" '' 0 compact
expect 0 "$replies" '' 0 stable
expect 0 "$replies"$'\nstage n0\nstage n1\nchain n0 n1' '' 0 plan compact
expect 0 "$replies"$'\nstage n0\nstage n1\nchain n0 n1' '' 0 plan stable

# What is wrong with lines is told on standard error, with nothing on standard output.
good=$lines
expect 0 '' '' 0 --explain
lines=$'node 1\nedge 0 1\n\nfrob\nchildren 0 0'
expect 0 '' $'line 2: "edge" lacks a weight\nline 3: no command\nline 4: "frob" is no command\nline 5: "0" is one word too many' 0 --explain
expect 1 '' 'dagbench: out of memory' 1 --explain
fails 'dagbench: read failed' / /dev/null --explain
lines=$good

# A directory cannot be read, and a full device takes nothing.
printf '%s' "$lines" >"$shim.lines"
for kind in compact stable; do
  fails 'dagbench: read failed' / /dev/null "$kind"
  fails 'dagbench: read failed' / /dev/null plan "$kind"
  fails 'dagbench: write failed' "$shim.lines" /dev/full "$kind"
  fails 'dagbench: write failed' "$shim.lines" /dev/full plan "$kind"
done

# A pipe that is closed after the first reply: the write fails, whether or not the program was started with its signal ignored.
closed() { # SIGNAL-HANDLING KIND
  tried=$((tried + 1))
  python3 - "$program" "$@" <<'END' || exit 1
import signal, subprocess, sys
program, handling, kind = sys.argv[1:]
started = subprocess.Popen([program, kind], stdin=subprocess.PIPE, stdout=subprocess.PIPE, stderr=subprocess.PIPE, restore_signals=False,
                           preexec_fn=lambda: signal.signal(signal.SIGPIPE, getattr(signal, handling)))
first = b""
try:
    while not first:
        started.stdin.write(b"node 1\n" * 4096)
        started.stdin.flush()
        first = started.stdout.readline()
    started.stdout.close()
    for _ in range(4096):
        started.stdin.write(b"node 1\n" * 4096)
        started.stdin.flush()
except BrokenPipeError:
    pass
try:
    started.stdin.close()
except BrokenPipeError:
    pass
complained = started.stderr.read().decode().strip()
ended = started.wait()
if (first, ended, complained) != (b"n0\n", 1, "dagbench: write failed"):
    sys.exit(f"closed pipe, {kind}, {handling}: status {ended}, first reply {first}, error {complained}")
END
}

for kind in compact stable; do
  closed SIG_DFL "$kind"
  closed SIG_IGN "$kind"
done
echo "ok: $tried endings"
