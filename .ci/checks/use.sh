#!/usr/bin/env bash
# A program that .ci/use makes in an empty folder runs there. A second call replaces the libraries and leaves the rest
# alone. What is refused is refused before anything is written. Proofs are taken along, from a clone or from a file, if
# they fit the sources. The proofs here are empty folders with the stamps that rt computes: nothing is proved.
set -u
cd "$(dirname "$0")/../.." || exit 1
room=$(mktemp -d)
trap 'rm -rf "$room"' EXIT

fail() {
  echo "$1"
  exit 1
}

# A clone with nothing built, in a commit of its own.
clone=$room/clone
mkdir "$clone"
tar -c --exclude=out --exclude=./.git . | tar -x -C "$clone"
(cd "$clone" && git init -q && git add -A && git -c user.name=check -c user.email=check commit -q -m 'A clone') || fail 'no clone'
cd "$clone" || exit 1

"$clone/.ci/use" --help | grep -q '^usage: ' || fail '--help prints no usage'
"$clone/.ci/use" "$room/other" garden >/dev/null || fail 'no program is made'
ran=$(cd "$room/other/crates/garden" && rt try 2>"$room/said") || fail "rt try: $(cat "$room/said")"
[ "$ran" = "$(cat crates/example_tasks/stdout)" ] || fail "the program prints $ran"

lines=$(sort "$room/other/crates.txt")
echo '// Changed.' >>"$room/other/crates/garden/src/main.rt"
echo '// Changed.' >>"$room/other/crates/daggy/src/lib.rt"
changed=$(cat "$room/other/crates/garden/src/main.rt")
"$clone/.ci/use" "$room/other" >/dev/null || fail 'the libraries are not replaced'
[ "$(sort "$room/other/crates.txt")" = "$lines" ] || fail 'crates.txt has other lines'
[ "$(cat "$room/other/crates/garden/src/main.rt")" = "$changed" ] || fail 'the program is another'
diff -r crates/daggy/src "$room/other/crates/daggy/src" || fail 'a library is not that of this repository'

refused() { # WHY WORDS..: .ci/use refuses these words for that reason, and writes nothing
  local why=$1 before after said
  shift
  before=$(cd "$room" && find . | sort)
  if said=$(cd "$room" && "$clone/.ci/use" "$@" 2>&1); then fail "$* is not refused"; fi
  grep -qF -- "$why" <<<"$said" || fail "$* is refused so: $said"
  after=$(cd "$room" && find . | sort)
  [ "$before" = "$after" ] || fail "$* leaves something"
}

all=$(sed -n 's/^daggy: *//p' crates.txt | wc -w)
all=$((all + 1))

taken() { # NUMBER WORDS..: .ci/use takes along so many proofs
  local number=$1 said
  shift
  said=$(cd "$room" && "$clone/.ci/use" "$@" 2>&1) || fail "$*: $said"
  grep -q "^takes along the proofs of $number of $all libraries" <<<"$said" || fail "$*: $said, and not $number of $all"
}

touch "$room/file"
refused 'usage:'
refused 'give a FOLDER' --pack proofs new
refused 'is not of lowercase letters' new Daggy
refused 'is a keyword' new match
refused 'is a library of this repository' new daggy
refused 'is a library of the kit' new anyhow
refused 'has a crate garden' other garden
refused 'is no folder' file app
refused 'another repository' clone app
refused 'another repository' clone/crates/app app
refused 'not proved as they are now: ' --pack proofs
refused 'cannot be read' --proved file new app
taken 0 first app

python3 - "$clone" "$(dirname "$(rt doc)")/bin" <<'PYTHON' || fail 'no stamps'
import os
import sys

clone, kit = sys.argv[1:]
sys.dont_write_bytecode = True
sys.path.insert(0, kit)
import rtlib

top = rtlib.Crate(f"{clone}/crates/daggy", clone, {})
for library in [*top.below(), top]:
    os.makedirs(f"{library.rlib}/lang")
    for path, text in (f"{library.rlib}/lang/src", library.name), (f"{clone}/crates/{library.name}/out/rlib/stamp", library.stamp()):
        with open(path, "w", encoding="utf-8") as file:
            file.write(text)
PYTHON
taken "$all" first
diff -r "$clone/crates/daggy_dag/out" "$room/first/crates/daggy_dag/out" || fail 'other proofs of the dag'
(cd "$room" && clone/.ci/use --pack proofs >/dev/null) || fail 'nothing is packed'
taken "$all" --proved proofs second app
diff -r "$clone/crates/daggy_dag/out" "$room/second/crates/daggy_dag/out" || fail 'other proofs of the dag in the file'

head -c 300 "$room/proofs" >"$room/half"
refused 'cannot be read' --proved half new app
mkdir "$room/bin"
printf '#!/bin/sh\n[ "$1" = version ] && echo another kit || exec "%s" "$@"\n' "$(command -v rt)" >"$room/bin/rt"
chmod +x "$room/bin/rt"
PATH=$room/bin:$PATH refused 'and rt version says another kit' --proved proofs new app

# A change of another crate means nothing to the proofs. A change of a library does, to its own and those above.
echo '// Changed.' >>"$clone/crates/example_tasks/src/main.rt"
taken "$all" third
taken "$all" --proved proofs fourth
echo '# Changed.' >>"$clone/crates.txt"
refused 'changes that are in no commit' --pack others
echo '// Changed.' >>"$clone/crates/daggy/src/lib.rt"
refused 'differ for daggy' --proved proofs new app
refused 'not proved as they are now: daggy (' --pack others
taken $((all - 1)) fifth app
[ ! -e "$room/fifth/crates/daggy/out" ] || fail 'a proof of other sources is taken along'
echo "ok: $(grep -c : <<<"$lines") crates"
