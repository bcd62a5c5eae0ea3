#!/usr/bin/env bash
# Tries the script `viommu` with a stand-in for the toolchain's command rt, on a copy of it among small crates, so that
# nothing is proved. It stands outside the gate, and ends with 'N passed, M failed'.
set -euo pipefail
top=$(cd "$(dirname "$0")/.." && pwd)
room=$(mktemp -d)
trap 'rm -rf "$room"' EXIT
here="$room/a copy"
calls=$room/calls
passed=0 failed=0

# The commands that the script needs, without any rt; and the same with the stand-in.
mkdir -p "$room/without" "$room/with" "$room/elsewhere"
for tool in awk bash cat cksum cp dirname env find git grep mkdir mktemp readlink rm sed sha256sum sort tail tar tee wc xargs; do
  if at=$(command -v "$tool"); then ln -s "$at" "$room/without/$tool"; fi
done
cat > "$room/with/rt" << 'R'
#!/usr/bin/env bash
# A stand-in for rt. A file below FAKE makes a command fail.
set -eu
echo "$* in $(basename "$PWD")" >> "$FAKE/calls"
case "$1 ${2-}" in
  'ci ')
    for crate in vi_bytes vi_history viommu; do printf '== %s\n%s: said\nrt: %s proved\n' "$crate" "$crate" "$crate"; done
    # what it was given, a name a line
    sed 's/[ :].*//' crates.txt > "$FAKE/given"
    find . -name must-fail -o -name out >> "$FAKE/given"
    if [ -e "$FAKE/no-check" ]; then
      printf 'src/lib.rt:1:1: error[open-goal]: a goal is open\nrt: viommu NOT PROVED\nrt: FAILED: viommu\n2 passed, 1 failed\n'
      exit 1
    fi
    mkdir -p crates/viommu/out
    if [ ! -e "$FAKE/no-program" ]; then cp "$FAKE/program" crates/viommu/out/viommu; fi
    printf '3 passed, 0 failed\n' ;;
  'try --')
    if [ -e "$FAKE/no-try" ]; then printf 'error[type]: of two types\nrun=none proved=no\n' >&2; exit 1; fi
    if [ -e "$FAKE/hangs" ]; then printf 'races: not looked for\nrun=no-answer runners=1 proved=no\n' >&2; exit 6; fi
    if [ -e "$FAKE/warns" ]; then printf 'warning: of rt\n' >&2; fi
    shift 2; status=0; "$FAKE/program" "$@" || status=$?
    printf 'checked: ended status=%s\nraces: not looked for, since a kit has no ThreadSanitizer\n' "$status" >&2
    echo "run=ended status=$status runners=1 races=unchecked proved=no" >&2
    exit "$status" ;;
  *) exit 99 ;;
esac
R
# The program that it builds tells its words and its input, and ends with the status that a file says.
cat > "$room/program" << 'R'
#!/usr/bin/env bash
printf '<%s>' "$@"; echo
cat
exit "$(cat "$FAKE/status")"
R
chmod +x "$room/with/rt" "$room/program"
for tool in basename; do ln -s "$(command -v "$tool")" "$room/with/$tool"; done
echo 0 > "$room/status"
export FAKE=$room

# The script among crates of one file each.
fresh_copy() {
  rm -rf "$here"
  mkdir -p "$here"
  cp "$top/viommu" "$top/crates.txt" "$top/HANDLES" "$here/"
  local name
  while read -r name; do
    mkdir -p "$here/crates/$name/src" "$here/crates/$name/must-fail"
    echo "//! $name" > "$here/crates/$name/src/lib.rt"
    echo "//! more" > "$here/crates/$name/src/more.rt"
  done < <(sed -n 's/^\([a-z_0-9]*\).*:.*/\1/p' "$here/crates.txt")
  : > "$calls"
}

# Calls the script: its status, output and messages are then in the variables status, out and said.
call() {
  status=0
  (PATH=$room/with:$room/without exec "${script:-$here/viommu}" "$@") > "$room/out" 2> "$room/said" || status=$?
  out=$(cat "$room/out"; echo .) out=${out%.}
  said=$(cat "$room/said")
}

# One question: what was got and what is wanted.
same() {
  if [ "$2" = "$3" ]; then
    passed=$((passed + 1))
  else
    failed=$((failed + 1))
    printf '%s\n  got:  %q\n  want: %q\n' "$1" "$2" "$3"
  fi
}

has() {
  case "$2" in
    *"$3"*) passed=$((passed + 1)) ;;
    *)
      failed=$((failed + 1))
      printf '%s\n  got:     %q\n  without: %q\n' "$1" "$2" "$3"
      ;;
  esac
}

builds() { grep -c '^ci in' "$calls" || true; }

line=$'\n'

# Without the toolchain.
fresh_copy
status=0
PATH=$room/without "$here/viommu" one < /dev/null > "$room/out" 2> "$room/said" || status=$?
same 'no toolchain: the status' "$status" 69
same 'no toolchain: nothing is written' "$(cat "$room/out")" ''
has 'no toolchain: it is said' "$(cat "$room/said")" "'rt' isn't found"
status=0
PATH=$room/without "$here/viommu" try one < /dev/null > "$room/out" 2> "$room/said" || status=$?
same 'try without a toolchain: the status' "$status" 69
status=0
PATH=$room/without "$here/viommu" --help > "$room/out" || status=$?
same 'help: the status' "$status" 0
for form in 'viommu one' 'viommu run W' 'viommu sim S T' 'viommu check' 'viommu make N' 'viommu load N W' 'viommu dirty K W' 'viommu trace' 'viommu build' 'viommu try'; do
  has 'help: each form' "$(cat "$room/out")" "$form"
done

# A build by itself, which leaves nothing behind.
mkdir "$room/scratch"
TMPDIR=$room/scratch call build
same 'build: the status' "$status" 0
same 'build: nothing is written' "$out" ''
has 'build: a line at its end' "$said" 'viommu: built in '
same 'build: nothing is left behind' "$(ls "$room/scratch")" ''
TMPDIR=$room/scratch call try one <<< 'memory 1'
same 'try: nothing is left behind' "$(ls "$room/scratch")" ''
fresh_copy

# The first call builds, the second doesn't.
call run 4 <<< 'memory 1'
same 'first call: the status' "$status" 0
same 'first call: the output is the program alone' "$out" "<run><4>${line}memory 1$line"
has 'first call: a line for each crate' "$said" '] vi_history, '
same 'first call: what rt was asked' "$(sed 's/ in .*//' "$calls")" ci
same 'first call: the crates that it needs' "$(grep -cE '^(vi_bytes|vi_threaded|viommu|vi_bench_c|tests_core)$' "$room/given")" 3
same 'first call: no wrong edits, nothing built' "$(grep -cE 'must-fail|out$' "$room/given")" 0
call run 4 <<< 'memory 2'
same 'second call: the output' "$out" "<run><4>${line}memory 2$line"
same 'second call: nothing is built' "$(builds)" 1
same 'second call: nothing is said' "$said" ''
call --version
has 'version: built' "$out" 'is built from these sources'
call build
same 'build again: the status' "$status" 0
same 'build again: nothing is built' "$(builds)" 1

# The program's status is the script's.
for wanted in 2 3 4 5 6 7 8 10 14; do
  echo "$wanted" > "$room/status"
  call one < /dev/null
  same "the status $wanted" "$status" "$wanted"
done
echo 0 > "$room/status"

# Changed sources are built again; other files aren't sources.
echo '// changed' >> "$here/crates/vi_bytes/src/lib.rt"
touch -d '2001-01-01' "$here/crates/vi_bytes/src/lib.rt"
call --version
has 'version: not built' "$out" "isn't built from these sources"
call one < /dev/null
same 'a changed source, an old date' "$(builds)" 2
rm "$here/crates/vi_bytes/src/more.rt"
call one < /dev/null
same 'a source that is gone' "$(builds)" 3
echo '//! new' > "$here/crates/viommu/src/new.rt"
call one < /dev/null
same 'a new source' "$(builds)" 4
touch "$here/crates/viommu/src/new.rt"
echo 'file: src/lib.rt' > "$here/crates/vi_bytes/must-fail/other.edit"
echo '// changed' >> "$here/crates/vi_bench_c/src/lib.rt"
echo 'log' > "$here/crates/vi_bytes/out" && rm "$here/crates/vi_bytes/out"
call one < /dev/null
same 'a date, an edit, a crate that the program does without' "$(builds)" 4
echo '# a comment' >> "$here/crates.txt"
call one < /dev/null
same 'crates.txt' "$(builds)" 5

# A build that fails.
echo '// changed' >> "$here/crates/vi_bytes/src/lib.rt"
touch "$room/no-check"
call one < /dev/null
same 'not proved: the status' "$status" 70
same 'not proved: the old program is not run' "$out" ''
has 'not proved: the error' "$said" 'error[open-goal]'
has 'not proved: which crate' "$said" 'viommu NOT PROVED'
rm "$room/no-check"
touch "$room/no-program"
call one < /dev/null
same 'not linked: the status' "$status" 70
has 'not linked: it is said' "$said" 'no program was linked'
rm "$room/no-program"
call one < /dev/null
same 'built after that' "$status$out" "0<one>$line"
fresh_copy
touch "$here/crates/viommu/out"
call one < /dev/null
same 'no place to write: the status' "$status" 70
has 'no place to write: it is said' "$said" 'nothing can be written'

# From any folder, and through links.
fresh_copy
ln -s "$here/viommu" "$room/elsewhere/link"
ln -s "$room/elsewhere/link" "$room/elsewhere/second"
cd "$room/elsewhere"
script=./second
call one <<< 'memory 1'
same 'through two links' "$out" "<one>${line}memory 1$line"
same 'through two links: one build' "$(builds)" 1
script=
call one <<< 'memory 1'
same 'from another folder' "$out" "<one>${line}memory 1$line"
same 'from another folder: one build' "$(builds)" 1

# Files in the place of standard input.
printf 'memory 1\n' > 'a script'
printf 'memory 2' > unended
printf 'viommu history 0\n' > report
: > empty
printf 'memory 4\n' > 4
call one 'a script' <<< 'not read'
same 'one FILE' "$out" "<one>${line}memory 1$line"
call run 4 'a script'
same 'run W FILE' "$out" "<run><4>${line}memory 1$line"
call sim 0 7 'a script'
same 'sim S T FILE' "$out" "<sim><0><7>${line}memory 1$line"
call dirty 3 4 'a script'
same 'dirty K W FILE' "$out" "<dirty><3><4>${line}memory 1$line"
call check 'a script'
same 'check FILE' "$out" "<check>${line}memory 1$line"
call check 'a script' report
same 'check SCRIPT REPORT' "$out" "<check>${line}memory 1${line}report${line}viommu history 0$line"
call check unended report
same 'check, a script without its last LF' "$out" "<check>${line}memory 2${line}report${line}viommu history 0$line"
call check empty report
same 'check, no script' "$out" "<check>${line}report${line}viommu history 0$line"
call check 'a script' <(printf 'piped\n')
same 'check, a pipe' "$out" "<check>${line}memory 1${line}report${line}piped$line"
call run 4 <<< 'read'
same 'a word that is also a file' "$out" "<run><4>${line}read$line"
echo 7 > "$room/status"
call check 'a script' report
same 'check: the status' "$status" 7
echo 0 > "$room/status"
call one absent < /dev/null
same 'no such file: the status' "$status" 2
same 'no such file: nothing is written' "$out" ''
has 'no such file: it is said' "$said" 'absent: no file that can be read'
call one . < /dev/null
same 'a folder: the status' "$status" 2
call one 'a script' 'a script' < /dev/null
same 'a file too many is a word' "$out" "<one><a script><a script>$line"

# Words that are no form: no build for them, and the program's own answer where it is built.
call rum 4 < /dev/null
same 'no form, built' "$out" "<rum><4>$line"
fresh_copy
for words in '' 'rum 4' 'run' 'sim 0' 'one 1 2'; do
  # shellcheck disable=SC2086
  call $words < /dev/null
  same "no form, not built: '$words'" "$status:$out:$(builds)" '2::0'
done

# The program unproved.
call try sim 0 0 'a script'
same 'try: the output' "$out" "<sim><0><0>${line}memory 1$line"
same 'try: the status' "$status" 0
same 'try: what rt was asked' "$(cat "$calls")" 'try -- sim 0 0 in viommu'
has 'try: it is said that nothing is proved' "$said" 'compiled with no proof'
same 'try: how rt says that it ended is left out' "$(wc -l < "$room/said")" 1
touch "$room/warns"
call try one < /dev/null
has 'try: what else rt says' "$said" 'warning: of rt'
same 'try: what else rt says, and no more' "$(wc -l < "$room/said")" 2
rm "$room/warns"
call try one <<< 'memory 3'
same 'try: standard input' "$out" "<one>${line}memory 3$line"
echo 4 > "$room/status"
call try one < /dev/null
same 'try: the status of the program' "$status" 4
echo 0 > "$room/status"
touch "$room/hangs"
call try one < /dev/null
same 'try: no end' "$status" 70
has 'try: no end, what rt said' "$said" 'races: not looked for'
rm "$room/hangs"
touch "$room/no-try"
call try one < /dev/null
same 'try: refused' "$status" 70
has 'try: refused, the error' "$said" 'error[type]'
rm "$room/no-try"
same 'try: nothing is built' "$(builds)" 0

echo "$passed passed, $failed failed"
[ "$failed" -eq 0 ]
