#!/usr/bin/env bash
# Refuses a program its requests, one after another: tests/refused.sh PROGRAM, with the built viommu.
#
# A small library that is loaded before the program counts its requests for memory, its reads of standard input, its writes
# to standard output and its threads, and refuses the N-th, or all from the N-th on, for N from 1 until none is left. Where
# memory is refused the program ends with status 8 and says nothing, or with its own status and text. A failing read gives
# status 5 and no output, a failing write 6 and a proper prefix of the text; a thread that can't be started changes nothing,
# and reads and writes of one byte neither. A run on threads may have any text that `check` finds legal.
# It stands outside the gate, and ends with 'N passed, M failed'.
set -euo pipefail
if [ $# -ne 1 ]; then
  echo "usage: tests/refused.sh PROGRAM" >&2
  exit 2
fi
program=$(realpath -- "$1")
cd "$(dirname "$0")/.."
compiler=$(command -v gcc || command -v cc || true)
if [ -z "$compiler" ] || [ "$(uname -s)" != Linux ]; then
  echo "skipped: all, since it wants a C compiler (gcc or cc) and Linux"
  echo "0 passed, 0 failed"
  exit 0
fi
room=$(mktemp -d)
trap 'rm -rf "$room"' EXIT
passed=0 failed=0

cat > "$room/refuse.c" << 'C'
/* Loaded before the program: counts its requests of one kind, and refuses one, or all from one on. The words come in
   REFUSE_KIND, REFUSE_AT (0: none) and REFUSE_ON (1: that one and all behind it); where REFUSE_PIECE isn't 0, reads and
   writes move so many bytes at most. The count is kept in the mapped file REFUSE_COUNT, since a program may end by _exit. */
#define _GNU_SOURCE
#include <dlfcn.h>
#include <errno.h>
#include <fcntl.h>
#include <pthread.h>
#include <stdatomic.h>
#include <stdlib.h>
#include <string.h>
#include <sys/mman.h>
#include <unistd.h>

enum { MEMORY = 'm', READ = 'r', WRITE = 'w', THREAD = 't' };

static atomic_uint alone, *count = &alone;
static unsigned at, and_on, kind, piece;

/* Whether this request, one of the kind asked, is refused. Before `begin` nothing is. */
static int is_refused(unsigned of) {
    if (of != kind) return 0;
    unsigned now = atomic_fetch_add(count, 1) + 1;
    return at != 0 && (now == at || (and_on && now > at));
}

__attribute__((constructor)) static void begin(void) {
    const char *path = getenv("REFUSE_COUNT"), *words = getenv("REFUSE_KIND");
    if (path == NULL || words == NULL) return;
    int file = open(path, O_RDWR);
    void *room = file < 0 ? MAP_FAILED : mmap(NULL, 4096, PROT_READ | PROT_WRITE, MAP_SHARED, file, 0);
    if (room == MAP_FAILED) abort();
    close(file);
    count = room;
    at = atoi(getenv("REFUSE_AT"));
    and_on = atoi(getenv("REFUSE_ON"));
    piece = atoi(getenv("REFUSE_PIECE"));
    kind = (unsigned char)words[0];
}

#define NEXT(name) \
    static __typeof__(&name) next; \
    if (next == NULL) next = (__typeof__(&name))dlsym(RTLD_NEXT, #name)
#define OUT_OF_MEMORY do { if (is_refused(MEMORY)) { errno = ENOMEM; return NULL; } } while (0)

extern void *__libc_malloc(size_t), *__libc_calloc(size_t, size_t), *__libc_realloc(void *, size_t),
    *__libc_memalign(size_t, size_t);

void *malloc(size_t size) { OUT_OF_MEMORY; return __libc_malloc(size); }
void *calloc(size_t many, size_t size) { OUT_OF_MEMORY; return __libc_calloc(many, size); }
void *realloc(void *old, size_t size) { OUT_OF_MEMORY; return __libc_realloc(old, size); }
void *aligned_alloc(size_t to, size_t size) { OUT_OF_MEMORY; return __libc_memalign(to, size); }
int posix_memalign(void **out, size_t to, size_t size) {
    if (is_refused(MEMORY)) return ENOMEM;
    *out = __libc_memalign(to, size);
    return *out == NULL ? ENOMEM : 0;
}

ssize_t read(int file, void *to, size_t size) {
    NEXT(read);
    if (file == 0 && is_refused(READ)) { errno = EIO; return -1; }
    return next(file, to, file == 0 && piece && size > piece ? piece : size);
}
ssize_t write(int file, const void *from, size_t size) {
    NEXT(write);
    if (file == 1 && is_refused(WRITE)) { errno = EIO; return -1; }
    return next(file, from, file == 1 && piece && size > piece ? piece : size);
}
ssize_t __write(int file, const void *from, size_t size) { return write(file, from, size); }

int pthread_create(pthread_t *thread, const pthread_attr_t *how, void *(*work)(void *), void *with) {
    NEXT(pthread_create);
    if (is_refused(THREAD)) return EAGAIN;
    return next(thread, how, work, with);
}
C
if ! "$compiler" -O2 -shared -fPIC -o "$room/refuse.so" "$room/refuse.c" -ldl 2> "$room/said"; then
  echo "skipped: all, since the library can't be compiled: $(head -n 1 "$room/said")"
  echo "0 passed, 0 failed"
  exit 0
fi

# Runs the program; sets `status` and `requests`, and leaves its text in out. WORDS INPUT KIND AT ON PIECE
run_it() {
  head -c 4096 /dev/zero > "$room/count"
  status=0
  # shellcheck disable=SC2086
  REFUSE_COUNT=$room/count REFUSE_KIND=$3 REFUSE_AT=$4 REFUSE_ON=$5 REFUSE_PIECE=$6 timeout 60 \
    env LD_PRELOAD="$room/refuse.so" "$program" $1 < "$2" > "$room/out" 2> "$room/error" || status=$?
  requests=$(od -An -tu4 -N4 "$room/count" | tr -d ' ')
}

# The program's own status and text on these words and this input.
own() {
  own_status=0
  # shellcheck disable=SC2086
  "$program" $1 < "$2" > "$room/own" || own_status=$?
}

# Whether the last run ended as it does where nothing is refused.
is_own() {
  [ "$status" -eq "$own_status" ] || return 1
  cmp -s "$room/out" "$room/own" && return 0
  case $1 in run*) ;; *) return 1 ;; esac
  { cat "$2"; echo report; cat "$room/out"; } | "$program" check > "$room/verdict" || return 1
  [ "$(cat "$room/verdict")" = legal ]
}

# Whether the last run ended as it may where a request of this KIND was refused.
is_as_said() {
  case $3 in
    memory) { [ "$status" -eq 8 ] && [ ! -s "$room/out" ]; } || is_own "$1" "$2" ;;
    thread) is_own "$1" "$2" ;;
    read) [ "$status" -eq 5 ] && [ ! -s "$room/out" ] ;;
    write)
      local size
      size=$(wc -c < "$room/out")
      [ "$status" -eq 6 ] && [ "$size" -lt "$(wc -c < "$room/own")" ] && cmp -s -n "$size" "$room/out" "$room/own" ;;
  esac
}

# Says what wasn't as said, once for all requests with the same status and text.
say_misfits() {
  local of
  for of in "${!misfits[@]}"; do
    echo "$1: refused ${misfits[$of]}: $of"
  done
}

# Refuses each request of a KIND in turn, until none is left: WORDS INPUT KIND ON PIECE. A run on threads makes more requests
# at one time than at another, so three runs in a row have to get by with fewer.
refuse_each() {
  local words=$1 input=$2 kind=$3 on=$4 piece=$5 at=0 beyond=0 needed=1
  local -A misfits=()
  case $words in run*) needed=3 ;; esac
  own "$words" "$input"
  while [ "$beyond" -lt "$needed" ]; do
    at=$((at + 1))
    run_it "$words" "$input" "$kind" "$at" "$on" "$piece"
    if [ "$requests" -lt "$at" ]; then
      beyond=$((beyond + 1))
      is_own "$words" "$input" && { passed=$((passed + 1)); continue; }
    else
      beyond=0
      is_as_said "$words" "$input" "$kind" && { passed=$((passed + 1)); continue; }
    fi
    failed=$((failed + 1))
    local of
    of="status $status, output '$(head -c 60 "$room/out" | tr '\n' '|')'"
    if [ "$kind" = memory ] && [ "$status" -eq 2 ]; then
      of="$of (Usage: the words of the command line weren't read)"
    fi
    misfits[$of]="${misfits[$of]:-request} $at"
  done
  local how=
  if [ "$on" = 1 ]; then how=' and all behind it'; fi
  if [ "$piece" = 1 ]; then how="$how, bytes one by one"; fi
  say_misfits "$words < ${input##*/}, $kind$how"
  tried=$((tried + at))
}

# All that is asked of one command on one input, whose status is known: WORDS INPUT STATUS
refuse_all() {
  local on kind
  own "$1" "$2"
  if [ "$own_status" -eq "$3" ]; then
    passed=$((passed + 1))
  else
    failed=$((failed + 1))
    echo "$1 < ${2##*/}: status $own_status, wanted $3"
  fi
  for on in 0 1; do refuse_each "$1" "$2" memory "$on" 0; done
  for kind in read write; do refuse_each "$1" "$2" "$kind" 0 0; done
  case $1 in run*) for on in 0 1; do refuse_each "$1" "$2" thread "$on" 0; done ;; esac
  run_it "$1" "$2" none 0 0 1
  if is_own "$1" "$2"; then
    passed=$((passed + 1))
  else
    failed=$((failed + 1))
    echo "$1 < ${2##*/}, reads and writes of one byte: status $status, output '$(head -c 60 "$room/out" | tr '\n' '|')'"
  fi
}

tried=0
: > "$room/nothing"
for name in first faults removal; do
  script=examples/$name.viommu
  "$program" one < "$script" > "$room/report"
  { cat "$script"; echo report; cat "$room/report"; } > "$room/$name.judged"
  for words in 'sim 0 0' one 'run 4'; do refuse_all "$words" "$script" 0; done
  refuse_all check "$room/$name.judged" 0
done
refuse_all trace examples/acknowledged.trace 0
# What is refused too: a bad script, a report that is wrong, one that isn't one, a trace in which a rule is broken, a text
# that is none, and wrong words.
printf 'memory 1\nendpoint 7\nsomething else\n' > "$room/bad"
{ cat examples/removal.viommu; echo report; cat examples/stale.report; } > "$room/wrong.judged"
{ cat examples/first.viommu; echo report; echo nothing; } > "$room/bad.judged"
refuse_all one "$room/bad" 3
refuse_all check "$room/wrong.judged" 7
refuse_all check "$room/bad.judged" 10
refuse_all trace examples/stale.trace 7
printf 'sideways 00\n' > "$room/bad.trace"
refuse_all trace "$room/bad.trace" 14
refuse_all 'load 1 1' "$room/nothing" 0
refuse_all 'make 1' "$room/nothing" 0
refuse_all 'two words' "$room/nothing" 2
# A script whose history has one order only, byte by byte.
for words in 'sim 0 0' one 'run 4'; do
  refuse_each "$words" examples/first.viommu read 0 1
  refuse_each "$words" examples/first.viommu write 0 1
done
refuse_each check "$room/first.judged" read 0 1
refuse_each check "$room/first.judged" write 0 1
refuse_each 'load 1 1' "$room/nothing" write 0 1
refuse_each trace examples/acknowledged.trace read 0 1
refuse_each trace examples/acknowledged.trace write 0 1
[ "$tried" -gt 1000 ] || { failed=$((failed + 1)); echo "only $tried runs were refused something"; }

echo "$passed passed, $failed failed"
[ "$failed" -eq 0 ]
