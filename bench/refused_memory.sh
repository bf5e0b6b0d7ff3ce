#!/usr/bin/env bash
# Refuses memory: gives the program a command line again and again, with its first allocation refused, then its second, and
# so on, until none is. Each run must write the whole report with its status, or a front of it with status 7. The allocator
# is the C library's with a counter before it, built here and loaded before the program.
#
# usage: refused_memory.sh [FILE..], which are run; without files, programs of its own, among them a transformation that is
# applied to trees.
. "$(dirname "${BASH_SOURCE[0]}")/common.sh"

cat >"$folder/refuse.c" <<'C'
#define _GNU_SOURCE
#include <dlfcn.h>
#include <errno.h>
#include <stddef.h>
#include <stdlib.h>

static long refused = -1, calls = 0;

static int refuses(void) {
  if (refused < 0) {
    const char *number = getenv("REFUSED");
    refused = number ? atol(number) : 0;
  }
  return ++calls == refused;
}

void *malloc(size_t size) {
  static void *(*own)(size_t);
  if (!own) own = (void *(*)(size_t))dlsym(RTLD_NEXT, "malloc");
  return refuses() ? NULL : own(size);
}

void *realloc(void *old, size_t size) {
  static void *(*own)(void *, size_t);
  if (!own) own = (void *(*)(void *, size_t))dlsym(RTLD_NEXT, "realloc");
  return refuses() ? NULL : own(old, size);
}

void *aligned_alloc(size_t align, size_t size) {
  static void *(*own)(size_t, size_t);
  if (!own) own = (void *(*)(size_t, size_t))dlsym(RTLD_NEXT, "aligned_alloc");
  return refuses() ? NULL : own(align, size);
}

int posix_memalign(void **to, size_t align, size_t size) {
  static int (*own)(void **, size_t, size_t);
  if (!own) own = (int (*)(void **, size_t, size_t))dlsym(RTLD_NEXT, "posix_memalign");
  return refuses() ? ENOMEM : own(to, align, size);
}

__attribute__((destructor)) static void tell(void) {
  const char *to = getenv("CALLS");
  if (!to) return;
  /* the count of calls, for the script: no allocation, no stdio */
  extern int open(const char *, int, ...);
  extern long write(int, const void *, size_t);
  char digits[24];
  int at = 24, file = open(to, 01101, 0600);
  digits[--at] = '\n';
  long left = calls;
  do digits[--at] = '0' + left % 10; while ((left /= 10) > 0);
  if (file >= 0) write(file, digits + at, 24 - at);
}
C
cc -shared -fPIC -O2 -w -o "$folder/refuse.so" "$folder/refuse.c" -ldl || exit 1

cat >"$folder/pairs" <<'T'
type F[b : Bool]{l(0), n(2)}
lang t : F { l() where b | n(x, y) where not b given (t x) (f y) }
lang f : F { l() where not b }
lang w : F { n(x, y) given (t x) (f x) }
assert-false (is-empty f)
assert-true (is-empty w)
T
cat >"$folder/texts" <<'T'
type W[s : String, u : String]{z(0)}
lang p : W { z() where s != "a" and s != "b" and s != "c" and s = u }
assert-false (is-empty p)
T
cat >"$folder/numbers" <<'T'
type N[x : Int, y : Int]{z(0)}
lang e : N { z() where 2*x = 2*y + 1 }
lang m : N { z() where x % 3 = 2 and y != x and y > 0 }
assert-true (is-empty e)
assert-false (is-empty m)
T

cat >"$folder/types" <<'T'
type B[]{a(0), b(0), c(1)}
lang all : B { a() | b() | c(x) given (all x) }
lang odd : B { c(x) given (even x) }
lang even : B { a() | b() | c(x) given (odd x) }
trans p : B -> B { a() to (b []) | b() to (a []) | c(x) to (c [] (c [] (p x))) }
def q : B -> B := (compose p p)
def twice : B := (pre-image (restrict q even) (minimize even))
tree t : B := (apply p (get-witness odd))
assert-true (type-check all p even)
assert-true all == twice
T
cat >"$folder/gives" <<'T'
type N[x : Int]{z(0)}
trans f : N -> N { z() where x > 0 to (z [x]) | z() where x >= 1 to (z [x]) | z() to (z [-x]) }
T
printf '(z [3]) (z [0])' >"$folder/given"

# Each run of these words.
refuse_each() {
  local status whole number=0 calls front=0
  whole=$("$program" "$@"; echo "status $?")
  printf '%s' "${whole%status *}" >"$folder/whole"
  status=${whole##*status }
  while :; do
    number=$((number + 1))
    CALLS=$folder/calls REFUSED=$number LD_PRELOAD=$folder/refuse.so "$program" "$@" >"$folder/report" 2>"$folder/errors"
    local got=$?
    calls=$(cat "$folder/calls")
    if [ "$got" = "$status" ] && cmp -s "$folder/report" "$folder/whole"; then
      [ "$calls" -lt "$number" ] && break
      continue
    fi
    if [ "$got" != 7 ] || [ -s "$folder/errors" ] ||
      ! cmp -s -n "$(stat -c %s "$folder/report")" "$folder/report" "$folder/whole"; then
      echo "$*: allocation $number refused: status $got"
      return 1
    fi
    front=$((front + 1))
  done
  echo "$1 $(basename "$2"), status $status: $((number - 1)) allocations refused one by one, $front runs with status 7 and a front of the report, the others whole"
}

if [ $# -eq 0 ]; then
  set -- "$folder/pairs" "$folder/texts" "$folder/numbers" "$folder/types"
  refuse_each apply "$folder/gives" f "$folder/given" || exit 1
fi
for text in "$@"; do refuse_each run "$text" || exit 1; done
