#!/usr/bin/env bash
# Refuses one piece of memory a run, the first that the program asks for, the second, and so on, up to a run that asks for fewer:
# of ident and sources of a file with debug information, of a first scan, of a query, of a search that finds its file, and of one
# connection of a server. A command is to say that it is out of memory, with status 6, or what it says else; a connection is to get 507,
# nothing, or the reply that it gets else; and the next scan of the same store is to find each file. It stands outside the gate, since
# it takes minutes.
#
# What refuses is a library of C that is compiled here and loaded before the program's own: its malloc and realloc are those of the
# system, but for the call of one number, counted from the beginning of main or, for a connection, from when the server has said
# that it made its pass.
#
# usage: bench/refused_memory.sh [PROGRAM]      PROGRAM is ./dbgd of the repository's top unless given
source "$(dirname -- "$(readlink -f -- "${BASH_SOURCE[0]}")")/../checks/lib/head.sh" || exit 1
source "$top/checks/lib/server.sh" || exit 1

for tool in cc python3 curl; do
  command -v "$tool" >/dev/null || { say "skipped: there is no $tool"; exit 0; }
done
# A launcher of the program would want memory of its own.
[ "$program" != "$top/dbgd" ] || program=$top/crates/dbgd/out/dbgd

cat >"$work/refuse.c" <<'LIBRARY'
#define _GNU_SOURCE
#include <dlfcn.h>
#include <errno.h>
#include <fcntl.h>
#include <stdlib.h>
#include <sys/mman.h>
#include <unistd.h>

/* How many calls get memory before one doesn't, in a file that others read and write; below zero no more is refused. */
static long *left;
static int begun;

static int refuses(void) {
  if (!begun || !left || __atomic_fetch_sub(left, 1, __ATOMIC_SEQ_CST) != 0) return 0;
  errno = ENOMEM;
  return 1;
}

extern void *__libc_malloc(size_t);
extern void *__libc_realloc(void *, size_t);

void *malloc(size_t size) { return refuses() ? NULL : __libc_malloc(size); }
void *realloc(void *kept, size_t size) { return refuses() ? NULL : __libc_realloc(kept, size); }

typedef int entry(int, char **, char **);
typedef int starter(entry *, int, char **, void (*)(void), void (*)(void), void (*)(void), void *);

static entry *program;

static int counted(int count, char **words, char **environment) {
  begun = 1;
  int status = program(count, words, environment);
  begun = 0;
  return status;
}

int __libc_start_main(entry *run, int count, char **words, void (*init)(void), void (*fini)(void), void (*last)(void), void *stack) {
  const char *path = getenv("REFUSE");
  int file = path ? open(path, O_RDWR | O_CLOEXEC) : -1;
  void *map = file < 0 ? MAP_FAILED : mmap(NULL, sizeof *left, PROT_READ | PROT_WRITE, MAP_SHARED, file, 0);
  if (file >= 0) close(file);
  if (map != MAP_FAILED) left = map;
  program = run;
  return ((starter *)dlsym(RTLD_NEXT, "__libc_start_main"))(counted, count, words, init, fini, last, stack);
}
LIBRARY
cc -O1 -shared -fPIC -o "$work/refuse.so" "$work/refuse.c" -ldl || { say "the library could not be compiled"; exit 1; }

export REFUSE=$work/left
ENOUGH=1000000000

# Lets so many calls get memory, of a program that runs or of the next one: eight bytes, the lowest first.
grant() { # NUMBER
  local text= place
  for ((place = 0; place < 64; place += 8)); do
    printf -v text '%s\\x%02x' "$text" $(($1 >> place & 255))
  done
  printf "$text" 1<>"$REFUSE"
}

# How many more get it.
left() { od -An -td8 "$REFUSE"; }
: >"$REFUSE"
grant 0

# Two files with debug information, of which the first names two sources, and a text.
mkdir "$work/tree"
python3 - "$work/tree/prog" <<'PYTHON'
import struct, sys
names = b"\0"
def section(name, kind, flags, alignment, data):
    return [name, kind, flags, alignment, data]
build_id = bytes(range(0x20, 0x34))
note = struct.pack("<III", 4, len(build_id), 3) + b"GNU\0" + build_id
hexes = lambda text: bytes.fromhex(text)
sections = [
    section(b".note.gnu.build-id", 7, 2, 4, note),
    section(b".text", 1, 6, 16, b"\xc3"),
    section(b".debug_abbrev", 1, 0, 1, hexes("0111001b2572171017000000")),
    section(b".debug_info", 1, 0, 1, hexes("12000000050001080000000001000800000000000000")),
    section(b".debug_line", 1, 0, 1, hexes("410000000500080039000000010101fb0e0d00010101010000000100000101011f0200000000"
            "0200000003011f020b81401f020600000000000000000d0000000100000000")),
    section(b".debug_str", 1, 0, 1, b"/w/src\0"),
    section(b".debug_line_str", 1, 0, 1, b".\0inc\0main.c\0util.h\0"),
    section(b".debug_str_offsets", 1, 0, 1, hexes("080000000500000000000000")),
]
texts = b"\0" + b"".join(s[0] + b"\0" for s in sections) + b".shstrtab\0"
sections.append(section(b".shstrtab", 3, 0, 1, texts))
body, headers = bytearray(64), [bytes(64)]
for name, kind, flags, alignment, data in sections:
    body += bytes(-len(body) % alignment)
    headers.append(struct.pack("<IIQQQQIIQQ", texts.index(name + b"\0"), kind, flags, 0, len(body), len(data), 0, 0, alignment, 0))
    body += data
body += bytes(-len(body) % 8)
table = len(body)
body += b"".join(headers)
body[:64] = b"\x7fELF\2\1\1" + bytes(9) + struct.pack("<HHIQQQIHHHHHH", 3, 62, 1, 0, 0, table, 0, 64, 0, 0, 64, len(headers), len(headers) - 1)
open(sys.argv[1], "wb").write(body)
PYTHON
id=202122232425262728292a2b2c2d2e2f30313233
cp checks/data/ppc32_big.elf "$work/tree/other"
printf 'text\n' >"$work/tree/text"

# The program with the library, which nothing else is to load.
refusing=$work/refusing
printf '#!/bin/sh\nexec env LD_PRELOAD=%q %q "$@"\n' "$work/refuse.so" "$program" >"$refusing"
chmod +x "$refusing"

# Runs the program where a call gets no memory; what it says is in `out` and `err`, the status in `status`.
refused() { # NUMBER WORDS..
  local number=$1
  shift
  grant "$number"
  timeout 60 env LD_PRELOAD="$work/refuse.so" "$program" "$@" >"$work/out" 2>"$work/err" </dev/null
  status=$?
}

# A scan of a store finds each file.
is_complete() { # STORE WHAT
  local line
  line=$("$program" scan -d "$1" "$work/tree" 2>&1 </dev/null) || { differs "$2: the next scan ends with $?: $line"; return; }
  [[ $line =~ ^scan:\ 3\ files,\ ([0-9]+)\ added,\ 0\ replaced,\ 0\ dropped,\ ([0-9]+)\ kept, ]] &&
    [ $((BASH_REMATCH[1] + BASH_REMATCH[2])) = 3 ] || differs "$2: the next scan says $line"
}

# A command over a store, one number a run, up to a run that asks for memory less often. Each run has a new copy of the store that is
# named first, or a new store where that is -.
each() { # NAME STORE WORDS..
  local name=$1 store=$2 number wants=0 usual=0 calls
  shift 2
  for ((number = 0; ; number++)); do
    rm -f "$work"/run.db*
    [ "$store" = - ] || cp "$store" "$work/run.db"
    refused "$number" "$@"
    calls=$(left)
    if [ "$status" = 6 ] && [ "$(<"$work/err")" = 'dbgd: out of memory' ] && [ ! -s "$work/out" ]; then
      wants=$((wants + 1))
    elif [ "$status" = 0 ] && [ ! -s "$work/err" ] && cmp -s "$work/out" "$work/usual"; then
      usual=$((usual + 1))
    else
      differs "$name at $number: status $status, $(head -c 300 "$work/out") $(head -c 300 "$work/err")"
    fi
    [[ " $* " != *' -d '* ]] || is_complete "$work/run.db" "$name at $number"
    [ "$calls" -lt 0 ] || break
  done
  # The last run asked for memory as often as it was granted.
  [ "$status" = 0 ] || differs "$name: the run of which nothing is refused ends with $status"
  say "$name: $number calls, of which one is refused a run: out of memory $wants, as usual $((usual - 1))"
}

printf '%s both\n' "$id" >"$work/usual"
each ident - ident "$work/tree/prog"
printf '/w/src/inc/util.h\n/w/src/main.c\n' >"$work/usual"
each sources - sources "$work/tree/prog"
printf 'scan: 3 files, 3 added, 0 replaced, 0 dropped, 0 kept, 2 executables, 2 debuginfo\n' >"$work/usual"
each 'scan -c 1' - scan -c 1 -d "$work/run.db" "$work/tree"
"$program" scan -d "$work/scanned.db" "$work/tree" >/dev/null || differs 'no scan'
printf 'both %s\n' "$work/tree/prog" >"$work/usual"
each query "$work/scanned.db" query -d "$work/run.db" "$id"
mkdir "$work/cache" && cp "$work/tree/prog" "$work/cache/$id-executable"
cp "$work/tree/prog" "$work/usual"
each 'find, of a hit' - find --cache "$work/cache" --upstream http://127.0.0.1:1 executable "$id"

# One connection of a server, one number a run.
number=0 wants=0 ends=0 usual=0
while :; do
  grant "$ENOUGH"
  rm -f "$work"/conn.db*
  program=$refusing start conn -c 1 -t 0 "$work/tree" || exit 1
  scanned 1
  grant "$number"
  code=$(curl -s -m 20 --noproxy '*' -o "$work/body" -w '%{http_code}' "$at/buildid/$id/executable")
  calls=$(left)
  grant "$ENOUGH"
  case $code in
  200) cmp -s "$work/body" "$work/tree/prog" && usual=$((usual + 1)) || differs "at $number: another file" ;;
  507) [ "$(cat "$work/body")" = 'out of memory' ] && wants=$((wants + 1)) || differs "at $number: another text" ;;
  000) ends=$((ends + 1)) ;;
  *) differs "at $number: the reply is $code" ;;
  esac
  stop "$server"
  is_complete "$work/conn.db" "a connection at $number"
  [ "$calls" -lt 0 ] || break
  number=$((number + 1))
done
[ "$code" = 200 ] || differs "the connection of which nothing is refused gets $code"
say "a connection: $number calls, of which one is refused a run: 507 $wants, no reply $ends, as usual $((usual - 1))"

say "$differing differ"
[ "$differing" = 0 ]
