#!/usr/bin/env bash
# Lets the clients of debuginfod ask a real server for a stripped program, its debug file and its sources, each client where it
# is installed: debuginfod-find and llvm-debuginfod-find get the files, gdb lists the source, eu-addr2line names a line, and
# eu-stack the functions of a process. The clients find nothing but by asking. Ends within two minutes.
#
# usage: checks/serve_clients.sh [PROGRAM]      PROGRAM is ./dbgd of the repository's top unless given
#
# It is cut off after SERVE_SECONDS (115 unless set), and fails then.
source "$(dirname -- "$(readlink -f -- "${BASH_SOURCE[0]}")")/lib/head.sh" || exit 1
source "$top/checks/lib/server.sh" || exit 1

for tool in gcc objcopy strip nm curl; do
  command -v "$tool" >/dev/null || { say "skipped: there is no $tool"; exit 0; }
done
end_after "${SERVE_SECONDS:-115}"

# A program that waits where it is told to, its debug file and its sources are served; a client has the program alone.
served=$work/served own=$work/own
mkdir -p "$served/src" "$served/bin" "$served/debug" "$own/home"
printf '#include <unistd.h>\nstatic inline int inner(void) { return pause(); }\n' >"$served/src/part.h"
printf '#include "part.h"\nint outer(int n) {\n  return n > 1 ? inner() : 0;\n}\nint main(int argc, char **argv) {\n  return outer(argc);\n}\n' \
  >"$served/src/main.c"
(cd "$served/src" && gcc -gdwarf-5 -O0 -Wl,--build-id=sha1 -o "$work/whole" main.c) ||
  { say "skipped: gcc makes no program with DWARF 5"; exit 0; }
objcopy --only-keep-debug "$work/whole" "$served/debug/tool.debug"
strip -o "$served/bin/tool" "$work/whole"
cp "$served/bin/tool" "$own/tool"
place=$(nm "$work/whole" | sed -n 's/^0*\([0-9a-f]*\) [tT] inner$/0x\1/p')
id=$("$program" ident "$own/tool" | cut -d ' ' -f 1)
start clients -t 0 "$served" || exit 1
scanned 1
export DEBUGINFOD_URLS=$at HOME=$own/home no_proxy='*'
unset XDG_CACHE_HOME DEBUGINFOD_PROGRESS DEBUGINFOD_VERBOSE DEBUGINFOD_HEADERS_FILE DEBUGINFOD_IMA_CERT_PATH

# Whether a client is there: it has a cache of its own then.
tried=0
has() { # CLIENT
  command -v "$1" >/dev/null || { say "$1: skipped, it isn't installed"; return 1; }
  export DEBUGINFOD_CACHE_PATH=$work/cache.$1
  tried=$((tried + 1))
}

# Looks for the file that a client got, whose path it prints.
got() { # WANTED COMMAND..
  local wanted=$1 path
  shift
  path=$(timeout 30 "$@" 2>"$work/err" | tail -n 1)
  [ -n "$path" ] && cmp -s "$wanted" "$path" || differs "$*: $path $(cat "$work/err")"
}

# Looks for texts in what a client prints.
prints() { # COMMAND.. -- TEXT..
  local command=()
  while [ "$1" != -- ]; do command+=("$1") && shift; done
  shift
  timeout 30 "${command[@]}" >"$work/out" 2>"$work/err" </dev/null
  for text in "$@"; do
    grep -q -F -- "$text" "$work/out" || differs "${command[*]}: no $text in $(head -c 600 "$work/out" "$work/err")"
  done
}

if has debuginfod-find; then
  got "$served/bin/tool" debuginfod-find executable "$id"
  got "$served/debug/tool.debug" debuginfod-find debuginfo "$own/tool"
  got "$served/src/main.c" debuginfod-find source "$id" "$served/src/main.c"
  got "$served/src/part.h" debuginfod-find source "$own/tool" "$served/src/part.h"
  ! timeout 30 debuginfod-find debuginfo 00ff00ff >/dev/null 2>&1 || differs 'debuginfod-find found an id that is nobody'
fi

if has llvm-debuginfod-find; then
  if timeout 30 llvm-debuginfod-find --executable "$id" 2>&1 | grep -q -i 'http client'; then
    say 'llvm-debuginfod-find: skipped, it is built without HTTP'
  else
    got "$served/bin/tool" llvm-debuginfod-find --executable "$id"
    got "$served/debug/tool.debug" llvm-debuginfod-find --debuginfo "$id"
    got "$served/src/main.c" llvm-debuginfod-find --source="$served/src/main.c" "$id"
  fi
fi

if has gdb; then
  if gdb --configuration | grep -q -e '--with-debuginfod'; then
    # The sources lie where the debug file says: gdb is made to look for them elsewhere, and asks the server then.
    prints gdb -nx -batch -iex 'set debuginfod enabled on' -iex "set substitute-path $served/src $own/none" -ex 'list outer' \
      -ex 'info line inner' "$own/tool" -- 'return n > 1 ? inner() : 0;' 'part.h" starts at'
    grep -q 'route="source",status="200"' <(curl -s --noproxy '*' "$at/metrics") || differs 'gdb asked for no source'
  else
    say 'gdb: skipped, it is built without debuginfod'
  fi
fi

if has eu-addr2line; then
  prints eu-addr2line -f -e "$own/tool" "$place" -- inner part.h:2
fi

if has eu-stack; then
  "$own/tool" wait &
  waiting=$!
  children+=("$waiting")
  waits() { grep -q '^State:.S' "/proc/$waiting/status" && grep -q -x tool "/proc/$waiting/comm"; }
  within 100 waits || differs 'the program does not wait'
  if [ "$(id -u)" = 0 ] || [ "$(cat /proc/sys/kernel/yama/ptrace_scope 2>/dev/null || echo 0)" = 0 ]; then
    prints eu-stack -s -p "$waiting" -- inner outer main part.h:2 main.c:3
  else
    say 'eu-stack: skipped, this user may not look into a process'
  fi
  kill "$waiting"
  wait "$waiting" 2>/dev/null
  forget "$waiting"
fi

stop "$server"
say "$tried clients tried; $differing differ"
[ "$differing" = 0 ]
