#!/usr/bin/env bash
# Asks real servers that ask other ones over sockets: a chain of two for each file of checks/data by id and class, its heads, a
# section, the hop limit, a server that is its own upstream, and servers whose upstream isn't there, hangs, ends in the middle,
# answers another file under the asked id, or sends chunks; then a real debuginfod behind a server and one before it, and a source
# by curl, gdb and debuginfod-find through a chain, each where it is installed. Ends within two minutes where nothing else keeps the
# machine busy.
#
# usage: checks/upstream.sh [PROGRAM]      PROGRAM is ./dbgd of the repository's top unless given
#
# It is cut off after UPSTREAM_SECONDS (175 unless set), and fails then.
source "$(dirname -- "$(readlink -f -- "${BASH_SOURCE[0]}")")/lib/head.sh" || exit 1
source "$top/checks/lib/server.sh" || exit 1

command -v curl >/dev/null || { say "skipped: there is no curl"; exit 0; }
end_after "${UPSTREAM_SECONDS:-175}"
compared=0

# Compares two files, byte for byte.
same() { # WHAT WANTED GOT
  compared=$((compared + 1))
  cmp -s "$2" "$3" || differs "$1: wanted $(head -c 300 "$2" | tr '\r\0' '..'), got $(head -c 300 "$3" | tr '\r\0' '..')"
}

# Compares two texts.
is() { # WHAT WANTED GOT
  compared=$((compared + 1))
  [ "$2" = "$3" ] || differs "$1: wanted $2, got $3"
}

# Asks a server by curl: its answer is in `body` and `head`, the status is printed.
ask() { # SERVER TARGET OPTIONS..
  local url=$1$2
  shift 2
  curl -s -m 30 --noproxy '*' -g -o "$work/body" -D "$work/head" -w '%{http_code}' "$@" "$url"
}

# The same, with the body of a text.
said() { # SERVER TARGET OPTIONS..
  local status
  status=$(ask "$@")
  echo "$status $(cat "$work/body")"
}

tree=$work/tree nothing=$work/nothing
mkdir "$tree" "$nothing"
cp checks/data/*.elf "$tree/"
id=c7cf087b5ca1b9c2642186834da2d47b6ff7c585 # aarch64_little.elf
file=$tree/aarch64_little.elf
target=/buildid/$id/executable

# A chain of two: what the one behind has, the one before sends, without a path.
start back -c 4 -t 0 "$tree" || exit 1
scanned 1
back=$server back_at=$at
start front -c 4 -t 0 --upstream "$back_at" "$nothing" || exit 1
scanned 1
front=$server front_at=$at
for elf in "$tree"/*; do
  read -r one _ < <("$program" ident "$elf")
  for kind in executable debuginfo; do
    wanted=$(ask "$back_at" "/buildid/$one/$kind")
    cp "$work/body" "$work/wanted"
    is "the $kind of $elf" "$wanted" "$(ask "$front_at" "/buildid/$one/$kind")"
    same "the $kind of $elf" "$work/wanted" "$work/body"
  done
done
size=$(stat -c %s "$file")
printf 'HTTP/1.1 200 OK\r\nContent-Type: application/octet-stream\r\nContent-Length: %d\r\nX-DEBUGINFOD-SIZE: %d\r\nConnection: keep-alive\r\n\r\n' \
  "$size" "$size" >"$work/wanted"
is 'GET' 200 "$(ask "$front_at" "$target")"
same 'the head of GET' "$work/wanted" "$work/head"
is 'HEAD' 200 "$(ask "$front_at" "$target" -I)"
same 'the head of HEAD' "$work/wanted" "$work/head"
is 'a section' 200 "$(ask "$front_at" "/buildid/$id/section/.note.gnu.build-id")"
"$program" section "$file" .note.gnu.build-id >"$work/wanted"
same 'a section' "$work/wanted" "$work/body"
is 'a section that is not there' '404 not found' "$(said "$front_at" "/buildid/$id/section/.none")"
is 'an id that is nobody' '404 not found' "$(said "$front_at" /buildid/00ff00ff/debuginfo)"

# Forwarders are counted: with seven the one behind is asked, with eight it isn't.
is 'seven forwarders' 200 "$(ask "$front_at" "$target" -H 'X-Forwarded-For: a, b, c, d, e, f, g')"
same 'seven forwarders' "$file" "$work/body"
is 'eight forwarders' '404 hop limit' "$(said "$front_at" "$target" -H 'X-Forwarded-For: a, b, c, d, e, f, g, h')"
is 'eight forwarders, and the file is here' 200 "$(ask "$back_at" "$target" -H 'X-Forwarded-For: a, b, c, d, e, f, g, h')"

# A server that is its own upstream: a miss goes round until the limit, by nine of its workers.
start ring -c 16 -t 0 --upstream http://127.0.0.1:@PORT@ "$nothing" || exit 1
scanned 1
is 'a ring' '404 not found' "$(said "$at" "$target")"
nine() {
  ask "$at" /metrics >/dev/null
  grep -q -x 'dbgd_requests_total{route="executable",status="404"} 9' "$work/body"
}
within 50 nine || differs "the requests of a ring: $(cat "$work/body")"
stop "$server"

# Nobody listens; and with the one behind as the second, the first's failure is passed over.
start lost -c 4 -t 0 --upstream http://127.0.0.1:1 "$nothing" || exit 1
scanned 1
is 'nobody listens' '502 upstream fault' "$(said "$at" "$target")"
stop "$server"
start second -c 4 -t 0 --upstream "http://127.0.0.1:1 $back_at/" "$nothing" || exit 1
scanned 1
is 'the second of two' 200 "$(ask "$at" "$target")"
same 'the second of two' "$file" "$work/body"
is 'a miss, where one failed' '502 upstream fault' "$(said "$at" /buildid/00ff00ff/debuginfo)"
stop "$server"
if [ -n "$(cat /proc/net/if_inet6 2>/dev/null)" ]; then
  start six -c 4 -t 0 --upstream "http://[::1]:${back_at##*:}" "$nothing" || exit 1
  scanned 1
  is 'IPv6' 200 "$(ask "$at" "$target")"
  same 'IPv6' "$file" "$work/body"
  stop "$server"
else
  say 'IPv6 is skipped: this machine has none'
fi

# Servers that answer each request in one way: sets `fake` (the process) and `fake_at`.
cat >"$work/fake.py" <<'PYTHON'
import socket, sys, threading

way, path = sys.argv[1:]
body = open(path, "rb").read()
head = b"HTTP/1.1 200 OK\r\nContent-Length: %d\r\n\r\n" % len(body)


def chunks():
    yield b"HTTP/1.1 200 OK\r\nTransfer-Encoding: chunked\r\n\r\n"
    for at in range(0, len(body), 1000):
        piece = body[at : at + 1000]
        yield b"%x;name=value\r\n%s\r\n" % (len(piece), piece)
    yield b"0\r\nX-More: none\r\n\r\n"


def answer(conn):
    heard = b""
    while b"\r\n\r\n" not in heard:
        more = conn.recv(4096)
        if not more:
            break
        heard += more
    if way == "hangs":
        threading.Event().wait(100)
    elif way == "ends":
        conn.sendall(head + body[: len(body) // 2])
    elif way == "chunks":
        for piece in chunks():
            conn.sendall(piece)
    elif way == "babbles":
        conn.sendall(b"no response at all\r\n\r\n")
    elif way == "is below" and not heard.startswith(b"GET /up/buildid/"):
        conn.sendall(b"HTTP/1.1 404 Not Found\r\nContent-Length: 0\r\n\r\n")
    else:
        conn.sendall(head + body)
        if way == "stays":
            threading.Event().wait(100)
    conn.close()


listener = socket.create_server(("127.0.0.1", 0))
print(listener.getsockname()[1], flush=True)
while True:
    threading.Thread(target=answer, args=(listener.accept()[0],), daemon=True).start()
PYTHON
fake() { # WAY FILE
  : >"$work/fake.port"
  python3 "$work/fake.py" "$1" "$2" >"$work/fake.port" 2>"$work/fake.err" </dev/null &
  fake=$!
  children+=("$fake")
  within 100 test -s "$work/fake.port" || { say "no server that $1: $(cat "$work/fake.err")"; exit 1; }
  fake_at=http://127.0.0.1:$(cat "$work/fake.port")
}

# Asks a server whose upstream answers in this way: the status and the text of a failure, and how long it took at most.
through() { # WAY FILE SECONDS WANTED [OTHERS]
  local begun status
  fake "$1" "$2"
  start "$1" -c 4 -t 0 --upstream "$fake_at${5:+ $5}" "$nothing" || exit 1
  scanned 1
  begun=$(date +%s)
  status=$(ask "$at" "$target")
  if [ "$status" = 200 ]; then
    is "one that $1" "$4" 200
    same "one that $1" "$file" "$work/body"
  else
    is "one that $1" "$4" "$status $(cat "$work/body")"
  fi
  [ $(($(date +%s) - begun)) -le "$3" ] || differs "one that $1: $(($(date +%s) - begun)) s"
  stop "$server"
  let_go
}
let_go() {
  kill "$fake"
  wait "$fake" 2>/dev/null
  forget "$fake"
}
# What a server with these upstreams sends.
sends() { # NAME UPSTREAMS FILE
  start "${1// /_}" -c 4 -t 0 --upstream "$2" "$nothing" || exit 1
  scanned 1
  is "$1" 200 "$(ask "$at" "$target")"
  same "$1" "$3" "$work/body"
  stop "$server"
}
if command -v python3 >/dev/null; then
  through answers "$file" 5 200
  through chunks "$file" 5 200
  through stays "$file" 5 200
  through ends "$file" 5 '502 upstream fault'
  through babbles "$file" 5 '502 upstream fault'
  through hangs "$file" 20 '502 upstream fault'
  through answers "$tree/i686_little.elf" 5 '404 not found'
  through answers "$tree/i686_little.elf" 5 200 "$back_at"
  through answers checks/lib/head.sh 5 '404 not found'
  cp "$file" "$work/longer"
  printf x >>"$work/longer"
  fake answers "$work/longer"
  sends 'the first of two' "$fake_at $back_at" "$work/longer"
  sends 'the first of the two in another order' "$back_at $fake_at" "$file"
  let_go
  fake 'is below' "$file"
  sends 'one below a path' "$fake_at/up/" "$file"
  let_go
else
  say 'upstreams that fail are skipped: there is no python3'
fi

# A real debuginfod behind a server, and one before it. It asks by libcurl, which would go through a proxy of the environment.
if command -v debuginfod >/dev/null; then
  real() { # NAME WORDS.. (sets `real` and `real_at`)
    local real_port one=$1
    shift
    while :; do
      real_port=$((20000 + RANDOM % 12000))
      (: <>"/dev/tcp/127.0.0.1/$real_port") 2>/dev/null || break
    done
    HOME=$work DEBUGINFOD_CACHE_PATH=$work/cache.$one debuginfod -d "$work/$one.db" -p "$real_port" "$@" \
      >"$work/$one.out" 2>&1 </dev/null &
    real=$!
    children+=("$real")
    real_at=http://127.0.0.1:$real_port
  }
  answers() { kill -0 "$real" && [ "$(ask "$real_at" "$target")" = 200 ]; }
  unset DEBUGINFOD_URLS
  export no_proxy='*'
  real behind -F "$tree"
  if within 200 answers; then
    behind=$real
    start before_real -c 4 -t 0 --upstream "$real_at" "$nothing" || exit 1
    scanned 1
    is 'debuginfod behind' 200 "$(ask "$at" "$target")"
    same 'debuginfod behind' "$file" "$work/body"
    is 'a section of debuginfod behind' 200 "$(ask "$at" "/buildid/$id/section/.note.gnu.build-id")"
    "$program" section "$file" .note.gnu.build-id >"$work/wanted"
    same 'a section of debuginfod behind' "$work/wanted" "$work/body"
    is 'debuginfod behind, a miss' '404 not found' "$(said "$at" /buildid/00ff00ff/debuginfo)"
    stop "$server"
    kill "$behind"
    wait "$behind" 2>/dev/null
    forget "$behind"
  else
    differs "debuginfod doesn't answer: $(tail -n 3 "$work/behind.out")"
  fi
  DEBUGINFOD_URLS=$front_at real before -F "$nothing"
  if within 200 answers; then
    same 'debuginfod before' "$file" "$work/body"
  else
    differs "debuginfod before a server doesn't answer: $(tail -n 3 "$work/before.out")"
  fi
  kill "$real"
  wait "$real" 2>/dev/null
  forget "$real"
else
  say 'debuginfod: skipped, it is not installed'
fi
stop "$front"
stop "$back"

# Clients through a chain: a stripped program, whose debug file and sources the one behind has.
compiles() {
  mkdir -p "$work/served/src" "$work/served/debug" "$work/own/home"
  printf 'int outer(int n) {\n  return n > 1 ? n : 0;\n}\nint main(int argc, char **argv) {\n  return outer(argc);\n}\n' >"$work/served/src/main.c"
  (cd "$work/served/src" && gcc -gdwarf-5 -O0 -Wl,--build-id=sha1 -o "$work/whole" main.c) &&
    objcopy --only-keep-debug "$work/whole" "$work/served/debug/tool.debug" && strip -o "$work/own/tool" "$work/whole"
}
if ! command -v gcc >/dev/null || ! command -v objcopy >/dev/null || ! compiles 2>"$work/err"; then
  say 'clients: skipped, no program can be made'
else
  start clients_back -t 0 "$work/served" || exit 1
  scanned 1
  back=$server
  start clients_front -t 0 --upstream "$at" "$nothing" || exit 1
  scanned 1
  front=$server
  tool=$("$program" ident "$work/own/tool" | cut -d ' ' -f 1)
  is 'a source through a chain' 200 "$(ask "$at" "/buildid/$tool/source$work/served/src/main.c")"
  same 'a source through a chain' "$work/served/src/main.c" "$work/body"
  export DEBUGINFOD_URLS=$at HOME=$work/own/home no_proxy='*'
  unset XDG_CACHE_HOME DEBUGINFOD_PROGRESS DEBUGINFOD_VERBOSE DEBUGINFOD_HEADERS_FILE DEBUGINFOD_IMA_CERT_PATH
  if command -v debuginfod-find >/dev/null; then
    export DEBUGINFOD_CACHE_PATH=$work/cache.find
    path=$(timeout 30 debuginfod-find debuginfo "$work/own/tool" 2>"$work/err")
    same 'debuginfod-find, a debug file' "$work/served/debug/tool.debug" "${path:-/dev/null}"
    path=$(timeout 30 debuginfod-find source "$work/own/tool" "$work/served/src/main.c" 2>"$work/err")
    same 'debuginfod-find, a source' "$work/served/src/main.c" "${path:-/dev/null}"
  else
    say 'debuginfod-find: skipped, it is not installed'
  fi
  if command -v gdb >/dev/null && gdb --configuration | grep -q -e '--with-debuginfod'; then
    export DEBUGINFOD_CACHE_PATH=$work/cache.gdb
    timeout 30 gdb -nx -batch -iex 'set debuginfod enabled on' -iex "set substitute-path $work/served/src $work/own/none" \
      -ex 'list outer' "$work/own/tool" >"$work/out" 2>"$work/err" </dev/null
    compared=$((compared + 1))
    grep -q -F 'return n > 1 ? n : 0;' "$work/out" || differs "gdb: $(head -c 600 "$work/out" "$work/err")"
  else
    say 'gdb: skipped, it is not installed or built without debuginfod'
  fi
  stop "$front"
  stop "$back"
fi

say "$compared answers compared; $differing differ"
[ "$differing" = 0 ]
