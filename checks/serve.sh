#!/usr/bin/env bash
# Asks real servers over sockets, and compares each reply to its last byte: the files of checks/data by id, requests in one
# write, connections that stand idle, ask at once or stop to read, files that are replaced, files that change in the middle of
# their reply, passes beside requests, and what a scan finds in the store of a server that was ended in the middle of a pass. Ends
# within two minutes where nothing else keeps the machine busy.
#
# usage: checks/serve.sh [PROGRAM]      PROGRAM is ./dbgd of the repository's top unless given
#
# It is cut off after SERVE_SECONDS (175 unless set), and fails then. SERVE_FILES (2000 unless set) are scanned as a server is
# ended.
source "$(dirname -- "$(readlink -f -- "${BASH_SOURCE[0]}")")/lib/head.sh" || exit 1
source "$top/checks/lib/server.sh" || exit 1

command -v curl >/dev/null || { say "skipped: there is no curl"; exit 0; }
end_after "${SERVE_SECONDS:-175}"
compared=0

# Compares a file with what is wanted, byte for byte.
same() { # WHAT WANTED GOT
  compared=$((compared + 1))
  cmp -s "$2" "$3" || differs "$1: wanted $(head -c 300 "$2" | tr '\r\0' '..'), got $(head -c 300 "$3" | tr '\r\0' '..')"
}

# Compares two texts.
is() { # WHAT WANTED GOT
  compared=$((compared + 1))
  [ "$2" = "$3" ] || differs "$1: wanted $2, got $3"
}

# Asks by curl: its answer is in `body` and `head`, the status is printed.
ask() { # TARGET OPTIONS..
  local target=$1
  shift
  curl -s -m 20 --noproxy '*' -o "$work/body" -D "$work/head" -w '%{http_code}' "$@" "$at$target"
}

# What comes on a connection until the server ends it, for bytes that are sent in one write.
answer() { # BYTES FILE
  local conn
  exec {conn}<>"/dev/tcp/127.0.0.1/$port" || return 1
  # By one write: the shell's own printf makes one a line, between which a connection may be idle.
  printf '%b' "$1" >"$work/asked"
  cat "$work/asked" >&"$conn"
  timeout 20 cat <&"$conn" >"$2"
  exec {conn}>&-
}

# A reply to GET that is a text, and one that is a file.
text_reply() { # STATUS TEXT CLOSE [FIELD]
  printf 'HTTP/1.1 %s\r\nContent-Type: text/plain\r\nContent-Length: %d\r\n%sConnection: %s\r\n\r\n%s\n' \
    "$1" $((${#2} + 1)) "${4:+$4$'\r\n'}" "$3" "$2"
}
file_head() { # BYTES PATH CLOSE
  printf 'HTTP/1.1 200 OK\r\nContent-Type: application/octet-stream\r\nContent-Length: %d\r\n' "$1"
  printf 'X-DEBUGINFOD-SIZE: %d\r\nX-DEBUGINFOD-FILE: %s\r\nConnection: %s\r\n\r\n' "$1" "$2" "$3"
}
file_reply() { # FILE CLOSE
  file_head "$(stat -c %s -- "$1")" "$1" "$2"
  cat -- "$1"
}

tree=$work/tree
mkdir "$tree"
cp checks/data/*.elf "$tree/"
id=c7cf087b5ca1b9c2642186834da2d47b6ff7c585 # aarch64_little.elf
file=$tree/aarch64_little.elf
large=$work/large
mkdir "$large"
cp "$file" "$large/large.elf"
truncate -s 64M "$large/large.elf"

# One worker, whose client stops to read in the middle of 64 MiB: the request behind it is answered once the server gave up, which
# takes up to three of its writes, of 30 seconds each.
start stopped -c 1 -t 0 "$large" || exit 1
stopped=$server stopped_at=$at
scanned 1
exec {reader}<>"/dev/tcp/127.0.0.1/$port"
printf 'GET /buildid/%s/executable HTTP/1.1\r\n\r\n' "$id" >&"$reader"
sleep 0.5
curl -s -m "${SERVE_SECONDS:-175}" --noproxy '*' -o "$work/behind" -w '%{http_code} %{time_total}' "$stopped_at/none" >"$work/behind.status" &
behind=$!
children+=("$behind")

# The files by id and class: the first by path of those that `ident` says this of.
start files -c 4 -t 0 "$tree" || exit 1
files=$server
scanned 1
for elf in "$tree"/*; do echo "$("$program" ident "$elf") $elf"; done >"$work/idents"
of_kind() { grep -E " ($1|both) " "$work/idents"; }
is 'the lines of a server' "serving on $port with 4 workers
scan: 8 files, 8 added, 0 replaced, 0 dropped, 0 kept, $(of_kind executable | wc -l) executables, $(of_kind debuginfo | wc -l) debuginfo" \
  "$(cat "$work/files.out")"
while read -r one class elf; do
  for kind in executable debuginfo; do
    wanted=$(of_kind "$kind" | sed -n "s/^$one [a-z]* //p" | head -n 1)
    [ -n "$wanted" ] && status=200 || status=404
    is "$kind of $elf, which is $class" "$status" "$(ask "/buildid/$one/$kind")"
    [ -z "$wanted" ] || same "the $kind of $elf" "$wanted" "$work/body"
  done
done <"$work/idents"
ask "/buildid/${id^^}/executable" >"$work/status"
file_head "$(stat -c %s "$file")" "$file" keep-alive >"$work/wanted"
same 'the head of an id in upper case' "$work/wanted" "$work/head"
is 'a section' 200 "$(ask "/buildid/$id/section/.note.gnu.build-id")"
"$program" section "$file" .note.gnu.build-id >"$work/wanted"
same 'a section' "$work/wanted" "$work/body"
is 'a section that is not there' 404 "$(ask "/buildid/$id/section/.none")"

# Every other reply, to its last byte.
replies() { # BYTES STATUS TEXT CLOSE [FIELD]
  answer "$1" "$work/got"
  text_reply "${@:2}" >"$work/wanted"
  same "the reply to ${1:0:60}" "$work/wanted" "$work/got"
}
close='HTTP/1.1\r\nConnection: close\r\n\r\n'
replies "GET /buildid/00ff/executable $close" '404 Not Found' 'not found' close
replies "GET /none $close" '404 Not Found' 'no route' close
replies "GET /buildid/00f/executable $close" '400 Bad Request' 'bad build-id' close
replies "GET /buildid/%%zz/executable $close" '400 Bad Request' 'bad escape' close
replies "GET /buildid/00ff/source/$(printf 'n%.0s' {1..4097}) $close" '400 Bad Request' 'bad path' close
replies "POST /metrics $close" '405 Method Not Allowed' 'bad method' close 'Allow: GET, HEAD'
replies 'GET /metrics HTTP/1.1\r\nContent-Length: 3\r\n\r\nabc' '400 Bad Request' 'request body' close
replies 'no request at all\r\n\r\n' '400 Bad Request' 'bad request' close
replies "GET /$(printf 'n%.0s' {1..16384}) HTTP/1.1\r\n\r\n" '431 Request Header Fields Too Large' 'too large' close
replies 'GET /none HTTP/1.0\r\n\r\n' '404 Not Found' 'no route' close

# Two requests in one write, HEAD before GET, and a hundred and one requests.
answer "GET /buildid/$id/executable HTTP/1.1\r\n\r\nGET /none $close" "$work/got"
{ file_reply "$file" keep-alive; text_reply '404 Not Found' 'no route' close; } >"$work/wanted"
same 'two requests in one write' "$work/wanted" "$work/got"
answer "HEAD /buildid/$id/executable HTTP/1.1\r\n\r\nGET /buildid/$id/executable $close" "$work/got"
{ file_head "$(stat -c %s "$file")" "$file" keep-alive; file_reply "$file" close; } >"$work/wanted"
same 'HEAD and GET' "$work/wanted" "$work/got"
is 'HEAD by curl' 200 "$(ask "/buildid/$id/debuginfo" -I)"
answer "$(printf 'GET /none HTTP/1.1\\r\\n\\r\\n%.0s' {1..101})" "$work/got"
{ for turn in {1..99}; do text_reply '404 Not Found' 'no route' keep-alive; done; text_reply '404 Not Found' 'no route' close; } >"$work/wanted"
same 'a hundred and one requests' "$work/wanted" "$work/got"
if [ -n "$(cat /proc/net/if_inet6 2>/dev/null)" ]; then
  is 'IPv6' 404 "$(curl -s -m 20 --noproxy '*' -g -o /dev/null -w '%{http_code}' "http://[::1]:$port/none")"
else
  say 'IPv6 is skipped: this machine has none'
fi

# Sixty-four connections stand open, and then each asks.
conns=()
for turn in {1..64}; do
  exec {conn}<>"/dev/tcp/127.0.0.1/$port" || differs "connection $turn"
  conns+=("$conn")
done
for conn in "${conns[@]}"; do printf "GET /buildid/$id/executable $close" >&"$conn"; done
file_reply "$file" close >"$work/wanted"
for conn in "${conns[@]}"; do
  timeout 20 cat <&"$conn" >"$work/got"
  same "connection $conn of 64" "$work/wanted" "$work/got"
  exec {conn}>&-
done

# Idle connections, as many as there are workers, of which one asked before: a new request is answered all the same.
conns=()
for turn in {1..4}; do
  exec {conn}<>"/dev/tcp/127.0.0.1/$port" || differs "idle connection $turn"
  conns+=("$conn")
done
printf 'GET /none HTTP/1.1\r\n\r\n' >&"${conns[0]}"
sleep 0.3
is 'a request beside idle connections' 200 "$(ask "/buildid/$id/executable")"
same 'a request beside idle connections' "$file" "$work/body"
for conn in "${conns[@]}"; do exec {conn}>&-; done

# The port and the store are taken while it runs, and a server that can't say its line doesn't serve.
ends() { # WHAT TEXT WORDS..
  local what=$1 text=$2
  shift 2
  timeout 20 "$program" serve "$@" >"$work/got.out" 2>"$work/got.err" </dev/null
  is "$what" "1 $text" "$? $(cat "$work/got.out" "$work/got.err")"
}
ends 'a port that is taken' 'dbgd: fault door' -d "$work/other.db" -p "$port" "$tree"

# The counters of a server with one worker: what three requests add. A page has the pages before it, and not itself.
counter() { sed -n "s/^dbgd_$1 //p" "$work/body"; }
start counts -c 1 -t 0 "$tree" || exit 1
scanned 1
ask "/buildid/$id/executable" >/dev/null
ask /metrics >/dev/null
executables='requests_total{route="executable",status="200"}' pages='requests_total{route="metrics",status="200"}'
is 'a request counted, and no page' "1  $(stat -c %s "$file")" "$(counter "$executables") $(counter "$pages") $(counter body_bytes_total)"
page=$(stat -c %s "$work/body")
for turn in 1 2; do ask "/buildid/$id/executable" >/dev/null; done
ask /none >/dev/null
ask /metrics >/dev/null
is 'three requests counted' 3 "$(counter "$executables")"
is 'a page counted' 1 "$(counter "$pages")"
is 'no route counted' 1 "$(counter 'requests_total{route="other",status="404"}')"
is 'their bytes counted' $((3 * $(stat -c %s "$file") + page + 9)) "$(counter body_bytes_total)"
is 'the first pass counted' '1 8 0 0' "$(counter passes_total) $(counter rows_added_total) $(counter rows_replaced_total) $(counter rows_dropped_total)"
stop "$server"

# Its port is free again at once.
ends 'a store that is taken' 'dbgd: fault store' -d "$work/files.db" -p "$port" "$tree"
if [ -c /dev/full ]; then
  timeout 20 "$program" serve -d "$work/full.db" -p "$port" "$tree" >/dev/full 2>"$work/got.err" </dev/null
  is 'an output that takes nothing' '1 dbgd: fault output' "$? $(cat "$work/got.err")"
fi
stop "$files"

# Another ELF file under the same path, size and time: what was asked, or nothing.
swapped=$work/swapped
mkdir "$swapped" "$work/kept"
cp "$file" "$work/kept/own.elf"
cp checks/data/i686_little.elf "$work/kept/other.elf"
truncate -s 8192 "$work/kept/own.elf" "$work/kept/other.elf"
touch -d @1000000000 "$work/kept"/*
put() { cp -p "$work/kept/$1.elf" "$work/kept/next" && mv "$work/kept/next" "$swapped/tool"; }
put own
start swapped -t 1 "$swapped" || exit 1
scanned 1
is 'a file before it is replaced' 200 "$(ask "/buildid/$id/executable")"
put other
is 'a file that was replaced' '404 not found' "$(ask "/buildid/$id/executable") $(cat "$work/body")"
put own
is 'a file that is back' 200 "$(ask "/buildid/$id/executable")"
while :; do put other; put own; done &
swapping=$!
children+=("$swapping")
own=0 none=0
for turn in {1..300}; do
  status=$(ask "/buildid/$id/executable")
  case $status in
    200) own=$((own + 1)) && same 'a file that is replaced all the time' "$work/kept/own.elf" "$work/body" ;;
    404 | 503) none=$((none + 1)) ;;
    *) differs "a file that is replaced all the time: $status" ;;
  esac
done
kill "$swapping"
wait "$swapping" 2>/dev/null
forget "$swapping"
stop "$server"

# A file of 32 MiB whose sixteen section headers are its end, 1024 bytes. It changes once the client has the first 64 KiB of its
# reply and stops to read. Where it is cut, grows, or another is written over it, less may come than the head says; where another
# takes its place, what was asked for comes to its last byte. A reply that stays short isn't counted.
held=$work/held
mkdir "$held"
cp "$file" "$work/kept/held.elf"
truncate -s 32M "$work/kept/held.elf"
tail -c 1024 "$file" >>"$work/kept/held.elf"
printf '\0\0\0\2\0\0\0\0' | dd of="$work/kept/held.elf" bs=1 seek=40 conv=notrunc status=none # its table is at 0x02000000
cp checks/data/i686_little.elf "$work/kept/over.elf"
truncate -s "$(stat -c %s "$work/kept/held.elf")" "$work/kept/over.elf"
hold() { cp "$work/kept/$1.elf" "$work/kept/next" && mv "$work/kept/next" "$held/tool"; }
cuts() { truncate -s 1M "$held/tool"; }
writes_over() { cp "$work/kept/over.elf" "$held/tool"; }
grows() { cat "$file" >>"$held/tool"; }
replaces() { hold over; }
hold held
start held -c 1 -t 0 "$held" || exit 1
scanned 1
file_reply "$held/tool" close >"$work/wanted"
whole=0 short=0
for turn in {1..50}; do
  for way in cuts writes_over grows replaces; do
    hold held
    exec {conn}<>"/dev/tcp/127.0.0.1/$port" || differs "a connection of a file that changes, $way, $turn"
    printf "GET /buildid/$id/executable $close" >&"$conn"
    dd bs=64K count=1 iflag=fullblock status=none <&"$conn" >"$work/got"
    "$way"
    timeout 20 cat <&"$conn" >>"$work/got"
    exec {conn}>&-
    compared=$((compared + 1))
    size=$(stat -c %s "$work/got")
    if cmp -s "$work/wanted" "$work/got"; then
      whole=$((whole + 1))
    elif [ "$way" != replaces ] && [ "$size" -ge 65536 ] && cmp -s -n "$size" "$work/wanted" "$work/got"; then
      short=$((short + 1))
    else
      differs "a file that changes in the middle of its reply, $way, $turn: $size bytes"
    fi
  done
done
[ "$short" != 0 ] || differs 'no reply stayed short'
ask /metrics >/dev/null
is 'the replies that were whole, and no other' "$whole" "$(counter "$executables")"
stop "$server"

# Passes beside requests: a file that comes is answered, one that goes isn't, and a folder that is gone ends no server.
start passes -t 1 "$work/growing" || exit 1
within 100 grep -q "^dbgd: gone $work/growing\$" "$work/passes.err" || differs 'no pass told that its folder is gone'
mkdir "$work/growing"
scanned 1
answered() { [ "$(ask "/buildid/$id/executable")" = "$1" ]; }
is 'a file that is not there yet' 404 "$(ask "/buildid/$id/executable")"
cp "$file" "$work/growing/tool"
within 100 answered 200 || differs 'a file that came is not answered'
same 'a file that came' "$file" "$work/body"
rm "$work/growing/tool"
within 100 lines_are ' 1 dropped, ' 1 out || differs 'no pass dropped the file that went'
is 'a file that went' 404 "$(ask "/buildid/$id/executable")"
stop "$server"

# A server that is ended in the middle of its first pass: the rows that the store has by then are kept by the next scan.
many=$work/many count=${SERVE_FILES:-2000}
mkdir "$many"
(cd "$many" && seq -f 'text %05.0f' 1 "$count" | xargs -d '\n' touch)
if command -v sqlite3 >/dev/null; then
  count_rows() { sqlite3 "$1" 'SELECT count(*) FROM kept'; }
elif python3 -c 'import sqlite3' 2>/dev/null; then
  count_rows() { python3 -c 'import sqlite3, sys
print(sqlite3.connect(sys.argv[1]).execute("SELECT count(*) FROM kept").fetchone()[0])' "$1"; }
else
  say 'the rows of a store that was left: not counted, there is no sqlite3 and no python3 with it'
fi
stored() { # FILE
  cp "$1" "$work/copy.db"
  [ ! -e "$1-wal" ] || cp "$1-wal" "$work/copy.db-wal"
  count_rows "$work/copy.db"
}
middle=0
for delay in 0.03 0.1 0.3 1; do
  rm -f "$work"/ended.db* "$work"/copy.db*
  start ended -t 1 "$many" || exit 1
  sleep "$delay"
  stop "$server"
  rows=
  ! declare -F count_rows >/dev/null || rows=$(stored "$work/ended.db" 2>&1)
  line=$("$program" scan -d "$work/ended.db" "$many" 2>&1)
  kept=$(sed -n 's/.* 0 dropped, \([0-9]*\) kept, .*/\1/p' <<<"$line")
  rows=${rows:-$kept}
  is "a scan after a server that was ended after $delay s" \
    "scan: $count files, $((count - rows)) added, 0 replaced, 0 dropped, $rows kept, 0 executables, 0 debuginfo" "$line"
  [ "${kept:-0}" = 0 ] || [ "$kept" = "$count" ] || middle=$((middle + 1))
done
[ "$middle" != 0 ] || differs 'no server was ended in the middle of a pass'

# The reader that stopped, and clients that go away in the middle of their reply.
wait "$behind"
forget "$behind"
read -r status seconds <"$work/behind.status"
is 'a request behind a reader that stopped' 404 "$status"
timeout 20 cat <&"$reader" >"$work/got"
exec {reader}>&-
[ "$(stat -c %s "$work/got")" -lt $((64 * 1024 * 1024)) ] || differs 'a reader that stopped got all'
for turn in 1 2 3; do
  exec {conn}<>"/dev/tcp/127.0.0.1/${stopped_at##*:}" || differs "client $turn that goes away"
  printf 'GET /buildid/%s/executable HTTP/1.1\r\n\r\n' "$id" >&"$conn"
  head -c 1000 <&"$conn" >/dev/null
  exec {conn}>&-
done
at=$stopped_at
is 'a request behind clients that went away' 404 "$(ask /none)"
stop "$stopped"

say "$compared replies and endings compared (a replaced file: $own times whole, $none times not found; one that changed in the" \
  "middle of its reply: $whole times whole, $short times short; a reader that stopped for $seconds s; $middle of 4 servers ended in" \
  "the middle of a pass); $differing differ"
[ "$differing" = 0 ]
