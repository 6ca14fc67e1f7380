#!/usr/bin/env bash
# Lets clients be idle, slow and wrong at real servers, and looks that no worker waits for one of them: thousands that say nothing,
# were answered once or have half a head, heads in pieces, bytes that are no head, and servers with few descriptors. Counts the
# system calls of a reply. Ends within two minutes where nothing else keeps the machine busy.
#
# usage: checks/idle.sh [PROGRAM]      PROGRAM is ./dbgd of the repository's top unless given
#
# It is cut off after IDLE_SECONDS (175 unless set), and fails then. IDLE_COUNT (1000 unless set) clients of each kind are idle at
# a time; twice their three kinds of descriptors are needed.
source "$(dirname -- "$(readlink -f -- "${BASH_SOURCE[0]}")")/lib/head.sh" || exit 1
source "$top/checks/lib/server.sh" || exit 1

command -v python3 >/dev/null || { say "skipped: there is no python3"; exit 0; }
end_after "${IDLE_SECONDS:-175}"
count=${IDLE_COUNT:-1000}
looked=0

# A case of the clients, whose lines are what differs.
clients() { # CASE WORD..
  local line
  timeout 100 python3 checks/lib/idle_clients.py "$1" "$port" "/buildid/$id/executable" "${@:2}" >"$work/clients" 2>"$work/clients.err"
  [ "$?" = 0 ] || differs "$1: the clients ended: $(tail -n 1 "$work/clients.err")"
  while read -r line; do
    case $line in
      'looked '*) looked=$((looked + ${line#looked })) ;;
      *) differs "$1: $line" ;;
    esac
  done <"$work/clients"
  sed -n 's/^note //p' "$work/clients.err" | while read -r line; do say "$line"; done
}

tree=$work/tree
mkdir "$tree"
cp checks/data/*.elf "$tree/"
id=c7cf087b5ca1b9c2642186834da2d47b6ff7c585 # aarch64_little.elf

# Four workers, and as many descriptors as thousands of clients need.
if ulimit -S -n $((count * 4 + 200)) 2>/dev/null; then
  start crowd -c 4 -t 0 "$tree" || exit 1
  scanned 1
  clients thousands "$count"
  stop "$server"
else
  say "thousands of clients are skipped: this user has $(ulimit -H -n) descriptors"
fi

start pieces -c 4 -t 0 "$tree" || exit 1
scanned 1
clients pieces
clients byte_by_byte
clients drip
clients ends
clients rest
[ ! -s "$work/pieces.err" ] || differs "pieces: $(cat "$work/pieces.err")"
stop "$server"

# 64 descriptors, and a pass each second.
was=$(ulimit -S -n)
ulimit -S -n 64
start few -c 4 -t 1 "$tree" || exit 1
ulimit -S -n "$was"
scanned 1
clients few 200
scanned 3
[ ! -s "$work/few.err" ] || differs "few: $(cat "$work/few.err")"
[ "$(grep -v -c -e '^serving' -e '^scan: 8 files' "$work/few.out")" = 0 ] || differs "few: $(cat "$work/few.out")"
stop "$server"

# The system calls of a reply to a client that asks again at once.
if command -v strace >/dev/null && strace -o /dev/null true 2>/dev/null; then
  start calls -c 4 -t 0 "$tree" || exit 1
  scanned 1
  clients kept 1
  strace -f -qq -o "$work/calls" -p "$server" 2>/dev/null &
  tracer=$!
  children+=("$tracer")
  within 50 test -s "$work/calls"
  before=$(wc -l <"$work/calls")
  clients kept 90
  sleep 0.5
  kill "$tracer" 2>/dev/null
  wait "$tracer" 2>/dev/null
  forget "$tracer"
  file_calls=$(grep -c -E ' (openat|newfstatat|fstat|statx|lstat|pread64|close|recvfrom|read|sendmsg|sendto|write|writev|epoll_ctl|setsockopt|shutdown)\(' "$work/calls")
  say "system calls of a kept reply: $((file_calls / 90)) and $((file_calls % 90)) ninetieths"
  [ "$((file_calls))" -le $((9 * 90 + 60)) ] || differs "system calls of 90 kept replies: $file_calls"
  looked=$((looked + 1))
  stop "$server"
else
  say 'system calls are skipped: there is no strace that may trace'
fi

say "$looked answers looked at; $differing differ"
[ "$differing" = 0 ]
