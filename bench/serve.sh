#!/usr/bin/env bash
# How fast a server answers, as ratios to nginx over the same files on the same machine: a file of 14 KB, a miss, and a file of
# 1 MB, by 1, 4 and 64 connections of wrk, with four workers each. The two take turns, and the median of the runs' ratios of
# requests a second is told; by 4 connections it is to be at least 100 of 100 for the small file and the miss, and 80 for the
# large one. nginx's logs are off, and each of its connections ends after as many requests as dbgd's do. Where OLD is a program of
# another time, the small file and the miss by 4 connections are to be no slower than there: 95 of 100, since turns differ so much.
#
# Then bodies: a file of 117 MB by 4 connections is to come at 2.5 GB a second, and at 50 of 100 of nginx's speed. What processor
# time a GB takes outside the system is told, and is to be at most 50 ms: a copy of each byte, or a look at it, takes more. Nine
# bytes of that file, a section, by one connection: at most 0.3 ms. Where 64 clients stop to read in the middle of a body of 1 GiB,
# the server may have 64 MiB more in memory than at rest.
#
# Then what one hop to another server costs: 14 KB, a miss and 117 MB, beside the direct answer and beside debuginfod's own hop. For
# the small file the direct answer is to be at least 50 of 100, and the hop no slower than debuginfod's.
#
# Then how long the first answer takes after a start on a store of 2,700 files, which a scan filled before, beside a start on an
# empty store; and what memory an idle server over 18,000 files with paths of 212 bytes takes beyond one over an empty folder: what
# of it rows and log are, a query of the same store tells, the rest is the listing of the last scan and what the system keeps back.
#
# It stands outside the gate, since the time of a busy machine says nothing. What isn't installed is skipped.
#
# usage: bench/serve.sh [PROGRAM]      PROGRAM is ./dbgd of the repository's top unless given; RUNS and SECS: runs of wrk, and
#                                      seconds a run, 3 and 2 unless set; FILES and ROWS: files of the last two parts
source "$(dirname -- "$(readlink -f -- "${BASH_SOURCE[0]}")")/../checks/lib/head.sh" || exit 1
source "$top/checks/lib/server.sh" || exit 1

command -v curl >/dev/null || { say "skipped: there is no curl"; exit 0; }
# A launcher of the program would be measured in its place.
[ "$program" != "$top/dbgd" ] || program=$top/crates/dbgd/out/dbgd
runs=${RUNS:-3} secs=${SECS:-2} files=${FILES:-2700} rows=${ROWS:-18000} failed=0

# The median of numbers, one a line.
median() { sort -n | awk '{ n[NR] = $1 } END { print n[int((NR + 1) / 2)] }'; }

# Counts a number that is less, or more, than it is to be.
least() { [ "$1" -ge "$2" ] || { say "less than $2 $3"; failed=1; }; } # NUMBER LIMIT UNIT
most() { [ "$1" -le "$2" ] || { say "more than $2 $3"; failed=1; }; } # NUMBER LIMIT UNIT

# What of a process is in memory, in kB: now, or at most.
resident() { awk -v field="$2:" '$1 == field { print $2 }' "/proc/$1/status"; } # PID FIELD

# A file of an id, as long as is said: zeros behind an ELF file are no part of it.
sized() { # ELF FILE BYTES
  cp "$1" "$2"
  head -c $(($3 - $(stat -c %s "$1"))) /dev/zero >>"$2"
}
small_id=c7cf087b5ca1b9c2642186834da2d47b6ff7c585 large_id=fbd25eca6b62346b01ebc389100bbcf3e5f09b7a
huge_id=3336adb54f4844a31233966b2381453f7ba76004 huge=122683392
mkdir "$work/tree"
sized checks/data/aarch64_little.elf "$work/tree/small" 14336
sized checks/data/i686_little.elf "$work/tree/large" 1048576
cp checks/data/s390x_big.elf "$work/tree/huge"
truncate -s "$huge" "$work/tree/huge"
# The size of its section .comment, whose header is the fifth, at 1648 + 4 * 64, is 9 from here on.
printf '\0\0\0\0\0\0\0\11' | dd of="$work/tree/huge" bs=1 seek=1936 conv=notrunc status=none
for name in small large huge; do
  target=${name}_id
  mkdir -p "$work/www/buildid/${!target}"
  ln "$work/tree/$name" "$work/www/buildid/${!target}/executable"
done

# nginx over the same files: sets `nginx_at`.
start_nginx() {
  local nginx_port=$((port + 1)) user=
  [ "$(id -u)" != 0 ] || user='user root;'
  cat >"$work/nginx.conf" <<CONF
$user
worker_processes 4;
daemon off;
pid $work/nginx.pid;
error_log $work/nginx.log crit;
events { worker_connections 256; }
http {
  access_log off;
  sendfile on;
  tcp_nopush on;
  keepalive_requests 100;
  client_body_temp_path $work/body_temp;
  proxy_temp_path $work/proxy_temp;
  fastcgi_temp_path $work/fastcgi_temp;
  uwsgi_temp_path $work/uwsgi_temp;
  scgi_temp_path $work/scgi_temp;
  server { listen 127.0.0.1:$nginx_port; root $work/www; }
}
CONF
  nginx -e "$work/nginx.log" -p "$work" -c "$work/nginx.conf" >"$work/nginx.out" 2>&1 &
  nginx=$!
  children+=("$nginx")
  nginx_at=http://127.0.0.1:$nginx_port
  within 50 curl -s -f --noproxy '*' -o /dev/null "$nginx_at/buildid/$small_id/executable" ||
    { say "nginx doesn't answer: $(cat "$work/nginx.out" "$work/nginx.log")"; return 1; }
}

# Requests a second of a target by so many connections.
speed() { # URL CONNECTIONS
  local threads=$2
  [ "$threads" -le 4 ] || threads=4
  wrk -t "$threads" -c "$2" -d "${secs}s" "$1" 2>/dev/null | sed -n 's/^Requests\/sec: *\([0-9]*\).*/\1/p'
}

# Millions of bytes a second of a target by so many connections. wrk's own units go by 1024.
flow() { # URL CONNECTIONS
  wrk -t "$2" -c "$2" -d "${secs}s" --timeout 60 "$1" 2>/dev/null |
    awk '/^Transfer\/sec:/ {
      unit = $2
      gsub(/[0-9.]/, "", unit)
      printf "%d\n", $2 * 1024 ^ index("KMG", substr(unit, 1, 1)) / 1000000
    }'
}

# Measures two targets in turns: sets `own`, `other` and `ratio`, the medians, and `ratios`.
both() { # MEASURE OWN OTHER CONNECTIONS
  local run one two ones=() twos=()
  ratios=()
  for ((run = 1; run <= runs; run++)); do
    if [ $((run % 2)) = 1 ]; then
      one=$("$1" "$2" "$4") two=$("$1" "$3" "$4")
    else
      two=$("$1" "$3" "$4") one=$("$1" "$2" "$4")
    fi
    ratios+=($((one * 100 / (two > 0 ? two : 1)))) ones+=("$one") twos+=("$two")
  done
  own=$(printf '%s\n' "${ones[@]}" | median) other=$(printf '%s\n' "${twos[@]}" | median)
  ratio=$(printf '%s\n' "${ratios[@]}" | median)
}

# The ratio of a target by so many connections to what another server has, and whether it is what it is to be.
compare() { # WHAT TARGET CONNECTIONS LEAST [NAME AT]
  both speed "$at$2" "${6:-$nginx_at}$2" "$3"
  say "$(printf '%-12s %2d connections: %7d a second, %s %7d, ratio %3d of 100 (%s)' "$1" "$3" "$own" "${5:-nginx}" "$other" "$ratio" "${ratios[*]}")"
  least "$ratio" "$4" 'of 100'
}

# The processor time of a server outside the system, and in it, in hundredths of a second.
times() { awk '{ print $14, $15 }' "/proc/$1/stat"; } # PID

# A large file by 4 connections, what its bytes take of the processor, and nine of its bytes.
bodies() {
  local target=/buildid/$huge_id/executable turn user system before_user before_system
  both flow "$at$target" "$nginx_at$target" 4
  say "117 MB, 4 connections: $own MB a second, nginx $other, ratio $ratio of 100 (${ratios[*]})"
  least "$own" 2500 'MB a second'
  least "$ratio" 50 'of 100'
  read -r before_user before_system < <(times "$server")
  for turn in {1..20}; do curl -s --noproxy '*' -o /dev/null "$at$target"; done
  read -r user system < <(times "$server")
  user=$(((user - before_user) * 500000000 / huge)) system=$(((system - before_system) * 500000000 / huge))
  say "processor time of 1 GB: $user ms outside the system, $system ms in it"
  most "$user" 50 ms
  own=$(speed "$at/buildid/$huge_id/section/.comment" 1)
  own=$((1000000 / (own > 0 ? own : 1)))
  say "nine bytes of 117 MB: $own us"
  most "$own" 300 us
}

if ! command -v nginx >/dev/null || ! command -v wrk >/dev/null; then
  say "speed: skipped, there is no nginx or no wrk"
else
  start speed -c 4 -t 0 "$work/tree" || exit 1
  scanned 1
  start_nginx || exit 1
  for target in "$small_id" "$large_id" "$huge_id"; do
    cmp <(curl -s --noproxy '*' "$at/buildid/$target/executable") <(curl -s --noproxy '*' "$nginx_at/buildid/$target/executable") ||
      { say "the two don't answer the same"; exit 1; }
  done
  [ "$(curl -s --noproxy '*' "$at/buildid/$huge_id/section/.comment" | wc -c)" = 9 ] || { say "the section hasn't nine bytes"; exit 1; }
  for connections in 1 4 64; do
    aim=0 large_aim=0
    [ "$connections" != 4 ] || aim=100 large_aim=80
    compare '14 KB' "/buildid/$small_id/executable" "$connections" "$aim"
    compare 'a miss' /buildid/00ff00ff00ff00ff00ff00ff00ff00ff00ff00ff/executable "$connections" "$aim"
    compare '1 MB' "/buildid/$large_id/executable" "$connections" "$large_aim"
  done
  bodies
  if [ -n "${OLD:-}" ]; then
    now=$server now_at=$at
    program=$OLD start old -c 4 -t 0 "$work/tree" || exit 1
    scanned 1
    old=$server old_at=$at server=$now at=$now_at
    compare '14 KB' "/buildid/$small_id/executable" 4 95 before "$old_at"
    compare 'a miss' /buildid/00ff00ff00ff00ff00ff00ff00ff00ff00ff00ff/executable 4 95 before "$old_at"
    stop "$old"
  fi
  stop "$server"
  kill "$nginx"
  wait "$nginx"
  forget "$nginx"
fi

# Clients that stop to read in the middle of a body: what the server has in memory for all of them.
mkdir "$work/wide"
cp checks/data/aarch64_little.elf "$work/wide/file"
truncate -s 1G "$work/wide/file"
start wide -c 64 -t 0 "$work/wide" || exit 1
scanned 1
sleep 1
rest=$(resident "$server" VmRSS) conns=()
for turn in {1..64}; do
  exec {conn}<>"/dev/tcp/127.0.0.1/$port" || exit 1
  conns+=("$conn")
  printf 'GET /buildid/%s/executable HTTP/1.1\r\n\r\n' "$small_id" >&"$conn"
  [ "$(dd bs=64K count=1 iflag=fullblock status=none <&"$conn" | wc -c)" = 65536 ] || { say "client $turn has no 64 KiB"; exit 1; }
done
held=$(($(resident "$server" VmRSS) - rest))
say "64 clients in the middle of a body of 1 GiB: $held kB above the $rest kB at rest"
most "$held" 65536 kB
for conn in "${conns[@]}"; do exec {conn}>&-; done
stop "$server"

# One hop: a server over an empty folder that asks the one with the files, each request on a connection of its own, in turns with a
# direct request, and with a debuginfod before the same server, whose cache is emptied each time. Milliseconds, medians.
took() { # URL
  curl -s -m 60 --noproxy '*' -o /dev/null -w '%{time_total}\n' "$1" | awk '{ printf "%.2f\n", $1 * 1000 }'
}
turns() { # FILE URL [COUNT]
  local turn
  for ((turn = 0; turn < ${3:-40}; turn++)); do
    [ -z "${cache:-}" ] || rm -rf "$cache"
    took "$2"
  done >"$work/$1"
}
hop() { # WHAT TARGET COUNT LEAST
  local direct own ratio real=
  turns direct "$back_at$2" "$3"
  turns own "$at$2" "$3"
  direct=$(median <"$work/direct") own=$(median <"$work/own")
  if [ -n "${real_at:-}" ]; then
    cache=$work/real_cache turns real "$real_at$2" "$3"
    real=", debuginfod's hop $(median <"$work/real") ms"
  fi
  ratio=$(awk -v d="$direct" -v o="$own" 'BEGIN { printf "%d", d * 100 / (o > 0 ? o : 0.01) }')
  say "$(printf 'one hop, %-7s: %s ms, direct %s ms, ratio %d of 100%s' "$1" "$own" "$direct" "$ratio" "$real")"
  least "$ratio" "$4" 'of 100'
  if [ "$4" != 0 ] && [ -n "$real" ]; then
    awk -v o="$own" -v r="$(median <"$work/real")" 'BEGIN { exit !(o <= r) }' || { say "slower than debuginfod's hop"; failed=1; }
  fi
}
mkdir "$work/nothing" "$work/far"
cp "$work/tree/small" "$work/far/small"
cp "$work/tree/large" "$work/far/large"
truncate -s 122683392 "$work/far/large"
start back -c 4 -t 0 "$work/far" || exit 1
scanned 1
back=$server back_at=$at
if command -v debuginfod >/dev/null; then
  export no_proxy='*' # it asks by libcurl, which would go through a proxy of the environment
  real_port=$((port + 2)) real_at=http://127.0.0.1:$((port + 2))
  HOME=$work DEBUGINFOD_CACHE_PATH=$work/real_cache DEBUGINFOD_URLS=$back_at debuginfod -d "$work/real.db" -p "$real_port" -F "$work/nothing" \
    >"$work/real.out" 2>&1 </dev/null &
  real=$!
  children+=("$real")
  within 200 curl -s -f --noproxy '*' -o /dev/null "$real_at/buildid/$small_id/executable" || { say "debuginfod doesn't answer: its hop is skipped"; real_at=; }
else
  say "debuginfod's hop: skipped, it is not installed"
fi
start front -c 4 -t 0 --upstream "$back_at" "$work/nothing" || exit 1
scanned 1
hop '14 KB' "/buildid/$small_id/executable" 40 50
hop 'a miss' /buildid/00ff00ff00ff00ff00ff00ff00ff00ff00ff00ff/executable 40 0
hop '117 MB' "/buildid/$large_id/executable" 5 0
stop "$server"
stop "$back"
if [ -n "${real_at:-}" ]; then
  kill "$real"
  wait "$real"
  forget "$real"
fi

# Files in folders of a hundred, each third of them an ELF file.
fill() { # FOLDER COUNT NAME_LENGTH
  local i elfs=(checks/data/*.elf) folder name
  for ((i = 0; i < $2; i++)); do
    [ $((i % 100)) != 0 ] || { folder=$1/$((i / 100)); mkdir -p "$folder"; }
    printf -v name '%06d%*s' "$i" "$3" ''
    name=$folder/${name// /n}
    if [ $((i % 3)) = 0 ]; then cat "${elfs[$((i / 3 % ${#elfs[@]}))]}" >"$name"; else printf 'text %d\n' "$i" >"$name"; fi
  done
}

# How long a server takes from its start to its first answer, in milliseconds: sets `took`, the median of five.
first_answer() { # NAME FOLDER [NEW]
  local turn begun times=()
  for turn in 1 2 3 4 5; do
    [ -z "${3:-}" ] || rm -f "$work/$1.db" "$work/$1.db-wal"
    begun=$(date +%s%N)
    start "$1" -t 300 "$2" || exit 1
    within 600 curl -s -f --noproxy '*' -m 60 -o "$work/body" "$at/buildid/$small_id/executable" || { say 'no first answer'; exit 1; }
    times+=($((($(date +%s%N) - begun) / 1000000)))
    stop "$server"
  done
  took=$(printf '%s\n' "${times[@]}" | median)
}
fill "$work/some" "$files" 1
first_answer some "$work/some" new
new=$took
first_answer some "$work/some"
again=$took
say "first answer after a start over $files files: $again ms on the store of a scan, $new ms on an empty one"

# Starts a server and lets it rest: sets `rest` and `most`, in kB.
rests() { # NAME FOLDER
  start "$1" -t 0 "$2" || exit 1
  scanned 1
  sleep 1
  rest=$(resident "$server" VmRSS) most=$(resident "$server" VmHWM)
  stop "$server"
}
mkdir "$work/empty"
fill "$work/all" "$rows" $((212 - ${#work} - 14))
rests none "$work/empty"
none=$rest none_most=$most
rests all "$work/all"
first=$rest first_most=$most
rests all "$work/all"
say "an idle server over $rows files: $first kB after its first scan (at most $first_most), $rest kB after one that reads nothing (at most" \
  "$most); over none $none kB: $(((first - none) * 1024 / rows)) and $(((rest - none) * 1024 / rows)) bytes a file, at most $(((first_most - none_most) * 1024 / rows))"
if command -v python3 >/dev/null; then
  largest() { # STORE
    python3 -c 'import resource, subprocess, sys
subprocess.run(sys.argv[1:], stdout=subprocess.DEVNULL, stderr=subprocess.DEVNULL)
print(resource.getrusage(resource.RUSAGE_CHILDREN).ru_maxrss)' "$program" query -d "$1" 00ff
  }
  opened=$(largest "$work/all.db") empty=$(largest "$work/none.db")
  opened=$(((opened - empty) * 1024 / rows))
  say "of these, $opened bytes a file are rows and log, with what an opening takes: a query of the same store has them at most"
else
  say "rows and log alone: skipped, there is no python3"
fi
exit "$failed"
