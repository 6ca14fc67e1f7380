# Servers of a check or a bench, which sources it behind head.sh: each runs on a port of its own, on a store in `work`, and
# ends with the script.

children=()

# Lets go of a process that was waited for: its number may be another's from then on.
forget() { # PROCESS
  local child left=()
  for child in "${children[@]}"; do [ "$child" = "$1" ] || left+=("$child"); done
  children=("${left[@]}")
}

# Ends those that are left. They are asked to first, since one may have processes of its own that go with it, as nginx.
end_children() {
  local turn
  if [ "${#children[@]}" != 0 ]; then
    kill "${children[@]}" 2>/dev/null
    for ((turn = 0; turn < 20; turn++)); do
      kill -0 "${children[@]}" 2>/dev/null || break
      sleep 0.1
    done
    kill -9 "${children[@]}" 2>/dev/null
  fi
  wait 2>/dev/null
  rm -rf "$work"
}
trap end_children EXIT
trap 'say "cut off"; exit 1' INT TERM HUP

# Ends the script after so many seconds, whatever it waits for.
end_after() { # SECONDS
  (
    trap - EXIT INT TERM HUP
    read -r -t "$1" _ <> <(:)
    kill -TERM $$
  ) &
  children+=($!)
}

# Waits until a command succeeds, at most so many tenths of a second.
within() { # TENTHS COMMAND..
  local turn tenths=$1
  shift
  for ((turn = 0; turn < tenths; turn++)); do
    "$@" >/dev/null 2>&1 && return 0
    sleep 0.1
  done
  "$@" >/dev/null 2>&1
}

is_up_or_over() { [ -s "$work/$name.out" ] || ! kill -0 "$server"; }
lines_are() { [ "$(grep -c "$1" "$work/$name.$3")" -ge "$2" ]; }

# Starts a server with these words, in which @PORT@ is its port: sets `name`, `port`, `server` (its process) and `at` (where it
# answers). A port that is taken is passed over. What it prints is in NAME.out and NAME.err, its store NAME.db.
start() { # NAME WORDS..
  local try
  name=$1
  shift
  for ((try = 0; try < 20; try++)); do
    port=$((20000 + RANDOM % 12000))
    at=http://127.0.0.1:$port
    : >"$work/$name.out"
    "$program" serve -d "$work/$name.db" -p "$port" "${@//@PORT@/$port}" >"$work/$name.out" 2>"$work/$name.err" </dev/null &
    server=$!
    children+=("$server")
    within 300 is_up_or_over || { say "$name: no line after 30 s"; return 1; }
    [ ! -s "$work/$name.out" ] || return 0
    wait "$server"
    forget "$server"
    [ "$(cat "$work/$name.err")" = 'dbgd: fault door' ] || { say "$name: $(cat "$work/$name.err")"; return 1; }
  done
  say "$name: no port is free"
  return 1
}

# Waits for so many whole scans of the server that was started last.
scanned() { # COUNT
  within 300 lines_are '^scan: ' "$1" out || differs "$name: no $1 scans: $(cat "$work/$name.out" "$work/$name.err")"
}

# Ends a server by a signal, whose status it has then.
stop() { # SERVER
  local status
  kill -TERM "$1" 2>/dev/null
  wait "$1"
  status=$?
  [ "$status" = 143 ] || differs "a server that was ended has status $status"
  forget "$1"
}
