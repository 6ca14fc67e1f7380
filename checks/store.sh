#!/usr/bin/env bash
# Scans into a file, and lets sqlite3 (or python3's module of it) read that file: its rows, and its integrity. A second
# scan adds nothing, a query of an id prints what `ident` says of its files, and a scan that was killed leaves a file from
# which the next one goes on. Files that the same tool wrote are refused, and stay as they were, or are read.
#
# usage: checks/store.sh [PROGRAM]      PROGRAM is ./dbgd of the repository's top unless given
source "$(dirname -- "$(readlink -f -- "${BASH_SOURCE[0]}")")/lib/head.sh" || exit 1

# Asks a SQLite file something, or runs the statements of the standard input on it, by the first of the two tools that is
# there.
if command -v sqlite3 >/dev/null; then
  ask() { sqlite3 "$1" "$2"; }
  fill() { sqlite3 -bail "$1"; }
elif python3 -c 'import sqlite3' 2>/dev/null; then
  ask() { python3 -c 'import sqlite3, sys
for row in sqlite3.connect(sys.argv[1]).execute(sys.argv[2]): print(*row, sep="|")' "$1" "$2"; }
  fill() { python3 -c 'import sqlite3, sys
sqlite3.connect(sys.argv[1]).executescript(sys.stdin.read())' "$1"; }
else
  say "skipped: there is neither sqlite3 nor python3 with its module"
  exit 0
fi

# The value that a question about the store has.
wants() { # WHAT WANTED QUESTION
  local got
  got=$(ask "$work/index.db" "$3" 2>&1)
  [ "$got" = "$2" ] || differs "$1: wanted $2, got $got"
}

# A tree of our own: the files of checks/data, texts, and many small files.
tree=$work/tree
mkdir -p "$tree/elf" "$tree/text"
cp checks/data/*.elf "$tree/elf/"
for number in $(seq 1 400); do printf 'text %s\n' "$number" >"$tree/text/$number"; done
files=$(find "$tree" -type f | wc -l)

"$program" scan -d "$work/index.db" "$tree" >"$work/first" 2>"$work/err" || differs "the first scan: $(cat "$work/err")"
grep -q "^scan: $files files, $files added, 0 replaced, 0 dropped, 0 kept, " "$work/first" ||
  differs "the first scan: $(cat "$work/first")"
wants integrity ok 'PRAGMA integrity_check'
wants rows "$files" 'SELECT count(*) FROM kept'
wants paths "$files" "SELECT count(*) FROM kept WHERE path LIKE '$tree/%'"
wants openings '1|1' 'SELECT one, n FROM epoch'

"$program" scan --database="$work/index.db" "$tree/" >"$work/second" 2>"$work/err" ||
  differs "the second scan: $(cat "$work/err")"
grep -q "^scan: $files files, 0 added, 0 replaced, 0 dropped, $files kept, " "$work/second" ||
  differs "the second scan: $(cat "$work/second")"

# What `ident` says of each file, by its id, is what a query of that id prints.
for file in "$tree"/elf/*; do
  line=$("$program" ident "$file") || continue
  printf '%s %s\n' "$line" "$file"
done | LC_ALL=C sort -k 3 >"$work/idents"
[ -s "$work/idents" ] || differs "no file has an id"
for id in $(cut -d ' ' -f 1 "$work/idents" | sort -u); do
  grep "^$id " "$work/idents" | cut -d ' ' -f 2- >"$work/wanted"
  "$program" query -d "$work/index.db" "$id" >"$work/out" 2>"$work/err"
  [ $? = 0 ] && cmp -s "$work/out" "$work/wanted" ||
    differs "query $id: wanted $(cat "$work/wanted"), got $(cat "$work/out" "$work/err")"
done
"$program" query -d "$work/index.db" ffff >"$work/out" 2>"$work/err"
[ $? = 3 ] && [ ! -s "$work/out" ] && [ "$(cat "$work/err")" = 'dbgd: nothing found' ] ||
  differs "query ffff: got $(cat "$work/out" "$work/err")"

# Rows of other editions, the first one's and later ones', go at the first opening, whichever command it is, and a scan reads their
# files anew.
for edition in 01 03; do
  printf "UPDATE kept SET body = CAST(x'%s' || substr(body, 2) AS BLOB);\n" "$edition" | fill "$work/index.db"
  wants "rows of edition $edition" "$files" "SELECT count(*) FROM kept WHERE substr(body, 1, 1) = x'$edition'"
  case $edition in
    01)
      "$program" query -d "$work/index.db" ffff >"$work/out" 2>&1
      wants 'rows behind a query' 0 'SELECT count(*) FROM kept' ;;
  esac
  "$program" scan -d "$work/index.db" "$tree" >"$work/out" 2>"$work/err" || differs "a scan of edition $edition: $(cat "$work/err")"
  cmp -s "$work/out" "$work/first" || differs "a scan of edition $edition: $(cat "$work/out")"
done

# A file that another program holds isn't opened.
if python3 -c 'import sqlite3' 2>/dev/null; then
  python3 -c 'import sqlite3, subprocess, sys
held = sqlite3.connect(sys.argv[1], isolation_level=None)
held.execute("BEGIN EXCLUSIVE")
ran = subprocess.run([sys.argv[2], "query", "-d", sys.argv[1], "ffff"], capture_output=True, text=True)
print(ran.returncode, ran.stdout + ran.stderr, end="")' "$work/index.db" "$program" >"$work/out" 2>&1
  [ "$(cat "$work/out")" = '1 dbgd: fault store' ] || differs "a file that is held: got $(cat "$work/out")"
else
  say "a file that is held: skipped, there is no python3 with sqlite3"
fi

# Runs words, and compares the status and each byte that is written with what is wanted.
ends() { # WHAT STATUS OUT ERR WORDS..
  local what=$1 wanted=$2 status
  printf '%s' "$3" >"$work/wanted_out"
  printf '%s' "$4" >"$work/wanted_err"
  shift 4
  timeout 60 "$program" "$@" >"$work/out" 2>"$work/err" </dev/null
  status=$?
  [ "$status" = "$wanted" ] && cmp -s "$work/out" "$work/wanted_out" && cmp -s "$work/err" "$work/wanted_err" ||
    differs "$what: wanted status $wanted, $(cat "$work/wanted_out" "$work/wanted_err" | head -c 500); got $status, $(
      cat "$work/out" "$work/err" | head -c 500
    )"
}

# A store that another program wrote. The bytes of its rows are those of empty files, changed at second 100, that are no
# ELF files: edition, path with its length, size, second, nanoseconds, then that it is no ELF file.
other=$work/other.db
kept_table='CREATE TABLE kept(path TEXT PRIMARY KEY NOT NULL, body BLOB NOT NULL) STRICT;'
epoch_table='CREATE TABLE epoch(one INTEGER PRIMARY KEY CHECK (one = 1), n INTEGER NOT NULL) STRICT;
  INSERT INTO epoch VALUES (1, 41);'
row="x'02020000002f6100000000000000006400000000000000000000000001'"

# Writes it anew, by these statements.
makes() { # STATEMENTS
  rm -f "$other" "$other-wal" "$other-shm" "$other-journal"
  printf '%s\n' "$1" | fill "$other" 2>"$work/err"
}

# Its tables, as they were written, and its rows.
holds() {
  ask "$other" 'SELECT name, sql FROM sqlite_master ORDER BY name'
  ask "$other" 'SELECT typeof(path), hex(path), hex(body) FROM kept ORDER BY rowid'
}

# A scan and a query are refused, and tables and rows stay. The number is raised by openings behind which the rows aren't
# read.
refused() { # WHAT NUMBER
  holds >"$work/before" 2>&1
  grep -q '^text\|^blob' "$work/before" || differs "$1: it has no row: $(cat "$work/err" "$work/before")"
  ends "scan of $1" 1 '' $'dbgd: fault store\n' scan -d "$other" "$tree"
  ends "query of $1" 1 '' $'dbgd: fault store\n' query -d "$other" ffff
  holds >"$work/after" 2>&1
  cmp -s "$work/before" "$work/after" || differs "$1: it had $(cat "$work/before"), and has $(cat "$work/after")"
  [ "$(ask "$other" 'SELECT one, n FROM epoch')" = "1|$2" ] || differs "$1: the number is $(ask "$other" 'SELECT * FROM epoch')"
}

makes "CREATE TABLE kept(path TEXT PRIMARY KEY NOT NULL, body BLOB NOT NULL, more TEXT) STRICT;
  INSERT INTO kept VALUES ('/a', $row, 'more'); $epoch_table"
refused 'another column' 41
makes "$kept_table INSERT INTO kept VALUES (CAST(x'2fff' AS TEXT), $row); $epoch_table"
refused 'a path that is no UTF-8' 43

# A column that is strict takes no blob, so the column becomes strict once the blob is there.
if makes "CREATE TABLE kept(path TEXT PRIMARY KEY NOT NULL, body BLOB NOT NULL);
  INSERT INTO kept VALUES (x'2f61', $row); $epoch_table
  PRAGMA writable_schema = ON; UPDATE sqlite_master SET sql = sql || ' STRICT' WHERE name = 'kept';" &&
  [ "$(ask "$other" "SELECT sql || ';' FROM sqlite_master WHERE name = 'kept'")" = "$kept_table" ]; then
  refused 'a path that is a blob' 41
else
  say "a path that is a blob: skipped, the tool doesn't write it"
fi

# Second tables of other shapes than the store's, beside its own table of rows: a scan and a query are refused, and the file
# stays byte for byte. The log that the opening leaves beside it has no page.
strange=0
foreign() { # WHAT COLUMNS ROW
  makes "$kept_table INSERT INTO kept VALUES ('/a', $row); CREATE TABLE epoch$2; INSERT INTO epoch VALUES $3;"
  if [ "$(ask "$other" 'SELECT count(*) FROM kept, epoch' 2>&1)" != 1 ]; then
    say "$1: skipped, the tool doesn't write it"
    return
  fi
  strange=$((strange + 1))
  cp "$other" "$work/before.db"
  ends "scan beside $1" 1 '' $'dbgd: fault store\n' scan -d "$other" "$tree"
  ends "query beside $1" 1 '' $'dbgd: fault store\n' query -d "$other" ffff
  cmp -s "$other" "$work/before.db" || differs "$1: the file isn't as it was"
  [ ! -e "$other-wal" ] || [ "$(stat -c %s "$other-wal")" -lt 512 ] || differs "$1: its log has a page"
}
key='one INTEGER PRIMARY KEY CHECK (one = 1)'
foreign 'a further column' "($key, n INTEGER NOT NULL, more TEXT) STRICT" "(1, 41, 'more')"
foreign 'a column fewer' '(n INTEGER PRIMARY KEY) STRICT' '(41)'
foreign 'columns in another order' "(n INTEGER NOT NULL, $key) STRICT" '(41, 1)'
foreign 'a key of another name' '(once INTEGER PRIMARY KEY, n INTEGER NOT NULL) STRICT' '(1, 41)'
foreign 'a text' "($key, n TEXT NOT NULL) STRICT" "(1, '41')"
foreign 'a real number' "($key, n REAL NOT NULL) STRICT" '(1, 41.0)'
foreign 'any type' "($key, n ANY NOT NULL) STRICT" '(1, 41)'
foreign 'no NOT NULL' "($key, n INTEGER) STRICT" '(1, 41)'
foreign 'a table that is not strict' "($key, n INTEGER NOT NULL)" '(1, 41)'
foreign 'a default' "($key, n INTEGER NOT NULL DEFAULT 7) STRICT" '(1, 41)'
foreign 'a computed default' "($key, n INTEGER NOT NULL DEFAULT (7 + 1)) STRICT" '(1, 41)'
foreign 'a key elsewhere' '(one INTEGER NOT NULL, n INTEGER PRIMARY KEY NOT NULL) STRICT' '(1, 41)'
foreign 'no key' '(one INTEGER NOT NULL, n INTEGER NOT NULL) STRICT' '(1, 41)'
foreign 'a counted key' '(one INTEGER PRIMARY KEY AUTOINCREMENT, n INTEGER NOT NULL) STRICT' '(1, 41)'
foreign 'a key without a rowid' '(one INTEGER PRIMARY KEY, n INTEGER NOT NULL) STRICT, WITHOUT ROWID' '(1, 41)'
foreign 'a unique number' "($key, n INTEGER NOT NULL UNIQUE) STRICT" '(1, 41)'
foreign 'a reference' "($key, n INTEGER NOT NULL REFERENCES epoch) STRICT" '(1, 1)'
foreign 'a computed column' "($key, n INTEGER NOT NULL, more INTEGER AS (n + 1)) STRICT" '(1, 41)'
[ "$strange" -gt 0 ] || differs 'the tool writes no strange table'

# The store's own tables, as the tool writes them, are opened.
makes "$kept_table $epoch_table"
ends 'query of its own tables' 3 '' $'dbgd: nothing found\n' query -d "$other" ffff
[ "$(ask "$other" 'SELECT one, n FROM epoch')" = '1|42' ] || differs "its own tables: the number is $(ask "$other" 'SELECT * FROM epoch')"

# 10,000 rows of files that are there, a hundred of them with the id abcd as those of an executable. A scan keeps them all
# and reads none of the files, and a query finds the hundred.
many=$work/many
mkdir "$many"
(cd "$many" && seq -f '%04.0f' 0 9999 | xargs touch -d @100)
prefix=$(printf '%s/' "$many" | od -An -tx1 -v | tr -d ' \n')
makes "$kept_table $(awk -v dir="$many/" -v prefix="$prefix" 'BEGIN {
  size = length(dir) + 4
  print "BEGIN;"
  for (n = 0; n < 10000; n++) {
    name = sprintf("%04d", n)
    spelled = name
    gsub(/./, "3&", spelled)
    found = n % 100 ? "0001" : "010102abcd00000000"
    printf "INSERT INTO kept VALUES (%c%s%s%c, x%c02%02x%02x0000%s%s0000000000000000640000000000000000000000%s%c);\n",
      39, dir, name, 39, 39, size % 256, int(size / 256), prefix, spelled, found, 39
  }
  print "COMMIT;"
}')"
holds | grep -v '^epoch' >"$work/before"
[ "$(grep -c '^text' "$work/before")" = 10000 ] || differs "many rows: $(grep -c '^text' "$work/before") are there"
ends 'scan of many rows' 0 $'scan: 10000 files, 0 added, 0 replaced, 0 dropped, 10000 kept, 100 executables, 0 debuginfo\n' '' \
  scan -d "$other" "$many"
ends 'query of many rows' 0 "$(seq -f "executable $many/%02.0f00" 0 99)"$'\n' '' query -d "$other" abcd
holds | grep -v '^epoch' >"$work/after"
cmp -s "$work/before" "$work/after" || differs "many rows: $(diff "$work/before" "$work/after" | head -n 5)"
[ "$(ask "$other" 'SELECT one, n FROM epoch')" = '1|2' ] || differs "many rows: it wasn't opened twice"
[ "$(ask "$other" 'PRAGMA integrity_check')" = ok ] || differs "many rows: $(ask "$other" 'PRAGMA integrity_check')"

# Twenty scans are killed, each a little later than the one before and with another number of workers. Then a scan goes on
# to the same rows.
killed=0
for step in $(seq 1 20); do
  rm -f "$work/index.db" "$work/index.db-wal" "$work/index.db-shm"
  "$program" scan -d "$work/index.db" -c $((step % 7 + 1)) "$tree" >/dev/null 2>&1 &
  scan=$!
  sleep "0.$(printf '%03d' $((step * 15)))"
  kill -9 "$scan" 2>/dev/null && killed=$((killed + 1))
  wait "$scan" 2>/dev/null
  "$program" scan -d "$work/index.db" "$tree" >"$work/out" 2>"$work/err" ||
    differs "after kill $step: $(cat "$work/err")"
  wants "integrity after kill $step" ok 'PRAGMA integrity_check'
  wants "rows after kill $step" "$files" 'SELECT count(*) FROM kept'
done

say "$files files kept; $strange strange tables refused; $killed of 20 scans killed; $differing differ"
[ "$differing" = 0 ]
