#!/usr/bin/env bash
# Scans real folders of this system, and compares the counts with those of `find`, and of `ident` over the same files.
#
# usage: checks/scan.sh [PROGRAM]      PROGRAM is ./dbgd of the repository's top unless given
source "$(dirname -- "$(readlink -f -- "${BASH_SOURCE[0]}")")/lib/head.sh" || exit 1

# Scans a folder, and looks for the counts of `find` and `ident`.
scanned=0
compare() { # DIR
  local files executables=0 debuginfo=0 line
  find "$1" -type f -readable -print0 >"$work/files"
  files=$(tr -cd '\0' <"$work/files" | wc -c)
  while IFS= read -r -d '' file; do
    line=$("$program" ident "$file" 2>/dev/null) || continue
    case $line in
      *' both') executables=$((executables + 1)) debuginfo=$((debuginfo + 1)) ;;
      *' executable') executables=$((executables + 1)) ;;
      *' debuginfo') debuginfo=$((debuginfo + 1)) ;;
    esac
  done <"$work/files"
  scanned=$((scanned + files))
  printf 'scan: %d files, %d added, 0 replaced, 0 dropped, 0 kept, %d executables, %d debuginfo\n' \
    "$files" "$files" "$executables" "$debuginfo" >"$work/wanted"
  local workers status
  for workers in 1 4 64; do
    rm -f "$work"/store.db*
    "$program" scan -d "$work/store.db" -c "$workers" "$1" >"$work/out" 2>"$work/err"
    status=$?
    [ "$status" = 0 ] && [ ! -s "$work/err" ] && cmp -s "$work/out" "$work/wanted" ||
      differs "$1 by $workers: wanted $(cat "$work/wanted"), got $(cat "$work/out" "$work/err"), status $status"
  done
}

# A tree of our own: files in folders, a link, a FIFO, an empty folder.
mkdir -p "$work/tree/inner/deep" "$work/tree/none"
cp checks/data/*.elf "$work/tree/inner/"
printf 'hello\n' >"$work/tree/inner/deep/text"
: >"$work/tree/empty"
ln -s inner/deep/text "$work/tree/link"
ln -s inner "$work/tree/folder"
mkfifo "$work/tree/fifo"
compare "$work/tree"
own=$scanned

# A root that is a link is gone, and nothing is listed behind it.
"$program" scan -d "$work/store.db" "$work/tree/folder" >"$work/out" 2>"$work/err"
[ $? = 3 ] && [ ! -s "$work/out" ] && [ "$(cat "$work/err")" = "dbgd: gone $work/tree/folder" ] ||
  differs "a root that is a link isn't gone"

# Folders of this system.
for folder in /usr/sbin /usr/libexec /etc/default; do
  [ -d "$folder" ] || { say "skipped: there is no folder $folder"; continue; }
  compare "$(readlink -f -- "$folder")"
done
[ "$scanned" -gt "$own" ] || differs "no file of this system was compared"

say "$scanned files compared; $differing differ"
[ "$differing" = 0 ]
