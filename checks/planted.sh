#!/usr/bin/env bash
# Looks whether each wrong body that stands beside the gate, crates/NAME/planted/*.edit, still fits the code: the old text of
# each of its pairs stands exactly once in its file. It tries none of them: bench/planted does.
#
# usage: checks/planted.sh
set -u
export LC_ALL=C
cd -- "$(dirname -- "$(readlink -f -- "${BASH_SOURCE[0]}")")/.." || exit 1

# Says on one line why the edit does not fit, where it doesn't.
fit() { # EDIT
  awk -v crate="${1%/planted/*}" '
    function refuse(why) { print why; refused = 1; exit }
    function text_of(path,   line, text) {
      while ((getline line < path) > 0) text = text line "\n"
      close(path)
      return text
    }
    function times(text, part,   count, at) {
      while ((at = index(text, part)) > 0) {
        count++
        text = substr(text, at + length(part))
      }
      return count + 0
    }
    /^file: / {
      name = substr($0, 7)
      if (!(name in texts) && (texts[name] = text_of(crate "/" name)) == "") refuse("there is no file " name)
    }
    /^old: / {
      old = substr($0, 6)
      if (name == "") refuse("it names no file in front of its old text")
      if ((count = times(texts[name], old)) != 1) refuse("its old text is in " name " " count " times: " old)
    }
    /^new:/ {
      if (old == "") refuse("a new text stands behind no old one")
      new = substr($0, 5)
      sub(/^ /, "", new)
      if (new == old) refuse("its new text is the old one")
      at = index(texts[name], old)
      texts[name] = substr(texts[name], 1, at - 1) new substr(texts[name], at + length(old))
      old = ""
      pairs++
    }
    END { if (!refused && (!pairs || old != "")) print "it has no pair of an old text and a new one" }' "$1"
}

edits=0
unfit=0
for edit in crates/*/planted/*; do
  [ -e "$edit" ] || continue
  edits=$((edits + 1))
  case $edit in
    *.edit) why=$(fit "$edit") ;;
    *) why="it is no .edit" ;;
  esac
  [ -z "$why" ] || {
    unfit=$((unfit + 1))
    printf 'planted: %s: %s\n' "$edit" "$why" 1>&2
  }
done
printf 'planted: %s edits, %s do not fit the code\n' "$edits" "$unfit" 1>&2
[ "$unfit" = 0 ]
