#!/usr/bin/env bash
# Looks at what is written for people beside the code: the manual page by mandoc's lint and the unit by systemd-analyze, each
# where it is installed; that every option and default which the program's helps name stands in the manual page and in
# docs/COMMANDS.md; and that docs/SERVING.md has the values of the constants that it names.
#
# usage: checks/manual.sh [PROGRAM]      PROGRAM is ./dbgd of the repository's top unless given
source "$(dirname -- "$(readlink -f -- "${BASH_SOURCE[0]}")")/lib/head.sh" || exit 1

page=docs/man/dbgd.8
unit=contrib/dbgd.service
looked=0

if command -v mandoc >/dev/null; then
  mandoc -Tlint "$page" >"$work/lint" 2>&1 || true
  # Whether the machine has the manual of another program is nothing that the page could do about.
  grep -v -e 'referenced manual not found' -e 'outdated mandoc.db' "$work/lint" >"$work/said" && differs "mandoc: $(cat "$work/said")"
  looked=$((looked + 1))
else
  say "the page by mandoc: skipped, there is no mandoc"
fi

if command -v systemd-analyze >/dev/null; then
  # The unit names where the program is to be installed: here it stands elsewhere, and so does the manual.
  sed "s|^ExecStart=[^ ]*|ExecStart=$program|" "$unit" >"$work/dbgd.service"
  systemd-analyze verify --man=no "$work/dbgd.service" >"$work/said" 2>&1 && [ ! -s "$work/said" ] ||
    differs "systemd-analyze: $(cat "$work/said")"
  looked=$((looked + 1))
else
  say "the unit by systemd-analyze: skipped, there is no systemd-analyze"
fi

# The options and defaults of the helps.
man_text=$(sed 's/^\.[A-Z][a-z] Fl Fl /--/; s/ , Fl Fl / --/; s/Fl Fl /--/g; s/Fl /-/g' "$page")
options=0
for command in query scan serve find; do
  "$program" "$command" --help >"$work/help" || differs "$command has no help"
  for option in $(grep -o -E '^ +(-[a-zA-Z], )?--[a-z-]+' "$work/help" | grep -o -E -- '--?[a-zA-Z-]+'); do
    options=$((options + 1))
    grep -q -E -e "(^|[^a-zA-Z-])$option([^a-zA-Z-]|\$)" <<<"$man_text" || differs "$page doesn't name $option of $command"
    grep -q -F -e "$option" docs/COMMANDS.md || differs "docs/COMMANDS.md doesn't name $option of $command"
  done
  for default in $(sed -n 's/.*\[default: \(.*\)\]$/\1/p' "$work/help"); do
    grep -q -E "(^|[^0-9])$default unless" <<<"$man_text" || differs "$page doesn't name the default $default of $command"
  done
done
[ "$options" != 0 ] || differs 'the helps name no option'

# The limits: a line that names constants has their values.
limits=0
while IFS='|' read -r _ _ text names _; do
  for constant in $(grep -o -E '`[A-Z]+(_[A-Z]+)+`|`REQUESTS`|`PIECE`' <<<"$names" | tr -d '`'); do
    value=$(grep -h -o -E "const $constant: [a-z0-9]+ = [0-9_]+;" crates/*/src/*.rt | sed 's/.* = //; s/;//; s/_/,/g')
    [ -n "$value" ] || continue
    limits=$((limits + 1))
    grep -q -E "(^|[^0-9,])$value([^0-9,]|\$)" <<<"$text" || differs "docs/SERVING.md: $constant is $value, and not$text"
  done
done < <(grep '^|' docs/SERVING.md)
[ "$limits" -ge 8 ] || differs "docs/SERVING.md names $limits constants"

say "$looked of 2 tools looked, $options options and $limits limits compared; $differing differ"
[ "$differing" = 0 ]
