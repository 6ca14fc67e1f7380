# The head of each check and bench, which sources it from its own place with its own words, and runs from any folder.
# It goes to the repository's top, and sets `program` (the first word, else DBGD, else the launcher there) and `work`, a
# folder that goes with the script.
set -u
export LC_ALL=C

# One line on standard error, under the script's name.
say() { printf '%s: %s\n' "$(basename -- "$0" .sh)" "$*" 1>&2; }

# Counts an answer that differs, and says how it does; of many, the first twenty.
differing=0
differs() {
  differing=$((differing + 1))
  [ "$differing" -gt 20 ] || say "$*"
}

top=$(readlink -f -- "$(dirname -- "${BASH_SOURCE[0]}")/../..") || exit 1
program=${1:-${DBGD:-$top/dbgd}}
command -v -- "$program" >/dev/null || { say "there is no program $program"; exit 1; }
program=$(realpath -s -- "$(command -v -- "$program")") || exit 1
cd -- "$top" || exit 1

work=$(mktemp -d) && work=$(readlink -f -- "$work") || exit 1
trap 'rm -rf "$work"' EXIT

# The first call may build the program, which takes longer than any answer.
"$program" ident checks/data/ppc32_big.elf >/dev/null </dev/null ||
  { say "$program has no answer for checks/data/ppc32_big.elf"; exit 1; }
