#!/usr/bin/env bash
# How the files beside this script were made, once: a program of one function for each of several
# architectures, compiled by clang 14 and linked by that architecture's GNU ld of Debian's binutils, with a
# build-id and debug information. They are kept as they are; this script is not run by the checks.
set -eu
cd "$(dirname "$0")"
work=$(mktemp -d)
trap 'rm -rf "$work"' EXIT
cat >"$work/start.c" <<'C'
static const char words[] = "sample";
int zeros[4];
int _start(void) { zeros[0] = words[0]; return zeros[1]; }
C
make_one() { # NAME TARGET LINKER
  clang --target="$2" -g -O1 -ffreestanding -fno-pic -fdebug-compilation-dir=/sample -fdebug-prefix-map="$work"=/sample -c -o "$work/$1.o" "$work/start.c"
  "$3" --build-id=sha1 -e _start -o "$1.elf" "$work/$1.o"
}
make_one ppc32_big powerpc-linux-gnu powerpc-linux-gnu-ld
make_one mips32_big mips-linux-gnu mips-linux-gnu-ld
make_one s390x_big s390x-linux-gnu s390x-linux-gnu-ld
make_one i686_little i686-linux-gnu i686-linux-gnu-ld
make_one arm32_little arm-linux-gnueabihf arm-linux-gnueabihf-ld
make_one aarch64_little aarch64-linux-gnu aarch64-linux-gnu-ld
# A debug companion, and a program without its debug information.
powerpc-linux-gnu-objcopy --only-keep-debug ppc32_big.elf ppc32_big.debug.elf
powerpc-linux-gnu-objcopy --strip-debug ppc32_big.elf ppc32_big.stripped.elf
