#!/usr/bin/env bash
# Makes the objects: triangle.o, which is compiled, and has a set of two ranges; ends, which is linked of two files, and
# has two sets; ends64, which is ends with sets of the long form; few, which has of ends no more than its code and its
# sets, and whose bytes stand in the tests of test_elf; two_sections, which is few with its sets in a second
# section too; compressed, whose sets are compressed; nameless, which is ends and says that its sections have no names;
# and riscv.o, which is compiled for a machine whose linker writes the lengths of the ranges. They were made by gcc 12.2.0
# and binutils 2.40 of Debian 12, and riscv.o by those of its package gcc-riscv64-linux-gnu.
set -eu
cd "$(dirname "$0")"
flags='-g -gdwarf-4 -Os -fno-asynchronous-unwind-tables -fno-pic -ffile-prefix-map='$PWD=.
link='-fno-stack-protector -nostdlib -static -no-pie -Wl,--build-id=none,-n'
gcc $flags -ffunction-sections -c triangle.c -o triangle.o
riscv64-linux-gnu-gcc $flags -c triangle.c -o riscv.o
gcc $flags $link start.c status.c -o ends
gcc $flags -gdwarf64 $link start.c status.c -o ends64
objcopy -j .text -j .debug_aranges ends few
objcopy --dump-section .debug_aranges=sets few
objcopy --add-section .more=sets few two_sections
objcopy --rename-section .more=.debug_aranges two_sections
rm sets
objcopy --compress-debug-sections ends compressed
cp ends nameless
printf '\0\0' | dd of=nameless bs=1 seek=62 conv=notrunc status=none
