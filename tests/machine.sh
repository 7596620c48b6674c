# How programs for x86-64, the one kind that the library and the programs are compiled for, are compiled and run on this machine.
# To be sourced.
#   CROSS      stands before the names of the compilers and of binutils; nothing on x86-64
#   EMULATOR   stands in front of a program that is run; nothing on x86-64
case $(uname -m) in
x86_64) CROSS='' EMULATOR='' ;;
*) CROSS=x86_64-linux-gnu- EMULATOR='qemu-x86_64 -L /usr/x86_64-linux-gnu' ;;
esac
export CROSS EMULATOR
