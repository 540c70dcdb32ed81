# How C programs for x86-64 are made and run: the library and the printer are for x86-64 alone.
# Elsewhere the Rattle kit has the compiler, the C library and an emulator.
#   x86_64_cc WORD...   compiles and links, as cc does
#   x86_64_under        the words, if any, to put before a program to run it
# shellcheck shell=bash
# shellcheck disable=SC2034 # x86_64_under is for the scripts that read this file

if [ "$(uname -m)" = x86_64 ]; then
    x86_64_under=''
    x86_64_cc() { cc "$@"; }
else
    guide=$(rt doc)
    tools=$(dirname "$(dirname "$guide")")/on/$(uname -m)/toolchain
    x86_64_under="$tools/bin/qemu-x86_64 $tools/lib/ld-linux-x86-64.so.2 --library-path $tools/lib"

    # The headers are this machine's: what the tests use of them is alike on both.
    x86_64_cc() {
        "$tools/bin/clang" --target=x86_64-linux-gnu -fPIE -pie -fuse-ld=lld \
            -nostdlib -nostdlibinc \
            -isystem "$(cc -print-file-name=include)" \
            -isystem "/usr/include/$(cc -print-multiarch)" -isystem /usr/include \
            "$tools"/lib/{Scrt1,crti,crtbeginS}.o "$@" \
            "$tools"/lib/{libc.so.6,libc_nonshared.a,libgcc.a,crtendS.o,crtn.o}
    }
fi
