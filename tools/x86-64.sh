# Sourced by the scripts here and in tests/c, from the repository's folder. The archive is x86-64 code: what is linked
# with it needs an x86-64 compiler, and elsewhere an emulator. Installs what is missing, and sets
#   compiler   CC (or cc) where it makes x86-64 code, else Debian's cross compiler
#   emulator   nothing on an x86-64 machine, else qemu-x86_64 with where x86-64's libraries are
#   binutils   what stands before nm and size so that they read x86-64 code
if [ -n "${CC-}" ] && ! $CC -dumpmachine >/dev/null; then
    echo "CC is '$CC', and that is no compiler" >&2
    exit 1
fi
emulator=""
if [ "$(uname -m)" = x86_64 ]; then
    compiler=${CC:-cc}
    if [ "$compiler" = cc ]; then tools/need cc gcc libc6-dev; fi
else
    emulator=qemu-x86_64
    tools/need qemu-x86_64 qemu-user
    case "$(${CC:-cc} -dumpmachine 2>/dev/null || true)" in
        x86_64*) compiler=${CC:-cc} ;;
        *)
            compiler=x86_64-linux-gnu-gcc
            tools/need $compiler gcc-x86-64-linux-gnu libc6-dev-amd64-cross
            ;;
    esac
fi
# a program that was linked with the C library as a shared one finds it among the cross compiler's files
if [ -n "$emulator" ] && [ -d /usr/x86_64-linux-gnu ]; then emulator="qemu-x86_64 -L /usr/x86_64-linux-gnu"; fi
binutils=""
if command -v x86_64-linux-gnu-nm >/dev/null; then binutils=x86_64-linux-gnu-; fi
