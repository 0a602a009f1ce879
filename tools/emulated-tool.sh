#!/bin/sh
# prowcurl on a machine that is not x86-64: the program beside this script, in the emulator. Works from any folder.
here=$(dirname "$(readlink -f "$0")")
if ! command -v qemu-x86_64 >/dev/null; then
    echo "prowcurl: qemu-x86_64 is missing: it comes with Debian's package qemu-user" >&2
    exit 69
fi
exec qemu-x86_64 "$here/../libexec/prowcurl/prowcurl" "$@"
