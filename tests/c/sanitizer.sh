# Sourced by tests/c/sanitize and tests/c/sanitized: flags, and the library that can be linked with a sanitizer here.
flags="-std=c11 -Wall -Wextra -Werror -O1 -g -fsanitize=address,undefined -fno-sanitize-recover=all"
flags="$flags -Iinclude -DFEWER_ROUNDS ${CFLAGS-}"
library=target/staticlib/libprowcurl.a
if [ "$(uname -m)" != x86_64 ]; then library="tests/c/stand_in.c tests/c/stand_in_edits.c"; fi
