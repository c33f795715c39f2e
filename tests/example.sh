#!/bin/bash
# example.sh PROGRAM: the example of pw.h, which make takes out of its comment and compiles, writes what
# the comment says that it writes; and its text is C99 and, where there is a compiler for it, C++11.
set -euo pipefail
cd "$(dirname "${BASH_SOURCE[0]}")/.."

text=$(sed -n '/^ \* ---- example ----$/,/^ \* ---- end of the example ----$/p' include/pw.h | sed '1d;$d;s/^ \*$//;s/^ \* //')
said=$(sed -n '/^ \* It writes:$/,/^ \*\/$/s/^ \*   //p' include/pw.h)
[ -n "$text" ] && [ -n "$said" ] || { echo "no example in include/pw.h"; exit 1; }
diff <(echo "$text") build/example.c || { echo "build/example.c is not the example of include/pw.h"; exit 1; }

strict=(-Wall -Wextra -Werror -pedantic -Iinclude -fsyntax-only)
gcc -std=c99 "${strict[@]}" build/example.c
if gcc -x c++ -fsyntax-only /dev/null 2> /dev/null; then gcc -x c++ -std=c++11 "${strict[@]}" build/example.c; fi

diff <(echo "$said") <("$1") || { echo "$1 does not write what include/pw.h says"; exit 1; }
echo "example: $(wc -l <<< "$text") lines of include/pw.h compiled, $(wc -l <<< "$said") lines as it says"
