#!/bin/bash
# test_install.sh: make install into a folder of its own, a host compiled with what pw.pc says and run,
# and make uninstall, after which no file is left. A folder's name may hold a space.
set -euo pipefail
cd "$(dirname "${BASH_SOURCE[0]}")/.."

work=$(mktemp -d)
trap 'rm -rf "$work"' EXIT
root="$work/a root" prefix=/opt/pw

installed() { (cd "$root" && find . -type f | sort); }
quietly() { "$@" > "$work/log" 2>&1 || { cat "$work/log"; exit 1; }; }

quietly make --no-print-directory install DESTDIR="$root" PREFIX="$prefix"
wanted=". ./opt/pw/include/pw.h ./opt/pw/lib/libpw.a ./opt/pw/lib/pkgconfig/pw.pc"
[ ". $(installed | paste -sd ' ')" = "$wanted" ] || { echo "installed: $(installed)"; exit 1; }
cmp include/pw.h "$root$prefix/include/pw.h"

# The flags: below DESTDIR the prefix is another one, as for any package that is not yet at its place.
pc="$root$prefix/lib/pkgconfig/pw.pc"
if command -v pkg-config > /dev/null; then
    export PKG_CONFIG_PATH="${pc%/*}" PKG_CONFIG_LIBDIR="${pc%/*}"
    version=$(pkg-config --modversion pw)
    flags=$(pkg-config --cflags --libs pw)
else
    version=$(sed -n 's/^Version: //p' "$pc")
    flags=$(sed -n 's/^Cflags: //p;s/^Libs: //p' "$pc" | paste -sd ' ')
    flags=$(sed "s|\${includedir}|$prefix/include|;s|\${libdir}|$prefix/lib|" <<< "$flags")
fi
[ "#define PW_VERSION \"$version\"" = "$(grep '^#define PW_VERSION ' include/pw.h)" ] || { echo "version $version"; exit 1; }
[ "$(grep -c "$prefix" <<< "$flags")" -ge 1 ] || { echo "flags $flags"; exit 1; }

# A folder without a space stands for the place that the prefix names.
ln -s "$root" "$work/root"
read -r -a flags <<< "${flags//$prefix/$work/root$prefix}"

cat > "$work/host.c" << 'HOST'
#include <pw.h>
#include <stdio.h>

int main(void)
{
    struct pw_description bench = {{1.0f, 1.0f}, {1.0f, 1.0f, 1.0f}, 1.0f, false};
    uint32_t words[PW_CALIBRATION] = {0};
    uint8_t bytes[PW_FRAME_LENGTH] = {0};
    struct pw_made made = pw_make(bench, words, PW_CALIBRATION, false);
    struct pw_step on = pw_on(made.meter, 1000);
    struct pw_step late = pw_frame(on.meter, PW_TIME_LAST + 1, 0, bytes, sizeof bytes);
    printf("%s %llu %s %s\n", pw_refusal_name(on.answer.refusal), (unsigned long long)on.answer.mark.at,
           pw_refusal_name(late.answer.refusal), pw_unit_name(PW_UNIT_KVAH));
    return 0;
}
HOST
# run_host COMPILER..: compiles the host with the flags of pw.pc alone, and runs it.
run_host() {
    "$@" -Wall -Wextra -Werror -o "$work/host" "$work/host.c" "${flags[@]}"
    [ "$("$work/host")" = "done 1550 late kVAh" ] || { echo "the host wrote: $("$work/host")"; exit 1; }
}
run_host gcc -std=c99
run_host gcc -O2
if gcc -x c++ -fsyntax-only /dev/null 2> /dev/null; then
    quietly gcc -x c++ -std=c++11 -Wall -Wextra -Werror -c -o "$work/host.o" "$work/host.c" "${flags[@]}"
    quietly gcc -o "$work/host" "$work/host.o" "${flags[@]}"
    [ "$("$work/host")" = "done 1550 late kVAh" ]
fi

quietly make --no-print-directory uninstall DESTDIR="$root" PREFIX="$prefix"
[ -z "$(installed)" ] || { echo "left: $(installed)"; exit 1; }
echo "test_install: installed, compiled against pw.pc, run, and uninstalled"
