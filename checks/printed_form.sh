#!/usr/bin/env bash
# What loopx writes for accepted texts: it is given back byte for byte, and gcc and clang accept it. What an example prints,
# compiled by gcc, which ignores directives, is what its translation prints and what loopx prints that runs it. A compiler
# that is missing is skipped.
here=$(cd "$(dirname "${BASH_SOURCE[0]}")/.." && pwd)
work=$(mktemp -d)
trap 'rm -rf "$work"' EXIT
cat >"$work/outside.c" <<'C'
#include <stdio.h>
void print(long long x) {
    printf("%lld\n", x);
}
long long input(void) {
    return 1000;
}
C
passed=0
failed=0

fail() {
    echo "printed_form: $1"
    failed=$((failed + 1))
}

# printed FILE: what its text is translated to, which is translated to itself, and which the compilers accept
printed() {
    local compiler
    "$here/loopx" translate <"$1" >"$work/printed.c" || return 1
    "$here/loopx" translate <"$work/printed.c" | cmp -s - "$work/printed.c" || return 1
    for compiler in gcc clang; do
        if command -v "$compiler" >/dev/null; then
            "$compiler" -std=c11 -fsyntax-only -w "$work/printed.c" || return 1
        fi
    done
}

# runs_alike FILE: its text and its translation print the same, and so does loopx
runs_alike() {
    command -v gcc >/dev/null || return 0
    gcc -std=c11 -w "$1" "$work/outside.c" -o "$work/source" &&
        gcc -std=c11 -w "$work/printed.c" "$work/outside.c" -o "$work/plain" &&
        "$work/source" >"$work/lines" && [ -s "$work/lines" ] &&
        "$work/plain" | cmp -s - "$work/lines" &&
        "$here/loopx" run 10000 1000 <"$1" | cmp -s - "$work/lines"
}

# In a file of accepted texts a line //-- stands between two of them.
mkdir "$work/accepted"
for file in "$here"/checks/accepted/*.c; do
    awk -v name="$work/accepted/$(basename "$file" .c)" \
        'BEGIN { text = name "_1.c"; count = 1 } $0 == "//--" { close(text); count++; text = name "_" count ".c"; next }
        { print >text }' "$file"
done
for text in "$work"/accepted/*.c; do
    if printed "$text"; then
        passed=$((passed + 1))
    else
        fail "$(basename "$text" .c) is written otherwise: $(head -c 200 "$text")"
    fi
done
for text in "$here"/examples/*.c; do
    if printed "$text" && runs_alike "$text"; then
        passed=$((passed + 1))
    else
        fail "$(basename "$text") doesn't run as compiled, or its translation doesn't"
    fi
done
echo "printed_form: $passed passed, $failed failed"
[ "$failed" = 0 ]
