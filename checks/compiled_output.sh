#!/usr/bin/env bash
# Compiles what loopx writes with gcc and with clang, all warnings as errors and with tests for undefined behaviour, runs it,
# and compares what it prints with what the order of the directives asks for, and with what loopx prints that runs the text.
# A compiler that is missing is skipped.
set -o pipefail
here=$(cd "$(dirname "${BASH_SOURCE[0]}")/.." && pwd)
work=$(mktemp -d)
trap 'rm -rf "$work"' EXIT
cat >"$work/print.c" <<'C'
#include <stdio.h>
void print(long long x) {
    printf("%lld\n", x);
}
C
passed=0
failed=0

# compiled COMPILER: what the translation prints, compiled by it
compiled() {
    "$1" -std=c11 -Wall -Werror -fsanitize=undefined -fno-sanitize-recover=all "$work/plain.c" "$work/print.c" -o "$work/plain" &&
        "$work/plain" | tr '\n' ' '
}

# compare NAME TEXT EXPECTED: runs the text, translates it, compiles and runs the translation, and compares the numbers
compare() {
    local got compiler
    got=$(printf '%s\n' "$2" | "$here/loopx" run 1000 | tr '\n' ' ')
    if [ "$got" != "$3 " ] || ! printf '%s\n' "$2" | "$here/loopx" translate >"$work/plain.c"; then
        echo "compiled_output: $1 is run otherwise: ${got:-nothing was printed}"
        failed=$((failed + 1))
        return
    fi
    for compiler in gcc clang; do
        command -v "$compiler" >/dev/null || continue
        if got=$(compiled "$compiler") && [ "$got" = "$3 " ]; then
            passed=$((passed + 1))
        else
            echo "compiled_output: $1 differs by $compiler: ${got:-nothing was printed}"
            failed=$((failed + 1))
        fi
    done
}

# in_main NAME LINES EXPECTED: compares the program with these lines in main
in_main() {
    compare "$1" "void print(long long);
int main(void) {
$2
}" "$3"
}

in_main reversed_loop '#pragma omp reverse
for (int i = 0; i < 5; i++) print(i);' '4 3 2 1 0'
in_main stack '#pragma omp reverse
{
#pragma omp reverse
for (int i = 20; i >= 0; i -= 7) print(i);
}' '20 13 6'
in_main up_and_down '#pragma omp reverse
for (int i = 1; i <= 10; i += 3) print(i);
#pragma omp reverse
for (long long i = 3; i > -3; i--) print(i);
#pragma omp reverse
for (int i = 2; i != 5; i++) print(i);
#pragma omp reverse
for (int i = 5; i != 2; i--) print(i);' '10 7 4 1 -2 -1 0 1 2 3 4 3 2 3 4 5'
in_main ends_of_the_types '#pragma omp reverse
for (int i = 2147483646; i <= 2147483647; i++) print(i);
#pragma omp reverse
for (int i = -2147483647 - 1; i < 2147483647; i += 2147483647) print(i);
#pragma omp reverse
for (long long i = 9223372036854775806; i <= 9223372036854775807; i++) print(i);
#pragma omp reverse
for (long long i = -9223372036854775807; i >= -9223372036854775807 - 1; i--) print(i);
#pragma omp reverse
for (long long i = 9223372036854775807; i >= 0; i -= 9223372036854775807) print(i);' \
    '2147483647 2147483646 2147483646 -1 -2147483648 9223372036854775807 9223372036854775806 -9223372036854775808 -9223372036854775807 0 9223372036854775807'
in_main items '#pragma omp reverse apply(reverse)
for (int i = 0; i < 3; i++) print(i);
#pragma omp reverse apply(reversed: reverse apply(reverse))
for (long long i = 20; i >= 0; i -= 7) print(i);
#pragma omp reverse apply(reversed(1): nothing)
for (int i = 0; i < 3; i++) print(i);' '0 1 2 6 13 20 2 1 0'
in_main stacks_with_items '#pragma omp reverse
{
#pragma omp reverse apply(reverse apply(reverse))
{ for (int i = 0; i < 4; i++) { if (i == 1) continue; print(i); } }
}
#pragma omp reverse apply(nothing)
#pragma omp reverse apply(reversed: reverse)
#pragma omp reverse
for (long long i = 3; i != 0; i--) print(i);' '0 2 3 3 2 1'
in_main most_directives "$(printf '#pragma omp reverse\n%.0s' {1..18})
for (int i = 0; i < 5; i++) print(i);" '0 1 2 3 4'
in_main variables_outside 'int i = 9, j = 8;
long long n = 4;
#pragma omp reverse
for (i = 0; i < 3; i++) print(i);
print(i);
while (n > 2) {
#pragma omp reverse apply(reversed: reverse)
for (i = 1; i <= n; i += 2) {
#pragma omp reverse
for (j = i; j > i - 2; j--) print(10 * i + j);
}
n--;
}
print(i + j);' '2 1 0 9 10 11 32 33 10 11 32 33 17'
in_main nested '#pragma omp reverse
for (int i = 0; i < 2; i++) {
    if (i) {
#pragma omp reverse
        for (int j = 0; j < 3; j++) { if (j == 1) continue; print(10 * i + j); }
    } else
        for (int j = 0; j < 2; j++) print(j);
}' '12 10 0 1'
compare names_like_fresh_ones 'void print(long long);
int omp_t0 = 2, omp_t5[2];
static void omp_t4(int omp_t1) {
#pragma omp reverse
for (int omp_t3 = 0; omp_t3 < omp_t0; omp_t3++) { long long omp_t2 = omp_t1; omp_t5[omp_t3] += 1; print(omp_t2 + omp_t3); }
}
int main(void) { omp_t4(10); omp_t4(20); print(omp_t5[1]); }' '11 10 21 20 2'

echo "compiled_output: $passed passed, $failed failed"
[ "$failed" = 0 ]
