long long input(void);
void print(long long);
int a[2][3], z;
static void narrow(int x) { print(x); }
static void both(int x, long long y) { x += 1; print(x + y - 1); }
int main(void) {
int I = -2147483647 - 1;
long long L = -9223372036854775807LL - 1;
{ print(I / -1); }
{ print(I % -1); }
{ print(I / -1LL); print(I % -1LL); }
{ print(L / -1); }
{ print(L % -1); }
{ print(L / 1); print(L % 1); }
{ print(-7 / 3); print(-7 % 3); }
{ print(7 / -3); print(7 % -3); }
{ print(-7 / -3); print(-7 % -3); }
{ print(L / 10); print(L % 10); }
{ print(1 % z); }
{ print(L / (L - L)); }
{ print(-I); }
{ print(-(long long)I); }
{ print(-L); }
{ print(+I); print(+L); }
{ print(!I); print(!L); print(!0LL); print(!!L); }
{ print(-2147483648); }
{ print(I - 1); }
{ print(I - 1LL); }
{ print(I * -1); }
{ print(9223372036854775807 + 1); }
{ print(L - 1); }
{ print(4294967296 * 2147483648); }
{ print(-4294967296 * 2147483648); }
{ print(3037000499 * 3037000499); }
{ print(3037000500 * 3037000500); }
{ print(-1 < 2147483648); print(L < 9223372036854775807); print(I == -2147483648); }
{ print((1 ? 2147483647 : 0LL) + 1); print((1 < 2LL) + 2147483646); }
{ print((1 ? 2147483647 : 0) + 1); }
{ print((int)2147483647LL); print((int)-2147483648); }
{ print((int)2147483648); }
{ print((int)-2147483649); }
{ print((int)L); }
{ print((long long)I - 1); print((int)(long long)I); }
{ print((int)(2147483647 + 1)); }
{ int x = 2147483648; }
{ int x; x = -2147483649; }
{ int x = 2147483647; x += 1; }
{ int x = 2147483647; x += 1LL; }
{ int x = 2147483647; x += 1LL - 2; print(x); }
{ int x = 2; x -= 2147483650LL; print(x); }
{ int x = 1; x -= 2147483650LL; }
{ int x = 1073741824; x *= 2; }
{ long long x = 1073741824; x *= 2; print(x); }
{ int x = I; x /= -1; }
{ int x = I; x %= -1LL; print(x); }
{ int x = 7; x %= z; }
{ int x = 2147483647; x++; }
{ int x = I; --x; }
{ long long x = 2147483647; x++; print(x); }
{ long long x = 9223372036854775807; ++x; }
{ long long x = L; x--; }
{ narrow(1LL); narrow(2147483648); }
{ a[1][2] = 5; print(a[1][2]); print(a[0][0]); }
{ print(a[2][0]); }
{ print(a[1][3]); }
{ print(a[-1][0]); }
{ print(a[0][-1]); }
{ print(a[4294967296][0]); }
{ print(a[L][0]); }
{ a[2][0] = 1; }
{ a[0][3] += 1; }
{ a[2][0]++; }
{ a[1][1] = 4; a[1][1] *= 3; a[1][1]--; print(a[1][1]); }
{ print(a[2][1 / z]); }
{ print(a[1 / z][3]); }
{ a[0][3] = 1 / z; }
{ a[0][0] = 1 / z; }
{ int x; x += 1 / z; }
{ int x; x++; }
{ int x = x; }
{ int x; if (z) x = 1; print(x); }
{ for (int i = 0; i < 2; i++) { int x; if (i) print(x); x = i; print(x); } }
{ int x; print(1 || x); print(0 && x); print(1 ? 2 : x); }
{ int x; print(0 || x); }
{ print(1 / z + (2147483647 + 1)); }
{ print((2147483647 + 1) + 1 / z); }
{ both(1 / z, 2147483648); }
{ both(2147483648, 1 / z); }
{ int x = 1; { int x = 2; x++; print(x); } print(x); both(x, 5); print(x); }
{ for (int i = 0; i < 5; i++) { if (i % 2) continue; if (i > 3) break; print(i); } }
{ int i = 0; while (i < 5) { i++; if (i % 2) continue; print(i); } }
{ int i = 0; do { i++; if (i < 3) continue; print(i); } while (i < 4); }
{ for (int i = 0; i < 2; i++) for (int j = 0; j < 9; j++) { if (j == 1) break; print(10 * i + j); } }
{ for (int i = 0; i < 2; i++) { while (1) { break; } print(i); } }
{ int i = 7; for (i = 2; i > 0; i--) ; print(i); }
{ for (int i = 0; i < 2; i++) { int i = 5; print(i); } }
{ if (z) print(1); else if (!z) print(2); else print(3); }
{ print(1); }
{ for (int i = 0; i < 0; i++) print(1); print(2); }
{ for (int i = 0; i < 1; i++) print(1); }
{ for (;;) break; }
{ while (0) print(1); print(2); }
{ while (1) print(1); }
{ print(2); do print(1); while (0); }
{ while (1 / z) ; }
{ do print(1); while (0); }
{ do print(1); while (1); }
{ do print(1); while (1 / z); }
{ for (;;) break; print(2); }
{ for (int i = 0; i < 1; i++) for (int j = 0; j < 1; j++) print(i + j); }
{ for (int i = 0; i < 2; i++) print(i); }
{ for (int i = 0; i < 2; i++) while (i < 1) { print(i); i++; } print(3); }
{ int i = 0; while (i < 3) i++; print(i); }
{ int i = 0; do { i++; continue; } while (i < 4); print(i); }
{ print(3); while (1) ; }
{ for (int i = 0; i < 7; i++) ; print(7); }
{ for (int i = 0; i < 3; i++) print(i); }
{ int n; n = input(); }
{ int n = 1; if (z) n = input(); print(n); }
{ int n = input(), k = input(); }
{ int n = input(), k = input(); print(n - k); }
{ long long n = input(), k = input(); print(n); print(k); }
{ int n = input(), k = input(); print(n + k); }
{ print(1); int n = input(); }
{ a[0][0] = input(); }
{ a[0][3] = input(); }
{ a[1][2] = input(); print(a[1][2]); }
}
