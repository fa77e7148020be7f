void print(long long);
int main(void) {
int x = 1; print(x);
}
//--
void print(long long);
int main(void) {
int x = x;
}
//--
void print(long long);
int main(void) {
int x = x + 1, y = x;
}
//--
void print(long long);
int main(void) {
int y = 1, x = y;
}
//--
void print(long long);
int main(void) { print(1); }
//--
extern void print(long long value);
void print(long long);
static void f(void) { print(1); }
int main(void) {}
//--
long long input(void);
int main(void) { int x; x = input(); }
//--
long long input(void);
int main(void) { int x = input(); }
//--
int a;
static void f(int a) {}
int main(void) { a = 1; }
//--
int b;
static void f(void) { int b; }
static void g(void) { b = 1; }
int main(void) {}
//--
int x;
static void f(void) { x = 1; }
int main(void) { int x; }
//--
void print(long long);
int main(void) {
int x;
{ int x; }
x = 1;
}
//--
void print(long long);
int main(void) {
int i;
for (i = 0; i < 2; i++) print(i);
print(i);
}
//--
void print(long long);
int main(void) {
int x = 0;
do { int x = 1; } while (x);
}
//--
void print(long long);
int main(void) {
int k = 0;
for (int i = 0; i < 2; k++) { int k; i = 3; }
}
//--
void print(long long);
int main(void) {
if (1) { int x; } else { int x; x = 1; }
}
//--
void print(long long);
static void f(int x) { print(x); }
int main(void) {
f(1);
}
//--
static void f(void) { }
static void g(void) { f(); }
int main(void) {}
//--
static void g(void) { }
static void f(void) { g(); }
int main(void) {}
//--
#define N 3
int a[N];
int main(void) {}
//--
int a[2];
int main(void) { int i = 0; a[i] = 1; }
//--
void print(long long);
static void f(int x) { print(x); }
int main(void) {
int y = 1; f(y);
}
//--
void print(long long);
int main(void) {
int x; { int x; }
}
//--
void print(long long);
int main(void) {
int x; int y;
}
//--
void print(long long);
int main(void) {
int x, y;
}
//--
void print(long long);
int main(void) {
int x; { long long x; }
}
//--
void print(long long);
int main(void) {
for (int i = 0; i < 2; i++) { int i = 1; print(i); }
}
//--
void print(long long);
int main(void) {
int i; for (int i = 0; i < 2; i++) print(i);
}
//--
static void f(int a) { { int a; } }
int main(void) {}
//--
static void f(int a) { for (int a = 0; a < 2; a++) ; }
int main(void) {}
//--
static void f(int a, long long b) {}
static void g(int a) {}
int main(void) {}
//--
int x;
static void f(int x) {}
int main(void) { int x; }
//--
int f;
static void g(int f) {}
int main(void) {}
//--
static void f(void) {}
int main(void) { int f; f = 1; }
//--
static void f(int f) {}
static void g(void) { int g; g = 1; }
int main(void) {}
//--
#define N 1
#define M 1
int main(void) {}
//--
#define N 1
int M;
int main(void) {}
//--
int M;
#define N 1
int main(void) {}
//--
#define N 3
void print(long long);
long long input(void);
int main(void) {
int M;
}
//--
#define N 3
void print(long long);
long long input(void);
int main(void) {
{ { int M; } }
}
//--
#define N 3
void print(long long);
long long input(void);
int main(void) {
for (int M = 0; ; ) break;
}
//--
#define N 1
static void f(int M) {}
int main(void) {}
//--
#define N 1
static void M(void) {}
int main(void) {}
//--
static void M(void) {}
#define N 1
int main(void) {}
//--
static void f(void) { int M; }
#define N 1
int main(void) {}
//--
static void f(void) { while (0) { int M; } }
#define N 1
int main(void) {}
//--
static void f(void) { for (int M = 0; ; ) break; }
#define N 1
int main(void) {}
//--
static void f(int M) {}
#define N 1
int main(void) {}
//--
int x[1];
int main(void) { x[0] = 1; }
//--
int a[2];
int main(void) { a[1] = 1; }
//--
int a[2][3];
int main(void) { a[1][2] = 1; }
//--
int a[2][3][1];
int main(void) { a[1][2][0] = 1; }
//--
#define N 3
void print(long long);
long long input(void);
int main(void) {
print(N);
}
//--
int a[2];
int b[2];
int main(void) { a[b[0]] = 1; }
//--
int a[1];
int main(void) {}
//--
int a[2];
int main(void) { { int a; a = 1; } a[0] = 1; }
//--
long long input(void);
int a[2];
int main(void) { a[0] = input(); }
//--
#define N 3
void print(long long);
long long input(void);
int main(void) {
int M; M = N;
}
//--
#define N 3
void print(long long);
long long input(void);
int main(void) {
int M = 1; M += N;
}
//--
#define N 3
void print(long long);
long long input(void);
int main(void) {
int M = 1; M++;
}
//--
#define N 3
void print(long long);
long long input(void);
int main(void) {
int M; M = input();
}
//--
#define N 3
void print(long long);
long long input(void);
int main(void) {
int M; for (M = 0; ; ) break;
}
//--
int a[-(-1)];
int main(void) {}
//--
int a[16777216];
int main(void) {}
//--
#define n 3
int a[n];
int main(void) {}
//--
int a[2147483647 - 2147483646];
int main(void) {}
//--
int a[1 / 1];
int main(void) {}
//--
int a[2][1];
int main(void) {}
//--
int a[(1)];
int main(void) {}
//--
int a[1][1][1][1][1][1][1][1];
int main(void) {}
//--
void print(long long);
int main(void) {
while (0) break;
}
//--
void print(long long);
int main(void) {
do break; while (0);
}
//--
void print(long long);
int main(void) {
for (;0;) break;
}
//--
void print(long long);
int main(void) {
while (0) if (1) { break; }
}
//--
void print(long long);
int main(void) {
while (0) { while (0) break; break; }
}
//--
static void f(void) { while (0) break; }
int main(void) { while (0) f(); }
//--
void print(long long);
int main(void) {
while (0) continue;
}
//--
void print(long long);
int main(void) {
do continue; while (0);
}
//--
void print(long long);
int main(void) {
for (;0;) continue;
}
//--
void print(long long);
int main(void) {
while (0) if (1) { continue; }
}
//--
void print(long long);
int main(void) {
while (0) { while (0) continue; continue; }
}
//--
static void f(void) { while (0) continue; }
int main(void) { while (0) f(); }
//--
int a[16777216];
int b;
int main(void) {}
//--
int a[16777215];
int b[1];
int main(void) {}
//--
int a[4096][4096];
int main(void) {}
//--
int a[8][8][8][8][8][8][8][8];
int main(void) {}
//--
int a[16777216][1][1][1];
int main(void) {}
//--
int a[8388608], b[8388607], c[1];
int main(void) {}
//--
long long a[8388608];
int b[8388608];
int main(void) {}
//--
#define n 3
int s = n;
int main(void) {}
//--
void print(long long);
int main(void) {
int s = s;
}
//--
int s = 2147483647;
int main(void) {}
//--
long long s = 2147483648;
int main(void) {}
//--
int s = -2147483648;
int main(void) {}
//--
long long s = 9223372036854775807LL - 1;
int main(void) {}
//--
int s = 1 % 1;
int main(void) {}
//--
int s = (2147483647);
int main(void) {}
//--
void print(long long);
static void f(int x) { print(x); }
int main(void) {
int f = 1; print(f);
}
//--
void print(long long);
static void f(int x) { print(x); }
int main(void) {
int f; f = 1;
}
//--
int f[1];
int main(void) { f[0] = 1; }
//--
void print(long long);
static void f(int x) { print(x); }
int main(void) {
int f = 1; f++;
}
//--
void print(long long);
static void f(int x) { print(x); }
int main(void) {
{ int f; } f(1);
}
//--
static void N(void) {}
int main(void) { N(); }
//--
int a[2];
int main(void) { a[0] = 1; }
//--
static void f(void) {}
static void g(int h) { f(); }
int main(void) {}
//--
void print(long long);
static void f(int x) { print(x); }
int main(void) {
f(1 + 2);
}
//--
static void g(void) {}
int main(void) { g(); }
//--
static void g(int a, int b) {}
int main(void) { g(1, 2); }
//--
static void f1(void) { }
static void f2(void) { f1(); }
static void f3(void) { f2(); }
static void f4(void) { f3(); }
static void f5(void) { f4(); }
static void f6(void) { f5(); }
static void f7(void) { f6(); }
static void f8(void) { f7(); }
static void f9(void) { f8(); }
static void f10(void) { f9(); }
static void f11(void) { f10(); }
static void f12(void) { f11(); }
static void f13(void) { f12(); }
static void f14(void) { f13(); }
static void f15(void) { f14(); }
static void f16(void) { f15(); }
int main(void) { f16(); }
//--
static void f1(void) { }
static void f2(void) { f1(); }
static void f3(void) { f2(); }
static void f4(void) { f3(); }
static void f5(void) { f4(); }
static void f6(void) { f5(); }
static void f7(void) { f6(); }
static void f8(void) { f7(); }
static void f9(void) { f8(); }
static void f10(void) { f9(); }
static void f11(void) { f10(); }
static void f12(void) { f11(); }
static void f13(void) { f12(); }
static void f14(void) { f13(); }
static void f15(void) { f14(); }
static void f16(void) { f15(); }
static void g(void) { f1(); f15(); }
int main(void) { g(); f16(); }
