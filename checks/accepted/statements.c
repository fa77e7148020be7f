#define N 3
#define M (-1)
extern void print(long long value);
extern long long input(void);
int a[N][4], flag, sum = 2;
long long total = -5LL;

static void nothing(void)
{
}

static void add(int x, long long y)
{
    sum += x;
    total -= y;
}

int main()
{
    int i = 0, j = input(), k = M;
    long long int wide = (long long)i * 2 + 1;
    ;
    a[i][1] = j;
    a[i][1] += 2; a[i][1] -= 2; a[i][1] *= 2; a[i][1] /= 2; a[i][1] %= 2;
    i++; ++i; i--; --i;
    k = input();
    a[i][2] = input();
    print(a[i][1]);
    nothing();
    add(1, wide);
    if (i) print(1);
    if (i) print(1); else print(2);
    if (i) if (j) print(1); else print(2);
    if (i) { if (j) print(1); } else print(2);
    while (i < 3) { i++; if (i == 2) continue; if (i > 5) break; }
    do i--; while (i > 0);
    for (;;) break;
    for (int p = 0; p < 4; p++) print(p);
    for (i = 0; i < 4; i += 1) for (j = 4; j > 0; --j) ;
    for (i = 4; ; i--) if (!i) break;
    { int i = 5; { long long i = 6; print(i); } print(i); }
    return 0;
}
