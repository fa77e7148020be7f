void print(long long);
int main(void) {
#pragma omp reverse
for (int i = 0; i < 5; i++) print(i);
}
//--
#define N 4
void print(long long);
long long a[N][N];
static void fill(int from, long long by) {
    #pragma omp reverse
    for (int i = from; i < N; ++i)
        #pragma omp reverse
        { {
        #pragma omp reverse
        for (int j = N - 1; j >= 0; j -= 1) { if (i == j) continue; a[i][j] = by * i + j; }
        } }
}
int main(void) {
    fill(0, 10);
    for (int i = 0; i < N; i++) {
        if (i % 2) {
#pragma omp reverse
            for (long long k = 0; N > k; k = k + 1) print(a[i][k]);
        } else
#pragma omp reverse
            for (long long k = N; k != 0; --k) print(a[i][k - 1]);
    }
}
//--
extern long long input(void);
extern void print(long long);
int omp_t0, omp_t4 = 4;
static void omp_t10(int omp_t1) { omp_t0 += omp_t1; }
int main(void) {
    int omp_t2 = input();
    while (omp_t2 > 0) {
        int omp_t3 = omp_t2;
#pragma omp reverse
#pragma omp reverse
#pragma omp reverse
        for (int omp_t9 = omp_t3; omp_t9 <= omp_t4; omp_t9 += 3) { omp_t10(omp_t9); do { omp_t2--; if (omp_t2 == 1) break; } while (omp_t2 > 2); }
        print(omp_t0);
    }
}
