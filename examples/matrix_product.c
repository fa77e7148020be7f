/* The product of two matrices, and its first and last element. */
#define N 64
extern void print(long long);

int a[N][N], b[N][N], c[N][N];

int main(void)
{
    int i, j, k;
    for (i = 0; i < N; i++)
        for (j = 0; j < N; j++) {
            a[i][j] = i + j;
            b[i][j] = i - j;
        }
    for (i = 0; i < N; i++)
        for (j = 0; j < N; j++)
            for (k = 0; k < N; k++)
                c[i][j] += a[i][k] * b[k][j];
    print(c[0][0]);
    print(c[N - 1][N - 1]);
    return 0;
}
