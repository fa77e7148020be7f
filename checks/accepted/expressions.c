void print(long long);
int a[4], b[4][4];
int main(void)
{
    int x = 1, y = 2, z = 3;
    print(- -x); print(-+x); print(+-x); print(!-x); print(!!x); print(-(-x));
    print((int)-x); print((long long)(x)); print((int)(long long)x + 1); print(-(int)x);
    print(x - (y - z)); print(x - y - z); print((x - y) - z); print(x * (y + z)); print((x * y) + z);
    print(x / (y * z)); print(x / y * z); print(x % y % z); print(x % (y % z));
    print((x < y) < z); print(x < (y < z)); print(x == y != z); print((x == y) == z); print(x == (y == z));
    print(x && y || z); print(x && (y || z)); print((x || y) && z); print(x || y && z);
    print(x ? y : z); print((x ? y : z) ? x : y); print(x ? y ? 1 : 2 : z ? 3 : 4);
    print(a[x]); print(a[a[x] + 1]); print(b[x][y]); print((a[x])); print(((x)));
    print(2147483647); print(2147483648); print(0x7F); print(017); print(1LL); print(0); print(9223372036854775807);
    print(-2147483647 - 1);
}
