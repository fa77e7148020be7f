#define N 3
int main(void) {
    return 0;
}
//--
#define N -3
int main(void) {
    return 0;
}
//--
#define N ( - 0x10 ) // sixteen
int main(void) {
    return 0;
}
//--
#define N 2147483648
int main(void) {
    return 0;
}
//--
#define \
  N \
  017LL
int main(void) {
    return 0;
}
//--
void print(long long);
int main(void) {
    return 0;
}
//--
extern void print(long long int value);
int main(void) {
    return 0;
}
//--
long long input();
int main(void) {
    return 0;
}
//--
extern long long int input(void);
int main(void) {
    return 0;
}
//--
int a[2][1+2], x, y = -1;
int main(void) {
    return 0;
}
//--
long long int x = 5ll;
int main(void) {
    return 0;
}
//--
static void f() {}
int main(void) {
    return 0;
}
//--
static void f(void) {;}
int main(void) {
    return 0;
}
//--
static void f(int a, long long int b) { a = b; }
int main(void) {
    return 0;
}
//--
static void f(int a) { if (a) { a--; } }
static void g(void) { f(1); }
int main(void) {
    return 0;
}
//--
/* nothing */
int main(void) {
    return 0;
}
//--
void print(long long);
long long input(void);
int a[4], b[4][4];
static void f(void) {}
static void g(int p, long long q) {}
int main() {
int x = 1, y = 2, z = 3;
{ ; }
{ int u; long long int v=1; }
{ int u = 1, v = input(), w; }
{ x=y; }
{ a[x]=b[y][z]; }
{ x+=1;x-=1;x*=1;x/=1;x%=1; }
{ x++; ++x; x--; --x; }
{ ++a[1]; b[1][2] --; }
{ x = input ( ) ; a[1] = input(); }
{ print((x)); }
{ f(); f ( ) ; g(1,(x)); }
{ if(x); }
{ if (x) {} else {} }
{ if (x) f(); else if (y) f(); }
{ if (x) if (y) f(); else x = 1; }
{ if (x) { if (y) f(); } else x = 1; }
{ if (x) while (y) if (z) f(); else x = 1; }
{ while (x<3) x++; }
{ while (0) {} }
{ while (0) { break; continue; } }
{ do x--; while(x>0); }
{ do {} while (0); }
{ do while (0) ; while (0); }
{ for (;;) break; }
{ for (x=0;;) break; }
{ for (;x;) break; }
{ for (;;x++) break; }
{ for (;x;x=1) {} }
{ for (x=0;;--x) break; }
{ for (x=0;x<3;) x++; }
{ for (int i=0;i<3;++i) ; }
{ for (long long int i=0;i<3;i+=2) ; }
{ for (x++;;) break; }
{ for (a[1]=0;a[1];a[1]-=1) ; }
{ for (x=0;x<2;x++) for (y=0;y<2;y++) f(); }
{ {} }
{ { int x; { x = 1; } } }
{ {{;}} }
{ /* a */ x = 1; // b
}
return 0;
}
//--
void print(long long);
long long input(void);
int a[4], b[4][4];
static void f(void) {}
static void g(int p, long long q) {}
int main() {
int x = 1, y = 2, z = 3;
print(0);
print(007);
print(0XfF);
print(2147483647);
print(2147483648);
print(5ll);
print(9223372036854775807);
print((((x))));
print(a [ (x) ]);
print(b[x+1][a[y]]);
print((b[1][2]));
print(- -x);
print(-(-x));
print(- +x);
print(+ -x);
print(+(+x));
print(- - -x);
print(-!x);
print(!-x);
print(!!x);
print(!(x+y));
print(-(x*y));
print(-x*y);
print(-(int)-x);
print((int)(x));
print((long long int)(int)x);
print((int)(x+y));
print((int)x+y);
print((x)-(y));
print(x- -y);
print((x-y)-z);
print(x-(y-z));
print(x+(y*z));
print((x+y)*z);
print(x*(y*z));
print(x/y*z%x);
print(x/(y*z));
print((x<y)<z);
print(x<=(y>=z));
print((x==y)!=z);
print(x==(y>z));
print((x==y)>z);
print(x&&y||z);
print(x&&(y||z));
print(x||(y||z));
print(x?y:z);
print((x?y:z)?x:y);
print(x?(y?1:2):(z?3:4));
print(x+(y?1:2));
}
