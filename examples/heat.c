/* Heat in a bar whose ends are kept cold: a stencil with two copies of the bar. */
#define CELLS 100
#define STEPS 200
extern void print(long long);

long long now[CELLS], next[CELLS];

static void step(void)
{
    for (int i = 1; i < CELLS - 1; i++)
        next[i] = (now[i - 1] + 2 * now[i] + now[i + 1]) / 4;
    for (int i = 1; i < CELLS - 1; i++)
        now[i] = next[i];
}

int main(void)
{
    now[CELLS / 2] = 1000000000;
    for (int t = 0; t < STEPS; t++)
        step();
    for (int i = 0; i < CELLS; i += 10)
        print(now[i]);
}
