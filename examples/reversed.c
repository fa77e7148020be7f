/* Heat in a bar: of the two sweeps of a step the second goes backwards, over what the first touched last. */
#define CELLS 1000
#define STEPS 50
extern void print(long long);

long long now[CELLS], next[CELLS];

static void step(void)
{
    for (int i = 1; i < CELLS - 1; i++)
        next[i] = (now[i - 1] + 2 * now[i] + now[i + 1]) / 4;
#pragma omp reverse
    for (int i = 1; i < CELLS - 1; i++)
        now[i] = next[i];
}

int main(void)
{
    long long all = 0;
    now[CELLS / 2] = 1000000000;
    for (int t = 0; t < STEPS; t++)
        step();
#pragma omp reverse
    for (int i = CELLS; i > 0; i -= 2) {
        if (now[i - 1] == 0)
            continue;
        all += now[i - 1];
    }
    print(all);
    for (int i = CELLS / 2 - 20; i <= CELLS / 2 + 20; i += 10)
        print(now[i]);
}
