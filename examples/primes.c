/* The sieve of Eratosthenes: asks for a bound, and prints how many primes are below it and the greatest of them. */
#define MOST 10000
extern void print(long long);
extern long long input(void);

int crossed[MOST];

int main(void)
{
    int bound = input();
    int count = 0, last = 0;
    for (int i = 2; i < bound; i++) {
        if (crossed[i])
            continue;
        count++;
        last = i;
        for (int k = 2 * i; k < bound; k += i)
            crossed[k] = 1;
    }
    print(count);
    print(last);
}
