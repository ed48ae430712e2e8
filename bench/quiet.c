/* For `quiet`: how many steps of two loops a processor makes in a nanosecond. Prints one line: the additions of a chain, and the jumps. */
#include <stdio.h>
#include <time.h>

#define STEPS 4000000
#define ROUNDS 25
#define ADD "add $1, %0\n\t"

static double now(void)
{
    struct timespec time;
    clock_gettime(CLOCK_MONOTONIC, &time);
    return time.tv_sec * 1e9 + time.tv_nsec;
}

/* Each addition waits for the one before. There is a jump for each sixteen of them. */
static double additions(void)
{
    unsigned long sum = 0;
    double begin = now();
    for (int i = 0; i < STEPS / 16; i++)
        __asm__ volatile(ADD ADD ADD ADD ADD ADD ADD ADD ADD ADD ADD ADD ADD ADD ADD ADD : "+r"(sum));
    return STEPS / (now() - begin);
}

/* The same additions, with a jump for each. */
static double jumps(void)
{
    unsigned long sum = 0;
    double begin = now();
    for (int i = 0; i < STEPS; i++)
        __asm__ volatile(ADD : "+r"(sum));
    return STEPS / (now() - begin);
}

int main(void)
{
    double added = 0, jumped = 0;
    for (int i = 0; i < ROUNDS; i++) {
        added += additions() / ROUNDS;
        jumped += jumps() / ROUNDS;
    }
    printf("%.2f %.2f\n", added, jumped);
}
