/* What the programs of bench/bulk share. `PROGRAM NAMES LENGTH TRANSACTIONS ROUNDS` locks so many names of so many bytes by one thread: each of the
   transactions locks as many of them as the others, in one order, all are owned at one time, and then each commits. It prints, of the best round, the
   nanoseconds a name of all locks and of all commits, then the bytes a name by which the program has grown while all were owned, and the
   milliseconds of the opening. Times are those of the thread's processor. */
#include <stdint.h>
#include <stdio.h>
#include <stdlib.h>
#include <string.h>
#include <time.h>
#include <unistd.h>

static size_t names, length, transactions;

/* What each program defines. */
static void opens(void);
static void begins(size_t transaction);
static void locks(size_t transaction, const char *name);
static void commits(size_t transaction);

static void must(int is_well, const char *what)
{
    if (!is_well) {
        fprintf(stderr, "%s\n", what);
        exit(1);
    }
}

static double now(void)
{
    struct timespec time;
    clock_gettime(CLOCK_THREAD_CPUTIME_ID, &time);
    return time.tv_sec * 1e9 + time.tv_nsec;
}

/* The bytes of the program that are in memory. */
static double resident(void)
{
    long all, here = 0;
    FILE *file = fopen("/proc/self/statm", "r");
    must(file && fscanf(file, "%ld %ld", &all, &here) == 2, "/proc/self/statm cannot be read");
    fclose(file);
    return (double)here * sysconf(_SC_PAGESIZE);
}

/* Names without order: 16 digits of a mixed number, and then one letter as often as it takes. */
static char *all_names(void)
{
    char digits[17], *bytes = (char *)malloc(names * length);
    must(bytes && length >= 16, "no memory for the names, or names below 16 bytes");
    for (size_t i = 0; i < names; i++) {
        uint64_t x = (i + 1) * UINT64_C(0x9e3779b97f4a7c15);
        x = (x ^ x >> 30) * UINT64_C(0xbf58476d1ce4e5b9);
        x = (x ^ x >> 27) * UINT64_C(0x94d049bb133111eb);
        snprintf(digits, sizeof digits, "%016llx", (unsigned long long)(x ^ x >> 31));
        memset(bytes + i * length, 'k', length);
        memcpy(bytes + i * length, digits, 16);
    }
    return bytes;
}

int main(int count, char **words)
{
    must(count == 5, "usage: PROGRAM NAMES LENGTH TRANSACTIONS ROUNDS");
    names = strtoull(words[1], NULL, 10), length = strtoull(words[2], NULL, 10), transactions = strtoull(words[3], NULL, 10);
    char *bytes = all_names();
    double before = resident(), at = now(), lock = 1e18, commit = 1e18, grown = 0;
    opens();
    double opening = now() - at;
    for (long round = strtol(words[4], NULL, 10); round > 0; round--) {
        for (size_t t = 0; t < transactions; t++)
            begins(t);
        at = now();
        for (size_t i = 0; i < names; i++)
            locks(i * transactions / names, bytes + i * length);
        double locked = now() - at;
        grown = resident() - before;
        at = now();
        for (size_t t = 0; t < transactions; t++)
            commits(t);
        double committed = now() - at;
        lock = locked < lock ? locked : lock;
        commit = committed < commit ? committed : commit;
    }
    printf("%.1f %.1f %.1f %.1f\n", lock / names, commit / names, grown / names, opening / 1e6);
    return 0;
}
