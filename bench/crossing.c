/* Locks and unlocks names, from C over pashkure.h or in Rattle, in the loop of mm_bench_lock_names of crates/bench_table: `crossing c|rattle NAMES
   LENGTH COUNT`, where NAMES is a power of two. It prints how often a name was granted. `instructions` counts what a turn of the loop takes. */
#include <pashkure.h>
#include <stdint.h>
#include <stdio.h>
#include <stdlib.h>
#include <string.h>

uint64_t mm_bench_lock_names(uint32_t names, uint32_t length, uint64_t count);

static uint32_t next_number(uint32_t number)
{
    number ^= number << 13;
    number ^= number >> 17;
    return number ^ number << 5;
}

static void write_name(char bytes[64], uint32_t number)
{
    uint64_t word = number * UINT64_C(0x9e3779b97f4a7c15);
    memcpy(bytes + 56, &word, sizeof word);
}

static void must(int is_so)
{
    if (!is_so)
        exit(1);
}

static uint64_t lock_names(uint32_t names, uint32_t length, uint64_t count)
{
    pashkure locks = PASHKURE_CLOSED;
    pashkure_config config = {PASHKURE_VERSION, 2, names, length, UINT64_C(0x0123456789abcdef), 0};
    pashkure_key owner, key;
    char bytes[64];
    const char *name = bytes + 64 - length;
    uint32_t number = 1;
    uint64_t granted = 0;
    memset(bytes, 'a', sizeof bytes);
    must(pashkure_open(&locks, &config) == PASHKURE_OK && pashkure_begin(&locks, &owner) == PASHKURE_OK
         && pashkure_begin(&locks, &key) == PASHKURE_OK);
    for (uint32_t even = 0; even < names; even += 2) {
        write_name(bytes, even);
        must(pashkure_lock(&locks, owner, name, length) == PASHKURE_OK);
    }
    while (count-- > 0) {
        number = next_number(number);
        write_name(bytes, (number & (names - 1)) | 1);
        if (pashkure_lock(&locks, key, name, length) == PASHKURE_OK && pashkure_unlock(&locks, key, name, length) == PASHKURE_OK)
            granted++;
    }
    pashkure_close(&locks);
    return granted;
}

int main(int count, char **words)
{
    if (count != 5)
        return 2;
    uint32_t names = (uint32_t)atoi(words[2]), length = (uint32_t)atoi(words[3]);
    uint64_t (*loop)(uint32_t, uint32_t, uint64_t) = strcmp(words[1], "c") == 0 ? lock_names : mm_bench_lock_names;
    printf("%llu\n", (unsigned long long)loop(names, length, (uint64_t)atoll(words[4])));
    return 0;
}
