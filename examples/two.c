/* Two transactions that ask for each other's name: the request that closes the cycle of waits is answered DEADLOCK at once. */
#include <pashkure.h>
#include <stdio.h>

int main(void)
{
    pashkure locks = PASHKURE_CLOSED;
    pashkure_config config = PASHKURE_CONFIG;
    pashkure_key one, two;
    if (pashkure_open(&locks, &config) || pashkure_begin(&locks, &one) || pashkure_begin(&locks, &two))
        return 1;
    puts(pashkure_message(pashkure_lock(&locks, one, "a", 1)));
    puts(pashkure_message(pashkure_lock(&locks, two, "b", 1)));
    puts(pashkure_message(pashkure_lock(&locks, two, "a", 1)));
    puts(pashkure_message(pashkure_lock(&locks, one, "b", 1)));
    pashkure_close(&locks);
    return 0;
}
