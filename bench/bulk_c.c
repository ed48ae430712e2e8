/* bench/bulk, by the C library of this repository. */
#include "bulk.h"
#include <pashkure.h>

static pashkure manager = PASHKURE_CLOSED;
static pashkure_key *keys;

static void opens(void)
{
    pashkure_config config = PASHKURE_CONFIG;
    config.transactions = transactions, config.names = names, config.name_bytes = length, config.seed = 77;
    must(pashkure_open(&manager, &config) == PASHKURE_OK, "pashkure_open");
    keys = (pashkure_key *)malloc(transactions * sizeof *keys);
}

static void begins(size_t transaction)
{
    must(pashkure_begin(&manager, &keys[transaction]) == PASHKURE_OK, "pashkure_begin");
}

static void locks(size_t transaction, const char *name)
{
    must(pashkure_lock(&manager, keys[transaction], name, length) == PASHKURE_OK, "pashkure_lock");
}

static void commits(size_t transaction)
{
    must(pashkure_commit(&manager, keys[transaction]) == PASHKURE_OK, "pashkure_commit");
}
