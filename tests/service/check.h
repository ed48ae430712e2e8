/* Checks of the C client. Each that fails tells its line. A program of tests runs the one that its first word names. */
#include "pashkure_remote.h"

#include <stdio.h>
#include <string.h>

static int failed;

static void check_at(bool is_right, const char *file, int line, const char *text)
{
    if (is_right)
        return;
    failed++;
    fprintf(stderr, "%s:%d: FAILED: %s\n", file, line, text);
}

static void gives_at(pashkure_remote_result wanted, pashkure_remote_result got, const char *file, int line, const char *text)
{
    check_at(wanted == got, file, line, text);
    if (wanted != got)
        fprintf(stderr, "  wanted '%s', got '%s'\n", pashkure_remote_message(wanted), pashkure_remote_message(got));
}

#define IS(name) PASHKURE_REMOTE_##name
#define CHECK(condition) check_at(condition, __FILE__, __LINE__, #condition)
#define GIVES(wanted, call) gives_at(IS(wanted), call, __FILE__, __LINE__, #call)

/* A transaction of the first opening of a connection. */
#define KEY(slot, generation) ((pashkure_remote_transaction){slot, generation, 1})
#define NOBODY ((pashkure_remote_transaction){0, 0, 0})

static bool same(pashkure_remote_transaction some, pashkure_remote_transaction other)
{
    return some.slot == other.slot && some.generation == other.generation && some.opening == other.opening;
}

struct test {
    const char *name;
    void (*run)(void);
};

#define TEST(name)                                                                                                                                   \
    {                                                                                                                                                \
#name, test_##name                                                                                                                           \
    }

/* Runs the test of this name. The status of the program. */
static int tested(const struct test *tests, size_t count, const char *name)
{
    for (; count > 0 && strcmp(tests->name, name) != 0; count--)
        tests++;
    if (count > 0)
        tests->run();
    else
        fprintf(stderr, "no test %s\n", name);
    return count > 0 ? failed > 0 : 2;
}
