/* Checks of the C library, of which one that fails ends the program. A program of tests runs the one that its first word names, or all. */
#include <stdio.h>
#include <stdlib.h>
#include <string.h>

#define CHECK(condition) ((condition) ? (void)0 : fails(#condition, __FILE__, __LINE__))
#define GIVES(call, wanted) gives(call, wanted, #call, __FILE__, __LINE__)
#define TEST(name) static void name(void)
#define ROW(name)                                                                                                                                    \
    {                                                                                                                                                \
#name, name                                                                                                                                  \
    }

struct test {
    const char *name;
    void (*run)(void);
};

static void fails(const char *what, const char *file, int line)
{
    fprintf(stderr, "%s:%d: %s\n", file, line, what);
    _Exit(1);
}

static void gives(pashkure_result told, pashkure_result wanted, const char *call, const char *file, int line)
{
    if (told == wanted)
        return;
    fprintf(stderr, "%s:%d: %s: %d (%s), and %d is wanted\n", file, line, call, told, pashkure_message(told), wanted);
    _Exit(1);
}

static int tested(const struct test *tests, size_t count, char **words)
{
    size_t ran = 0;
    for (size_t i = 0; i < count; i++) {
        if (words[1] != NULL && strcmp(words[1], tests[i].name) != 0)
            continue;
        tests[i].run();
        ran++;
    }
    CHECK(ran > 0);
    return 0;
}
