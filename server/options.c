#define _GNU_SOURCE
#include "options.h"

#include <errno.h>
#include <grp.h>
#include <stddef.h>
#include <stdio.h>
#include <stdlib.h>
#include <string.h>

static const char usage[] = "usage: pashkure-serve --socket PATH [OPTION..]\n"
                            "\n"
                            "Starts one lock service and passes the lines of many clients to it.\n"
                            "\n"
                            "  --socket PATH       the file of the clients' socket, which is removed at the end\n"
                            "  --mode MODE         its rights, in digits (600 if missing)\n"
                            "  --group GROUP       its group, by name or number\n"
                            "  --admin PATH        the file of the operator's socket, of mode 600\n"
                            "  --program PATH      the program mmdetect (that on the PATH if missing)\n"
                            "  --transactions N    how many transactions can be live at once\n"
                            "  --names N           how many names can be owned at once\n"
                            "  --name-bytes N      how many bytes a name may have\n"
                            "  --names-each N      how many names a transaction may own (as many as there are if missing)\n"
                            "  --each N            how many transactions a client can have at once\n"
                            "  --connections N     how many clients can be connected at once (16384 if missing)\n"
                            "  --unread BYTES      what a client may leave unread before it is hung up\n"
                            "  --unread-total N    bytes that all may leave unread before the one with most is hung up\n"
                            "                      (268435456 if missing)\n"
                            "  --turn N            how many lines it takes of a client in its turn (1 if missing)\n"
                            "  --epoch E           the epoch of fences; without it one that rises at each start\n"
                            "  --epoch-file PATH   the file of the last epoch (the socket's path and .epoch if missing)\n"
                            "  --heartbeat-fd N    a descriptor on which lines come, each the time in milliseconds from\n"
                            "                      which it counts (CLOCK_BOOTTIME); the server starts with the first\n"
                            "  --heartbeat-ms N    it stops when the last one is this old\n"
                            "  --quiet             no lines for start, end and deadlocks on standard error\n"
                            "  --version           prints the version\n";

struct text_option {
    const char *name;
    size_t place;
};

static const struct text_option texts[] = {
    {"socket", offsetof(struct options, socket)},
    {"admin", offsetof(struct options, admin)},
    {"program", offsetof(struct options, program)},
    {"group", offsetof(struct options, group)},
    {"epoch-file", offsetof(struct options, epoch_file)},
    {"mode", offsetof(struct options, mode_text)},
};

struct number_option {
    const char *name;
    size_t place;
    uint64_t least, greatest;
};

static const struct number_option numbers[] = {
    {"transactions", offsetof(struct options, transactions), 1, 65536},
    {"names", offsetof(struct options, names), 1, 16777216},
    {"name-bytes", offsetof(struct options, name_bytes), 1, 1024},
    {"names-each", offsetof(struct options, names_each), 0, 16777216},
    {"each", offsetof(struct options, each), 1, 65536},
    {"connections", offsetof(struct options, connections), 1, 65535},
    {"epoch", offsetof(struct options, epoch), 1, INT64_MAX},
    {"unread", offsetof(struct options, unread), 1, INT64_MAX},
    {"unread-total", offsetof(struct options, unread_total), 1, INT64_MAX},
    {"turn", offsetof(struct options, turn), 1, 64},
    {"heartbeat-fd", offsetof(struct options, heartbeat_fd), 0, INT32_MAX},
    {"heartbeat-ms", offsetof(struct options, heartbeat_ms), 1, INT32_MAX},
};

#define COUNT(table) (sizeof(table) / sizeof *(table))

/* Says why the words are wrong. */
static bool is_wrong(const char *word, const char *why)
{
    fprintf(stderr, "pashkure: %s: %s\n", word, why);
    return false;
}

bool options_is_given(const struct options *options, const uint64_t *field)
{
    size_t place = (size_t)((const char *)field - (const char *)options);
    for (size_t number = 0; number < COUNT(numbers); number++)
        if (numbers[number].place == place)
            return options->given >> number & 1;
    return false;
}

/* Reads a number of digits alone. */
static bool number_of(const char *text, int base, uint64_t greatest, uint64_t *value)
{
    char *end;
    if (*text < '0' || *text > '9')
        return false;
    errno = 0;
    *value = strtoull(text, &end, base);
    return errno == 0 && *end == '\0' && *value <= greatest;
}

/* Takes an option that has a value. */
static bool takes_value(struct options *options, const char *name, const char *value)
{
    for (size_t place = 0; place < COUNT(texts); place++)
        if (strcmp(name, texts[place].name) == 0) {
            *(const char **)((char *)options + texts[place].place) = value;
            return true;
        }
    for (size_t place = 0; place < COUNT(numbers); place++)
        if (strcmp(name, numbers[place].name) == 0) {
            uint64_t *field = (uint64_t *)((char *)options + numbers[place].place);
            options->given |= (uint64_t)1 << place;
            return (number_of(value, 10, numbers[place].greatest, field) && *field >= numbers[place].least)
                   || is_wrong(value, "a number out of range");
        }
    return is_wrong(name, "no option");
}

/* Finds the group of the socket. */
static bool finds_group(struct options *options)
{
    uint64_t number;
    options->group_id = (gid_t)-1;
    if (options->group == NULL)
        return true;
    const struct group *group = getgrnam(options->group);
    if (group != NULL)
        options->group_id = group->gr_gid;
    else if (number_of(options->group, 10, UINT32_MAX - 1, &number))
        options->group_id = (gid_t)number;
    else
        return is_wrong(options->group, "no group");
    return true;
}

/* Looks at what the words say together. */
static bool fits_together(struct options *options)
{
    uint64_t mode = 0600;
    if (options->socket == NULL || *options->socket == '\0')
        return is_wrong("--socket", "a path is needed");
    if (options->admin != NULL && strcmp(options->admin, options->socket) == 0)
        return is_wrong(options->admin, "both sockets have this path");
    if (options->mode_text != NULL && !number_of(options->mode_text, 8, 0777, &mode))
        return is_wrong(options->mode_text, "no rights of a file");
    if (IS_GIVEN(options, heartbeat_fd) != IS_GIVEN(options, heartbeat_ms))
        return is_wrong("--heartbeat-fd", "it goes with --heartbeat-ms");
    options->mode = (mode_t)mode;
    return finds_group(options);
}

/* Reads each word. */
static bool reads_words(struct options *options, int count, char **words)
{
    for (int place = 1; place < count; place++) {
        char *word = words[place], *equals = strchr(word, '=');
        if (strncmp(word, "--", 2) != 0)
            return is_wrong(word, "no option");
        if (strcmp(word, "--quiet") == 0) {
            options->is_quiet = true;
            continue;
        }
        if (equals == NULL && place + 1 == count)
            return is_wrong(word, "it has no value");
        if (equals != NULL)
            *equals = '\0';
        if (!takes_value(options, word + 2, equals != NULL ? equals + 1 : words[++place]))
            return false;
    }
    return fits_together(options);
}

bool options_read(struct options *options, int count, char **words, int *status)
{
    *options = (struct options){.program = "mmdetect",
        .transactions = 65536,
        .names = 65536,
        .name_bytes = 64,
        .connections = 16384,
        .unread_total = (uint64_t)256 << 20,
        .turn = 1};
    for (int place = 1; place < count; place++)
        if (strcmp(words[place], "--help") == 0 || strcmp(words[place], "-h") == 0) {
            *status = fputs(usage, stdout) < 0 || fflush(stdout) != 0 ? 3 : 0;
            return false;
        } else if (strcmp(words[place], "--version") == 0) {
            *status = puts("pashkure-serve " PASHKURE_VERSION) < 0 || fflush(stdout) != 0 ? 3 : 0;
            return false;
        }
    *status = 2;
    return reads_words(options, count, words);
}
