/* What the client makes of replies: each is there before the request, at the other end of a pair of sockets, with nobody who answers. */
#define _POSIX_C_SOURCE 200809L

#include "check.h"

#include <errno.h>
#include <fcntl.h>
#include <pthread.h>
#include <sys/socket.h>
#include <unistd.h>

static pashkure_remote_connection here;
static int there;
static const pashkure_remote_transaction first = {0, 1, 1};

/* What the other end says. */
static void say(const char *text)
{
    while (*text != '\0') {
        ssize_t count = send(there, text, strlen(text), MSG_NOSIGNAL);
        if (count < 0 && errno != EINTR)
            break;
        text += count < 0 ? 0 : count;
    }
}

/* A new connection, whose other end has said this; with an end behind it or not. */
static void answered(const char *replies, bool is_end)
{
    int pair[2];
    pashkure_remote_close(&here);
    if (there >= 0)
        close(there);
    if (socketpair(AF_UNIX, SOCK_STREAM, 0, pair) != 0)
        return;
    here.socket = pair[0];
    here.is_open = true;
    here.opening = 1;
    there = pair[1];
    say(replies);
    if (is_end)
        shutdown(there, SHUT_WR);
}

static void replies(const char *text)
{
    answered(text, false);
}

/* What the client sent. */
static const char *all_sent(void)
{
    static char bytes[8192];
    size_t length = 0;
    ssize_t count;
    do {
        count = recv(there, bytes + length, sizeof bytes - 1 - length, MSG_DONTWAIT);
        length += count > 0 ? (size_t)count : 0;
    } while (count > 0 || (count < 0 && errno == EINTR));
    bytes[length] = '\0';
    return bytes;
}

static bool sent(const char *wanted)
{
    return strcmp(all_sent(), wanted) == 0;
}

/* What the other end reads, and what it says then. The last one has no request: it is said when all others are. */
struct turn {
    const char *request, *reply;
};

static pthread_t other_end;

static void *answer(void *argument)
{
    const struct turn *turn = argument;
    char line[256];
    for (; turn->reply != NULL; turn++) {
        size_t length = 0, wanted = turn->request == NULL ? 0 : strlen(turn->request);
        while (length < wanted) {
            ssize_t count = recv(there, line + length, wanted - length, 0);
            if (count > 0)
                length += (size_t)count;
            else if (count == 0 || errno != EINTR)
                break;
        }
        if (length < wanted || (wanted > 0 && memcmp(line, turn->request, wanted) != 0))
            break;
        say(turn->reply);
    }
    shutdown(there, SHUT_WR);
    return NULL;
}

/* Gives what a lock says in this many milliseconds over a new connection, whose other end takes these turns and then ends. */
static pashkure_remote_result after_turns(const struct turn *turns, unsigned milliseconds)
{
    pashkure_remote_result result;
    answered("", false);
    CHECK(pthread_create(&other_end, NULL, answer, (void *)turns) == 0);
    result = pashkure_remote_lock_for(&here, first, "a", milliseconds);
    pthread_join(other_end, NULL);
    return result;
}

/* The requests of a transaction, and their replies. */
static const struct {
    pashkure_remote_result (*named)(pashkure_remote_connection *, pashkure_remote_transaction, const char *);
    pashkure_remote_result (*plain)(pashkure_remote_connection *, pashkure_remote_transaction);
    const char *sent, *reply;
    pashkure_remote_result result;
} words[] = {
    {pashkure_remote_ask, NULL, "lock 0.1 a\n", "granted\n", IS(OK)},
    {pashkure_remote_ask, NULL, "lock 0.1 a\n", "held\n", IS(HELD)},
    {pashkure_remote_ask, NULL, "lock 0.1 a\n", "waits 1.1\n", IS(WAITS)},
    {pashkure_remote_ask, NULL, "lock 0.1 a\n", "deadlock 1.1 b\n", IS(DEADLOCK)},
    {pashkure_remote_lock, NULL, "lock 0.1 a\n", "held\n", IS(HELD)},
    {pashkure_remote_try_lock, NULL, "try 0.1 a\n", "granted\n", IS(OK)},
    {pashkure_remote_try_lock, NULL, "try 0.1 a\n", "held\n", IS(HELD)},
    {pashkure_remote_try_lock, NULL, "try 0.1 a\n", "busy 1.1\n", IS(BUSY)},
    {pashkure_remote_unlock, NULL, "unlock 0.1 a\n", "unlocked\n", IS(OK)},
    {NULL, pashkure_remote_commit, "commit 0.1\n", "committed\n", IS(OK)},
    {NULL, pashkure_remote_abort, "abort 0.1\n", "aborted\n", IS(OK)},
    {NULL, pashkure_remote_cancel, "cancel 0.1\n", "cancelled\n", IS(OK)},
    {NULL, pashkure_remote_wait, "status 0.1\n", "active\n", IS(OK)},
    {NULL, pashkure_remote_wait, "status 0.1\n", "ending\n* aborted 0.1\n", IS(ABORTED)},
};
#define WORDS (sizeof words / sizeof *words)

static pashkure_remote_result asked(size_t row, pashkure_remote_transaction of)
{
    return words[row].plain != NULL ? words[row].plain(&here, of) : words[row].named(&here, of, "a");
}

static void test_words(void)
{
    pashkure_remote_transaction begun;
    size_t row;
    replies("begun 65535.4294967295\n");
    GIVES(OK, pashkure_remote_begin(&here, &begun));
    CHECK(sent("begin\n") && same(begun, KEY(65535, 4294967295)));
    for (row = 0; row < WORDS; row++) {
        replies(words[row].reply);
        CHECK(asked(row, first) == words[row].result && sent(words[row].sent));
    }
}

/* Their numbers are those of the library for a program of its own, and from 64 on the client's. */
static void test_refusals(void)
{
    static const char *const refusals[85] = {[16] = "no-transaction",
        [18] = "waiting",
        "not-waiting",
        [21] = "name-too-long",
        "not-owner",
        "transactions-full",
        "names-full",
        "labels-full",
        "counts-full",
        [28] = "too-many-names",
        [65] = "of-another-time",
        [80] = "operator",
        "no-epoch",
        [84] = "connections-full"};
    char line[64];
    int number;
    for (number = 0; number < 85; number++) {
        bool is_over = number == 65 || number == 84;
        if (refusals[number] == NULL)
            continue;
        snprintf(line, sizeof line, "refused %s\ngranted\n", refusals[number]);
        replies(line);
        CHECK((int)pashkure_remote_lock(&here, first, "a") == number);
        CHECK((int)pashkure_remote_lock(&here, first, "a") == (is_over ? number : 0) && here.is_open != is_over);
    }
    answered("refused connections-full\n", true);
    shutdown(there, SHUT_RD); /* it was closed before anything was sent */
    GIVES(CONNECTIONS_FULL, pashkure_remote_lock(&here, first, "a"));
}

/* A key of before this opening, and one of nobody, are refused, whatever the request: nothing is sent. */
static void test_other_openings(void)
{
    static const char *const names[] = {"a", "b"};
    static const pashkure_remote_transaction others[] = {{0, 1, 2}, {0, 1, 0}, {0, 0, 0}};
    pashkure_remote_status status;
    pashkure_remote_fence fence;
    size_t place, row, other;
    replies("granted\n");
    for (other = 0; other < 3; other++) {
        for (row = 0; row < WORDS; row++)
            GIVES(NO_TRANSACTION, asked(row, others[other]));
        GIVES(NO_TRANSACTION, pashkure_remote_lock_all(&here, others[other], names, 2, 0, &place));
        GIVES(NO_TRANSACTION, pashkure_remote_status_of(&here, others[other], &status));
        GIVES(NO_TRANSACTION, pashkure_remote_holds(&here, others[other], NULL, NULL));
        GIVES(NO_TRANSACTION, pashkure_remote_fence_of(&here, others[other], "a", &fence));
    }
    GIVES(OK, pashkure_remote_lock(&here, first, "a"));
    CHECK(sent("lock 0.1 a\n"));
}

static void test_names(void)
{
    static const char *const bad[] = {"", "a b", " a", "a\nabort 0.1", "a\r", "a\tb", "\x7f", "\x01"};
    char name[PASHKURE_REMOTE_NAME_BYTES + 2], line[PASHKURE_REMOTE_NAME_BYTES + 32];
    pashkure_remote_transaction nobody = first;
    pashkure_remote_fence fence;
    size_t place, stopped;
    replies("unlocked\ngranted\n");
    for (place = 0; place < sizeof bad / sizeof *bad; place++) {
        const char *const names[] = {"a", bad[place], "b"};
        GIVES(BAD_NAME, pashkure_remote_lock(&here, first, bad[place]));
        GIVES(BAD_NAME, pashkure_remote_owner(&here, bad[place], &nobody));
        GIVES(BAD_NAME, pashkure_remote_fence_of(&here, first, bad[place], &fence));
        GIVES(BAD_NAME, pashkure_remote_lock_all(&here, first, names, 3, 0, &stopped));
        CHECK(stopped == 1);
        GIVES(BAD_NAME, pashkure_remote_begin_with(&here, &nobody, names, 3, 0, &stopped));
        CHECK(stopped == 1 && same(nobody, NOBODY));
    }
    memset(name, 'n', sizeof name);
    name[PASHKURE_REMOTE_NAME_BYTES + 1] = '\0';
    GIVES(BAD_NAME, pashkure_remote_lock(&here, first, name));
    CHECK(sent(""));
    name[PASHKURE_REMOTE_NAME_BYTES] = '\0';
    GIVES(OK, pashkure_remote_unlock(&here, KEY(65535, 4294967295), name));
    snprintf(line, sizeof line, "unlock 65535.4294967295 %s\n", name);
    CHECK(sent(line));
    GIVES(OK, pashkure_remote_lock(&here, first, "!~\xc3\xbc#"));
    CHECK(sent("lock 0.1 !~\xc3\xbc#\n"));
}

static void test_waits(void)
{
    replies("waits 1.1\n* granted 2.1 b\n* aborted 3.1\n* granted 0.2 a\n* granted 0.1 a\n");
    GIVES(OK, pashkure_remote_lock(&here, first, "a"));
    replies("* granted 2.1 b\nwaits 1.1\n* aborted 0.1\n");
    GIVES(ABORTED, pashkure_remote_lock(&here, first, "a"));
    answered("waits 1.1\n", true);
    GIVES(LOST, pashkure_remote_lock(&here, first, "a"));
    answered("waits 1.1\n* granted 0.", true);
    GIVES(LOST, pashkure_remote_lock(&here, first, "a"));
    replies("* granted 0.1 a\nactive\nwaiting a 1.1\n* granted 0.1 a\nwaiting a 1.1\n* aborted 0.1\ndeadlock a 1.1\n");
    GIVES(OK, pashkure_remote_wait(&here, first));
    GIVES(OK, pashkure_remote_wait(&here, first));
    GIVES(ABORTED, pashkure_remote_wait(&here, first));
    GIVES(PROTOCOL, pashkure_remote_wait(&here, first));
}

/* Several names: where it stops, and what is sent for them, and for the rest after a grant. */
static void test_several(void)
{
    static const char *const names[] = {"a", "b", "c"};
    static const struct {
        const char *replies, *rest;
        pashkure_remote_result result;
        size_t place;
    } rows[] = {
        {"refused waiting\n", "", IS(WAITING), 0},
        {"granted\n", "", IS(OK), 3}, /* these two are no replies behind `begun K` */
        {"deadlock 2 1.1 x\n", "", IS(DEADLOCK), 2},
        {"refused 1 names-full\n", "", IS(NAMES_FULL), 1},
        {"waits 0 1.1\n* granted 0.1 a\nwaits 0 1.1\n* granted 0.1 b\nheld\n", "lock 0.1 b c\nlock 0.1 c\n", IS(OK), 3},
        {"waits 1 1.1\n* granted 0.1 b\nwaits 1.1\n* granted 0.1 c\n", "lock 0.1 c\n", IS(OK), 3},
        {"waits 1 1.1\n* granted 0.1 b\nrefused names-full\n", "lock 0.1 c\n", IS(NAMES_FULL), 2},
        {"waits 1 1.1\n* granted 0.1 b\ndeadlock 1.1 x 2.1 y ..\n", "lock 0.1 c\n", IS(DEADLOCK), 2},
        {"waits 1 1.1\n* aborted 0.1\n", "", IS(ABORTED), 1},
        {"waits 3 1.1\n", "", IS(PROTOCOL), 0},
        {"waits 1.1\n", "", IS(PROTOCOL), 0},
        {"deadlock 1.1 x\n", "", IS(PROTOCOL), 0},
        {"deadlock 3 1.1 x\n", "", IS(PROTOCOL), 0},
        {"deadlock 2 1.1\n", "", IS(PROTOCOL), 0},
        {"refused 3 names-full\n", "", IS(PROTOCOL), 0},
        {"refused 1x names-full\n", "", IS(PROTOCOL), 0},
        {"refused 1\n", "", IS(PROTOCOL), 0},
        {"held\n", "", IS(PROTOCOL), 0},
        {"malformed\n", "", IS(PROTOCOL), 0},
    };
    pashkure_remote_transaction begun;
    char line[256];
    size_t row, place;
    for (row = 0; row < sizeof rows / sizeof *rows; row++) {
        bool is_fault = rows[row].result == IS(PROTOCOL);
        replies(rows[row].replies);
        CHECK(pashkure_remote_lock_all(&here, first, names, 3, PASHKURE_REMOTE_FOREVER, &place) == rows[row].result);
        snprintf(line, sizeof line, "lock 0.1 a b c\n%s", rows[row].rest);
        CHECK(is_fault || (place == rows[row].place && sent(line)));
        snprintf(line, sizeof line, "begun 0.1 %s", row == 1 ? "\n" : rows[row].replies);
        replies(line);
        if (row > 0)
            CHECK(pashkure_remote_begin_with(&here, &begun, names, 3, PASHKURE_REMOTE_FOREVER, &place) == rows[row].result);
        snprintf(line, sizeof line, "begin a b c\n%s", rows[row].rest);
        CHECK(is_fault || row == 0 || (place == rows[row].place && same(begun, KEY(0, 1)) && sent(line)));
    }
    replies("refused transactions-full\nbegun 0.1\nbegun 0.1 waits 0 1.1\n* granted 0.1 a\n");
    GIVES(TRANSACTIONS_FULL, pashkure_remote_begin_with(&here, &begun, names, 3, 0, &place));
    CHECK(place == 0 && same(begun, NOBODY));
    GIVES(OK, pashkure_remote_begin_with(&here, &begun, names, 0, 0, &place));
    GIVES(OK, pashkure_remote_lock_all(&here, first, names, 0, 0, &place));
    GIVES(OK, pashkure_remote_begin_with(&here, &begun, names, 1, 0, &place));
    CHECK(place == 1 && sent("begin a b c\nbegin\nbegin a\n"));
}

/* More names than a line has: the rest of them are asked for in further lines, none of which is too long. */
static void test_many_names(void)
{
    static char text[500][8], *line;
    const char *names[500];
    pashkure_remote_transaction begun;
    size_t place;
    for (place = 0; place < 500; names[place] = text[place], place++)
        snprintf(text[place], sizeof *text, "%06d", (int)place);
    replies("begun 0.1\ngranted\ngranted\nwaits 6 1.1\n* granted 0.1 x\ngranted\n");
    GIVES(OK, pashkure_remote_begin_with(&here, &begun, names, 500, 1, &place));
    CHECK(place == 500);
    for (line = strtok((char *)all_sent(), "\n"), place = 0; line != NULL; line = strtok(NULL, "\n"), place++)
        CHECK(strlen(line) <= 1048 && strncmp(line, place == 0 ? "begin 000000 " : "lock 0.1 000", 12) == 0);
    CHECK(place == 5);
}

static void test_reads(void)
{
    pashkure_remote_transaction owner;
    pashkure_remote_status status;
    pashkure_remote_counts counts;
    pashkure_remote_fence fence;
    pashkure_remote_service service;
    char text[PASHKURE_REMOTE_FENCE_BYTES];
    size_t row;
    replies("owner 7.3\nfree\nactive\nwaiting a 1.1\nending\ntotals 4 3 2 18446744073709551615\n"
            "counts 1 2 3 4 5 6 7 8 9 of-a-later-version-and-longer-than-any-word 1\nfence 9223372036854775807 42\nhello 2 7 65536 1024 64 later\n");
    GIVES(OK, pashkure_remote_owner(&here, "a", &owner));
    CHECK(same(owner, KEY(7, 3)));
    GIVES(FREE, pashkure_remote_owner(&here, "a", &owner));
    CHECK(same(owner, NOBODY));
    for (row = 0; row < 3; row++) {
        static const pashkure_remote_mode modes[] = {IS(IS_ACTIVE), IS(IS_WAITING), IS(IS_ENDING)};
        bool waits = row == 1;
        GIVES(OK, pashkure_remote_status_of(&here, first, &status));
        CHECK(status.mode == modes[row]);
        CHECK(strcmp(status.name, waits ? "a" : "") == 0 && same(status.holder, waits ? KEY(1, 1) : NOBODY));
    }
    GIVES(OK, pashkure_remote_totals(&here, &counts));
    CHECK(counts.begun == 4 && counts.committed == 3 && counts.aborted == 2 && counts.deadlocks == UINT64_MAX && counts.events == 0);
    GIVES(OK, pashkure_remote_counts_of(&here, &counts));
    CHECK(counts.begun == 1 && counts.deadlocks == 4 && counts.waits == 5 && counts.withdrawn == 6 && counts.events == 7);
    CHECK(counts.labels_left == 8 && counts.counts_left == 9);
    GIVES(OK, pashkure_remote_fence_of(&here, first, "a", &fence));
    pashkure_remote_fence_text(fence, text);
    CHECK(strcmp(text, "9223372036854775807.0000000000000000042") == 0);
    pashkure_remote_fence_text((pashkure_remote_fence){UINT64_MAX, UINT64_MAX}, text);
    GIVES(OK, pashkure_remote_hello(&here, &service));
    CHECK(service.epoch == 7 && service.transactions == 65536 && service.names == 1024 && service.name_bytes == 64);
    CHECK(sent("owner a\nowner a\nstatus 0.1\nstatus 0.1\nstatus 0.1\ntotals\ncounts\nfence 0.1 a\nhello\n"));
    for (row = 0; row < 2; row++) {
        replies(row == 0 ? "hello 1 7 65536 1024 64\n" : "hello 3\n");
        GIVES(OTHER_PROTOCOL, pashkure_remote_hello(&here, &service));
    }
    replies("fence 1 9223372036854775808\n");
    GIVES(PROTOCOL, pashkure_remote_fence_of(&here, first, "a", &fence));
    replies("waiting a 1.1 later\n");
    GIVES(PROTOCOL, pashkure_remote_status_of(&here, first, &status));
}

static void add_name(void *context, const char *name)
{
    strcat(strcat(context, name), " ");
}

static void add_wait(void *context, const pashkure_remote_wait_for *wait)
{
    sprintf((char *)context + strlen(context), "%d-%s-%d%s ", (int)wait->waiter.slot, wait->name, (int)wait->holder.slot,
        wait->holder.opening ? "" : "?");
}

static void add_live(void *context, const pashkure_remote_live *live)
{
    sprintf((char *)context + strlen(context), "%d:%d:%d%s ", (int)live->transaction.slot, (int)live->connection, (int)live->status.mode,
        live->status.name);
}

/* The names of a transaction are asked for part by part, each after the last name of the one before. A name may be two dots. */
static void test_parts(void)
{
    char given[8192] = "holds", told[8192] = "";
    int name;
    for (name = 0; name < 1024; name++)
        sprintf(given + strlen(given), " %04d", name);
    name = (int)strlen(given);
    strcpy(given + name, " ..\n* granted 5.1 x\nholds a ..\n");
    replies(given);
    GIVES(OK, pashkure_remote_holds(&here, first, add_name, told));
    CHECK(sent("holds 0.1\nholds 0.1 1023\n"));
    CHECK(strncmp(told, "0000 0001 ", 10) == 0 && strcmp(told + 1023 * 5, "1023 a .. ") == 0);
    told[0] = '\0';
    strcpy(given + name - 5, " ..\nholds\n");
    replies(given);
    GIVES(OK, pashkure_remote_holds(&here, first, add_name, told));
    CHECK(sent("holds 0.1\n") && strcmp(told + 1022 * 5, "1022 .. ") == 0);
    told[0] = '\0';
    strcpy(given + name - 5, " 1023 ..\nrefused no-transaction\ngranted\n");
    replies(given);
    GIVES(NO_TRANSACTION, pashkure_remote_holds(&here, first, add_name, told));
    GIVES(OK, pashkure_remote_lock(&here, first, "a"));
    told[0] = '\0';
    strcpy(given + name, " 1024\n");
    replies(given);
    GIVES(PROTOCOL, pashkure_remote_holds(&here, first, add_name, told));
    told[0] = '\0';
    strcpy(given + name, " .. ..\n");
    replies(given);
    GIVES(PROTOCOL, pashkure_remote_holds(&here, first, add_name, told));
}

static void test_lists(void)
{
    char text[256] = "", told[256] = "";
    pashkure_remote_on_deadlock(&here, add_wait, told);
    replies("holds\nholds a b c\n* granted 5.1 x\ngraph 0\ngraph 2\n* 0.1 a 1.1\n* 1.1 b 2.1\n* deadlock 3.1 x 4.1 y\nlist 0\n"
            "list 3\n* 0.1 1 active 7 later\n* 1.1 2 waiting a 0.1 later\n* 2.1 3 waiting b 0.1 of-a-later-version-and-longer-than-any-word\n"
            "* deadlock 5.1 a 6.1 b ..\nfree\n");
    GIVES(OK, pashkure_remote_holds(&here, first, add_name, text));
    GIVES(OK, pashkure_remote_holds(&here, first, add_name, text));
    GIVES(OK, pashkure_remote_graph(&here, add_wait, text));
    GIVES(OK, pashkure_remote_graph(&here, add_wait, text));
    CHECK(strcmp(text, "a b c 0-a-1 1-b-2 ") == 0);
    text[0] = '\0';
    GIVES(OK, pashkure_remote_list(&here, add_live, text));
    CHECK(strcmp(told, "3-x-4 4-y-3 ") == 0);
    GIVES(OK, pashkure_remote_list(&here, add_live, text));
    CHECK(strcmp(text, "0:1:0 1:2:1a 2:3:1b ") == 0);
    GIVES(FREE, pashkure_remote_owner(&here, "a", &NOBODY));
    CHECK(strcmp(told, "3-x-4 4-y-3 5-a-6 6-b-0? ") == 0);
    replies("* aborted 1.1\n* deadlock 3.1 x 4.1 y\n");
    GIVES(OK, pashkure_remote_listen(&here, PASHKURE_REMOTE_FOREVER));
    GIVES(TIMED_OUT, pashkure_remote_listen(&here, 1));
    pashkure_remote_on_deadlock(&here, NULL, NULL);
    replies("* deadlock 3.1 x 4.1 y\nrefused no-transaction\ngranted\n");
    GIVES(NO_TRANSACTION, pashkure_remote_holds(&here, first, add_name, text));
    GIVES(PROTOCOL, pashkure_remote_listen(&here, 1));
    replies("graph 3\n* 0.1 a 1.1\ngranted\n");
    GIVES(PROTOCOL, pashkure_remote_graph(&here, add_wait, text));
    replies("list 2\n* 0.1 1 active\n* 0.1 x active\n");
    GIVES(PROTOCOL, pashkure_remote_list(&here, add_live, text));
}

/* The waits of a deadlock are told as the reply is read: the one that was refused, and those of the reply. */
static void test_cycles(void)
{
    static const char *const names[] = {"b", "c"};
    char told[256] = "";
    size_t place;
    pashkure_remote_on_deadlock(&here, add_wait, told);
    replies("* granted 6.1 x\ndeadlock 1.1 x\n* deadlock 3.1 x 4.1 y\ndeadlock 1 2.1 y 3.1 z 4.1 .. ..\ndeadlock 4.1 w\n");
    GIVES(DEADLOCK, pashkure_remote_lock(&here, first, "a"));
    CHECK(strcmp(told, "0-a-1 1-x-0 ") == 0);
    told[0] = '\0';
    GIVES(DEADLOCK, pashkure_remote_lock_all(&here, first, names, 2, PASHKURE_REMOTE_FOREVER, &place));
    CHECK(place == 1 && strcmp(told, "3-x-4 4-y-3 0-c-2 2-y-3 3-z-4 4-..-0? ") == 0);
    pashkure_remote_on_deadlock(&here, NULL, NULL);
    GIVES(DEADLOCK, pashkure_remote_ask(&here, first, "a"));
    CHECK(strcmp(told, "3-x-4 4-y-3 0-c-2 2-y-3 3-z-4 4-..-0? ") == 0 && sent("lock 0.1 a\nlock 0.1 b c\nlock 0.1 a\n"));
}

static void test_bad_replies(void)
{
    static const char *const bad[] = {"\n", "hello\n", "committed\n", "granted again\n", "waits\n", "waits 1.1 2.1\n", "refused\n", "refused a b\n",
        "* moved 0.1 a\n", "* granted 1.1\n", "* aborted 1.1 a\n", "*\n", "waits 1.1\ngranted\n", "waits 123456789012345678901234567890\n",
        "waits 1\n", "waits 1.\n", "waits 1.4294967296\n", "waits 1.1x\n", "waits 1.-1\n", "malformed\n", "* deadlock 1.1 a 1.1\n",
        "* deadlock 1.1\n", "* deadlock 1.1 a .. b\n", "refused 0 names-full\n", "deadlock\n", "deadlock 1.1\n", "deadlock 1.1 a 2.1\n",
        "deadlock 1.1 a .. ..\n", "deadlock .. a\n", "deadlock 0 1.1 a\n"};
    size_t place;
    for (place = 0; place < sizeof bad / sizeof *bad; place++) {
        replies(bad[place]);
        GIVES(PROTOCOL, pashkure_remote_lock(&here, first, "a"));
        GIVES(PROTOCOL, pashkure_remote_commit(&here, first));
        CHECK(!here.is_open);
    }
    answered("", true);
    GIVES(LOST, pashkure_remote_lock(&here, first, "a"));
    GIVES(LOST, pashkure_remote_lock(&here, first, "a"));
}

/* A connection that was never opened, and one that was closed. */
static void test_closed(void)
{
    pashkure_remote_connection zero;
    pashkure_remote_transaction begun;
    pashkure_remote_counts counts;
    memset(&zero, 0, sizeof zero);
    GIVES(NOT_OPEN, pashkure_remote_begin(&zero, &begun));
    GIVES(NOT_OPEN, pashkure_remote_commit(&zero, begun));
    GIVES(NOT_OPEN, pashkure_remote_totals(&zero, &counts));
    GIVES(NOT_OPEN, pashkure_remote_listen(&zero, 0));
    pashkure_remote_close(&zero);
    CHECK(fcntl(STDIN_FILENO, F_GETFD) >= 0); /* descriptor 0 is left alone */
    replies("granted\n");
    pashkure_remote_close(&here);
    pashkure_remote_close(&here);
    GIVES(NOT_OPEN, pashkure_remote_lock(&here, first, "a"));
    GIVES(NOT_OPEN, pashkure_remote_wait(&here, first));
}

static void test_time_outs(void)
{
    replies("waits 1.1\n");
    shutdown(there, SHUT_RD);
    GIVES(LOST, pashkure_remote_lock_for(&here, first, "a", 1)); /* and SIGPIPE does not end the program */
    replies("granted\n");
    GIVES(OK, pashkure_remote_lock_for(&here, first, "a", 0));
    replies("deadlock 1.1 x\n");
    GIVES(DEADLOCK, pashkure_remote_lock_for(&here, first, "a", 0));
    replies("waits 1.1\n* granted 0.1 a\n");
    GIVES(OK, pashkure_remote_lock_for(&here, first, "a", 0));
    CHECK(sent("lock 0.1 a\n"));
}

/* The time of a lock is up: the wait is taken back, unless it ended before. Each turn of the other end comes after a request. */
static void test_taken_back(void)
{
#define LOCKED                                                                                                                                       \
    {                                                                                                                                                \
        "lock 0.1 a\n", "waits 1.1\n"                                                                                                                \
    }
    static const struct turn back[] = {LOCKED, {"cancel 0.1\n", "cancelled\n"}, {0, 0}};
    static const struct turn granted[] = {LOCKED, {"cancel 0.1\n", "* granted 2.1 b\n* granted 0.1 a\nrefused not-waiting\n"}, {0, 0}};
    static const struct turn over[] = {LOCKED, {"cancel 0.1\n", "* aborted 0.1\nrefused no-transaction\n"}, {0, 0}};
    static const struct turn gone[] = {LOCKED, {"cancel 0.1\n", "cancel"}, {0, 0}};
    GIVES(TIMED_OUT, after_turns(back, 0));
    GIVES(OK, after_turns(granted, 1));
    GIVES(ABORTED, after_turns(over, 0));
    GIVES(LOST, after_turns(gone, 0));
}

/* A lock that may take more than 2 to the 31 milliseconds. (What poll is told the test of the program reads in a log.) */
static void test_long_time(void)
{
    static const struct turn granted[] = {LOCKED, {NULL, "* granted 0.1 a\n"}, {0, 0}};
    pashkure_remote_reply_within(&here, PASHKURE_REMOTE_FOREVER);
    GIVES(OK, after_turns(granted, PASHKURE_REMOTE_FOREVER - 1));
}

/* A reply to a lock that may take no time is due a second later. (What poll is told the test of the program reads in a log.) */
static void test_short_time(void)
{
    static const struct turn granted[] = {{"lock 0.1 a\n", "waits 1.1\n* granted 0.1 a\n"}, {0, 0}};
    GIVES(OK, after_turns(granted, 0));
}

/* A service that says nothing for the time of a reply is asked what became of the wait, and is lost if it does not answer. */
static void test_looks(void)
{
    static const struct turn granted[] = {LOCKED, {"status 0.1\n", "waiting a 1.1\n"}, {"status 0.1\n", "* granted 0.1 a\nactive\n"}, {0, 0}};
    static const struct turn over[] = {LOCKED, {"status 0.1\n", "* aborted 0.1\nrefused no-transaction\n"}, {0, 0}};
    pashkure_remote_reply_within(&here, 200);
    GIVES(OK, after_turns(granted, PASHKURE_REMOTE_FOREVER));
    GIVES(ABORTED, after_turns(over, PASHKURE_REMOTE_FOREVER));
    pashkure_remote_reply_within(&here, 1);
    replies("waits 1.1\n");
    GIVES(LOST, pashkure_remote_lock(&here, first, "a"));
    CHECK(sent("lock 0.1 a\nstatus 0.1\n"));
    replies("");
    GIVES(LOST, pashkure_remote_commit(&here, first));
    replies("");
    GIVES(LOST, pashkure_remote_listen(&here, PASHKURE_REMOTE_FOREVER));
    CHECK(sent("hello\n"));
    replies("hello 2 7 1 1 1\n* deadlock 3.1 x 4.1 y\n");
    GIVES(PROTOCOL, pashkure_remote_listen(&here, PASHKURE_REMOTE_FOREVER)); /* nobody asked for the first line */
}

/* A message for each result, each another one, which names what there is none left of. */
static void test_messages(void)
{
    static const char *const parts[86] = {"done", "owned the name before", "waits for the name", "cycle",
        "another transaction owns", [7] = "nobody owns", "aborted while", "in time", [16] = "has ended", [18] = "the transaction waits",
        "does not wait", [21] = "longer", "does not own", "transactions", "names", "wait", "counted", [28] = "--names-each", [32] = "is closed",
        "is open", [64] = "lost", "does not understand", "no connection", "control", [80] = "operator", "epoch", [84] = "clients",
        "restart the service first"};
    int place, other;
    for (place = 0; place < 86; place++) {
        const char *message = pashkure_remote_message((pashkure_remote_result)place);
        CHECK(strstr(message, parts[place] == NULL ? "no result of this client" : parts[place]) != NULL);
        for (other = 0; other < place && parts[place] != NULL; other++)
            CHECK(strcmp(message, pashkure_remote_message((pashkure_remote_result)other)) != 0);
    }
}

int main(int count, char *words[])
{
    static const struct test tests[] = {TEST(words), TEST(refusals), TEST(other_openings), TEST(names), TEST(waits), TEST(several), TEST(many_names),
        TEST(reads), TEST(parts), TEST(lists), TEST(cycles), TEST(bad_replies), TEST(closed), TEST(time_outs), TEST(taken_back), TEST(long_time),
        TEST(short_time), TEST(looks), TEST(messages)};
    there = -1;
    return tested(tests, sizeof tests / sizeof *tests, count > 1 ? words[1] : "");
}
