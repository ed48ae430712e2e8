/* A library that is loaded into a program (LD_PRELOAD) and lets calls of the C library fail, be short, or be late. The environment says which:

     FAULTS="RULE .."  each rule is CALL[/WHERE]:KIND[=VALUE][WHEN]
       CALL    read write recv send poll epoll_wait accept connect open clock boottime futex yield start malloc (each with its relatives)
       WHERE   of read and write a descriptor; else only pipes, sockets and terminals count. /thread: calls of threads that were started
       KIND    an error's name (EINTR EAGAIN ENOSPC EPIPE EMFILE ENOMEM EIO ECONNRESET ENFILE); short=BYTES, late=MILLISECONDS,
               jump=SECONDS of the clock that can be set (CLOCK_REALTIME) or of CLOCK_BOOTTIME, or told, which only writes the call into the log (of futex and poll with the time-out in milliseconds)
       WHEN    @N the N-th such call, >N all after it, %P of a hundred by chance; none: all
     FAULT_SEED=N      of what is drawn by chance: which calls, and how many bytes if short has no value
     FAULT_LOG=FILE    each fault is written there as a rule, so that FAULTS="$(cat FILE)" does the same again
     FAULT_IN=NAME     only in a program whose file begins with this name
     FAULT_WORK=FILE   the clocks of other processes' processor time stand at the microseconds of this file: 8 bytes, which it maps
     FAULT_COUNTS=FILE the struct counts below, up to date whenever and however the program ends

   The C library's own requests for memory before main are not counted. Those that it makes to start a thread are counted by themselves too. */
#define _GNU_SOURCE
#include <dlfcn.h>
#include <errno.h>
#include <fcntl.h>
#include <linux/futex.h>
#include <poll.h>
#include <pthread.h>
#include <sched.h>
#include <stdarg.h>
#include <stdatomic.h>
#include <stdio.h>
#include <stdlib.h>
#include <string.h>
#include <sys/epoll.h>
#include <sys/mman.h>
#include <sys/select.h>
#include <sys/socket.h>
#include <sys/stat.h>
#include <sys/syscall.h>
#include <sys/uio.h>
#include <time.h>
#include <unistd.h>

extern void *__libc_malloc(size_t size);
extern void *__libc_calloc(size_t count, size_t size);
extern void *__libc_realloc(void *old, size_t size);
extern void *__libc_memalign(size_t alignment, size_t size);

enum call { READ, WRITE, RECV, SEND, POLL, EPOLL_WAIT, ACCEPT, CONNECT, OPEN, CLOCK, BOOTTIME, FUTEX, YIELD, START, MALLOC, CALLS };
static const char *const call_names[CALLS] = {
    "read",
    "write",
    "recv",
    "send",
    "poll",
    "epoll_wait",
    "accept",
    "connect",
    "open",
    "clock",
    "boottime",
    "futex",
    "yield",
    "start",
    "malloc",
};
enum kind { SHORT = 1, LATE, JUMP, TOLD, ERROR };
static const struct {
    const char *name;
    int number;
} errors[] = {
    {"EINTR", EINTR},
    {"EAGAIN", EAGAIN},
    {"ENOSPC", ENOSPC},
    {"EPIPE", EPIPE},
    {"EMFILE", EMFILE},
    {"ENOMEM", ENOMEM},
    {"EIO", EIO},
    {"ECONNRESET", ECONNRESET},
    {"ENFILE", ENFILE},
};
#define ANYWHERE (-1)
#define IN_THREADS (-2)
#define MOST_RULES 4096

struct rule {
    enum call call;
    int where;
    enum kind kind;
    int error;
    long value, at, after, percent; /* 0: none */
    const char *name;               /* of its kind or its error */
};

struct counts {
    atomic_long requests;   /* for memory, those that were refused among them */
    atomic_long by_starts;  /* of these: those that the C library made to start a thread */
    atomic_long by_threads; /* of these: those that threads made which the program has started */
    atomic_long refused;    /* requests for memory that were refused */
    atomic_long starts;     /* threads that were to be started */
    atomic_long started;    /* threads that were started */
    atomic_long ended;      /* threads that have ended */
    atomic_long bytes;      /* of the requests, but for those that the C library made to start a thread */
};

static struct rule rules[MOST_RULES];
static int rule_count;
static int in_call[CALLS]; /* whether there is a rule for it */
static unsigned long long seed;
static int log_file = -1;
static atomic_long made[CALLS];
static struct counts own;
static struct counts *counts = &own;
static const volatile int64_t *work; /* what the processor clocks of others show, if they are set */
static int is_ready;
static __thread int is_starting __attribute__((tls_model("initial-exec")));
static __thread int is_started __attribute__((tls_model("initial-exec")));

/* The function of the C library with this name. */
#define REAL(name) ((__typeof__(&name))dlsym(RTLD_NEXT, #name))

static unsigned long long mixed(unsigned long long a, unsigned long long b, unsigned long long c)
{
    unsigned long long word = seed * 0x9e3779b97f4a7c15ULL + a * 0xbf58476d1ce4e5b9ULL + b * 0x94d049bb133111ebULL + c;
    word = (word ^ (word >> 30)) * 0xbf58476d1ce4e5b9ULL;
    word = (word ^ (word >> 27)) * 0x94d049bb133111ebULL;
    return word ^ (word >> 31);
}

/* Reads a rule. A word that is none ends the program: a test that injects nothing shows nothing. */
static void add_rule(char *text)
{
    struct rule rule = {.call = CALLS, .where = ANYWHERE};
    char *kind = strchr(text, ':'), *when, *value, *where;
    size_t place;
    if (kind == NULL || rule_count == MOST_RULES)
        abort();
    *kind++ = '\0';
    if ((where = strchr(text, '/')) != NULL) {
        *where++ = '\0';
        rule.where = strcmp(where, "thread") == 0 ? IN_THREADS : atoi(where);
    }
    if ((when = strpbrk(kind, "@>%")) != NULL) {
        long number = atol(when + 1);
        *(*when == '@' ? &rule.at : *when == '>' ? &rule.after : &rule.percent) = *when == '>' && number == 0 ? -1 : number;
        *when = '\0';
    }
    if ((value = strchr(kind, '=')) != NULL) {
        *value++ = '\0';
        rule.value = atol(value);
    }
    rule.name = kind;
    for (place = 0; place < CALLS; place++)
        if (strcmp(call_names[place], text) == 0)
            rule.call = (enum call)place;
    rule.kind = strcmp(kind, "short") == 0  ? SHORT
                : strcmp(kind, "late") == 0 ? LATE
                : strcmp(kind, "jump") == 0 ? JUMP
                : strcmp(kind, "told") == 0 ? TOLD
                                            : ERROR;
    for (place = 0; place < sizeof errors / sizeof *errors; place++)
        if (strcmp(errors[place].name, kind) == 0)
            rule.error = errors[place].number;
    if (rule.call == CALLS || (rule.kind == ERROR && rule.error == 0))
        abort();
    in_call[rule.call] = 1;
    rules[rule_count++] = rule;
}

/* Whether this is the program that is meant. */
static int is_meant(void)
{
    char path[4096];
    const char *name = getenv("FAULT_IN"), *base;
    ssize_t length = readlink("/proc/self/exe", path, sizeof path - 1);
    if (name == NULL)
        return 1;
    path[length < 0 ? 0 : length] = '\0';
    base = strrchr(path, '/');
    return strncmp(base == NULL ? path : base + 1, name, strlen(name)) == 0;
}

__attribute__((constructor)) static void begin(void)
{
    static char text[1 << 17];
    const char *given = getenv("FAULTS"), *file = getenv("FAULT_COUNTS"), *log = getenv("FAULT_LOG"), *number = getenv("FAULT_SEED");
    char *left = text, *rule;
    if (!is_meant())
        return;
    if (getenv("FAULT_WORK") != NULL) {
        int descriptor = (int)syscall(SYS_openat, AT_FDCWD, getenv("FAULT_WORK"), O_RDONLY);
        work = mmap(NULL, sizeof *work, PROT_READ, MAP_SHARED, descriptor, 0);
        if (work == MAP_FAILED)
            abort();
        close(descriptor);
    }
    if (file != NULL) {
        int descriptor = (int)syscall(SYS_openat, AT_FDCWD, file, O_RDWR);
        void *shared = mmap(NULL, sizeof own, PROT_READ | PROT_WRITE, MAP_SHARED, descriptor, 0);
        if (shared == MAP_FAILED)
            abort();
        counts = shared;
        close(descriptor);
    }
    seed = number == NULL ? 0 : strtoull(number, NULL, 10);
    if (log != NULL)
        log_file = (int)syscall(SYS_openat, AT_FDCWD, log, O_WRONLY | O_APPEND | O_CREAT | O_CLOEXEC, 0600);
    if (given != NULL && strlen(given) < sizeof text)
        strcpy(text, given);
    while ((rule = strtok_r(left, " \n", &left)) != NULL)
        add_rule(rule);
    is_ready = 1;
}

static void note(const struct rule *rule, long value, long place)
{
    char line[128], where[16] = "";
    if (log_file < 0)
        return;
    if (rule->where != ANYWHERE)
        snprintf(where, sizeof where, rule->where == IN_THREADS ? "/thread" : "/%d", rule->where);
    int length = snprintf(line, sizeof line, "%s%s:%s=%ld@%ld\n", call_names[rule->call], where, rule->name, value, place);
    if (REAL(write)(log_file, line, (size_t)length) < 0)
        abort();
}

/* Whether a rule is for calls with this descriptor. */
static int is_there(const struct rule *rule, int descriptor)
{
    struct stat status;
    if (rule->where == IN_THREADS)
        return is_started;
    if (rule->where != ANYWHERE)
        return rule->where == descriptor;
    if (rule->call != READ && rule->call != WRITE)
        return 1;
    return fstat(descriptor, &status) == 0 && (S_ISFIFO(status.st_mode) || S_ISSOCK(status.st_mode) || S_ISCHR(status.st_mode));
}

/* Counts a call. Returns the error with which it fails, or 0. It may be late first, and *value becomes smaller if it is short: of a clock
   it grows by the jump, and of a futex it is the time-out that is told. */
static int faulty(enum call call, int descriptor, long *value)
{
    long place;
    int number, error = 0;
    if (!is_ready || !in_call[call])
        return 0;
    place = atomic_fetch_add(&made[call], 1) + 1;
    for (number = 0; number < rule_count && error == 0; number++) {
        const struct rule *rule = &rules[number];
        long drawn = rule->value;
        if (rule->call != call || !is_there(rule, descriptor) || (rule->at != 0 && rule->at != place)
            || (rule->after != 0 && place <= (rule->after < 0 ? 0 : rule->after))
            || (rule->percent != 0 && (long)(mixed((unsigned)call + 1, (unsigned long long)place, (unsigned)number) % 100) >= rule->percent))
            continue;
        if (rule->kind == SHORT && drawn == 0 && *value > 1)
            drawn = 1 + (long)(mixed((unsigned)call + 101, (unsigned long long)place, 7) % (unsigned long long)(*value - 1 > 1 ? *value - 1 : 1));
        if (rule->kind == SHORT && (drawn == 0 || drawn >= *value))
            continue;
        if (rule->kind == SHORT)
            *value = drawn;
        else if (rule->kind == LATE)
            syscall(SYS_nanosleep, &(struct timespec){drawn / 1000, drawn % 1000 * 1000000}, NULL);
        else if (rule->kind == JUMP)
            *value += drawn;
        else if (rule->kind == TOLD)
            drawn = *value;
        else
            error = rule->error;
        if (rule->kind != JUMP || rule->at != 0)
            note(rule, drawn, place);
    }
    return error;
}

/* The call, of this many bytes at most, unless it fails. */
#define OF_BYTES(call, descriptor, size, name, ...)                                                                                                  \
    do {                                                                                                                                             \
        long bytes = (long)(size);                                                                                                                   \
        int error = faulty(call, descriptor, &bytes);                                                                                                \
        if (error != 0) {                                                                                                                            \
            errno = error;                                                                                                                           \
            return -1;                                                                                                                               \
        }                                                                                                                                            \
        return REAL(name)(__VA_ARGS__);                                                                                                              \
    } while (0)

ssize_t read(int descriptor, void *buffer, size_t size)
{
    OF_BYTES(READ, descriptor, size, read, descriptor, buffer, (size_t)bytes);
}
ssize_t write(int descriptor, const void *buffer, size_t size)
{
    OF_BYTES(WRITE, descriptor, size, write, descriptor, buffer, (size_t)bytes);
}

ssize_t readv(int descriptor, const struct iovec *parts, int count)
{
    long bytes = (long)parts->iov_len;
    int error = faulty(READ, descriptor, &bytes);
    errno = error;
    return error != 0 ? -1 : count == 1 ? REAL(read)(descriptor, parts->iov_base, (size_t)bytes) : REAL(readv)(descriptor, parts, count);
}

ssize_t recv(int descriptor, void *buffer, size_t size, int flags)
{
    OF_BYTES(RECV, descriptor, size, recv, descriptor, buffer, (size_t)bytes, flags);
}
ssize_t send(int descriptor, const void *buffer, size_t size, int flags)
{
    OF_BYTES(SEND, descriptor, size, send, descriptor, buffer, (size_t)bytes, flags);
}

int poll(struct pollfd *files, nfds_t count, int timeout)
{
    OF_BYTES(POLL, -1, timeout, poll, files, count, timeout + 0 * (int)bytes);
}

int select(int count, fd_set *reads, fd_set *writes, fd_set *others, struct timeval *timeout)
{
    OF_BYTES(POLL, -1, 0, select, count + 0 * (int)bytes, reads, writes, others, timeout);
}

int epoll_wait(int descriptor, struct epoll_event *events, int count, int timeout)
{
    OF_BYTES(EPOLL_WAIT, descriptor, 0, epoll_wait, descriptor, events, count, timeout + 0 * (int)bytes);
}

int accept4(int descriptor, struct sockaddr *address, socklen_t *length, int flags)
{
    OF_BYTES(ACCEPT, descriptor, 0, accept4, descriptor, address, length, flags + 0 * (int)bytes);
}

int accept(int descriptor, struct sockaddr *address, socklen_t *length)
{
    return accept4(descriptor, address, length, 0);
}

int connect(int descriptor, const struct sockaddr *address, socklen_t length)
{
    OF_BYTES(CONNECT, descriptor, 0, connect, descriptor, address, length + 0 * (socklen_t)bytes);
}

static int opened(const char *path, int flags, va_list more)
{
    OF_BYTES(OPEN, -1, 0, open, path, flags + 0 * (int)bytes, va_arg(more, mode_t));
}

int open(const char *path, int flags, ...)
{
    va_list more;
    va_start(more, flags);
    int result = opened(path, flags, more);
    va_end(more);
    return result;
}

int open64(const char *path, int flags, ...) __attribute__((alias("open")));

int clock_gettime(clockid_t clock, struct timespec *time)
{
    long jump = 0;
    if (clock < 0 && work != NULL) {
        *time = (struct timespec){*work / 1000000, *work % 1000000 * 1000};
        return 0;
    }
    if (clock == CLOCK_REALTIME || clock == CLOCK_BOOTTIME)
        faulty(clock == CLOCK_REALTIME ? CLOCK : BOOTTIME, -1, &jump);
    int result = REAL(clock_gettime)(clock, time);
    time->tv_sec += jump;
    return result;
}

int sched_yield(void)
{
    long none = 0;
    faulty(YIELD, -1, &none);
    return REAL(sched_yield)();
}

long syscall(long number, ...)
{
    va_list list;
    long given[6], told = -1;
    va_start(list, number);
    for (int place = 0; place < 6; place++)
        given[place] = va_arg(list, long);
    va_end(list);
    if (number == SYS_futex && ((given[1] & FUTEX_CMD_MASK) == FUTEX_WAIT || (given[1] & FUTEX_CMD_MASK) == FUTEX_WAIT_BITSET)) {
        const struct timespec *time = (const struct timespec *)given[3];
        told = time == NULL ? -1 : time->tv_sec * 1000 + time->tv_nsec / 1000000;
        if (time != NULL && (given[1] & FUTEX_CMD_MASK) == FUTEX_WAIT_BITSET) {
            struct timespec now;
            REAL(clock_gettime)(given[1] & FUTEX_CLOCK_REALTIME ? CLOCK_REALTIME : CLOCK_MONOTONIC, &now);
            told -= now.tv_sec * 1000 + now.tv_nsec / 1000000;
        }
        int error = faulty(FUTEX, -1, &told);
        if (error != 0) {
            errno = error;
            return -1;
        }
    }
    return REAL(syscall)(number, given[0], given[1], given[2], given[3], given[4], given[5]);
}

/* Counts a request for memory. Whether it is refused. */
static int refuses(size_t size)
{
    long none = 0;
    if (!is_ready)
        return 0;
    atomic_fetch_add(&counts->requests, 1);
    atomic_fetch_add(&counts->by_starts, is_starting);
    atomic_fetch_add(&counts->by_threads, is_started);
    if (!is_starting)
        atomic_fetch_add(&counts->bytes, (long)size);
    if (faulty(MALLOC, -1, &none) == 0)
        return 0;
    atomic_fetch_add(&counts->refused, 1);
    errno = ENOMEM;
    return 1;
}

void *malloc(size_t size)
{
    return refuses(size) ? NULL : __libc_malloc(size);
}
void *calloc(size_t count, size_t size)
{
    return refuses(count * size) ? NULL : __libc_calloc(count, size);
}
void *realloc(void *old, size_t size)
{
    return refuses(size) ? NULL : __libc_realloc(old, size);
}
void *memalign(size_t alignment, size_t size)
{
    return refuses(size) ? NULL : __libc_memalign(alignment, size);
}
void *aligned_alloc(size_t alignment, size_t size)
{
    return refuses(size) ? NULL : __libc_memalign(alignment, size);
}

int posix_memalign(void **result, size_t alignment, size_t size)
{
    if (refuses(size))
        return ENOMEM;
    *result = __libc_memalign(alignment, size);
    return *result != NULL ? 0 : ENOMEM;
}

struct job {
    void *(*run)(void *);
    void *given;
};

/* What a thread runs in place of its own function. */
static void *run_job(void *given)
{
    struct job job = *(struct job *)given;
    free(given);
    is_started = 1;
    void *result = job.run(job.given);
    atomic_fetch_add(&counts->ended, 1);
    return result;
}

int pthread_create(pthread_t *thread, const pthread_attr_t *attributes, void *(*run)(void *), void *given)
{
    long none = 0;
    atomic_fetch_add(&counts->starts, 1);
    int error = faulty(START, -1, &none);
    struct job *job = error != 0 ? NULL : __libc_malloc(sizeof *job);
    if (job == NULL)
        return EAGAIN;
    job->run = run;
    job->given = given;
    is_starting = 1;
    error = REAL(pthread_create)(thread, attributes, run_job, job);
    is_starting = 0;
    if (error != 0)
        free(job);
    else
        atomic_fetch_add(&counts->started, 1);
    return error;
}

/* The program ends by this call. A thread tells others that its work is done a little before it has ended itself, so this waits for those
   that were started: for a minute, which only a thread that never ends takes. */
void _exit(int status)
{
    int left = counts == &own ? 0 : 60000;
    while (left-- > 0 && atomic_load(&counts->ended) < atomic_load(&counts->started))
        REAL(nanosleep)(&(struct timespec){0, 1000000}, NULL);
    for (;;)
        REAL(syscall)(SYS_exit_group, status);
}
