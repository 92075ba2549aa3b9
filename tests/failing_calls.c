// Stands before the C library's read and write (LD_PRELOAD) and makes calls on standard input and standard output fail, or move fewer bytes than asked.
//
//   READ_MOST    the most bytes that a read moves
//   READ_FAILS   "FIRST COUNT ERRNO": that many reads from the FIRST on, counted from 1, fail and move nothing
//   WRITE_MOST, WRITE_FAILS   the same of a write
//   CALLS_LOG    the file that gets a line for each call: "read" or "write", the bytes asked, the answer, and what was done to the call,
//                "failed", "short" or "nothing"
#define _GNU_SOURCE
#include <errno.h>
#include <fcntl.h>
#include <stdio.h>
#include <stdlib.h>
#include <sys/syscall.h>
#include <unistd.h>

struct plan {
    const char *name;
    long system_call;
    int descriptor;
    long made; // calls so far
    long most; // 0: any number of bytes
    long first, count, error;
};

static struct plan reads = {.name = "read", .system_call = SYS_read, .descriptor = STDIN_FILENO};
static struct plan writes = {.name = "write", .system_call = SYS_write, .descriptor = STDOUT_FILENO};
static int calls_log = -1;

static void take_plan(struct plan *plan, const char *most, const char *fails) {
    const char *text = getenv(most);
    if (text && sscanf(text, "%ld", &plan->most) != 1) abort();
    text = getenv(fails);
    if (text && sscanf(text, "%ld %ld %ld", &plan->first, &plan->count, &plan->error) != 3) abort();
}

// The log takes a high descriptor: a test may have closed the low ones, and they must stay closed.
__attribute__((constructor)) static void start(void) {
    take_plan(&reads, "READ_MOST", "READ_FAILS");
    take_plan(&writes, "WRITE_MOST", "WRITE_FAILS");
    const char *path = getenv("CALLS_LOG");
    int low = path ? open(path, O_WRONLY | O_APPEND | O_CREAT | O_CLOEXEC, 0600) : -1;
    calls_log = low < 0 ? -1 : fcntl(low, F_DUPFD_CLOEXEC, 100);
    if (calls_log < 0) abort();
    close(low);
}

static ssize_t call(struct plan *plan, int descriptor, void *bytes, size_t asked) {
    if (descriptor != plan->descriptor) return syscall(plan->system_call, descriptor, bytes, asked);
    plan->made++;
    int fails = plan->first <= plan->made && plan->made < plan->first + plan->count;
    int is_short = plan->most > 0 && (size_t)plan->most < asked;
    ssize_t answer = -1;
    if (fails) {
        errno = (int)plan->error;
    } else {
        answer = syscall(plan->system_call, descriptor, bytes, is_short ? (size_t)plan->most : asked);
    }
    int error = errno;
    dprintf(calls_log, "%s %zu %zd %s\n", plan->name, asked, answer, fails ? "failed" : is_short ? "short" : "nothing");
    errno = error;
    return answer;
}

ssize_t read(int descriptor, void *bytes, size_t asked) { return call(&reads, descriptor, bytes, asked); }

ssize_t write(int descriptor, const void *bytes, size_t asked) { return call(&writes, descriptor, (void *)bytes, asked); }
