// Notes from outside which calls of the system a program makes, and has some do otherwise, for tests/system, tests/sessions and tests/upkeep.
//     cc -O1 -shared -fPIC -o calls.so calls.c -ldl
//
// Preloaded, it adds a line to the file CALLS_FILE at each fsync, fdatasync, getaddrinfo and connect: the call, and the last part of the
// file's name, the host or the address.
//
// CALLS_PLAN has plans with a comma between two, each `CALL NAME WHAT`, for the calls fsync, fdatasync, close, flock, fstat (a statx of
// an open file), lstat (one of a path), futimens, link, unlink, rename, recv, send, read, write, connect and getaddrinfo. NAME is the last part of the name of
// the file (of link and rename that which it had), or the host; * is any. WHAT is
//   E..            the call fails with this error: EIO, or ENOSPC; a close closes all the same
//   EINTR          the first such call is interrupted
//   gone           before the first such call the file is removed, and its directory with it
//   moved          before the first such call the file gets another name, with `.moved` at its end
//   other          before the first such call another file of as many bytes, each an x, takes its place
//   A+B..          getaddrinfo answers these addresses, in this order
//   never          getaddrinfo doesn't answer as long as a test lasts
//   long           fstat says that the file is 2^31 bytes longer
//   seconds        lstat says when a file was changed last in whole seconds
//   small          a connection has as little room as can be for what is sent
#define _GNU_SOURCE
#include <arpa/inet.h>
#include <dlfcn.h>
#include <errno.h>
#include <fcntl.h>
#include <libgen.h>
#include <netdb.h>
#include <stdio.h>
#include <stdlib.h>
#include <string.h>
#include <sys/socket.h>
#include <sys/stat.h>
#include <unistd.h>

#define NEXT(name) ((__typeof__(&name))dlsym(RTLD_NEXT, #name))

static const char *last_of(const char *path)
{
    const char *last = strrchr(path, '/');
    return last ? last + 1 : path;
}

// The path of an open file.
static void path_of(int file, char path[4096])
{
    char link[64];
    snprintf(link, sizeof link, "/proc/self/fd/%d", file);
    ssize_t length = readlink(link, path, 4095);
    path[length < 0 ? 0 : length] = 0;
}

static void note(const char *call, const char *name)
{
    const char *notes = getenv("CALLS_FILE");
    int to = notes ? open(notes, O_WRONLY | O_CREAT | O_APPEND, 0644) : -1;
    if (to >= 0) {
        char line[4200];
        int size = snprintf(line, sizeof line, "%s %s\n", call, name);
        (void)!NEXT(write)(to, line, size);
        NEXT(close)(to);
    }
}

// What is planned for a call at this name, in a text that the next call takes; none if nothing is.
static char *plan_of(const char *call, const char *name)
{
    static __thread char plans[4096];
    const char *all = getenv("CALLS_PLAN");
    snprintf(plans, sizeof plans, "%s", all ? all : "");
    char *rest = plans, *plan;
    while ((plan = strsep(&rest, ","))) {
        char *of = strsep(&plan, " "), *at = strsep(&plan, " ");
        if (plan && !strcmp(of, call) && (!strcmp(at, name) || !strcmp(at, "*")))
            return plan;
    }
    return NULL;
}

// Does what is planned for a call at this path, and says whether the call fails by it.
static int is_failed(const char *call, const char *path)
{
    static int is_done;
    char *plan = plan_of(call, last_of(path)), other[4200];
    if (!plan)
        return 0;
    if (*plan == 'E' && strcmp(plan, "EINTR")) {
        errno = strcmp(plan, "ENOSPC") ? EIO : ENOSPC;
        return 1;
    }
    if (!strcmp(plan, "long"))
        return 0;
    // What is left is done once.
    if (__atomic_exchange_n(&is_done, 1, __ATOMIC_SEQ_CST))
        return 0;
    if (!strcmp(plan, "EINTR")) {
        errno = EINTR;
        return 1;
    }
    int was = errno;
    if (!strcmp(plan, "gone")) {
        snprintf(other, sizeof other, "%s", path);
        NEXT(unlink)(other);
        NEXT(rmdir)(dirname(other));
    } else if (!strcmp(plan, "other")) {
        struct stat found;
        snprintf(other, sizeof other, "%s.other", path);
        FILE *to = stat(path, &found) ? NULL : fopen(other, "w");
        for (off_t left = to ? found.st_size : 0; left > 0; left--)
            fputc('x', to);
        if (to && !fclose(to))
            NEXT(rename)(other, path);
    } else {
        snprintf(other, sizeof other, "%s.moved", path);
        NEXT(rename)(path, other);
    }
    errno = was;
    return 0;
}

static int is_file_failed(const char *call, int file)
{
    char path[4096];
    path_of(file, path);
    return is_failed(call, path);
}

static void note_file(const char *call, int file)
{
    char path[4096];
    path_of(file, path);
    note(call, last_of(path));
}

int fsync(int file)
{
    note_file("fsync", file);
    return is_file_failed("fsync", file) ? -1 : NEXT(fsync)(file);
}

int fdatasync(int file)
{
    note_file("fdatasync", file);
    return is_file_failed("fdatasync", file) ? -1 : NEXT(fdatasync)(file);
}

int flock(int file, int operation)
{
    return is_file_failed("flock", file) ? -1 : NEXT(flock)(file, operation);
}

int close(int file)
{
    int failed = is_file_failed("close", file), error = errno, closed = NEXT(close)(file);
    errno = failed ? error : errno;
    return failed ? -1 : closed;
}

int statx(int dir, const char *path, int flags, unsigned mask, struct statx *found)
{
    if (!*path && is_file_failed("fstat", dir))
        return -1;
    int failed = NEXT(statx)(dir, path, flags, mask, found);
    char at[4096], *plan;
    path_of(dir, at);
    plan = *path ? NULL : plan_of("fstat", last_of(at));
    if (!failed && plan && !strcmp(plan, "long"))
        found->stx_size += 1u << 31;
    plan = *path ? plan_of("lstat", last_of(path)) : NULL;
    if (!failed && plan && !strcmp(plan, "seconds"))
        found->stx_ctime.tv_nsec = 0;
    return failed;
}

int futimens(int file, const struct timespec times[2])
{
    return is_file_failed("futimens", file) ? -1 : NEXT(futimens)(file, times);
}

int link(const char *from, const char *to)
{
    return is_failed("link", from) ? -1 : NEXT(link)(from, to);
}

int unlink(const char *path)
{
    return is_failed("unlink", path) ? -1 : NEXT(unlink)(path);
}

int rename(const char *from, const char *to)
{
    return is_failed("rename", from) ? -1 : NEXT(rename)(from, to);
}

ssize_t write(int file, const void *bytes, size_t size)
{
    return is_file_failed("write", file) ? -1 : NEXT(write)(file, bytes, size);
}

ssize_t read(int file, void *room, size_t size)
{
    return is_file_failed("read", file) ? -1 : NEXT(read)(file, room, size);
}

ssize_t recv(int file, void *room, size_t size, int flags)
{
    return is_file_failed("recv", file) ? -1 : NEXT(recv)(file, room, size, flags);
}

ssize_t send(int file, const void *bytes, size_t size, int flags)
{
    return is_file_failed("send", file) ? -1 : NEXT(send)(file, bytes, size, flags);
}

int connect(int file, const struct sockaddr *to, socklen_t size)
{
    char name[64] = "";
    if (to->sa_family == AF_INET) {
        inet_ntop(AF_INET, &((const struct sockaddr_in *)to)->sin_addr, name, sizeof name);
        note("connect", name);
    }
    char *plan = plan_of("connect", name);
    int least = 1;
    if (plan && !strcmp(plan, "small"))
        setsockopt(file, SOL_SOCKET, SO_SNDBUF, &least, sizeof least);
    return NEXT(connect)(file, to, size);
}

int getaddrinfo(const char *host, const char *port, const struct addrinfo *hints, struct addrinfo **found)
{
    const char *name = host ? host : "";
    note("getaddrinfo", name);
    char *plan = plan_of("getaddrinfo", name), *address;
    if (!plan)
        return NEXT(getaddrinfo)(host, port, hints, found);
    if (!strcmp(plan, "never")) {
        sleep(3600);
        return EAI_AGAIN;
    }
    struct addrinfo **last = found;
    *found = NULL;
    while ((address = strsep(&plan, "+"))) {
        int failed = NEXT(getaddrinfo)(address, port, hints, last);
        if (failed)
            return failed;
        while (*last)
            last = &(*last)->ai_next;
    }
    return 0;
}
