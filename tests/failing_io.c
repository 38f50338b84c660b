/*
 * For LD_PRELOAD: read of standard input and write of standard output and standard error, as they fail or fall short in the field. Numbers in
 * the environment, with READ_, WRITE_ and ERR_ in front for these three:
 *   MOST     the most bytes that one call moves;
 *   AT       after how many bytes a call fails;
 *   TIMES    how many calls in a row fail there, 1 without it;
 *   EVERY    how many bytes further on the next ones fail, and so on; without it none does;
 *   ERRNO    with which number they fail, and 0 is a call that moves nothing;
 * and CALLS, the descriptor to which `reads R writes W errors E others O` goes at the end: how often each of the three was called, and how
 * often read or write of another descriptor.
 */
#define _GNU_SOURCE
#include <dlfcn.h>
#include <errno.h>
#include <stdio.h>
#include <stdlib.h>
#include <unistd.h>

typedef ssize_t move_fn(int, void *, size_t);

/* One direction: how much it moved, how often it was called, how often it has failed at this place, and how many places lie behind it. */
struct direction {
    const char *name, *most, *at, *times, *every, *number;
    size_t moved, calls, failed, places;
};

#define DIRECTION(name, prefix) {name, prefix "_MOST", prefix "_AT", prefix "_TIMES", prefix "_EVERY", prefix "_ERRNO", 0, 0, 0, 0}

static struct direction reads = DIRECTION("read", "READ");
static struct direction writes = DIRECTION("write", "WRITE");
static struct direction errors = DIRECTION("write", "ERR");
static size_t others;

static size_t number(const char *name, size_t otherwise)
{
    const char *text = getenv(name);
    return text ? strtoull(text, NULL, 10) : otherwise;
}

/* The next place at which calls fail, or the greatest number if there is none. */
static size_t next_place(const struct direction *d)
{
    size_t at = number(d->at, (size_t)-1), every = number(d->every, 0);
    return d->places == 0 ? at : every == 0 ? (size_t)-1 : at + d->places * every;
}

static ssize_t move(struct direction *d, int fd, void *bytes, size_t count)
{
    size_t most = number(d->most, count), place = next_place(d);
    d->calls++;
    if (d->moved >= place && d->failed < number(d->times, 1)) {
        d->failed++;
        errno = (int)number(d->number, EIO);
        return errno == 0 ? 0 : -1;
    }
    if (d->moved >= place) {
        d->failed = 0;
        d->places++;
        place = next_place(d);
    }
    if (place - d->moved < most)
        most = place - d->moved;
    ssize_t got = ((move_fn *)dlsym(RTLD_NEXT, d->name))(fd, bytes, count < most ? count : most);
    if (got > 0)
        d->moved += (size_t)got;
    return got;
}

static ssize_t other(const char *name, int fd, void *bytes, size_t count)
{
    others++;
    return ((move_fn *)dlsym(RTLD_NEXT, name))(fd, bytes, count);
}

ssize_t read(int fd, void *bytes, size_t count)
{
    return fd == 0 ? move(&reads, fd, bytes, count) : other("read", fd, bytes, count);
}

ssize_t write(int fd, const void *bytes, size_t count)
{
    if (fd == 1 || fd == 2)
        return move(fd == 1 ? &writes : &errors, fd, (void *)bytes, count);
    return other("write", fd, (void *)bytes, count);
}

__attribute__((destructor)) static void tell(void)
{
    if (getenv("CALLS"))
        dprintf((int)number("CALLS", 0), "reads %zu writes %zu errors %zu others %zu\n", reads.calls, writes.calls, errors.calls, others);
}
