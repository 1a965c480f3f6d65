/* Loaded before a program, lets memory, devices and the system fail it. Each behaviour has a switch in the environment, and
   none of them happens unless its switch is set.

   Memory. FAULT_GROWTH is the growth that is refused, counted from 1, and FAULT_GROWTHS how many are from that on, 1 unless it
   is set. The file FAULT_REFUSED is made where one is. The file FAULT_COUNTED keeps how many growths there were so far.

   Devices, which are standard input and standard output. FAULT_MOST is the most bytes that a read gives or a write takes.
   FAULT_READ is the read that fails, counted from 1. FAULT_ROOM is how many bytes the output takes before a write stops.
   FAULT_ERROR is the error of either; a write with error 0 takes nothing. Each fails once alone. The file FAULT_CALLS gets
   one letter for each call, r or w.

   The system. Growths are refused, what is read from and written to sockets is cut short or fails, connections can't be
   accepted, threads can't be started, the clock can't be read, a sleep ends at once, the time-outs of sockets are
   shorter, the disk is full or stores nothing, the wall clock shows another time, and the steady clock stands, or goes on by looks at epoll. How
   often stands in the file FAULT_PAGE, a row of 32-bit numbers that may be changed at any time from outside. Of the odds, 0 is
   never, and n is once in n at random, with the seed FAULT_SEED; so 1 is always. A read and a write fail once in so many bytes.
   After them stand how many times each of these was done, how many reads and writes of sockets were asked for, how often epoll
   was asked to wait, how often it had nothing to tell while the steady clock stood, and the options of the socket that was read
   last. */
#define _GNU_SOURCE
#include <dlfcn.h>
#include <errno.h>
#include <fcntl.h>
#include <limits.h>
#include <netinet/in.h>
#include <netinet/tcp.h>
#include <pthread.h>
#include <stdint.h>
#include <stdlib.h>
#include <string.h>
#include <sys/epoll.h>
#include <sys/mman.h>
#include <sys/socket.h>
#include <sys/stat.h>
#include <sys/syscall.h>
#include <sys/time.h>
#include <time.h>
#include <unistd.h>

static long number(const char *name, long otherwise) {
    const char *digits = getenv(name);
    return digits ? atol(digits) : otherwise;
}

static size_t least(size_t count, size_t most) { return count < most ? count : most; }

/* The bytes of a file, so many, that others see and may change; NULL where there is no such file. */
static void *mapped(const char *switch_name, int flags, size_t size) {
    const char *name = getenv(switch_name);
    int file = name ? open(name, O_RDWR | flags, 0600) : -1;
    if (file < 0 || (flags && ftruncate(file, size)))
        return NULL;
    void *found = mmap(NULL, size, PROT_READ | PROT_WRITE, MAP_SHARED, file, 0);
    close(file);
    return found == MAP_FAILED ? NULL : found;
}

/* ---- the system, as its page has it */

enum { GROWTH, CUT_READ, FAILED_READ, CUT_WRITE, FAILED_WRITE, ACCEPT, THREAD, CLOCK, SLEEP, ODDS };
enum { READS, WRITES, WAYS };
enum { POLLS, RESTS, KEEPS_ALIVE, USER_TIME_OUT, NO_DELAY, SEEN };

/* `most` bytes are read at a time, or written, where it is not 0. `growth_at` and `read_at` count down to the growth that
   is refused and the read that fails, and `room` is one more than the bytes that may be written before a write fails;
   with 0 none is. The odds of growths hold behind the first `calm` ones. `thread_at` counts down to the thread that can't
   be started. Time-outs are `haste` times as short, where it is not 0, and of what is written to a connection that was
   accepted the system keeps `kept` bytes, about. Files take `disk` - 1 bytes more, and then there is no space; with 0 there
   always is. The wall clock is so many seconds ahead by `wall`, a number with a sign. The steady clock stands at `stopped`
   milliseconds, where that is not 0, and waits of epoll end by it. It goes on by `pace` with each look at epoll that doesn't
   wait. Nothing is stored where `unstored` is not 0: each sync fails. */
struct page {
    uint32_t odds[ODDS], most, growth_at, read_at, room, calm, thread_at, haste, kept, disk, wall, stopped, pace,
        unstored;
    uint32_t made[ODDS], asked[WAYS], seen[SEEN];
};

static volatile struct page *page;
static uint32_t seed;

static uint32_t chance(void) {
    static uint32_t threads;
    static __thread uint32_t state;
    if (!state)
        state = (seed + __sync_add_and_fetch(&threads, 1)) * 2654435761u | 1;
    state ^= state << 13;
    state ^= state >> 17;
    return state ^= state << 5;
}

static int happens(int what) {
    uint32_t odds = page ? page->odds[what] : 0;
    if (odds == 0 || chance() % odds)
        return 0;
    __sync_fetch_and_add(&page->made[what], 1);
    return 1;
}

/* Counts a number down by one, unless it is 0, and gives what it was. Threads may do so side by side. */
static uint32_t counted_down(volatile uint32_t *number) {
    uint32_t was = *number;
    while (was && !__sync_bool_compare_and_swap(number, was, was - 1))
        was = *number;
    return was;
}

static int any_of(const int *errors, int count) {
    errno = errors[chance() % count];
    return -1;
}

/* ---- memory */

static long first = -1, refusals, first_growths, *growths = &first_growths;

/* Whether it is one of those that are refused by their number. Threads grow side by side: each growth has a number of its
   own. A growth may come before the library is set up. */
static int is_refused_by_number(void) {
    long growth = __atomic_add_fetch(growths, 1, __ATOMIC_SEQ_CST);
    if (first < 0) {
        refusals = number("FAULT_GROWTHS", 1);
        first = number("FAULT_GROWTH", 0);
    }
    if (first == 0 || growth < first || growth - first >= refusals)
        return 0;
    const char *name = getenv("FAULT_REFUSED");
    if (name)
        close(open(name, O_CREAT | O_WRONLY, 0600));
    return 1;
}

static int is_refused_by_page(void) {
    if (page && counted_down(&page->growth_at) == 1) {
        __sync_fetch_and_add(&page->made[GROWTH], 1);
        return 1;
    }
    if (page && counted_down(&page->calm))
        return 0;
    return happens(GROWTH);
}

static int is_refused(void) { return is_refused_by_number() || is_refused_by_page(); }

void *malloc(size_t size) {
    static void *(*next)(size_t);
    if (!next)
        next = (void *(*)(size_t))dlsym(RTLD_NEXT, "malloc");
    return is_refused() ? NULL : next(size);
}

void *realloc(void *old, size_t size) {
    static void *(*next)(void *, size_t);
    if (!next)
        next = (void *(*)(void *, size_t))dlsym(RTLD_NEXT, "realloc");
    return is_refused() ? NULL : next(old, size);
}

/* ---- standard input and standard output */

static long most = LONG_MAX, failing_read, output_room = LONG_MAX, error;
static int calls = -1;

static void note(char letter) {
    if (calls >= 0)
        syscall(SYS_write, calls, &letter, 1);
}

static ssize_t fault(void) {
    errno = error;
    return error ? -1 : 0;
}

static ssize_t read_input(void *bytes, size_t count) {
    static long reads;
    note('r');
    if (++reads == failing_read)
        return fault();
    return syscall(SYS_read, STDIN_FILENO, bytes, least(count, most));
}

static ssize_t write_output(const void *bytes, size_t count) {
    static long taken, has_stopped;
    note('w');
    long room = has_stopped ? LONG_MAX : output_room - taken;
    if (room == 0) {
        has_stopped = 1;
        return fault();
    }
    ssize_t went_out = syscall(SYS_write, STDOUT_FILENO, bytes, least(least(count, room), most));
    taken += went_out > 0 ? went_out : 0;
    return went_out;
}

/* ---- sockets */

static int is_socket(int device) {
    struct stat about;
    return page && !fstat(device, &about) && S_ISSOCK(about.st_mode);
}

static int is_file(int device) {
    struct stat about;
    return page && page->disk && !fstat(device, &about) && S_ISREG(about.st_mode);
}

/* What the disk took of a write to a file. */
static ssize_t taken_by_disk(ssize_t taken) {
    page->disk -= taken > 0 ? taken : 0;
    return taken;
}

static ssize_t no_space(void) {
    errno = ENOSPC;
    return -1;
}

/* A write to a file, of which the disk takes what there is space for. */
static ssize_t write_file(int file, const void *bytes, size_t count) {
    count = least(count, page->disk - 1);
    return count ? taken_by_disk(syscall(SYS_write, file, bytes, count)) : no_space();
}

/* The same at an offset. */
ssize_t pwrite64(int file, const void *bytes, size_t count, off64_t at) {
    if (count == 0 || !is_file(file))
        return syscall(SYS_pwrite64, file, bytes, count, at);
    count = least(count, page->disk - 1);
    return count ? taken_by_disk(syscall(SYS_pwrite64, file, bytes, count, at)) : no_space();
}

ssize_t pwrite(int file, const void *bytes, size_t count, off_t at) { return pwrite64(file, bytes, count, at); }

int fsync(int file) {
    if (page && page->unstored) {
        errno = EIO;
        return -1;
    }
    return syscall(SYS_fsync, file);
}

/* Whether calls of a socket never wait. Then EAGAIN promises to tell when it is ready, and no write takes nothing: neither is
   a fault that a system has. */
static int never_waits(int device) { return fcntl(device, F_GETFL) & O_NONBLOCK; }

/* A read that fails, with whatever error. */
static ssize_t no_read(int device) {
    static const int errors[] = {ECONNRESET, EIO, EINTR, ETIMEDOUT, EAGAIN};
    return any_of(errors, never_waits(device) ? 4 : 5);
}

/* A write that fails, with whatever error, or takes nothing. One that is only interrupted may be made again, so where a
   write is to fail behind so many bytes, and no odds are given, it isn't of that kind. */
static ssize_t no_write(int device) {
    static const int errors[] = {EPIPE, EIO, ENOBUFS, EINTR}, waiting[] = {EPIPE, EIO, ENOBUFS, EAGAIN, EINTR};
    int interrupted = page->odds[FAILED_WRITE] > 0;
    if (never_waits(device))
        return any_of(errors, 3 + interrupted);
    return chance() % 6 ? any_of(waiting, 4 + interrupted) : 0;
}

/* One more than the bytes that pass before the next read or write fails; 0 is not known yet. */
static __thread uint32_t left[WAYS];

static int is_failed(int way, int failed) {
    uint32_t odds = page->odds[failed];
    if (odds == 0)
        return 0;
    if (left[way] == 0)
        left[way] = 2 + chance() % (2 * odds);
    if (left[way] > 1)
        return 0;
    left[way] = 0;
    __sync_fetch_and_add(&page->made[failed], 1);
    return 1;
}

/* How many bytes of a read or write go through; none where it fails. */
static size_t passes(int way, int cut, int failed, size_t count) {
    __sync_fetch_and_add(&page->asked[way], 1);
    if (is_failed(way, failed))
        return 0;
    if (page->odds[failed])
        count = least(count, left[way] - 1);
    if (page->most)
        count = least(count, page->most);
    return count > 1 && happens(cut) ? 1 + chance() % least(count, 9) : count;
}

/* A number that is an option of a socket. */
static uint32_t option_of(int device, int level, int name) {
    int value = 0;
    socklen_t size = sizeof value;
    syscall(SYS_getsockopt, device, level, name, &value, &size);
    return value;
}

static void look_at(int device) {
    page->seen[KEEPS_ALIVE] = option_of(device, SOL_SOCKET, SO_KEEPALIVE);
    page->seen[USER_TIME_OUT] = option_of(device, IPPROTO_TCP, TCP_USER_TIMEOUT);
    page->seen[NO_DELAY] = option_of(device, IPPROTO_TCP, TCP_NODELAY);
}

static size_t readable(int device, size_t count) {
    look_at(device);
    if (counted_down(&page->read_at) == 1)
        return 0;
    return passes(READS, CUT_READ, FAILED_READ, count);
}

static size_t writable(size_t count) {
    if (page->room)
        count = least(count, page->room - 1);
    count = count ? passes(WRITES, CUT_WRITE, FAILED_WRITE, count) : 0;
    if (page->room)
        page->room = count ? page->room - count : 0;
    return count;
}

static ssize_t went(int way, ssize_t count) {
    if (count > 0 && left[way] > 1)
        left[way] -= least(left[way] - 1, count);
    return count;
}

ssize_t read(int device, void *bytes, size_t count) {
    if (device == STDIN_FILENO)
        return read_input(bytes, count);
    if (count && is_socket(device) && !(count = readable(device, count)))
        return no_read(device);
    return went(READS, syscall(SYS_read, device, bytes, count));
}

ssize_t recv(int device, void *bytes, size_t count, int flags) {
    if (count && page && !(count = readable(device, count)))
        return no_read(device);
    return went(READS, syscall(SYS_recvfrom, device, bytes, count, flags, NULL, NULL));
}

ssize_t write(int device, const void *bytes, size_t count) {
    if (device == STDOUT_FILENO)
        return write_output(bytes, count);
    if (count && is_file(device))
        return write_file(device, bytes, count);
    if (count && is_socket(device) && !(count = writable(count)))
        return no_write(device);
    return went(WRITES, syscall(SYS_write, device, bytes, count));
}

ssize_t send(int device, const void *bytes, size_t count, int flags) {
    if (count && page && !(count = writable(count)))
        return no_write(device);
    return went(WRITES, syscall(SYS_sendto, device, bytes, count, flags, NULL, 0));
}

int accept4(int listener, struct sockaddr *address, socklen_t *length, int flags) {
    static const int errors[] = {EMFILE, ENFILE, ECONNABORTED, EINTR, EPROTO};
    if (happens(ACCEPT))
        return any_of(errors, 5);
    int came = syscall(SYS_accept4, listener, address, length, flags);
    if (came >= 0 && page && page->kept) {
        int bytes = page->kept;
        syscall(SYS_setsockopt, came, SOL_SOCKET, SO_SNDBUF, &bytes, sizeof bytes);
    }
    return came;
}

int accept(int listener, struct sockaddr *address, socklen_t *length) { return accept4(listener, address, length, 0); }

int setsockopt(int device, int level, int name, const void *value, socklen_t size) {
    struct timeval shorter;
    int is_limit = level == SOL_SOCKET && (name == SO_RCVTIMEO || name == SO_SNDTIMEO) && size == sizeof shorter;
    if (is_limit && page && page->haste) {
        memcpy(&shorter, value, sizeof shorter);
        int64_t micros = (shorter.tv_sec * INT64_C(1000000) + shorter.tv_usec) / page->haste;
        shorter.tv_sec = micros / 1000000;
        shorter.tv_usec = micros % 1000000;
        value = &shorter;
    }
    return syscall(SYS_setsockopt, device, level, name, value, size);
}

/* ---- threads and time */

int pthread_create(pthread_t *thread, const pthread_attr_t *how, void *(*run)(void *), void *with) {
    static int (*next)(pthread_t *, const pthread_attr_t *, void *(*)(void *), void *);
    if (!next)
        next = (int (*)(pthread_t *, const pthread_attr_t *, void *(*)(void *), void *))dlsym(RTLD_NEXT, "pthread_create");
    if (page && counted_down(&page->thread_at) == 1) {
        __sync_fetch_and_add(&page->made[THREAD], 1);
        return EAGAIN;
    }
    return happens(THREAD) ? EAGAIN : next(thread, how, run, with);
}

/* What the steady clock showed last, where it stands. */
static __thread uint32_t shown;

int clock_gettime(clockid_t clock, struct timespec *now) {
    static const int errors[] = {EINVAL, EPERM};
    if (happens(CLOCK))
        return any_of(errors, 2);
    int read = syscall(SYS_clock_gettime, clock, now);
    if (read == 0 && page && clock == CLOCK_REALTIME)
        now->tv_sec += (int32_t)page->wall;
    uint32_t stopped = page && clock == CLOCK_MONOTONIC ? page->stopped : 0;
    if (read == 0 && stopped) {
        *now = (struct timespec){stopped / 1000, stopped % 1000 * 1000000};
        shown = stopped;
    }
    return read;
}

static int polled(int poll, struct epoll_event *events, int most_events, int time_out) {
    return syscall(SYS_epoll_pwait, poll, events, most_events, time_out, NULL, 8);
}

/* Where the steady clock stands a wait lasts until that was set so far ahead of what it showed last. */
int epoll_wait(int poll, struct epoll_event *events, int most_events, int time_out) {
    if (page)
        __sync_fetch_and_add(&page->seen[POLLS], 1);
    if (page && page->stopped && time_out == 0)
        page->stopped += page->pace;
    if (!page || !page->stopped || time_out <= 0)
        return polled(poll, events, most_events, time_out);
    for (;;) {
        int came = polled(poll, events, most_events, 1);
        if (came || page->stopped - shown >= (uint32_t)time_out)
            return came;
        __sync_fetch_and_add(&page->seen[RESTS], 1);
    }
}

int nanosleep(const struct timespec *wanted, struct timespec *rest) {
    static const int errors[] = {EINTR, EINVAL};
    return happens(SLEEP) ? any_of(errors, 2) : syscall(SYS_nanosleep, wanted, rest);
}

int clock_nanosleep(clockid_t clock, int flags, const struct timespec *wanted, struct timespec *rest) {
    return happens(SLEEP) || syscall(SYS_clock_nanosleep, clock, flags, wanted, rest) == 0 ? 0 : errno;
}

/* ---- the switches that are read once */

__attribute__((constructor)) static void set_up(void) {
    most = number("FAULT_MOST", LONG_MAX);
    failing_read = number("FAULT_READ", 0);
    output_room = number("FAULT_ROOM", LONG_MAX);
    error = number("FAULT_ERROR", 0);
    const char *name = getenv("FAULT_CALLS");
    calls = name ? open(name, O_CREAT | O_WRONLY | O_APPEND, 0600) : -1;
    seed = number("FAULT_SEED", 1);
    page = mapped("FAULT_PAGE", 0, sizeof *page);
    long *counted = mapped("FAULT_COUNTED", O_CREAT, sizeof *counted);
    if (counted) {
        *counted = first_growths;
        growths = counted;
    }
}
