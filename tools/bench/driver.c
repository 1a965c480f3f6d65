/* Clients of one thread that load a server, and measure it: `rv host`, or `redis-server`.

   driver load rv|redis PORT FIRST CONNECTIONS PIECE REQUESTS
     Each connection puts an item and takes it, again and again, PIECE requests in one piece, until all have asked REQUESTS of
     them. Prints the seconds of all, and the microseconds from a piece to its last answer: the median, and the 99th of 100.
   driver hand rv|redis PORT FIRST OTHERS ROUNDS
     OTHERS wait for items that don't come. In each round a taker waits, and a giver puts: prints the microseconds from the put's
     first byte to the whole item in the taker's hands, the median and the 99th of 100.
   driver wait rv|redis PORT FIRST OTHERS SECONDS
     OTHERS wait: it prints `ready`. It goes on for so long, and asks again for each that is told that it waits. Prints how often
     that was.

   At rv each connection is a client of its own, numbered from FIRST on, in epoch 1; at Redis a put is LPUSH and a take is BRPOP. Each answer is compared byte by
   byte; where one is another, or none comes for a minute, the run ends with status 1. */
#include <arpa/inet.h>
#include <errno.h>
#include <netinet/in.h>
#include <netinet/tcp.h>
#include <stdio.h>
#include <stdlib.h>
#include <string.h>
#include <sys/epoll.h>
#include <sys/socket.h>
#include <time.h>
#include <unistd.h>

enum { PATIENCE = 60, ROOM = 16384, EVENTS = 256, QUEUES = 64, MOST_PIECE = 64 };
static const char ITEM[] = "0123456789abcdef";

/* A connection: what is expected next, and how much of it came. */
struct link {
    int socket;
    long client, number, left;
    size_t expected, came;
    double sent;
    char wanted[ROOM];
};

/* Text that grows. */
struct text {
    size_t length;
    char bytes[ROOM];
};

static int is_redis;
static long first;
static struct sockaddr_in address;

static void fail(const char *what) {
    fprintf(stderr, "driver: %s: %s\n", what, strerror(errno));
    exit(1);
}

static double now(void) {
    struct timespec time;
    clock_gettime(CLOCK_MONOTONIC, &time);
    return time.tv_sec + time.tv_nsec / 1e9;
}

/* ---- what is asked, and what is answered */

static void add(struct text *text, const char *bytes, size_t length) {
    if (text->length + length > ROOM)
        fail("a piece is too long");
    memcpy(text->bytes + text->length, bytes, length);
    text->length += length;
}

static void add_frame(struct text *text, const char *body) {
    size_t length = strlen(body);
    char head[2] = {(char)(length >> 8), (char)length};
    add(text, head, 2);
    add(text, body, length);
}

static void add_key(char *body, const struct link *link, const char *kind, const char *more, const char *call) {
    sprintf(body, "{%s\"client\":%ld,\"epoch\":1,\"incarnation\":1,%s\"kind\":\"%s\",\"number\":%ld,", call, link->client, more,
            kind, link->number);
}

/* A put into a queue, or a take that waits, with its answer. */
static void ask_rv(struct text *asked, struct text *told, const struct link *link, int puts, long queue) {
    char body[512], end[64], item[64];
    sprintf(item, "\"item\":\"%s\",", ITEM);
    add_key(body, link, "request", puts ? item : "", puts ? "\"call\":\"put\"," : "\"call\":\"take\",");
    sprintf(end, puts ? "\"queue\":%ld}" : "\"queue\":%ld,\"wait\":\"forever\"}", queue);
    add_frame(asked, strcat(body, end));
    add_key(body, link, "reply", puts ? "" : item, "");
    add_frame(told, strcat(body, puts ? "\"reply\":\"done\"}" : "\"reply\":\"item\"}"));
}

static void ask_redis(struct text *asked, struct text *told, int puts, long queue) {
    char key[32], body[256];
    int length = sprintf(key, "queue %ld", queue);
    sprintf(body, puts ? "*3\r\n$5\r\nLPUSH\r\n$%d\r\n%s\r\n$%zu\r\n%s\r\n" : "*3\r\n$5\r\nBRPOP\r\n$%d\r\n%s\r\n$1\r\n0\r\n", length, key,
            strlen(ITEM), ITEM);
    add(asked, body, strlen(body));
    sprintf(body, puts ? ":1\r\n" : "*2\r\n$%d\r\n%s\r\n$%zu\r\n%s\r\n", length, key, strlen(ITEM), ITEM);
    add(told, body, strlen(body));
}

static void ask(struct text *asked, struct text *told, struct link *link, int puts, long queue) {
    link->number++;
    if (is_redis)
        ask_redis(asked, told, puts, queue);
    else
        ask_rv(asked, told, link, puts, queue);
}

/* ---- connections */

static void send_text(struct link *link, const struct text *asked, const struct text *told) {
    memcpy(link->wanted, told->bytes, told->length);
    link->expected = told->length;
    link->came = 0;
    link->sent = now();
    size_t sent = 0;
    while (sent < asked->length) {
        ssize_t taken = send(link->socket, asked->bytes + sent, asked->length - sent, MSG_NOSIGNAL);
        if (taken <= 0)
            fail("send");
        sent += taken;
    }
}

/* Reads what came, which must be what is wanted; whether all of it is there. */
static int is_answered(struct link *link, int flags) {
    char bytes[ROOM];
    ssize_t count = recv(link->socket, bytes, link->expected - link->came, flags);
    if (count < 0 && errno == EAGAIN)
        return 0;
    if (count <= 0)
        fail("recv");
    if (memcmp(bytes, link->wanted + link->came, count)) {
        fprintf(stderr, "driver: %.*s in place of %.*s\n", (int)count, bytes, (int)link->expected, link->wanted);
        exit(1);
    }
    link->came += count;
    return link->came == link->expected;
}

static void hear(struct link *link) {
    while (!is_answered(link, 0)) {
    }
}

/* Connects, and at rv says hello. */
static void open_link(struct link *link, long client) {
    int one = 1;
    struct timeval patience = {PATIENCE, 0};
    link->client = client;
    link->socket = socket(AF_INET, SOCK_STREAM, 0);
    if (link->socket < 0 || connect(link->socket, (struct sockaddr *)&address, sizeof address))
        fail("connect");
    setsockopt(link->socket, IPPROTO_TCP, TCP_NODELAY, &one, sizeof one);
    setsockopt(link->socket, SOL_SOCKET, SO_RCVTIMEO, &patience, sizeof patience);
    if (is_redis)
        return;
    struct text asked = {0}, told = {0};
    char body[256];
    sprintf(body, "{\"client\":%ld,\"incarnation\":1,\"kind\":\"hello\"}", client);
    add_frame(&asked, body);
    sprintf(body, "{\"client\":%ld,\"epoch\":1,\"incarnation\":1,\"kind\":\"welcome\"}", client);
    add_frame(&told, body);
    send_text(link, &asked, &told);
    hear(link);
}

static struct link *open_links(long count) {
    struct link *links = calloc(count + 1, sizeof *links);
    if (!links)
        fail("calloc");
    for (long at = 0; at < count; at++)
        open_link(&links[at], first++);
    return links;
}

static int watch(struct link *links, long count) {
    int poll = epoll_create1(0);
    for (long at = 0; at < count; at++) {
        struct epoll_event event = {.events = EPOLLIN, .data.ptr = &links[at]};
        if (epoll_ctl(poll, EPOLL_CTL_ADD, links[at].socket, &event))
            fail("epoll_ctl");
    }
    return poll;
}

/* ---- what is told */

static int by_size(const void *one, const void *other) {
    double difference = *(const double *)one - *(const double *)other;
    return (difference > 0) - (difference < 0);
}

/* The median and the 99th of 100, in microseconds. */
static void tell(double *times, long count) {
    qsort(times, count, sizeof *times, by_size);
    printf("%.2f %.2f\n", times[count / 2] * 1e6, times[count * 99 / 100] * 1e6);
}

/* ---- the three ways */

static void send_piece(struct link *link, long piece) {
    struct text asked = {0}, told = {0};
    long queue = is_redis ? link->client : link->client % QUEUES;
    for (long at = 0; at < piece; at++)
        ask(&asked, &told, link, link->number % 2 == 0, queue);
    link->left -= piece;
    send_text(link, &asked, &told);
}

static void load(long connections, long piece, long requests) {
    long pieces = requests / connections / piece, done = 0, all = pieces * connections;
    struct link *links = open_links(connections);
    double *times = calloc(all + 1, sizeof *times), began;
    int poll = watch(links, connections);
    if (all < 1 || piece > MOST_PIECE || !times)
        fail("no such load");
    began = now();
    for (long at = 0; at < connections; at++) {
        links[at].left = pieces * piece;
        send_piece(&links[at], piece);
    }
    while (done < all) {
        struct epoll_event events[EVENTS];
        int count = epoll_wait(poll, events, EVENTS, PATIENCE * 1000);
        if (count <= 0)
            fail("nothing came");
        for (int at = 0; at < count; at++) {
            struct link *link = events[at].data.ptr;
            if (!is_answered(link, MSG_DONTWAIT))
                continue;
            times[done++] = now() - link->sent;
            if (link->left)
                send_piece(link, piece);
        }
    }
    printf("%.6f ", now() - began);
    tell(times, done);
}

/* Waits for an item of another queue than the first. */
static void take_another(struct link *link) {
    struct text asked = {0}, told = {0};
    ask(&asked, &told, link, 0, 1 + link->client % (QUEUES - 1));
    send_text(link, &asked, &told);
}

static struct link *open_waiting(long others) {
    struct link *links = open_links(others);
    for (long at = 0; at < others; at++)
        take_another(&links[at]);
    return links;
}

static void hand(long others, long rounds) {
    static struct link taker, giver;
    double *times = calloc(rounds + 1, sizeof *times);
    if (!times || rounds < 1)
        fail("no such rounds");
    open_link(&taker, first++);
    open_link(&giver, first++);
    open_waiting(others);
    for (long round = 0; round < rounds; round++) {
        struct text asked = {0}, told = {0}, given = {0}, done = {0};
        ask(&asked, &told, &taker, 0, 0);
        send_text(&taker, &asked, &told);
        ask(&given, &done, &giver, 1, 0);
        usleep(300);
        send_text(&giver, &given, &done);
        hear(&taker);
        times[round] = now() - giver.sent;
        hear(&giver);
    }
    tell(times, rounds);
}

/* Takes in that it waits, and asks again; the same request stands. */
static void ask_again(struct link *link) {
    char bytes[ROOM];
    ssize_t count = recv(link->socket, bytes, ROOM, 0);
    if (count <= 0 || !memmem(bytes, count, "\"kind\":\"waiting\"", 16))
        fail("who waits was told something else");
    link->number--;
    take_another(link);
}

static void wait_long(long others, double seconds) {
    struct link *links = open_waiting(others);
    int poll = watch(links, others);
    long again = 0;
    double ends = now() + seconds;
    puts("ready");
    fflush(stdout);
    for (double left = seconds; left > 0; left = ends - now()) {
        struct epoll_event events[EVENTS];
        int count = epoll_wait(poll, events, EVENTS, (int)(left * 1000) + 1);
        for (int at = 0; at < count; at++, again++)
            ask_again(events[at].data.ptr);
    }
    printf("%ld\n", again);
}

int main(int count, char **words) {
    if (count < 7)
        return fputs("usage: driver load|hand|wait rv|redis PORT FIRST ..\n", stderr), 2;
    is_redis = !strcmp(words[2], "redis");
    address.sin_family = AF_INET;
    address.sin_port = htons(atoi(words[3]));
    address.sin_addr.s_addr = htonl(INADDR_LOOPBACK);
    first = atol(words[4]);
    if (!strcmp(words[1], "load") && count == 8)
        load(atol(words[5]), atol(words[6]), atol(words[7]));
    else if (!strcmp(words[1], "hand"))
        hand(atol(words[5]), atol(words[6]));
    else
        wait_long(atol(words[5]), atof(words[6]));
    return 0;
}
