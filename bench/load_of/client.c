/* Clients of hosts on this machine, as many as there are connections, and when each of their payments
   was to be sent, was sent and was answered.

   usage: client PORTS CONNECTIONS RATE AHEAD SEED PATIENCE OUT <FRAMES

   FRAMES has requests of 48 bytes. Above 0 RATE is how many arrive in a second: the times between them
   are exponential, each goes out at its time over a connection at random, and none waits for an answer
   (an open loop). At RATE 0 each connection has AHEAD requests without an answer at once (a closed loop).

   All connect to the first of the PORTS (as 7000,7001). A connection that ends is made anew, with the
   next port in turn, and what has no answer is sent again. Where nothing is answered for PATIENCE seconds behind the last arrival, it ends.
   OUT gets for each request three doubles, seconds of CLOCK_MONOTONIC: when it was to be sent, was first
   sent, and was answered, or 0. Standard output tells the connections that ended, and seconds of processor. */
#include <arpa/inet.h>
#include <errno.h>
#include <fcntl.h>
#include <math.h>
#include <netinet/tcp.h>
#include <stdint.h>
#include <stdio.h>
#include <stdlib.h>
#include <string.h>
#include <sys/epoll.h>
#include <sys/prctl.h>
#include <sys/resource.h>
#include <sys/socket.h>
#include <time.h>
#include <unistd.h>

enum { REQUEST = 48, REPLY = 24, MOST_PORTS = 16, AT_ONCE = 256, PIECE = 65536 };
/* What stands before the key serial number in a reply, and the code behind it. */
enum { FRONT = 4, SERIAL = 10, CODE = FRONT + SERIAL };
static const uint8_t reply_front[FRONT] = {0, 22, 1, 2};
#define AGAIN 0.01

struct timing {
    double meant, sent, answered;
};

/* The requests of a connection, by their places among all: those before `answered` have answers, those
   before `sent` went out over the socket that it has now. */
struct connection {
    int socket, port;
    long *requests;
    size_t count, room, sent, answered;
    /* Bytes of the request at `sent` that went out, and of the answer that is not whole yet. */
    size_t part, held;
    uint8_t reply[REPLY];
    int is_blocked;
    double again;
};

static uint8_t *frames;
static struct timing *timings;
static long total, arrived, answered, ended;
static struct connection *connections;
static int connection_count, port_count, ports[MOST_PORTS], waits, lost;
static uint64_t state;

static void fail(const char *why)
{
    fprintf(stderr, "client: %s\n", why);
    exit(1);
}

static double now(void)
{
    struct timespec time;
    clock_gettime(CLOCK_MONOTONIC, &time);
    return (double)time.tv_sec + 1e-9 * (double)time.tv_nsec;
}

/* A number between 0 and 1 (xorshift64*). */
static double drawn(void)
{
    state ^= state >> 12;
    state ^= state << 25;
    state ^= state >> 27;
    return ((double)((state * UINT64_C(2685821657736338717)) >> 11) + 0.5) / 9007199254740992.0;
}

static void read_frames(void)
{
    size_t size = 0, room = 1 << 20;
    ssize_t count;
    frames = malloc(room);
    while (frames != NULL && (count = read(STDIN_FILENO, frames + size, room - size)) > 0) {
        size += (size_t)count;
        if (size == room)
            frames = realloc(frames, room *= 2);
    }
    total = (long)(size / REQUEST);
    timings = calloc((size_t)total + 1, sizeof *timings);
    if (frames == NULL || timings == NULL || total == 0 || size % REQUEST != 0)
        fail("no requests");
}

/* Sockets */

static void watch(struct connection *it, int how)
{
    struct epoll_event event = {EPOLLIN | (it->is_blocked ? EPOLLOUT : 0), {.ptr = it}};
    if (epoll_ctl(waits, how, it->socket, &event) < 0)
        fail("epoll_ctl");
}

static void block(struct connection *it, int is_blocked)
{
    if (it->is_blocked != is_blocked) {
        it->is_blocked = is_blocked;
        watch(it, EPOLL_CTL_MOD);
    }
}

static void end(struct connection *it)
{
    close(it->socket);
    it->socket = -1;
    it->port = (it->port + 1) % port_count;
    it->sent = it->answered;
    it->part = it->held = 0;
    it->is_blocked = 0;
    it->again = now() + AGAIN;
    lost++;
}

/* Sends what waits, as far as the socket takes it. */
static void give(struct connection *it)
{
    uint8_t bytes[AT_ONCE * REQUEST];
    while (it->socket >= 0 && it->sent < it->count) {
        size_t size = 0, last = it->sent;
        for (; last < it->count && last < it->sent + AT_ONCE; last++, size += REQUEST)
            memcpy(bytes + size, frames + REQUEST * it->requests[last], REQUEST);
        double time = now();
        ssize_t count = send(it->socket, bytes + it->part, size - it->part, MSG_NOSIGNAL);
        if (count < 0) {
            if (errno == EAGAIN)
                block(it, 1);
            else if (errno != EINTR)
                ended++, end(it);
            return;
        }
        size_t whole = ((size_t)count + it->part) / REQUEST;
        for (size_t at = it->sent; at < it->sent + whole; at++)
            if (timings[it->requests[at]].sent == 0)
                timings[it->requests[at]].sent = time;
        it->part = ((size_t)count + it->part) % REQUEST;
        it->sent += whole;
    }
    if (it->socket >= 0)
        block(it, 0);
}

static void add(struct connection *it, long request)
{
    if (it->count == it->room) {
        it->room = it->room ? 2 * it->room : 64;
        it->requests = realloc(it->requests, it->room * sizeof *it->requests);
        if (it->requests == NULL)
            fail("out of memory");
    }
    it->requests[it->count++] = request;
}

static int join(struct connection *it)
{
    struct sockaddr_in address = {.sin_family = AF_INET, .sin_port = htons((uint16_t)ports[it->port])};
    int on = 1;
    address.sin_addr.s_addr = htonl(INADDR_LOOPBACK);
    it->socket = socket(AF_INET, SOCK_STREAM, 0);
    if (it->socket < 0)
        fail("socket");
    if (connect(it->socket, (struct sockaddr *)&address, sizeof address) < 0)
        return 0;
    setsockopt(it->socket, IPPROTO_TCP, TCP_NODELAY, &on, sizeof on);
    fcntl(it->socket, F_SETFL, O_NONBLOCK);
    watch(it, EPOLL_CTL_ADD);
    return 1;
}

/* Makes ended connections anew. */
static void join_again(double time)
{
    for (int at = 0; lost > 0 && at < connection_count; at++) {
        struct connection *it = connections + at;
        if (it->socket >= 0 || it->again > time)
            continue;
        lost--;
        if (join(it))
            give(it);
        else
            end(it);
    }
}

/* Answers */

static void take_reply(struct connection *it, double time)
{
    if (it->answered == it->sent)
        fail("an answer without a request");
    long request = it->requests[it->answered++];
    if (memcmp(it->reply, reply_front, FRONT) != 0
        || memcmp(it->reply + FRONT, frames + REQUEST * request + FRONT, SERIAL) != 0
        || memcmp(it->reply + CODE, "00", 2) != 0)
        fail("an answer is not the approval of its request");
    timings[request].answered = time;
    answered++;
}

static void take(struct connection *it, int ahead)
{
    uint8_t bytes[PIECE];
    ssize_t count = recv(it->socket, bytes, sizeof bytes, 0);
    if (count < 0 && (errno == EAGAIN || errno == EINTR))
        return;
    if (count <= 0) {
        ended++;
        end(it);
        return;
    }
    double time = now();
    for (ssize_t at = 0; at < count;) {
        size_t size = REPLY - it->held;
        if (size > (size_t)(count - at))
            size = (size_t)(count - at);
        memcpy(it->reply + it->held, bytes + at, size);
        it->held = (it->held + size) % REPLY;
        at += (ssize_t)size;
        if (it->held > 0)
            continue;
        take_reply(it, time);
        if (ahead > 0 && arrived < total) {
            timings[arrived].meant = time;
            add(it, arrived++);
        }
    }
    if (ahead > 0 || it->is_blocked)
        give(it);
}

static void wait(double until, int ahead)
{
    struct epoll_event found[AT_ONCE];
    double left = until - now();
    if (left < 0)
        left = 0;
    if (lost > 0 && left > AGAIN)
        left = AGAIN;
    struct timespec time = {(time_t)left, (long)(1e9 * (left - floor(left)))};
    int count = epoll_pwait2(waits, found, AT_ONCE, &time, NULL);
    for (int at = 0; at < count; at++) {
        struct connection *it = found[at].data.ptr;
        if (it->socket >= 0 && found[at].events & ~(uint32_t)EPOLLOUT)
            take(it, ahead);
        if (it->socket >= 0 && found[at].events & EPOLLOUT)
            give(it);
    }
    if (lost > 0)
        join_again(now());
}

/* Loops */

static void run_open(double rate, double patience)
{
    double next = now(), last = next;
    long seen = 0;
    while (answered < total) {
        double time = now();
        while (arrived < total && next <= time) {
            struct connection *it = connections + (int)(drawn() * connection_count);
            timings[arrived].meant = next;
            add(it, arrived++);
            give(it);
            next -= log(drawn()) / rate;
        }
        if (arrived < total || answered > seen)
            last = time;
        else if (time > last + patience)
            return;
        seen = answered;
        wait(arrived < total ? next : last + patience, 0);
    }
}

static void run_closed(int ahead, double patience)
{
    double last = now();
    long seen = 0;
    for (int at = 0; at < connection_count; at++) {
        for (int count = 0; count < ahead && arrived < total; count++) {
            timings[arrived].meant = now();
            add(connections + at, arrived++);
        }
        give(connections + at);
    }
    while (answered < total && now() < last + patience) {
        wait(last + patience, ahead);
        if (answered > seen)
            last = now();
        seen = answered;
    }
}

static void begin(char *of_ports, int count)
{
    for (char *it = strtok(of_ports, ","); it != NULL && port_count < MOST_PORTS; it = strtok(NULL, ","))
        ports[port_count++] = atoi(it);
    connection_count = count;
    connections = calloc((size_t)count, sizeof *connections);
    waits = epoll_create1(0);
    if (connections == NULL || waits < 0 || port_count == 0 || count < 1)
        fail("no connections");
    for (int at = 0; at < count; at++)
        if (!join(connections + at))
            fail("a host does not listen");
}

int main(int words, char **word)
{
    struct rusage used;
    if (words != 8)
        fail("usage: PORTS CONNECTIONS RATE AHEAD SEED PATIENCE OUT <FRAMES");
    double rate = atof(word[3]), patience = atof(word[6]);
    state = strtoull(word[5], NULL, 10) * 2 + UINT64_C(0x9E3779B97F4A7C15);
    read_frames();
    begin(word[1], atoi(word[2]));
    prctl(PR_SET_TIMERSLACK, 1);
    if (rate > 0)
        run_open(rate, patience);
    else
        run_closed(atoi(word[4]), patience);
    FILE *out = fopen(word[7], "wb");
    if (out == NULL || fwrite(timings, sizeof *timings, (size_t)total, out) != (size_t)total
        || fclose(out) != 0)
        fail("OUT is not written");
    getrusage(RUSAGE_SELF, &used);
    printf("%ld %.3f\n", ended, (double)(used.ru_utime.tv_sec + used.ru_stime.tv_sec)
                                    + 1e-6 * (double)(used.ru_utime.tv_usec + used.ru_stime.tv_usec));
    return 0;
}
