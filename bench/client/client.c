/* A client for measurements: connections that each send a request, read its whole reply, pause, and go on, driven by one thread over epoll.

   usage: client [OPTION VALUE] ..

   --port P            connects to 127.0.0.1:P, --clients times (1)
   --fds A,B,..        uses these open descriptors instead
   --framing NAME      how a reply ends: http (else: postgres, mariadb, redis, tarantool)
   --file NAME         the requests: records of three numbers of 32 bits (a code, and the lengths of the mark and of the request), then both.
                       The code is the status of a right reply over HTTP; any right reply has the mark in it. The connections take the next
                       one in turn, and begin again after the last. In a request the marker @@@@@@@@@@ is replaced by ten ascending digits
   --first N           the number of the first request, for its digits
   --pause US          the microseconds between a reply and the next request
   --depth D           requests that are sent at once, before a reply is read (1)
   --each E            ends after so many requests of each connection, at most 2^40
   --count N           ends after so many requests of all
   --warm S, --seconds S   seconds that are not counted, and then those that are counted, at most
   --least N           goes on after these seconds until so many replies were counted, at most a minute
   --pid P,Q,..        the processes whose processor time is read at the begin and the end of the counted seconds
   --rush yes          each connection sends its first request as soon as it is open; the seconds begin before the first is opened
   --hold ready        sends the first request on each connection and reads nothing; writes a line, and ends after its input

   It writes one line of JSON. A reply that is wrong, or a connection that is closed, is counted; the first of them is shown. */
#define _GNU_SOURCE
#include <arpa/inet.h>
#include <fcntl.h>
#include <netinet/tcp.h>
#include <stdbool.h>
#include <sys/epoll.h>
#include <sys/prctl.h>
#include <sys/socket.h>
#include <unistd.h>

#include "waits.h"

enum { DIGITS = 10, EVENTS = 512, PIECE = 1 << 16 };
#define MARKER "@@@@@@@@@@"

typedef unsigned char byte;

typedef struct {
    uint32_t code, mark_size, size;
    const char *mark;
    char *text, *digits;
} Request;

/* `sent` requests wait for a reply, of which the first is number `oldest`; a connection is in the queue of those that pause, or is not. */
typedef struct Connection {
    int fd;
    bool open, waits_to_write;
    byte *in;
    size_t have, room;
    char *out;
    size_t out_size, out_at, out_room;
    const Request **asked;
    int sent, oldest;
    long done;
    uint64_t begun, due;
    struct Connection *next;
} Connection;

#define MANY (1L << 40)

static struct {
    const char *file, *framing, *fds, *hold, *rush, *pid;
    long port, clients, first, pause, depth, each, count, least;
    double warm, seconds;
} option = {.framing = "http", .clients = 1, .depth = 1, .each = MANY, .count = MANY, .seconds = 1};

static Request *requests;
static size_t request_count, cursor;
static uint64_t number;
static Connection *connections, *first_pausing, *last_pausing;
static int poller;
static bool counting;
static long started, answered, wrong, closed;

/* The processor time of the processes that have not ended, user and system: the clocks of clock_getcpuclockid(3). */
static uint64_t processor(void) {
    uint64_t used = 0;
    struct timespec one;
    for (const char *at = option.pid; at && *at; at = strchr(at, ',') ? strchr(at, ',') + 1 : NULL)
        if (!clock_gettime((~(clockid_t)atol(at) << 3) | 2, &one)) used += one.tv_sec * 1000000000ULL + one.tv_nsec;
    return used;
}

/* ---- the requests ---- */

static void read_requests(const char *name) {
    FILE *file = fopen(name, "rb");
    uint32_t head[3];
    size_t room = 0;
    if (!file) fail(name);
    while (fread(head, sizeof head, 1, file) == 1) {
        if (request_count == room) requests = grown(requests, (room = room * 2 + 1024) * sizeof *requests);
        char *text = grown(NULL, head[1] + head[2] + 1);
        if (fread(text, 1, head[1] + head[2], file) != head[1] + head[2]) fail("a short file");
        text[head[1] + head[2]] = 0;
        char *whole = text + head[1];
        requests[request_count++] = (Request){head[0], head[1], head[2], text, whole, memmem(whole, head[2], MARKER, DIGITS)};
    }
    fclose(file);
    if (!request_count) fail("no requests");
}

/* ---- the end of a reply: each function returns its length, 0 if it is not whole, and says whether it is right ---- */

static uint32_t big(const byte *at) { return (uint32_t)at[0] << 24 | at[1] << 16 | at[2] << 8 | at[3]; }

static size_t http(const byte *in, size_t have, const Request *request, bool *right) {
    const byte *end = memmem(in, have, "\r\n\r\n", 4);
    if (!end) return 0;
    size_t head = end + 4 - in;
    /* Content-Length, in the case that the system writes it in; the reply to a HEAD has no body */
    const byte *length = strncmp(request->text, "HEAD ", 5) ? memmem(in, head, "ength: ", 7) : NULL;
    size_t whole = head + (length ? strtoul((const char *)length + 7, NULL, 10) : 0);
    *right = head > 12 && strtoul((const char *)in + 9, NULL, 10) == request->code;
    return whole <= have ? whole : 0;
}

static size_t postgres(const byte *in, size_t have, const Request *request, bool *right) {
    *right = true;
    for (size_t at = 0; at + 5 <= have; at += 1 + big(in + at + 1)) {
        *right = *right && in[at] != 'E';
        if (in[at] == 'Z') return at + 6 <= have ? at + 6 : 0;
    }
    return 0;
}

/* An answer is one packet that begins with 0 or 255, or packets of which the last begins with 254 and is short. */
static size_t mariadb(const byte *in, size_t have, const Request *request, bool *right) {
    size_t packets = 0;
    *right = true;
    for (size_t at = 0; at + 4 <= have; packets++) {
        size_t size = in[at] | in[at + 1] << 8 | in[at + 2] << 16, end = at + 4 + size;
        if (end > have) return 0;
        *right = *right && in[at + 4] != 255;
        if (!*right || (packets == 0 && in[at + 4] == 0) || (packets > 0 && in[at + 4] == 254 && size < 1 << 10)) return end;
        at = end;
    }
    return 0;
}

static size_t redis(const byte *in, size_t have, const Request *request, bool *right) {
    const byte *end = memmem(in, have, "\r\n", 2);
    if (!end) return 0;
    size_t whole = end + 2 - in;
    if (in[0] == '$') whole += strtoul((const char *)in + 1, NULL, 10) + 2;
    *right = in[0] == '$' || in[0] == '+';
    return whole <= have ? whole : 0;
}

static size_t tarantool(const byte *in, size_t have, const Request *request, bool *right) {
    if (have < 12 || have < 5 + (size_t)big(in + 1)) return 0;
    *right = memcmp(in + 5, "\x83\x00\xce\x00\x00\x00\x00", 7) == 0;
    return 5 + big(in + 1);
}

static size_t (*framing)(const byte *, size_t, const Request *, bool *);

static void choose_framing(void) {
    static const struct { const char *name; size_t (*of)(const byte *, size_t, const Request *, bool *); } all[] = {
        {"http", http}, {"postgres", postgres}, {"mariadb", mariadb}, {"redis", redis}, {"tarantool", tarantool}};
    for (size_t at = 0; at < sizeof all / sizeof *all; at++)
        if (strcmp(all[at].name, option.framing) == 0) framing = all[at].of;
    if (!framing) fail("--framing");
}

/* ---- connections ---- */

static void watch(Connection *one, bool to_write) {
    struct epoll_event event = {.events = EPOLLIN | (to_write ? EPOLLOUT : 0), .data.ptr = one};
    if (epoll_ctl(poller, one->open ? EPOLL_CTL_MOD : EPOLL_CTL_ADD, one->fd, &event)) fail("epoll");
    one->open = true;
    one->waits_to_write = to_write;
}

static int connected(void) {
    struct sockaddr_in address = {.sin_family = AF_INET, .sin_port = htons(option.port), .sin_addr.s_addr = htonl(INADDR_LOOPBACK)};
    int fd = socket(AF_INET, SOCK_STREAM, 0), yes = 1, small = 4096;
    if (fd < 0) fail("a socket");
    if (option.hold) setsockopt(fd, SOL_SOCKET, SO_RCVBUF, &small, sizeof small);
    if (connect(fd, (struct sockaddr *)&address, sizeof address)) fail("connect");
    setsockopt(fd, IPPROTO_TCP, TCP_NODELAY, &yes, sizeof yes);
    return fd;
}

static void lose(Connection *one, const char *why) {
    if (closed++ == 0) fprintf(stderr, "client: a connection was closed: %s\n", why);
    close(one->fd);
    one->open = false;
    one->sent = 0;
}

static void write_out(Connection *one) {
    while (one->out_at < one->out_size) {
        ssize_t moved = write(one->fd, one->out + one->out_at, one->out_size - one->out_at);
        if (moved < 0 && errno == EAGAIN) break;
        if (moved < 0) return lose(one, strerror(errno));
        one->out_at += moved;
    }
    bool rest = one->out_at < one->out_size;
    if (rest != one->waits_to_write) watch(one, rest);
}

/* Sends the next requests of a connection: `depth` of them, or as many as are left. */
static void ask(Connection *one) {
    one->out_size = one->out_at = 0;
    while (one->sent < option.depth && one->done + one->sent < option.each && started < option.count) {
        const Request *request = &requests[cursor++ % request_count];
        if (request->digits) put_digits(request->digits, number++);
        if (one->out_size + request->size > one->out_room) one->out = grown(one->out, one->out_room = 2 * (one->out_size + request->size));
        memcpy(one->out + one->out_size, request->text, request->size);
        one->out_size += request->size;
        one->asked[one->sent++] = request;
        started++;
    }
    one->oldest = 0;
    one->begun = now();
    if (one->sent) write_out(one);
}

static void open_all(void) {
    char *list = option.fds ? strdup(option.fds) : NULL;
    if (list) {
        option.clients = 1;
        for (const char *at = list; *at; at++) option.clients += *at == ',';
    }
    connections = calloc(option.clients, sizeof *connections);
    if (!connections || (poller = epoll_create1(0)) < 0) fail("connections");
    for (long at = 0; at < option.clients; at++) {
        Connection *one = &connections[at];
        one->fd = list ? atoi(strsep(&list, ",")) : connected();
        if (fcntl(one->fd, F_SETFL, fcntl(one->fd, F_GETFL) | O_NONBLOCK)) fail("fcntl");
        one->asked = grown(NULL, option.depth * sizeof *one->asked);
        if (!option.hold) watch(one, false);
        if (option.rush) ask(one);
    }
}

static void check(const Request *request, const byte *reply, size_t whole, bool right) {
    if (right && (!request->mark_size || memmem(reply, whole, request->mark, request->mark_size))) return;
    if (wrong++ == 0)
        fprintf(stderr, "client: %.*s\nwas answered by %.*s\n", (int)(request->size < 300 ? request->size : 300), request->text,
                (int)(whole < 400 ? whole : 400), reply);
}

static void pause_it(Connection *one, uint64_t due) {
    one->due = due;
    one->next = NULL;
    if (first_pausing) last_pausing->next = one;
    else first_pausing = one;
    last_pausing = one;
}

/* Takes the whole replies that were read; asks again, or pauses, after the last that was waited for. */
static void take_replies(Connection *one) {
    size_t at = 0, whole;
    bool right;
    uint64_t time = now();
    while (one->oldest < one->sent && (whole = framing(one->in + at, one->have - at, one->asked[one->oldest], &right))) {
        check(one->asked[one->oldest++], one->in + at, whole, right);
        if (counting) note_wait(time - one->begun);
        one->done++;
        answered++;
        at += whole;
    }
    memmove(one->in, one->in + at, one->have -= at);
    if (one->sent && one->oldest == one->sent) {
        one->sent = 0;
        if (option.pause) pause_it(one, time + option.pause * 1000ULL);
        else ask(one);
    }
}

static void read_in(Connection *one) {
    if (one->room - one->have < PIECE) one->in = grown(one->in, (one->room = 2 * one->have + PIECE) + 1);
    ssize_t moved = read(one->fd, one->in + one->have, one->room - one->have);
    if (moved < 0 && (errno == EAGAIN || errno == EINTR)) return;
    if (moved <= 0) return lose(one, moved ? strerror(errno) : "end");
    one->have += moved;
    one->in[one->have] = 0;
    take_replies(one);
}

static void ask_those_that_are_due(uint64_t time) {
    while (first_pausing && first_pausing->due <= time) {
        Connection *one = first_pausing;
        first_pausing = one->next;
        if (one->open) ask(one);
    }
}

/* Whether no connection waits for a reply or pauses. */
static bool nothing_is_left(void) {
    if (first_pausing || started > answered + closed * option.depth) return false;
    for (long at = 0; at < option.clients; at++)
        if (connections[at].open && connections[at].sent) return false;
    return true;
}

/* Serves what happens until a time, or until all requests were answered. */
static void run_until(uint64_t end) {
    struct epoll_event events[EVENTS];
    uint64_t time;
    while ((time = now()) < end) {
        ask_those_that_are_due(time);
        uint64_t wake = first_pausing && first_pausing->due < end ? first_pausing->due : end, wait = wake > time ? wake - time : 0;
        struct timespec most = {wait / 1000000000, wait % 1000000000};
        int found = epoll_pwait2(poller, events, EVENTS, &most, NULL);
        if (found < 0 && errno != EINTR) fail("epoll_pwait2");
        for (int at = 0; at < found; at++) {
            Connection *one = events[at].data.ptr;
            if (one->open && events[at].events & EPOLLOUT) write_out(one);
            if (one->open && events[at].events & ~EPOLLOUT) read_in(one);
        }
        if (nothing_is_left()) return;
    }
}

/* ---- the report ---- */

static void report(uint64_t begun, uint64_t ended, uint64_t used) {
    long unanswered = 0;
    uint64_t longest = 0;
    for (long at = 0; at < option.clients; at++)
        if (connections[at].open && connections[at].sent) {
            unanswered++;
            if (ended - connections[at].begun > longest && ended > connections[at].begun) longest = ended - connections[at].begun;
        }
    printf("{\"all\":%ld,\"wrong\":%ld,\"closed\":%ld,\"unanswered\":%ld,\"unanswered_for\":%.1f,", answered, wrong, closed, unanswered,
           longest / 1e3);
    report_waits(ended - begun, used);
    puts("}");
}

static void hold(void) {
    for (long at = 0; at < option.clients; at++) {
        const Request *request = &requests[at % request_count];
        for (size_t sent = 0; sent < request->size;) {
            ssize_t moved = write(connections[at].fd, request->text + sent, request->size - sent);
            if (moved <= 0) break;
            sent += moved;
        }
    }
    puts("ready");
    fflush(stdout);
    while (getchar() != EOF) {}
}

static void read_options(int count, char **words) {
    struct { const char *name; const char **text; long *whole; double *part; } all[] = {
        {"--file", &option.file, 0, 0}, {"--framing", &option.framing, 0, 0}, {"--fds", &option.fds, 0, 0}, {"--hold", &option.hold, 0, 0},
        {"--rush", &option.rush, 0, 0},
        {"--pid", &option.pid, 0, 0}, {"--port", 0, &option.port, 0}, {"--clients", 0, &option.clients, 0}, {"--first", 0, &option.first, 0},
        {"--pause", 0, &option.pause, 0}, {"--depth", 0, &option.depth, 0}, {"--each", 0, &option.each, 0}, {"--count", 0, &option.count, 0},
        {"--least", 0, &option.least, 0},
        {"--warm", 0, 0, &option.warm}, {"--seconds", 0, 0, &option.seconds}};
    for (int at = 1; at < count; at += 2) {
        size_t place = 0;
        while (place < sizeof all / sizeof *all && strcmp(all[place].name, words[at])) place++;
        if (place == sizeof all / sizeof *all || at + 1 == count) fail(words[at]);
        if (all[place].text) *all[place].text = words[at + 1];
        if (all[place].whole) *all[place].whole = atol(words[at + 1]);
        if (all[place].part) *all[place].part = atof(words[at + 1]);
    }
}

int main(int count, char **words) {
    read_options(count, words);
    choose_framing();
    prctl(PR_SET_TIMERSLACK, 1000);
    read_requests(option.file);
    number = option.first;
    counting = option.warm == 0;
    uint64_t begun = now(), used = processor();
    open_all();
    if (option.hold) return hold(), 0;
    if (!option.rush) begun = now(), used = processor();
    for (long at = 0; at < option.clients && !option.rush; at++) {
        if (option.pause) pause_it(&connections[at], begun + option.pause * 1000ULL * at / option.clients);
        else ask(&connections[at]);
    }
    if (!counting) {
        run_until(begun + (uint64_t)(option.warm * 1e9));
        begun = now(), used = processor(), counting = true;
    }
    run_until(begun + (uint64_t)(option.seconds * 1e9));
    while (waits_size < (size_t)option.least && !nothing_is_left() && now() < begun + 60000000000ULL) run_until(now() + 1000000);
    used = processor() - used;
    report(begun, now(), used);
    return wrong > 0;
}
