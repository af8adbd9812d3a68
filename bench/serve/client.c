/* The clients of the bench, the same lines for either server.
     client PORT closed SECONDS CLIENTS WINDOW [THREADS]   each asks again as soon as fewer than so many of its requests
                                                           are unanswered; one thread serves them all, or so many do
     client PORT open SECONDS CLIENTS RATE regular         requests come at their own times, so many a second in all,
                                                           at the same distance
     client PORT open SECONDS CLIENTS RATE random          the same, each at a drawn moment of a drawn client
     client PORT idle SECONDS                              18 connections that say nothing
   With `redis` as the last word of closed it asks a Redis in place of ours: all at one port, each request a SET.
   One client is the feed, four are the feed and three consoles, 18 all slots. The first tenth of the seconds isn't
   counted. closed and open print: requests a second; their 50th and 99th latency and the greatest, in microseconds; how
   late the client itself was for 99 of 100; how many requests there were, and how many were accepted; how many
   microseconds of the processor the client took for one. A request's latency begins where it was due, so that one who
   waits to be sent counts as one who waits for its reply.
   Each line is accepted in whatever order the slots come, so that either server has the same to do: the clock moves,
   the feed's alarm comes and goes, and each console takes an alarm of its own out of service and back. Replies have to
   come in the order of the lines. */
#define _GNU_SOURCE
#include <arpa/inet.h>
#include <math.h>
#include <netinet/tcp.h>
#include <poll.h>
#include <pthread.h>
#include <stdio.h>
#include <stdlib.h>
#include <string.h>
#include <sys/resource.h>
#include <sys/socket.h>
#include <time.h>
#include <unistd.h>

enum { SLOTS = 18, FEED = 16, CLOCK = 17, ROOM = 16384, LINE = 64, OUT = 1 << 16 };

struct client {
    int slot, socket;
    long due, sent, answered, accepted; /* requests so far */
    int held;                           /* bytes of a reply that hasn't ended yet */
    char reply[ROOM];
    double at[OUT]; /* when request i was due, at i modulo OUT */
};

struct times {
    double *took;
    long count, room;
};

/* Clients that one thread serves, and the times of their requests. */
struct group {
    int from, to;
    long window;
    struct times latency, lateness;
};

static struct client clients[SLOTS];
static int count, asks_redis;
static double counted, ending; /* requests are counted from the one moment on, and come until the other */

static void fail(const char *what) {
    perror(what);
    exit(3);
}

static double now(void) {
    struct timespec time;
    clock_gettime(CLOCK_MONOTONIC, &time);
    return time.tv_sec + time.tv_nsec * 1e-9;
}

static int dial(int port) {
    int one = 1, made = socket(AF_INET, SOCK_STREAM, 0);
    struct sockaddr_in place = {.sin_family = AF_INET, .sin_port = htons(port), .sin_addr = {htonl(INADDR_LOOPBACK)}};
    if (made < 0 || connect(made, (struct sockaddr *)&place, sizeof place)) fail("connect");
    setsockopt(made, IPPROTO_TCP, TCP_NODELAY, &one, sizeof one);
    return made;
}

static void dial_all(int port, int wanted) {
    count = wanted;
    for (int i = 0; i < count; i++) {
        clients[i].slot = i == 0 ? FEED : i == SLOTS - 1 ? CLOCK : i - 1;
        clients[i].socket = dial(asks_redis ? port : port + clients[i].slot);
    }
}

/* Notes a time, where its request is one that counts. */
static void note(struct times *times, double due, double took) {
    if (due < counted) return;
    if (times->count == times->room) {
        times->room = times->room ? 2 * times->room : 1 << 16;
        times->took = realloc(times->took, times->room * sizeof *times->took);
        if (!times->took) fail("realloc");
    }
    times->took[times->count++] = took * 1e6;
}

static int by_size(const void *one, const void *other) {
    double a = *(const double *)one, b = *(const double *)other;
    return (a > b) - (a < b);
}

/* The time that so many of a hundred don't exceed. The times are in order. */
static double hundredth(struct times *times, int of_hundred) {
    long at = times->count * of_hundred / 100;
    return times->count ? times->took[at < times->count ? at : times->count - 1] : 0;
}

/* Writes line `i` of a slot, and tells its length. */
static int put_line(char *line, int slot, long i) {
    if (asks_redis) return sprintf(line, "*3\r\n$3\r\nSET\r\n$2\r\n%02d\r\n$9\r\n%09ld\r\n", slot, i % 1000000000);
    if (slot == CLOCK) return sprintf(line, "%ld CLOCK %ld\n", i, i + 1);
    if (slot == FEED) return sprintf(line, "%ld VAL 0 %d\n", i, i % 2 ? 700 : 800);
    return sprintf(line, "%ld OOS %d %s\n", i, slot, i % 2 ? "OFF" : "ON");
}

static void make_due(struct client *client, double at) {
    if (client->due - client->answered == OUT) fail("so many requests are unanswered that the load can't be kept up");
    client->at[client->due++ % OUT] = at;
}

/* Sends what is due, in as few writes as there is room for. */
static void send_due(struct group *group, struct client *client) {
    char text[ROOM];
    while (client->sent < client->due) {
        double time = now();
        int length = 0;
        while (client->sent < client->due && length < ROOM - LINE) {
            double due = client->at[client->sent % OUT];
            note(&group->lateness, due, time - due);
            length += put_line(text + length, client->slot, client->sent++);
        }
        if (write(client->socket, text, length) != length) fail("write");
    }
}

/* Reads what has come and judges each whole reply. */
static void take_replies(struct group *group, struct client *client) {
    int got = read(client->socket, client->reply + client->held, ROOM - client->held);
    if (got <= 0) fail("read");
    double time = now();
    char *from = client->reply, *to = from + client->held + got, *end;
    while ((end = memchr(from, '\n', to - from))) {
        char *word = from;
        if (!asks_redis && strtol(from, &word, 10) != client->answered) fail("a reply out of order");
        double due = client->at[client->answered++ % OUT];
        note(&group->latency, due, time - due);
        client->accepted += !strncmp(word, asks_redis ? "+OK\r" : " OK ", 4);
        from = end + 1;
    }
    client->held = to - from;
    memmove(client->reply, from, client->held);
}

/* Waits for a reply, at most until a moment. */
static void wait_until(struct group *group, double moment) {
    struct pollfd polls[SLOTS];
    int from = group->from, here = group->to - from;
    double rest = fmax(moment - now(), 0);
    struct timespec time = {rest, (rest - floor(rest)) * 1e9};
    for (int i = 0; i < here; i++) polls[i] = (struct pollfd){.fd = clients[from + i].socket, .events = POLLIN};
    if (ppoll(polls, here, &time, NULL) < 0) fail("ppoll");
    for (int i = 0; i < here; i++)
        if (polls[i].revents) take_replies(group, &clients[from + i]);
}

static int all_answered(const struct group *group) {
    for (int i = group->from; i < group->to; i++)
        if (clients[i].answered < clients[i].due) return 0;
    return 1;
}

static void *closed(void *given) {
    struct group *group = given;
    for (double time = now(); time < ending || !all_answered(group); time = now()) {
        if (time > ending + 10) fail("no reply in ten seconds");
        for (int i = group->from; i < group->to; i++) {
            double at = now();
            while (at < ending && clients[i].due - clients[i].answered < group->window) make_due(&clients[i], at);
            send_due(group, &clients[i]);
        }
        wait_until(group, time + 10);
    }
    return NULL;
}

/* Runs closed in each group's thread, the first one in this. */
static void closed_in(struct group *groups, int threads) {
    pthread_t made[SLOTS];
    for (int i = 1; i < threads; i++)
        if (pthread_create(&made[i], NULL, closed, &groups[i])) fail("thread");
    closed(&groups[0]);
    for (int i = 1; i < threads; i++) pthread_join(made[i], NULL);
}

static void open_loop(struct group *group, double begin, double rate, int drawn) {
    double next = begin;
    long turn = 0;
    srand48(1);
    for (double time = now(); time < ending || !all_answered(group); time = now()) {
        if (time > ending + 10) fail("no reply in ten seconds");
        while (next <= time && next < ending) {
            make_due(&clients[(drawn ? lrand48() : turn++) % count], next);
            next += drawn ? -log(1 - drand48()) / rate : 1 / rate;
        }
        for (int i = 0; i < count; i++) send_due(group, &clients[i]);
        wait_until(group, next < ending ? next : time + 10);
    }
}

/* Adds times to others. */
static void add_times(struct times *all, const struct times *more) {
    all->room = all->count + more->count;
    all->took = realloc(all->took, (all->room + 1) * sizeof *all->took);
    if (!all->took) fail("realloc");
    if (more->count) memcpy(all->took + all->count, more->took, more->count * sizeof *more->took);
    all->count = all->room;
}

static double processor_time(void) {
    struct rusage used;
    getrusage(RUSAGE_SELF, &used);
    return (used.ru_utime.tv_sec + used.ru_stime.tv_sec) * 1e6 + used.ru_utime.tv_usec + used.ru_stime.tv_usec;
}

static void print_figures(const struct group *groups, int threads) {
    long all = 0, accepted = 0;
    double took = processor_time();
    struct times latency = {0}, lateness = {0};
    for (int i = 0; i < threads; i++) {
        add_times(&latency, &groups[i].latency);
        add_times(&lateness, &groups[i].lateness);
    }
    for (int i = 0; i < count; i++) all += clients[i].due, accepted += clients[i].accepted;
    qsort(latency.took, latency.count, sizeof(double), by_size);
    qsort(lateness.took, lateness.count, sizeof(double), by_size);
    printf("%.0f %.0f %.0f ", latency.count / (ending - counted), hundredth(&latency, 50), hundredth(&latency, 99));
    printf("%.0f %.0f ", hundredth(&latency, 100), hundredth(&lateness, 99));
    printf("%ld %ld %.2f\n", all, accepted, took / (all ? all : 1));
}

int main(int words, char **word) {
    static struct group groups[SLOTS];
    if (words < 4) return 1;
    double seconds = atof(word[3]);
    asks_redis = !strcmp(word[words - 1], "redis");
    if (asks_redis) words--;
    int is_open = words == 7 && !strcmp(word[2], "open");
    int is_closed = (words == 6 || words == 7) && !strcmp(word[2], "closed");
    int threads = is_closed && words == 7 ? atoi(word[6]) : 1;
    dial_all(atoi(word[1]), is_open || is_closed ? atoi(word[4]) : SLOTS);
    if (threads < 1 || threads > count) return 1;
    for (int i = 0; i < threads; i++) {
        groups[i] = (struct group){.from = count * i / threads, .to = count * (i + 1) / threads};
        groups[i].window = is_closed ? atol(word[5]) : 0;
    }
    double begin = now();
    ending = begin + seconds;
    counted = begin + seconds / 10;
    if (is_closed) closed_in(groups, threads);
    else if (is_open) open_loop(&groups[0], begin, atof(word[5]), !strcmp(word[6], "random"));
    else sleep(seconds);
    if (is_open || is_closed) print_figures(groups, threads);
    return 0;
}
