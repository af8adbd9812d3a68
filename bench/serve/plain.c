/* A server of the same lines, ports and frames, as one would write it in C without proofs: `plain FILE PORT
   [gather]`. One thread a connection, one plant under a mutex, and one committer, which writes all actions that came
   while it last committed as one frame: the body, fdatasync, the gate, fdatasync. A connection reads what has come,
   judges each line, waits until all that its replies tell of is stored, and answers in one write. With `gather` the
   committer waits behind a frame of at most 18 actions until as many more have come, half of a commit at most: so it
   does what ours does for clients with one request out. Left out: lists and the other queries but STATE, the flood
   windows, checkpoints (the journal begins anew where it is full). */
#include <arpa/inet.h>
#include <errno.h>
#include <fcntl.h>
#include <netinet/tcp.h>
#include <pthread.h>
#include <stdint.h>
#include <stdio.h>
#include <stdlib.h>
#include <string.h>
#include <sys/socket.h>
#include <time.h>
#include <unistd.h>

enum { SLOTS = 18, FEED = 16, CLOCK_SLOT = 17, ALARMS = 16, BATCH = 256, PENDING = 8192, READ = 2048, JOURNAL = 16 << 20, HALF_COMMIT_NS = 206000 };
enum kind { CLOCK = 1, VAL, ACK, RESET, SHELVE, UNSHELVE, OOS, DESIGN };
enum core { NORM, UNACK, ACKED, RTNUN, LATUN, LATAK };
enum flag { SHELVED = 1, BY_DESIGN = 2, OUT = 4 };
enum refusal { NO_ALARM = 1, NOT_UNACK, NOT_RESETTABLE, SHELVED_ALREADY, NOT_SHELVED, LENGTH, ALREADY, NOT_SET, NO_CHANGE, BACK, ROLE, BAD = 13 };

struct alarm {
    int kind; /* 1 high, 2 low, 3 discrete */
    int64_t setpoint, deadband;
    int latching;
    int64_t max_shelve;
    int active, core, flags;
    int64_t deadline;
};

struct action {
    int kind;
    uint32_t alarm;
    int64_t argument;
};

/* All below is the mutex's, but for `file`. */
static pthread_mutex_t mutex = PTHREAD_MUTEX_INITIALIZER;
static pthread_cond_t came = PTHREAD_COND_INITIALIZER, committed = PTHREAD_COND_INITIALIZER;
static struct alarm alarms[ALARMS] = {
    {.kind = 1, .setpoint = 800, .deadband = 10, .max_shelve = 3600},
    {.kind = 2, .setpoint = 100, .deadband = 5, .max_shelve = 3600},
    {.kind = 3, .setpoint = 1, .latching = 1},
    [3 ... ALARMS - 1] = {.kind = 1, .setpoint = 50},
};
static int64_t plant_clock;
static uint64_t accepted, stored;
static uint64_t wanted; /* so many are to be pending before the next commit, as long as it waits for them */
static unsigned char pending[PENDING][16]; /* action n is at n modulo PENDING until it is stored */
static int file, base, gathers;

static void put(unsigned char *to, int bytes, uint64_t number) {
    while (bytes--) {
        to[bytes] = number;
        number >>= 8;
    }
}

static void fail(const char *what) {
    perror(what);
    exit(3);
}

/* Writes and syncs `n` actions from `first` on as one frame at a place of the journal. */
static void commit(long at, uint64_t first, int n) {
    static unsigned char frame[18 + 16 * BATCH + 1];
    unsigned char gate = 0xA5;
    put(frame, 8, 1);
    put(frame + 8, 8, first);
    put(frame + 16, 2, n);
    for (int i = 0; i < n; i++) memcpy(frame + 18 + 16 * i, pending[(first + i) % PENDING], 16);
    int length = 18 + 16 * n + 1; /* with the next frame's gate, closed */
    frame[length - 1] = 0;
    if (pwrite(file, frame, length, at + 1) != length || fdatasync(file)) fail("frame");
    if (pwrite(file, &gate, 1, at) != 1 || fdatasync(file)) fail("gate");
}

/* Waits until so many more are pending, or half a commit has passed. The mutex is held. */
static void gather(int n) {
    struct timespec end;
    clock_gettime(CLOCK_REALTIME, &end);
    end.tv_nsec += HALF_COMMIT_NS;
    if (end.tv_nsec >= 1000000000) end.tv_sec++, end.tv_nsec -= 1000000000;
    wanted = accepted - stored + n;
    while (accepted - stored < wanted)
        if (pthread_cond_timedwait(&came, &mutex, &end) == ETIMEDOUT) break;
    wanted = 0;
}

static void *run_committer(void *none) {
    long at = 0;
    pthread_mutex_lock(&mutex);
    for (;;) {
        while (stored == accepted) pthread_cond_wait(&came, &mutex);
        int n = accepted - stored < BATCH ? accepted - stored : BATCH;
        uint64_t first = stored + 1;
        pthread_mutex_unlock(&mutex);
        if (at + 20 + 16 * BATCH > JOURNAL) at = 0;
        commit(at, first, n);
        at += 19 + 16 * n;
        pthread_mutex_lock(&mutex);
        stored += n;
        pthread_cond_broadcast(&committed);
        if (gathers && n <= SLOTS) gather(n);
    }
    return none;
}

/* What an alarm becomes as its last flag falls, or its condition changes while no flag is set. */
static void follow(struct alarm *alarm) {
    static const int gone[] = {NORM, RTNUN, NORM, RTNUN, LATUN, LATAK}, latched[] = {NORM, LATUN, LATAK, RTNUN, LATUN, LATAK};
    if (alarm->flags) alarm->core = NORM;
    else if (alarm->active) alarm->core = UNACK;
    else alarm->core = alarm->latching ? latched[alarm->core] : gone[alarm->core];
}

static int take_value(struct alarm *alarm, int64_t value) {
    int high = alarm->kind == 1, low = alarm->kind == 2;
    int comes = high ? value >= alarm->setpoint : low ? value <= alarm->setpoint : value == alarm->setpoint;
    int goes = high ? value < alarm->setpoint - alarm->deadband : low ? value > alarm->setpoint + alarm->deadband : !comes;
    if (alarm->active ? !goes : !comes) return NO_CHANGE;
    alarm->active = !alarm->active;
    follow(alarm);
    return 0;
}

static int set_flag(struct alarm *alarm, int flag, int64_t on) {
    if (on ? alarm->flags & flag : !(alarm->flags & flag)) return on ? ALREADY : NOT_SET;
    alarm->flags ^= flag;
    follow(alarm);
    return 0;
}

static int shelve(struct alarm *alarm, int64_t seconds) {
    if (alarm->flags & SHELVED) return SHELVED_ALREADY;
    if (seconds < 1 || seconds > alarm->max_shelve) return LENGTH;
    alarm->deadline = plant_clock + seconds;
    return set_flag(alarm, SHELVED, 1);
}

static int acknowledge(struct alarm *alarm) {
    static const int after[] = {0, ACKED, 0, NORM, LATAK, 0};
    if (alarm->core != UNACK && alarm->core != RTNUN && alarm->core != LATUN) return NOT_UNACK;
    alarm->core = after[alarm->core];
    return 0;
}

static int move_clock(int64_t moment) {
    if (moment <= plant_clock) return BACK;
    plant_clock = moment;
    for (int i = 0; i < ALARMS; i++)
        if ((alarms[i].flags & SHELVED) && alarms[i].deadline <= moment) set_flag(&alarms[i], SHELVED, 0);
    return 0;
}

/* Does an action, or tells why not. */
static int act(int slot, const struct action *action) {
    int role = action->kind == CLOCK ? slot == CLOCK_SLOT : action->kind == VAL || action->kind == DESIGN ? slot == FEED : slot < FEED;
    if (!role) return ROLE;
    if (action->kind == CLOCK) return move_clock(action->argument);
    if (action->alarm >= ALARMS) return NO_ALARM;
    struct alarm *alarm = &alarms[action->alarm];
    switch (action->kind) {
    case VAL: return take_value(alarm, action->argument);
    case ACK: return acknowledge(alarm);
    case RESET:
        if (alarm->core != LATAK) return NOT_RESETTABLE;
        alarm->core = NORM;
        return 0;
    case SHELVE: return shelve(alarm, action->argument);
    case UNSHELVE: return alarm->flags & SHELVED ? set_flag(alarm, SHELVED, 0) : NOT_SHELVED;
    case OOS: return set_flag(alarm, OUT, action->argument);
    default: return set_flag(alarm, BY_DESIGN, action->argument);
    }
}

/* Reads the words behind the id. */
static int parse(const char *words, struct action *action) {
    static const char *names[] = {"", "CLOCK", "VAL", "ACK", "RESET", "SHELVE", "UNSHELVE", "OOS", "DESIGN"};
    char name[16], last[16] = "";
    long long numbers[2] = {0, 0};
    int kind = DESIGN;
    if (sscanf(words, "%15s %lld %15s", name, &numbers[0], last) < 2) return 0;
    while (kind && strcmp(name, names[kind])) kind--;
    if (!kind) return 0;
    numbers[1] = !strcmp(last, "ON") ? 1 : atoll(last);
    *action = (struct action){kind, kind == CLOCK ? 0 : numbers[0], kind == CLOCK ? numbers[0] : numbers[1]};
    return 1;
}

static int show(char *reply, long id, const struct alarm *alarm) {
    static const char *words[] = {"NORM", "UNACK", "ACKED", "RTNUN", "LATUN", "LATAK"};
    const char *shown = alarm->flags & OUT ? "OOSRV" : alarm->flags & BY_DESIGN ? "DSUPR" : alarm->flags ? "SHLVD" : words[alarm->core];
    return sprintf(reply, "%ld STATE %lu %s %d\n", id, accepted, shown, alarm->active);
}

/* Judges a line and writes its reply. The mutex is held. */
static int answer(int slot, const char *line, char *reply) {
    char *words;
    struct action action;
    unsigned number;
    long id = strtol(line, &words, 10);
    if (sscanf(words, " STATE %u", &number) == 1 && number < ALARMS) return show(reply, id, &alarms[number]);
    int why = parse(words, &action) ? act(slot, &action) : BAD;
    if (why) return sprintf(reply, "%ld NO %d\n", id, why);
    accepted++;
    unsigned char *text = pending[accepted % PENDING];
    put(text, 4, (uint64_t)action.kind << 24);
    put(text + 4, 4, action.alarm);
    put(text + 8, 8, action.argument);
    return sprintf(reply, "%ld OK %lu\n", id, accepted);
}

/* Answers all whole lines of the text, and tells how many bytes they were. */
static int answer_all(int socket, int slot, char *text, int length) {
    static _Thread_local char replies[READ / 2 * 40];
    int done = 0, written = 0;
    char *end;
    pthread_mutex_lock(&mutex);
    while ((end = memchr(text + done, '\n', length - done))) {
        *end = 0;
        written += answer(slot, text + done, replies + written);
        done = end + 1 - text;
    }
    uint64_t last = accepted; /* a refusal tells of the plant too */
    if (stored < last && accepted - stored >= wanted) pthread_cond_signal(&came);
    while (stored < last) pthread_cond_wait(&committed, &mutex);
    pthread_mutex_unlock(&mutex);
    return write(socket, replies, written) == written ? done : -1;
}

static void serve(int socket, int slot) {
    char text[READ];
    int held = 0, got, done;
    while ((got = read(socket, text + held, READ - held)) > 0) {
        held += got;
        if (!memchr(text, '\n', held)) continue;
        if ((done = answer_all(socket, slot, text, held)) < 0) break;
        memmove(text, text + done, held -= done);
    }
    close(socket);
}

static int bind_port(int port) {
    int one = 1, made = socket(AF_INET, SOCK_STREAM, 0);
    struct sockaddr_in place = {.sin_family = AF_INET, .sin_port = htons(port), .sin_addr = {htonl(INADDR_LOOPBACK)}};
    setsockopt(made, SOL_SOCKET, SO_REUSEADDR, &one, sizeof one);
    if (made < 0 || bind(made, (struct sockaddr *)&place, sizeof place) || listen(made, 16)) fail("bind");
    return made;
}

static int listeners[SLOTS];

static void *run_slot(void *which) {
    int slot = (int *)which - listeners, one = 1, socket;
    while ((socket = accept(listeners[slot], NULL, NULL)) >= 0) {
        setsockopt(socket, IPPROTO_TCP, TCP_NODELAY, &one, sizeof one);
        serve(socket, slot);
    }
    return NULL;
}

int main(int count, char **words) {
    if (count < 3) return 1;
    gathers = count > 3 && !strcmp(words[3], "gather");
    file = open(words[1], O_RDWR | O_CREAT | O_TRUNC, 0600);
    if (file < 0 || ftruncate(file, JOURNAL)) fail("open");
    base = atoi(words[2]);
    pthread_t thread;
    for (int slot = 0; slot < SLOTS; slot++) listeners[slot] = bind_port(base + slot);
    for (int slot = 0; slot < SLOTS; slot++)
        if (pthread_create(&thread, NULL, run_slot, &listeners[slot])) fail("thread");
    printf("serving %d\n", base);
    fflush(stdout);
    run_committer(NULL);
    return 0;
}
