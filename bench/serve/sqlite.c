/* SQLite under the loads of client.c: `sqlite FILE SECONDS CLIENTS WINDOW`. Each client is a thread with a connection
   of its own to one database, whose log is synced at each commit (WAL, synchronous=FULL). A transaction inserts WINDOW
   rows. The first tenth of the seconds isn't counted. Prints what client.c does: rows a second, the 50th and 99th
   latency of a row and the greatest, in microseconds, 0, how many rows there were, and how many were accepted; and then
   the nanoseconds of the processor a row. */
#include <pthread.h>
#include <sqlite3.h>
#include <stdio.h>
#include <stdlib.h>
#include <string.h>
#include <time.h>

enum { MOST = 64, ROOM = 1 << 20 };

struct client {
    pthread_t thread;
    int number;
    long made, count; /* transactions, and those of them that are counted */
    double *took;
};

static const char *path;
static int window;
static double counted, end;

static double now(clockid_t which) {
    struct timespec time;
    clock_gettime(which, &time);
    return time.tv_sec + time.tv_nsec * 1e-9;
}

static void fail(sqlite3 *base, const char *what) {
    fprintf(stderr, "%s: %s\n", what, base ? sqlite3_errmsg(base) : "failed");
    exit(3);
}

static void run(sqlite3 *base, const char *words) {
    if (sqlite3_exec(base, words, NULL, NULL, NULL) != SQLITE_OK) fail(base, words);
}

static sqlite3 *opened(void) {
    sqlite3 *base = NULL;
    if (sqlite3_open(path, &base) != SQLITE_OK) fail(base, "open");
    sqlite3_busy_timeout(base, 10000);
    run(base, "PRAGMA journal_mode=WAL; PRAGMA synchronous=FULL");
    return base;
}

static void insert(sqlite3 *base, sqlite3_stmt *row, int client, long serial) {
    run(base, "BEGIN IMMEDIATE");
    for (int i = 0; i < window; i++) {
        sqlite3_bind_int(row, 1, client);
        sqlite3_bind_int64(row, 2, serial * window + i);
        if (sqlite3_step(row) != SQLITE_DONE) fail(base, "insert");
        sqlite3_reset(row);
    }
    run(base, "COMMIT");
}

static void *work(void *which) {
    struct client *client = which;
    sqlite3 *base = opened();
    sqlite3_stmt *row;
    const char *words = "INSERT INTO action VALUES (?, ?)";
    if (sqlite3_prepare_v2(base, words, -1, &row, NULL) != SQLITE_OK) fail(base, words);
    for (long serial = 0; now(CLOCK_MONOTONIC) < end; serial++) {
        double due = now(CLOCK_MONOTONIC);
        insert(base, row, client->number, serial);
        client->made++;
        double took = now(CLOCK_MONOTONIC) - due;
        if (due >= counted && client->count < ROOM) client->took[client->count++] = took * 1e6;
    }
    sqlite3_finalize(row);
    sqlite3_close(base);
    return NULL;
}

static int by_size(const void *one, const void *other) {
    double a = *(const double *)one, b = *(const double *)other;
    return (a > b) - (a < b);
}

static void print_figures(struct client *clients, int count, double cpu) {
    long made = 0, all = 0, at = 0;
    for (int i = 0; i < count; i++) made += clients[i].made, all += clients[i].count;
    if (!all) fail(NULL, "nothing was counted");
    double *took = calloc(all, sizeof *took);
    if (!took) fail(NULL, "calloc");
    for (int i = 0; i < count; i++)
        for (long j = 0; j < clients[i].count; j++) took[at++] = clients[i].took[j];
    qsort(took, all, sizeof *took, by_size);
    long rows = made * window;
    printf("%.0f %.0f ", all * window / (end - counted), took[all / 2]);
    printf("%.0f %.0f 0 ", took[all * 99 / 100], took[all - 1]);
    printf("%ld %ld %.0f\n", rows, rows, 1e9 * cpu / rows);
}

int main(int count, char **words) {
    static struct client clients[MOST];
    if (count != 5) return 1;
    path = words[1];
    int wanted = atoi(words[3]) < MOST ? atoi(words[3]) : MOST;
    window = atoi(words[4]);
    sqlite3 *base = opened();
    run(base, "CREATE TABLE action (client INTEGER, serial INTEGER)");
    double begin = now(CLOCK_MONOTONIC), cpu = now(CLOCK_PROCESS_CPUTIME_ID);
    end = begin + atof(words[2]);
    counted = begin + atof(words[2]) / 10;
    for (int i = 0; i < wanted; i++) {
        clients[i].number = i;
        clients[i].took = calloc(ROOM, sizeof(double));
        if (!clients[i].took || pthread_create(&clients[i].thread, NULL, work, &clients[i])) fail(NULL, "thread");
    }
    for (int i = 0; i < wanted; i++) pthread_join(clients[i].thread, NULL);
    print_figures(clients, wanted, now(CLOCK_PROCESS_CPUTIME_ID) - cpu);
    sqlite3_close(base);
    return 0;
}
