/* What asks the program inside the machine of tests/machines/virtual/power.py, and sets marks into the log of the disk's writes.
 *
 *     guest mark LOG TEXT                  a mark in the log of the device-mapper device LOG
 *     guest desk LOG DEVICE LINES          each line of the file LINES to a desk over DEVICE, after the reply to the one before; the mark
 *                                          "r:N" after the N-th reply
 *     guest serve LOG PORT COUNT SEED      clients at slots 0, 5, 16 and 17, each with one request out and COUNT in all; the mark
 *                                          "s:SLOT:NUMBER:REQUEST" after each accepted one
 *     guest holes FROM TO                  a copy with holes where pages are zeros, on the disk with its name
 *
 * A mark is made after the reply was read: what comes before it in the log was on the disk when the reply came.
 */
#define _GNU_SOURCE
#include <arpa/inet.h>
#include <fcntl.h>
#include <libgen.h>
#include <linux/dm-ioctl.h>
#include <netinet/in.h>
#include <netinet/tcp.h>
#include <pthread.h>
#include <signal.h>
#include <stdint.h>
#include <stdio.h>
#include <stdlib.h>
#include <string.h>
#include <sys/ioctl.h>
#include <sys/socket.h>
#include <sys/wait.h>
#include <unistd.h>

enum { PAGE = 4096, LINE = 256, REPLY = 1 << 16 };

static int control = -1;
static const char *log_name;
static pthread_mutex_t marking = PTHREAD_MUTEX_INITIALIZER;

static void end(const char *what) {
    perror(what);
    exit(1);
}

static void mark(const char *text) {
    char buffer[PAGE] = {0};
    struct dm_ioctl *head = (struct dm_ioctl *)buffer;
    struct dm_target_msg *message = (struct dm_target_msg *)(buffer + sizeof *head);
    head->version[0] = DM_VERSION_MAJOR;
    head->data_size = sizeof buffer;
    head->data_start = sizeof *head;
    snprintf(head->name, sizeof head->name, "%s", log_name);
    snprintf(message->message, sizeof buffer - sizeof *head - sizeof *message, "mark %s", text);
    pthread_mutex_lock(&marking);
    if (ioctl(control, DM_TARGET_MSG, head) != 0) end("mark");
    pthread_mutex_unlock(&marking);
}

static int ask_desk(const char *device, const char *path) {
    int in[2], out[2], status;
    if (pipe(in) || pipe(out)) end("pipe");
    if (fork() == 0) {
        dup2(in[0], 0);
        dup2(out[1], 1);
        close(in[1]);
        close(out[0]);
        execl("/bin/alm_server", "alm_server", "desk", device, (char *)NULL);
        end("alm_server");
    }
    close(in[0]);
    close(out[1]);
    FILE *lines = fopen(path, "r"), *replies = fdopen(out[0], "r");
    if (!lines || !replies) end(path);
    char line[LINE], text[64];
    static char reply[REPLY];
    for (int number = 1; fgets(line, sizeof line, lines); number++) {
        if (write(in[1], line, strlen(line)) < 0 || !fgets(reply, sizeof reply, replies)) break;
        snprintf(text, sizeof text, "r:%d", number);
        mark(text);
    }
    close(in[1]);
    wait(&status);
    return WEXITSTATUS(status);
}

static int port, count;
static unsigned seed;

static int connect_to(int slot) {
    int one = 1, connection = socket(AF_INET, SOCK_STREAM, 0);
    struct sockaddr_in at = {.sin_family = AF_INET, .sin_port = htons(port + slot), .sin_addr.s_addr = htonl(INADDR_LOOPBACK)};
    setsockopt(connection, IPPROTO_TCP, TCP_NODELAY, &one, sizeof one);
    if (connect(connection, (struct sockaddr *)&at, sizeof at)) end("connect");
    return connection;
}

/* A request of a slot, whose clock stands at *moment. */
static void draw(char *request, int slot, unsigned *dice, unsigned *moment) {
    static const int values[] = {0, 1, 49, 50, 90, 110, 789, 790, 800, 900};
    int alarm = rand_r(dice) % 4, kind = rand_r(dice) % 8;
    if (slot == 17) sprintf(request, "CLOCK %u", *moment += 1 + rand_r(dice) % 60);
    else if (slot == 16) sprintf(request, "VAL %d %d", alarm, values[rand_r(dice) % 10]);
    else if (kind < 4) sprintf(request, "ACK %d", alarm);
    else if (kind == 4) sprintf(request, "SHELVE %d %d", alarm, 1 + rand_r(dice) % 4000);
    else if (kind == 5) sprintf(request, "UNSHELVE %d", alarm);
    else if (kind == 6) sprintf(request, "PRIO %d %d", alarm, 1 + rand_r(dice) % 4);
    else sprintf(request, "RESET %d", alarm);
}

static void *ask_slot(void *of) {
    int slot = (int)(intptr_t)of, connection = connect_to(slot);
    unsigned dice = seed * 100 + slot, moment = 0, id, number;
    FILE *replies = fdopen(dup(connection), "r");
    for (int n = 1; n <= count; n++) {
        char request[96], line[128], reply[LINE], text[LINE];
        draw(request, slot, &dice, &moment);
        int length = snprintf(line, sizeof line, "%d %s\n", n, request);
        if (write(connection, line, length) != length || !fgets(reply, sizeof reply, replies)) end("slot");
        if (sscanf(reply, "%u OK %u", &id, &number) != 2) continue;
        for (char *at = request; *at; at++)
            if (*at == ' ') *at = '_';
        snprintf(text, sizeof text, "s:%d:%u:%s", slot, number, request);
        mark(text);
    }
    close(connection);
    return NULL;
}

static int ask_server(void) {
    static const int slots[] = {0, 5, 16, 17};
    pthread_t threads[4];
    for (int i = 0; i < 4; i++) pthread_create(&threads[i], NULL, ask_slot, (void *)(intptr_t)slots[i]);
    for (int i = 0; i < 4; i++) pthread_join(threads[i], NULL);
    return 0;
}

static int copy_with_holes(const char *source, char *target) {
    int from = open(source, O_RDONLY), to = open(target, O_RDWR | O_CREAT | O_TRUNC, 0600);
    char page[PAGE], zeros[PAGE] = {0};
    ssize_t got;
    off_t at = 0;
    if (from < 0 || to < 0) end(target);
    for (; (got = read(from, page, sizeof page)) > 0; at += got)
        if (memcmp(page, zeros, got) != 0 && pwrite(to, page, got, at) != got) end(target);
    int folder = open(dirname(target), O_RDONLY);
    if (ftruncate(to, at) != 0 || fsync(to) != 0 || fsync(folder) != 0) end(target);
    return 0;
}

int main(int words, char **word) {
    if (words < 4) return 2;
    signal(SIGPIPE, SIG_IGN);
    if (strcmp(word[1], "holes") == 0) return copy_with_holes(word[2], word[3]);
    log_name = word[2];
    control = open("/dev/mapper/control", O_RDWR);
    if (control < 0) end("/dev/mapper/control");
    if (strcmp(word[1], "mark") == 0) mark(word[3]);
    else if (strcmp(word[1], "desk") == 0 && words == 5) return ask_desk(word[3], word[4]);
    else if (strcmp(word[1], "serve") == 0 && words == 6) {
        port = atoi(word[3]);
        count = atoi(word[4]);
        seed = atoi(word[5]);
        return ask_server();
    } else return 2;
    return 0;
}
