/* Follows a served plant by its lines alone, as docs/PROTOCOL.md has it under "Follow a plant".

       cc -Wall -Wextra -Werror -o follow follow.c
       ./follow list PORT             each alarm that isn't normal, then each whose row changes: number, state, stamp
       ./follow history PORT [LAST]   each accepted action, those behind number LAST: its number, moment, slot and
                                      request; `gap`, the first and the last, where some are no longer remembered

   It prints these until it is ended. PORT is that of a slot, on this machine. Status 1 says that the connection is lost
   or a reply isn't one of the page, 2 that the arguments are wrong. */
#define _POSIX_C_SOURCE 200809L
#include <arpa/inet.h>
#include <poll.h>
#include <stdbool.h>
#include <stdio.h>
#include <stdlib.h>
#include <string.h>
#include <sys/socket.h>

enum { MOST_ALARMS = 16384, LONGEST_REPLY = 11061, PAUSE = 100 };

/* What an alarm's row was at a count of actions. The deadline is -1 if it isn't shelved. */
static struct row {
    long long count, stamp, deadline;
    char shown[6];
    bool is_old;
} rows[MOST_ALARMS];

/* A reply to SINCE: the plant's count, the numbers of the next and the last entry, the text from the next one on. */
struct since {
    bool is_forgotten;
    long long count, next, last;
    const char *text;
};

/* An accepted action: its word, its first field, and the second or an empty one. */
struct entry {
    long long number, moment, slot, field;
    char word[9], more[24];
};

static int server;
static FILE *replies;

static void end(const char *why) {
    fprintf(stderr, "follow: %s\n", why);
    exit(1);
}

static void connect_to(uint16_t port) {
    struct sockaddr_in at = {.sin_family = AF_INET, .sin_port = htons(port), .sin_addr = {htonl(INADDR_LOOPBACK)}};
    server = socket(AF_INET, SOCK_STREAM, 0);
    if (server < 0 || connect(server, (struct sockaddr *)&at, sizeof at) != 0) end("no server");
    if (!(replies = fdopen(server, "r"))) end("no memory");
}

/* Asks, with a number unless it is -1, and returns the reply behind its id. */
static const char *ask(const char *word, long long number) {
    static char reply[LONGEST_REPLY + 1];
    int sent = number < 0 ? dprintf(server, "1 %s\n", word) : dprintf(server, "1 %s %lld\n", word, number);
    if (sent < 0 || !fgets(reply, sizeof reply, replies)) end("lost");
    if (strncmp(reply, "1 ", 2) != 0 || !strchr(reply, '\n')) end("no whole reply");
    return reply + 2;
}

/* Asks for the actions after a number; for those that are remembered where it is -1. */
static struct since ask_since(long long after) {
    struct since told = {.text = ask("SINCE", after), .last = -1};
    long long length;
    int read;
    told.is_forgotten = strcmp(told.text, "NO 21\n") == 0;
    if (told.is_forgotten) return told;
    if (sscanf(told.text, "SINCE %lld %lld %lld%n", &told.count, &told.next, &length, &read) != 3) end("SINCE refused");
    told.last = told.next + length - 1;
    told.text += read;
    return told;
}

/* Takes the next entry of a reply. */
static struct entry take(struct since *told) {
    struct entry one = {.number = told->next++};
    int behind_one, behind_two; /* where an entry ends that has one field, and one that has two */
    int read = sscanf(told->text, "%lld %lld %8s %lld%n %23s%n", &one.moment, &one.slot, one.word, &one.field,
                      &behind_one, one.more, &behind_two);
    bool has_one = !strcmp(one.word, "CLOCK") || !strcmp(one.word, "ACK") || !strcmp(one.word, "RESET") ||
                   !strcmp(one.word, "UNSHELVE");
    if (read < (has_one ? 4 : 5)) end("a reply is too short");
    if (has_one) *one.more = '\0';
    told->text += has_one ? behind_one : behind_two;
    return one;
}

/* Asks for an alarm's row, and prints it where it is another than before. */
static void look(int alarm) {
    struct row now = {.deadline = -1}, before = rows[alarm];
    char deadline[24];
    if (sscanf(ask("ROW", alarm), "ROW %lld %5s %*s %*s %23s %lld", &now.count, now.shown, deadline, &now.stamp) != 4)
        end("ROW refused");
    if (strcmp(deadline, "-") != 0) now.deadline = atoll(deadline);
    rows[alarm] = now;
    if (strcmp(now.shown, before.shown) != 0 || now.stamp != before.stamp)
        printf("%d %s %lld\n", alarm, now.shown, now.stamp);
}

/* Marks the rows that an entry made old: of the alarm that it names; of CLOCK those whose deadline it reaches. */
static void mark(struct entry one, int alarms) {
    bool is_clock = strcmp(one.word, "CLOCK") == 0;
    for (int alarm = 0; alarm < alarms; alarm++) {
        struct row *row = &rows[alarm];
        bool is_due = row->deadline >= 0 && row->deadline <= one.moment;
        if (one.number > row->count && (is_clock ? is_due : one.field == alarm)) row->is_old = true;
    }
}

static void follow_list(void) {
    int alarms;
    if (sscanf(ask("PLANT", -1), "PLANT %*s %*s %d", &alarms) != 1 || alarms < 1 || alarms > MOST_ALARMS)
        end("PLANT refused");
    for (int alarm = 0; alarm < alarms; alarm++) strcpy(rows[alarm].shown, "NORM");
    for (struct since told = {.is_forgotten = true};;) {
        for (int alarm = 0; alarm < alarms; alarm++)
            if (told.is_forgotten || rows[alarm].is_old) look(alarm);
        if (told.is_forgotten) told.last = rows[0].count; /* the first that was asked has the least */
        fflush(stdout);
        if (told.last >= told.count) poll(NULL, 0, PAUSE);
        told = ask_since(told.last);
        while (told.next <= told.last) mark(take(&told), alarms);
    }
}

static void follow_history(long long last) {
    for (;;) {
        struct since told = ask_since(last);
        if (told.is_forgotten) {
            told = ask_since(-1);
            printf("gap %lld %lld\n", last + 1, told.next - 1);
        }
        if (told.count < last) end("the server has another device than before");
        while (told.next <= told.last) {
            struct entry one = take(&told);
            printf("%lld %lld %lld %s %lld", one.number, one.moment, one.slot, one.word, one.field);
            printf("%s%s\n", *one.more ? " " : "", one.more);
        }
        fflush(stdout);
        last = told.last;
        if (last >= told.count) poll(NULL, 0, PAUSE);
    }
}

int main(int count, char **words) {
    int port = count > 2 ? atoi(words[2]) : 0;
    bool is_list = count == 3 && strcmp(words[1], "list") == 0;
    bool is_history = (count == 3 || count == 4) && strcmp(words[1], "history") == 0;
    if (port < 1 || port > 65535 || !(is_list || is_history)) {
        fputs("usage: follow list PORT, or follow history PORT [LAST]\n", stderr);
        return 2;
    }
    connect_to((uint16_t)port);
    if (is_list) follow_list();
    follow_history(count == 4 ? atoll(words[3]) : -1);
}
