/* Scans a full segment, and reads and checks every field of each frame and action: what `alm_speed segment` is
   compared with. */
#include <stdint.h>
#include <stdio.h>
#include <stdlib.h>
#include <time.h>

enum { SIZE = 16777216, FRAMES = 4077, ACTIONS = 256, ROUNDS = 20, OPEN = 0xA5, HEAD = 19, ACTION = 16 };

static const int64_t LARGEST = 1000000000000;

static uint64_t get(const uint8_t *from, int bytes) {
    uint64_t value = 0;
    for (int i = 0; i < bytes; i++) value = value << 8 | from[i];
    return value;
}

static void put(uint8_t *to, uint64_t value, int bytes) {
    for (int i = bytes; i-- > 0; value >>= 8) to[i] = (uint8_t)value;
}

/* As many frames of 256 values as fit. */
static void write_segment(uint8_t *to) {
    for (uint64_t frame = 0; frame < FRAMES; frame++) {
        to[0] = OPEN;
        put(to + 1, 1, 8);
        put(to + 9, frame * ACTIONS + 1, 8);
        put(to + 17, ACTIONS, 2);
        to += HEAD;
        for (uint64_t alarm = 0; alarm < ACTIONS; alarm++, to += ACTION) {
            put(to, 2, 1);
            put(to + 4, alarm, 4);
            put(to + 8, 1, 8);
        }
    }
}

/* Whether the argument of a kind of action, and its alarm, are within their limits. */
static int means(unsigned kind, uint32_t alarm, uint64_t argument) {
    int64_t value = (int64_t)argument;
    switch (kind) {
        case 1: return alarm == 0 && argument < (uint64_t)1 << 40;
        case 2: return -LARGEST <= value && value <= LARGEST;
        case 3: case 4: case 6: return argument == 0;
        case 5: return argument < (uint64_t)1 << 32;
        case 7: case 8: return argument <= 1;
        default: return 0;
    }
}

/* A sum over the alarms whose values are there, or the place of the first damage. */
static uint64_t scan(const uint8_t *bytes, uint64_t epoch) {
    const uint8_t *at = bytes, *end = bytes + SIZE;
    uint64_t count = 0, sum = 0;
    while (*at == OPEN) {
        if (end - at < HEAD + 1 || get(at + 1, 8) != epoch) return at + 1 - bytes;
        if (get(at + 9, 8) != count + 1) return at + 9 - bytes;
        unsigned actions = get(at + 17, 2);
        if (actions < 1 || actions > ACTIONS || end - at <= HEAD + ACTION * (int)actions) return at + 17 - bytes;
        at += HEAD;
        for (unsigned i = 0; i < actions; i++, at += ACTION) {
            uint32_t alarm = get(at + 4, 4);
            if (get(at + 1, 3) != 0 || !means(at[0], alarm, get(at + 8, 8))) return at - bytes;
            if (at[0] == 2) sum += alarm + 1;
        }
        count += actions;
    }
    return sum;
}

int main(void) {
    uint8_t *bytes = calloc(SIZE, 1);
    if (!bytes) return 1;
    write_segment(bytes);
    struct timespec a, b;
    uint64_t sum = 0;
    clock_gettime(CLOCK_MONOTONIC, &a);
    for (int round = 0; round < ROUNDS; round++) {
        sum += scan(bytes, 1);
        __asm__ volatile("" ::: "memory");
    }
    clock_gettime(CLOCK_MONOTONIC, &b);
    printf("scan %llu %lld\n", (unsigned long long)sum, (long long)(b.tv_sec - a.tv_sec) * 1000000000 + (b.tv_nsec - a.tv_nsec));
    return 0;
}
