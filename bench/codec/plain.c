/* Copies and sums as many bytes as the largest image has, byte by byte: what `alm_speed codec` is compared with. */
#include <stdint.h>
#include <stdio.h>
#include <stdlib.h>
#include <time.h>

enum { IMAGE = 3289168, ROUNDS = 50 };

static uint64_t copy_and_sum(uint8_t *to, const uint8_t *from, size_t count) {
    uint64_t sum = 0;
    for (size_t i = 0; i < count; i++) {
        to[i] = from[i];
        sum += from[i];
    }
    return sum;
}

int main(void) {
    uint8_t *from = malloc(IMAGE), *to = malloc(IMAGE);
    if (!from || !to) return 1;
    for (size_t i = 0; i < IMAGE; i++) from[i] = (uint8_t)(i * 31 >> 3);
    struct timespec a, b;
    uint64_t sum = 0;
    clock_gettime(CLOCK_MONOTONIC, &a);
    for (int round = 0; round < ROUNDS; round++) {
        from[round] ^= 1;
        sum += copy_and_sum(to, from, IMAGE);
    }
    clock_gettime(CLOCK_MONOTONIC, &b);
    printf("copy %llu %lld\n", (unsigned long long)(sum + to[7]), (long long)(b.tv_sec - a.tv_sec) * 1000000000 + (b.tv_nsec - a.tv_nsec));
    return 0;
}
