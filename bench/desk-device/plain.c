/* Two writes and two fdatasync a line, as many times as told: what a desk over a device asks of the system for an
   action. */
#include <fcntl.h>
#include <stdio.h>
#include <stdlib.h>
#include <string.h>
#include <unistd.h>

int main(int count, char **words) {
    if (count != 3) return 1;
    long lines = atol(words[2]);
    int file = open(words[1], O_RDWR | O_CREAT | O_TRUNC, 0600);
    if (file < 0 || ftruncate(file, 1 << 20)) return 3;
    unsigned char frame[35];
    memset(frame, 1, sizeof frame);
    long at = 0;
    for (long line = 0; line < lines; line++) {
        unsigned char gate = 0xA5;
        if (pwrite(file, frame, sizeof frame, at + 1) != sizeof frame || fdatasync(file)) return 3;
        if (pwrite(file, &gate, 1, at) != 1 || fdatasync(file)) return 3;
        at = (at + sizeof frame) % ((1 << 20) - 64);
    }
    return close(file) ? 3 : 0;
}
