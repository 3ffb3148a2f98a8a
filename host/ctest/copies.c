/*
 * Counts what a move copies by memcpy: as much for one cycle as for two thousand, so nothing of it is in the loop. Where none is
 * counted, copies go another way and this tells nothing, so it fails.
 */
#include <stdio.h>

#include "vindoshaka.h"

static unsigned long calls, bytes;

void *memcpy(void *restrict to, const void *restrict from, size_t size) {
    volatile unsigned char *t = to;
    const volatile unsigned char *f = from;
    calls++;
    bytes += size;
    for (size_t i = 0; i < size; i++) t[i] = f[i];
    return to;
}

static unsigned long copied(int first, uint32_t cycles) {
    static uint8_t rom[2048];
    static const uint32_t events[3];
    static uint16_t answers[1];
    vindoshaka_board board = vindoshaka_start(0, 1, 0, 0, 0, 0).board;
    calls = bytes = 0;
    if (first) {
        vindoshaka_move_6846(&board, rom, sizeof rom, events, 0, answers, 0, cycles);
    } else {
        vindoshaka_move_6840(&board, events, 0, answers, 0, cycles);
    }
    return bytes;
}

int main(void) {
    for (int first = 1; first >= 0; first--) {
        unsigned long one = copied(first, 1), many = copied(first, 2000);
        printf("copies of a %s move: %lu bytes by memcpy for 1 cycle, %lu for 2000\n", first ? "6846" : "6840", one, many);
        if (one != many) return 1;
        if (one == 0) {
            puts("copies: none was counted, so that this tells nothing");
            return 1;
        }
    }
    return 0;
}
