/* What the header hands on where a host passes NULL with length 0: never NULL. The library's moves are stood in for. */
#include <stdio.h>

#include "vindoshaka.h"

static int calls, lost;

/* The parentheses keep the header's macros away. */
vindoshaka_moved (vindoshaka_move_6846)(vindoshaka_board *board, const uint8_t *rom, size_t rom_len, const uint32_t *events,
                                        size_t events_len, uint16_t *answers, size_t answers_len, uint32_t cycles) {
    calls++;
    lost |= !board || !rom || rom_len != 0 || !events || events_len != 0 || !answers || answers_len != 0;
    return (vindoshaka_moved){VINDOSHAKA_DONE, cycles};
}

vindoshaka_moved (vindoshaka_move_6840)(vindoshaka_board *board, const uint32_t *events, size_t events_len,
                                        uint16_t *answers, size_t answers_len, uint32_t cycles) {
    calls++;
    lost |= !board || !events || events_len != 0 || !answers || answers_len != 0;
    return (vindoshaka_moved){VINDOSHAKA_DONE, cycles};
}

int main(void) {
    static vindoshaka_board board;
    uint32_t asked = vindoshaka_move_6846(&board, NULL, 0, NULL, 0, NULL, 0, 3).count + vindoshaka_move_6840(&board, NULL, 0, NULL, 0, 4).count;
    int failed = lost || calls != 2 || asked != 7;
    puts(failed ? "null: FAILED" : "null: no NULL reaches the library");
    return failed;
}
