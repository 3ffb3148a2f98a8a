// The header is C++ too.
#include <cstdio>

#include "vindoshaka.h"

static_assert(sizeof(vindoshaka_board) <= 1024, "the record is at most 1 KiB");
static_assert(alignof(vindoshaka_board) == 8, "the record is aligned to 8 bytes");

int main() {
    static const uint8_t rom[2048] = {};
    const uint32_t none = 0;
    uint16_t place = 0;
    const vindoshaka_started started = vindoshaka_start(0, 1, 0, 0, 0, 0);
    vindoshaka_board moved = started.board;
    const bool same = vindoshaka_report(&started.board).number == VINDOSHAKA_DONE &&
                      vindoshaka_move_6846(&moved, rom, 0, &none, 0, &place, 0, 3).number == VINDOSHAKA_BAD_ROM &&
                      vindoshaka_move_6846(&moved, rom, sizeof rom, &none, 0, &place, 0, 3).count == 3 &&
                      vindoshaka_move_6840(&moved, &none, 0, &place, 0, 3).count == 3 &&
                      vindoshaka_report(&moved).number == VINDOSHAKA_DONE;
    std::puts(same ? "header: ok in C++" : "header: FAILED in C++");
    return same ? 0 : 1;
}
