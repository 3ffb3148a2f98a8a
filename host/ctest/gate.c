/* A small gate: every call once and more, through the header, and the record read field by field. */
#include <stdio.h>
#include <string.h>

#include "vindoshaka.h"

static int failed = 0;

#define EXPECT(fact)                                              \
    do {                                                          \
        if (!(fact)) {                                            \
            printf("%s:%d: not so: %s\n", __FILE__, __LINE__, #fact); \
            failed = 1;                                           \
        }                                                         \
    } while (0)

#define ALL_6846 0x1fffu
#define ALL_6840 0x7fu
#define CTG (1u << 10)

static uint32_t write_6846(uint32_t reg, uint32_t byte) { return 1u | 1u << 2 | reg << 4 | byte << 16; }
static uint32_t read_6846(uint32_t reg) { return 3u | 1u << 2 | reg << 4; }
static uint32_t write_6840(uint32_t reg, uint32_t byte) { return 1u | reg << 2 | byte << 16; }
static uint32_t read_6840(uint32_t reg) { return 3u | reg << 2; }

static void fresh_timer(const vindoshaka_timer *t, uint8_t control) {
    EXPECT(t->latch == 65535 && t->counter == 65535 && t->control == control && t->divider == 0);
    EXPECT(!t->flag && !t->armed && !t->level && !t->running && !t->counted && !t->lapsed);
    EXPECT(t->gate && t->clock);
}

/* Each field of a started board is where the header says. */
static void fresh_board(const vindoshaka_board *b, uint8_t rom, uint8_t io, uint8_t a6, uint8_t extra, uint8_t wire, uint32_t stamp) {
    EXPECT(b->select.rom == rom && b->select.io == io && b->select.a6 == a6 && b->select.extra == extra && b->wire == wire);
    fresh_timer(&b->combo.timer, 1);
    EXPECT(b->combo.msb == 0 && b->combo.lsb == 0 && b->combo.pcr == 128 && b->combo.ddr == 0 && b->combo.pdr == 0);
    EXPECT(b->combo.capture == 0 && b->combo.pins == 255 && !b->combo.flag1 && !b->combo.armed1 && !b->combo.flag2);
    EXPECT(!b->combo.armed2 && !b->combo.captured && !b->combo.touched && !b->combo.strobed && !b->combo.raised && !b->combo.driven);
    EXPECT(b->combo.cp1 && b->combo.cp2 && !b->combo.before1 && !b->combo.before2);
    fresh_timer(&b->ptm.timers[0], 1);
    fresh_timer(&b->ptm.timers[1], 0);
    fresh_timer(&b->ptm.timers[2], 0);
    EXPECT(b->ptm.msb == 0 && b->ptm.lsb == 0);
    EXPECT(b->levels6846 == 8191 && b->levels6840 == 127);
    EXPECT(b->stamp6846 == stamp && b->stamp6840 == stamp);
    EXPECT(b->ends.first == 0 && b->ends.waiting == 0 && b->done6846 == 0 && b->done6840 == 0);
    for (int i = 0; i < 64; i++) EXPECT(b->places[i] == 0);
}

static void starts(void) {
    vindoshaka_started s = vindoshaka_start(2, 3, 1, 9, 2, 0x12345678u);
    EXPECT(s.number == VINDOSHAKA_DONE);
    fresh_board(&s.board, 2, 3, 1, 9, 2, 0x12345678u);
    /* A refused start gives one fixed board, whichever option is wrong. */
    const uint32_t wrong[][5] = {
        {4, 1, 0, 0, 0}, {0, 4, 0, 0, 0}, {2, 2, 0, 0, 0}, {2, 3, 3, 9, 1}, {2, 3, 1, 6, 1}, {2, 3, 1, 11, 1}, {2, 3, 1, 9, 4}, {256, 1, 0, 0, 0},
    };
    for (size_t i = 0; i < sizeof wrong / sizeof wrong[0]; i++) {
        const uint32_t *w = wrong[i];
        s = vindoshaka_start(w[0], w[1], w[2], w[3], w[4], 5);
        EXPECT(s.number == VINDOSHAKA_BAD_OPTION);
        fresh_board(&s.board, 0, 1, 0, 0, 0, 0);
    }
}

/* A 6846 timer of latch 3 beside a 6840 timer of latch 1: answers, counts, pins. */
static void small_gate(void) {
    static uint8_t rom[2048];
    rom[0x155] = 0x77;
    vindoshaka_board board = vindoshaka_start(0, 1, 0, 0, 0, 0xfffffffdu).board;
    const uint32_t to_6846[] = {
        0xfffffffeu, ALL_6846 & ~CTG, write_6846(7, 3),
        0xffffffffu, ALL_6846 & ~CTG, 3u | 0x155u << 4,
        0u, ALL_6846 & ~CTG, write_6846(5, 0xc2),
        5u, ALL_6846 & ~CTG, read_6846(0),
        6u, ALL_6846 & ~CTG, read_6846(6),
    };
    const uint32_t to_6840[] = {
        0xfffffffeu, 0x47u, write_6840(1, 1),
        0xffffffffu, 0x47u, write_6840(3, 1),
        0u, 0x47u, write_6840(0, 0x82),
        7u, 0x47u, read_6840(1),
    };
    uint16_t answers_6846[5] = {9, 9, 9, 9, 9};
    uint16_t answers_6840[4] = {9, 9, 9, 9};
    vindoshaka_moved moved = vindoshaka_move_6846(&board, rom, sizeof rom, to_6846, 15, answers_6846, 5, 10);
    EXPECT(moved.number == VINDOSHAKA_DONE && moved.count == 10 && board.stamp6846 == 7 && board.done6846 == 5);
    EXPECT(answers_6846[0] == 256 && answers_6846[1] == 0x77 && answers_6846[2] == 256);
    EXPECT(answers_6846[3] == 129 && answers_6846[4] == 0);
    EXPECT(vindoshaka_report(&board).number == VINDOSHAKA_STAMPS_DIFFER);
    moved = vindoshaka_move_6840(&board, to_6840, 12, answers_6840, 4, 10);
    EXPECT(moved.number == VINDOSHAKA_DONE && moved.count == 10 && board.stamp6840 == 7 && board.done6840 == 4);
    EXPECT(answers_6840[0] == 256 && answers_6840[1] == 256 && answers_6840[2] == 256 && answers_6840[3] == 1);
    vindoshaka_levels report = vindoshaka_report(&board);
    EXPECT(report.number == VINDOSHAKA_DONE && (report.levels & 0xff) == 0xff && (report.levels >> 14) == 0);
    EXPECT((report.levels >> 9 & 1) == 1 && (report.levels >> 10 & 1) == 1 && (report.levels >> 13 & 1) == 1);
}

/* A refusal leaves every byte of the record, its padding too, and of the answers. */
static void refusals(void) {
    static uint8_t rom[2048];
    const uint32_t events[4] = {1, ALL_6846, 0, 0};
    uint16_t answers[2] = {7, 8}, kept[2] = {7, 8};
    vindoshaka_board board, before;
    vindoshaka_started s = vindoshaka_start(4, 1, 0, 0, 0, 5);
    EXPECT(s.number == VINDOSHAKA_BAD_OPTION && s.board.stamp6846 == 0 && s.board.select.io == 1);
    memset(&board, 1, sizeof board);
    memcpy(&before, &board, sizeof board);
    EXPECT(vindoshaka_move_6846(&board, rom, 2048, events, 3, answers, 1, 1).number == VINDOSHAKA_BAD_RECORD);
    EXPECT(vindoshaka_move_6840(&board, events, 3, answers, 1, 1).number == VINDOSHAKA_BAD_RECORD);
    EXPECT(vindoshaka_report(&board).number == VINDOSHAKA_BAD_RECORD && vindoshaka_report(&board).levels == 0);
    EXPECT(memcmp(&board, &before, sizeof board) == 0);
    /* All zero but the I/O code is inside the ranges, with known padding. */
    memset(&board, 0, sizeof board);
    board.select.io = 1;
    memcpy(&before, &board, sizeof board);
    EXPECT(vindoshaka_move_6846(&board, rom, 2047, events, 3, answers, 1, 1).number == VINDOSHAKA_BAD_ROM);
    EXPECT(vindoshaka_move_6846(&board, rom, 2048, events, 4, answers, 2, 1).number == VINDOSHAKA_BAD_LIST);
    EXPECT(vindoshaka_move_6846(&board, rom, 2048, events, 3, answers, 0, 1).number == VINDOSHAKA_FEW_PLACES);
    EXPECT(vindoshaka_move_6840(&board, events, 4, answers, 2, 1).number == VINDOSHAKA_BAD_LIST);
    EXPECT(vindoshaka_move_6840(&board, events, 3, answers, 0, 1).number == VINDOSHAKA_FEW_PLACES);
    EXPECT(memcmp(&board, &before, sizeof board) == 0 && memcmp(answers, kept, sizeof answers) == 0);
}

int main(void) {
    starts();
    small_gate();
    refusals();
    puts(failed ? "ctest: FAILED" : "ctest: ok");
    return failed;
}
