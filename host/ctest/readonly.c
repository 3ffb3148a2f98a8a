/*
 * A call that does no cycle stores nothing, and one that does no event stores no answer: the board and the answers lie in
 * read-only pages, and a store there is a signal.
 */
#define _DEFAULT_SOURCE
#include <setjmp.h>
#include <signal.h>
#include <stdio.h>
#include <stdlib.h>
#include <string.h>
#include <sys/mman.h>

#include "vindoshaka.h"

enum { ROOM = 65536, PLACES = 4 }; /* ROOM is whole pages on any machine */
enum where { NOWHERE, BOARD, ANSWERS, ELSEWHERE };
static const char *const places[] = {"", "stored to the board", "stored to the answers", "stored or read elsewhere"};

static vindoshaka_board *board;
static uint16_t *answers;
static uint8_t rom[2048];

/* A call: the move of a chip, or the report where the chip is 0. */
typedef struct call {
    int chip;
    size_t rom_len;
    const uint32_t *events;
    size_t events_len, answers_len;
    uint32_t cycles;
} call;

static volatile sig_atomic_t stored;
static vindoshaka_moved returned;
static sigjmp_buf back;
static int cases, failed;

static void caught(int number, siginfo_t *info, void *context) {
    const char *at = info->si_addr;
    const char *b = (const char *)board, *a = (const char *)answers;
    (void)number;
    (void)context;
    stored = at >= b && at < b + ROOM ? BOARD : at >= a && at < a + ROOM ? ANSWERS : ELSEWHERE;
    siglongjmp(back, 1);
}

static void make(const call *c) {
    if (c->chip == 6846) {
        returned = vindoshaka_move_6846(board, rom, c->rom_len, c->events, c->events_len, answers, c->answers_len, c->cycles);
    } else if (c->chip == 6840) {
        returned = vindoshaka_move_6840(board, c->events, c->events_len, answers, c->answers_len, c->cycles);
    } else {
        returned.number = vindoshaka_report(board).number;
        returned.count = 0;
    }
}

static void *pages(void) {
    void *at = mmap(NULL, ROOM, PROT_READ | PROT_WRITE, MAP_PRIVATE | MAP_ANONYMOUS, -1, 0);
    if (at == MAP_FAILED) exit(2);
    return at;
}

static void protect(int of_board, int of_answers) {
    if (mprotect(board, ROOM, of_board) != 0 || mprotect(answers, ROOM, of_answers) != 0) exit(2);
}

/* Makes the call on a copy of the board, answers always read-only, and says where it stored. */
static enum where stores(const vindoshaka_board *from, const call *c, int of_board) {
    protect(PROT_READ | PROT_WRITE, PROT_READ | PROT_WRITE);
    memcpy(board, from, sizeof *board);
    for (int i = 0; i < PLACES; i++) answers[i] = (uint16_t)(1000 + i);
    stored = NOWHERE;
    protect(of_board, PROT_READ);
    if (sigsetjmp(back, 1) == 0) make(c);
    return (enum where)stored;
}

static void fails(const char *what, const call *c, const char *why) {
    printf("readonly: %s, %s: %s\n", c->chip == 6846 ? "6846" : c->chip == 6840 ? "6840" : "report", what, why);
    failed = 1;
}

static void expect(const char *what, const vindoshaka_board *from, call c, int of_board, uint32_t number, uint32_t count) {
    enum where where = stores(from, &c, of_board);
    cases++;
    if (where != NOWHERE) {
        fails(what, &c, places[where]);
    } else if (returned.number != number || returned.count != count) {
        fails(what, &c, "returned another number or count");
    }
}

/* A call that does no cycle. */
static void does_nothing(const char *what, const vindoshaka_board *from, call c, uint32_t number) {
    expect(what, from, c, PROT_READ, number, 0);
}

/* A move that does all its cycles, and no event. */
static void answers_nothing(const char *what, const vindoshaka_board *from, call c) {
    expect(what, from, c, PROT_READ | PROT_WRITE, VINDOSHAKA_DONE, c.cycles);
}

/* A call that does store is seen to: else nothing here could fail. */
static void is_seen(const char *what, const vindoshaka_board *from, call c, int of_board, enum where where) {
    cases++;
    if (stores(from, &c, of_board) != where) fails(what, &c, "stores, and that was not seen");
}

static vindoshaka_board fresh(uint32_t wire) { return vindoshaka_start(0, 1, 0, 0, wire, 100).board; }

/* A board moved by `cycles` on its own list. */
static vindoshaka_board moved(vindoshaka_board from, int chip, const uint32_t *events, size_t events_len, uint32_t cycles) {
    const call c = {chip, sizeof rom, events, events_len, PLACES, cycles};
    protect(PROT_READ | PROT_WRITE, PROT_READ | PROT_WRITE);
    memcpy(board, &from, sizeof from);
    make(&c);
    return *board;
}

static void both_chips(int chip) {
    const uint32_t high = chip == 6846 ? 0x1fff : 0x7f;
    const uint32_t next[3] = {101, high, 0}, later[3] = {150, high, 0}, bad[3] = {100, high, 0}, four[4] = {0};
    const vindoshaka_board start = fresh(0), one = moved(start, chip, next, 3, 1);
    vindoshaka_board outside = start;
    outside.ptm.timers[2].divider = 8;

    is_seen("a cycle", &start, (call){chip, 2048, four, 0, 0, 1}, PROT_READ, BOARD);
    is_seen("an event", &start, (call){chip, 2048, next, 3, 1, 1}, PROT_READ | PROT_WRITE, ANSWERS);

    does_nothing("a move by 0, no list", &start, (call){chip, 2048, four, 0, 0, 0}, VINDOSHAKA_DONE);
    does_nothing("a move by 0, an event next", &start, (call){chip, 2048, next, 3, 1, 0}, VINDOSHAKA_DONE);
    does_nothing("a move by 0, a bad event next", &start, (call){chip, 2048, bad, 3, 1, 0}, VINDOSHAKA_DONE);
    does_nothing("3, four words", &start, (call){chip, 2048, four, 4, 4, 1}, VINDOSHAKA_BAD_LIST);
    does_nothing("3, fewer events than done", &one, (call){chip, 2048, four, 0, 0, 1}, VINDOSHAKA_BAD_LIST);
    does_nothing("4", &start, (call){chip, 2048, next, 3, 0, 1}, VINDOSHAKA_FEW_PLACES);
    does_nothing("9", &outside, (call){chip, 2048, next, 3, 1, 1}, VINDOSHAKA_BAD_RECORD);
    does_nothing("a first cycle's stop with 5", &start, (call){chip, 2048, bad, 3, 1, 9}, VINDOSHAKA_BAD_EVENT);
    const vindoshaka_board ahead = moved(start, chip, four, 0, 65536);
    does_nothing("a first cycle's stop with 6", &ahead, (call){chip, 2048, four, 0, 0, 9}, VINDOSHAKA_MUST_WAIT);

    answers_nothing("cycles, no list", &start, (call){chip, 2048, four, 0, 0, 40});
    answers_nothing("cycles up to an event", &start, (call){chip, 2048, later, 3, 1, 49});
    answers_nothing("cycles after the last event", &one, (call){chip, 2048, next, 3, 1, 40});
}

int main(void) {
    struct sigaction action = {0};
    action.sa_sigaction = caught;
    action.sa_flags = SA_SIGINFO;
    if (sigaction(SIGSEGV, &action, NULL) != 0) return 2;
    board = pages();
    answers = pages();

    both_chips(6846);
    both_chips(6840);

    const uint32_t none[1] = {0};
    const vindoshaka_board start = fresh(0);
    does_nothing("2", &start, (call){6846, 2047, none, 0, 0, 1}, VINDOSHAKA_BAD_ROM);
    /* With a wire the 6840 waits where it leads by 1. */
    const vindoshaka_board wired = moved(fresh(1), 6840, none, 0, 1);
    does_nothing("a first cycle's stop with 6, wired", &wired, (call){6840, 0, none, 0, 0, 9}, VINDOSHAKA_MUST_WAIT);
    /* Latch 0, then internal clocks with CTO on: it turns in each cycle, until 64 changes wait. */
    const uint32_t turning[9] = {101, 0x1bff, 0x75 | 0 << 16, 102, 0x1bff, 0x65 | 0 << 16, 103, 0x1bff, 0x55 | 0x82 << 16};
    const vindoshaka_board full = moved(fresh(1), 6846, turning, 9, 200);
    does_nothing("a first cycle's stop with 7", &full, (call){6846, 2048, turning, 9, 3, 9}, VINDOSHAKA_BOOK_FULL);

    vindoshaka_board outside = start;
    outside.wire = 4;
    does_nothing("0", &start, (call){0}, VINDOSHAKA_DONE);
    does_nothing("8", &full, (call){0}, VINDOSHAKA_STAMPS_DIFFER);
    does_nothing("9", &outside, (call){0}, VINDOSHAKA_BAD_RECORD);

    if (!failed) printf("readonly: %d calls, board and answers in read-only pages, stored where they may\n", cases);
    return failed;
}
