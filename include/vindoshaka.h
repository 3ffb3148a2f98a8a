/*
 * vindoshaka.h: an MC6846 (ROM, port, timer) and an MC6840 (three timers) on one board, cycle by cycle.
 *
 * Link libvindoshaka.a. The library keeps nothing, allocates nothing and calls nothing but memcpy and memset; every call returns, whatever the
 * record, the lists and the counts hold. Calls on different boards may run at the same time.
 *
 * C11 and C++11.
 */
#ifndef VINDOSHAKA_H
#define VINDOSHAKA_H

#include <stdbool.h>
#include <stddef.h>
#include <stdint.h>

#ifdef __cplusplus
extern "C" {
#endif

/* The numbers returned. 1 to 4, 8 and 9 refuse: nothing is done. 5 to 7 stop: the cycles counted are done. */
enum vindoshaka_number {
    VINDOSHAKA_DONE = 0,          /* all asked cycles done (zero included) */
    VINDOSHAKA_BAD_OPTION = 1,    /* start: an option is outside its values or the two codes are equal */
    VINDOSHAKA_BAD_ROM = 2,       /* the lent ROM is not 2,048 bytes (6846 only) */
    VINDOSHAKA_BAD_LIST = 3,      /* a list's length is no multiple of 3, or it has fewer events than were done */
    VINDOSHAKA_FEW_PLACES = 4,    /* fewer answer places than events */
    VINDOSHAKA_BAD_EVENT = 5,     /* stopped: the next event is bad */
    VINDOSHAKA_MUST_WAIT = 6,     /* stopped: the chip must wait for the other */
    VINDOSHAKA_BOOK_FULL = 7,     /* stopped: this 6846 cycle changes CTO and 64 changes wait */
    VINDOSHAKA_STAMPS_DIFFER = 8, /* report asked while the stamps differ */
    VINDOSHAKA_BAD_RECORD = 9     /* board record outside its ranges */
};

/* One programmable timer: the MC6846 has one, the MC6840 three. */
typedef struct vindoshaka_timer {
    uint16_t latch;
    uint16_t counter;
    uint8_t control; /* TCR, CR1, CR2 or CR3 */
    uint8_t divider; /* the divider by 8: 0 to 7 */
    bool flag;
    bool level; /* the output level, also while bit 7 keeps it from the pin */
    bool counted; /* the marks "counted" and "timed out" */
    bool lapsed;
    bool armed; /* a status read saw the flag */
    bool running; /* an interval is measured */
    bool gate; /* the levels of the cycle before */
    bool clock;
} vindoshaka_timer;

/* The MC6846. */
typedef struct vindoshaka_combo {
    vindoshaka_timer timer;
    uint8_t msb; /* the buffers of the counter's two bytes */
    uint8_t lsb;
    uint8_t pcr;
    uint8_t ddr;
    uint8_t pdr;
    uint8_t capture; /* the levels of P that a CP1 edge captured */
    uint8_t pins;    /* the levels of P that the last cycle sampled */
    bool flag1;      /* CP1 */
    bool armed1;
    bool flag2; /* CP2 */
    bool armed2;
    bool captured;
    bool touched; /* a PDR access in the last cycle, and in the one before it */
    bool strobed;
    bool raised; /* flag 1 was set after the last cycle's edges */
    bool cp1;    /* the levels that the last cycle sampled */
    bool cp2;
    bool before1; /* CP1 and CP2 in the cycle before that */
    bool before2;
    bool driven; /* the level of CP2 as an output */
} vindoshaka_combo;

/* The MC6840. */
typedef struct vindoshaka_ptm {
    vindoshaka_timer timers[3];
    uint8_t msb; /* the one MSB buffer and the one LSB buffer */
    uint8_t lsb;
} vindoshaka_ptm;

/* The start options that select ROM and I/O. */
typedef struct vindoshaka_select {
    uint8_t rom;   /* codes CS0 + 2 x CS1, 0 to 3, different */
    uint8_t io;
    uint8_t a6;    /* 0, 1, or 2 for either */
    uint8_t extra; /* 0 for none, or the address line 7 to 10 that must be 1 */
} vindoshaka_select;

/* The ring of CTO changes that the 6840 has not yet seen: the oldest one's place, and how many wait. */
typedef struct vindoshaka_ends {
    uint32_t first;
    uint32_t waiting;
} vindoshaka_ends;

/*
 * The whole board. A host may keep, copy and compare it; the calls below are the way to change it. A record that is
 * outside its ranges is refused with number 9. A bool holds 0 or 1.
 */
typedef struct vindoshaka_board {
    vindoshaka_select select;
    uint8_t wire; /* 0 for none, or the clock input 1 to 3 that hears CTO */
    vindoshaka_combo combo;
    vindoshaka_ptm ptm;
    uint32_t levels6846; /* the input levels held until the chip's next event, as an event's word has them */
    uint32_t levels6840;
    uint32_t stamp6846; /* the stamp of each chip's last cycle */
    uint32_t stamp6840;
    vindoshaka_ends ends;
    size_t done6846; /* events done of each list */
    size_t done6840;
    uint32_t places[64]; /* the changes that wait, by the stamps of their cycles */
} vindoshaka_board;

typedef struct vindoshaka_started {
    vindoshaka_board board;
    uint32_t number;
} vindoshaka_started;

typedef struct vindoshaka_moved {
    uint32_t number;
    uint32_t count; /* cycles done */
} vindoshaka_moved;

typedef struct vindoshaka_levels {
    uint32_t number;
    uint32_t levels; /* bits 0-7 P0-P7, 8 CP2, 9 CTO, 10-12 O1-O3, 13 IRQ */
} vindoshaka_levels;

/*
 * A board in the reset state at the caller's stamp: number 0 or 1. A refused start gives the board of ROM code 0, I/O
 * code 1, other options 0, stamp 0.
 */
vindoshaka_started vindoshaka_start(uint32_t rom_code, uint32_t io_code, uint32_t a6, uint32_t extra, uint32_t wire,
                                    uint32_t stamp);

/*
 * Moves the 6846 of the lent board by up to `cycles`: numbers 0, 2 to 7, 9. An event is three words: stamp, levels, access.
 *   levels: bits 0-7 P, 8 CP1, 9 CP2, 10 CTG, 11 CTC, 12 RESET
 *   access: bit 0 present, 1 read, 2 CS0, 3 CS1, 4-14 A0-A10, 16-23 data
 * The list holds all events from the board's start on, and one answer place for each: the byte read, or 256 if nothing was
 * driven. Lengths are in elements; a pointer of length 0 may be anything but NULL. `board` and `answers` overlap nothing.
 */
vindoshaka_moved vindoshaka_move_6846(vindoshaka_board *board, const uint8_t *rom, size_t rom_len,
                                      const uint32_t *events, size_t events_len, uint16_t *answers,
                                      size_t answers_len, uint32_t cycles);

/*
 * The same for the 6840: numbers 0, 3 to 6, 9.
 *   levels: bits 0-2 C1-C3, 3-5 G1-G3, 6 RESET
 *   access: bit 0 present, 1 read, 2-4 RS0-RS2, 16-23 data
 */
vindoshaka_moved vindoshaka_move_6840(vindoshaka_board *board, const uint32_t *events, size_t events_len,
                                      uint16_t *answers, size_t answers_len, uint32_t cycles);

/* The levels of the pins, once both chips have done the same cycles: number 0, 8 or 9. */
vindoshaka_levels vindoshaka_report(const vindoshaka_board *board);

#ifdef __cplusplus
}
#endif

#endif
