/* Prints the size and place of every field of the record, one to a line, as the header has it. */
#include <stdio.h>

#include "vindoshaka.h"

#define STRUCT(type) printf("%s %zu %zu\n", #type, sizeof(vindoshaka_##type), _Alignof(vindoshaka_##type))
#define FIELD(type, field) \
    printf("%s.%s %zu %zu\n", #type, #field, offsetof(vindoshaka_##type, field), sizeof(((vindoshaka_##type *)0)->field))

int main(void) {
    STRUCT(timer);
    FIELD(timer, latch);
    FIELD(timer, counter);
    FIELD(timer, control);
    FIELD(timer, divider);
    FIELD(timer, flag);
    FIELD(timer, level);
    FIELD(timer, counted);
    FIELD(timer, lapsed);
    FIELD(timer, armed);
    FIELD(timer, running);
    FIELD(timer, gate);
    FIELD(timer, clock);
    STRUCT(combo);
    FIELD(combo, timer);
    FIELD(combo, msb);
    FIELD(combo, lsb);
    FIELD(combo, pcr);
    FIELD(combo, ddr);
    FIELD(combo, pdr);
    FIELD(combo, capture);
    FIELD(combo, pins);
    FIELD(combo, flag1);
    FIELD(combo, armed1);
    FIELD(combo, flag2);
    FIELD(combo, armed2);
    FIELD(combo, captured);
    FIELD(combo, touched);
    FIELD(combo, strobed);
    FIELD(combo, raised);
    FIELD(combo, cp1);
    FIELD(combo, cp2);
    FIELD(combo, before1);
    FIELD(combo, before2);
    FIELD(combo, driven);
    STRUCT(ptm);
    FIELD(ptm, timers);
    FIELD(ptm, msb);
    FIELD(ptm, lsb);
    STRUCT(select);
    FIELD(select, rom);
    FIELD(select, io);
    FIELD(select, a6);
    FIELD(select, extra);
    STRUCT(ends);
    FIELD(ends, first);
    FIELD(ends, waiting);
    STRUCT(board);
    FIELD(board, select);
    FIELD(board, wire);
    FIELD(board, combo);
    FIELD(board, ptm);
    FIELD(board, levels6846);
    FIELD(board, levels6840);
    FIELD(board, stamp6846);
    FIELD(board, stamp6840);
    FIELD(board, ends);
    FIELD(board, done6846);
    FIELD(board, done6840);
    FIELD(board, places);
    STRUCT(moved);
    FIELD(moved, number);
    FIELD(moved, count);
    STRUCT(started);
    FIELD(started, board);
    FIELD(started, number);
    STRUCT(levels);
    FIELD(levels, number);
    FIELD(levels, levels);
    return 0;
}
