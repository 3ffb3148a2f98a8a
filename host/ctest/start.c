/* vindoshaka_start for ./bench on another processor than the library's: the started board is made in place. */
#include "vindoshaka.h"

void *start_in_place(vindoshaka_started *, uint32_t, uint32_t, uint32_t, uint32_t, uint32_t, uint32_t);

vindoshaka_started vindoshaka_start(uint32_t rom_code, uint32_t io_code, uint32_t a6, uint32_t extra, uint32_t wire,
                                    uint32_t stamp) {
    vindoshaka_started started;
    start_in_place(&started, rom_code, io_code, a6, extra, wire, stamp);
    return started;
}
