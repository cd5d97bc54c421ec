/* The two questions as an emulator asks them, against answers worked out from the paper by hand. */
#include "caller.h"

/* How many of the 8,192 entries are defined at a depth, with other bits set above the 13 that count. */
static uint32_t defined_entries(uint32_t depth, uint32_t above) {
    uint32_t count = 0;
    for (uint32_t entry = 0; entry < 8192; entry++)
        count += bulitampaw_entry_defined(above | entry, depth);
    return count;
}

int main(void) {
    same("defined at depth 16", defined_entries(16, 0), 784);
    same("defined at depth 32", defined_entries(32, 0), 1296);
    same("defined at depth 16, bits above 13", defined_entries(16, 0xFFFFE000u), 784);
    same("defined at depth 32, bits above 13", defined_entries(32, 0xA5A5A000u), 1296);
    static const uint32_t other_depths[] = {0, 1, 8, 15, 17, 24, 31, 33, 48, 64, 65552, 65568, 0xFFFFFFFFu};
    for (unsigned i = 0; i < sizeof other_depths / sizeof *other_depths; i++)
        same("defined at another depth", defined_entries(other_depths[i], 0), 0);

    for (uint32_t depth = 16; depth <= 32; depth += 16) {
        same("entry 0x110, bank 17", bulitampaw_entry_defined(0x110, depth), 1);
        same("entry 0x120, bank 18", bulitampaw_entry_defined(0x120, depth), 0);
    }
    same("format 1, buffer 0, depth 16", bulitampaw_entry_defined(0x2, 16), 1);
    same("format 1, buffer 1, depth 16", bulitampaw_entry_defined(0x3, 16), 0);
    same("format 5, buffer 0, depth 32", bulitampaw_entry_defined(0xA, 32), 1);
    same("format 5, buffer 1, depth 32", bulitampaw_entry_defined(0xB, 32), 0);
    same("format 5, depth 16", bulitampaw_entry_defined(0xA, 16), 0);

    static const uint32_t round[8] = {1, 1, 0, 0, 0, 1, 1, 1};
    for (uint32_t p = 0; p < 8; p++) {
        same("on 5, off 2", bulitampaw_signal_holds(5, 2, p), round[p]);
        same("on 3, off 3", bulitampaw_signal_holds(3, 3, p), 0);
    }
    same("on 2, off 5, before", bulitampaw_signal_holds(2, 5, 1), 0);
    same("on 2, off 5, at on", bulitampaw_signal_holds(2, 5, 2), 1);
    same("on 2, off 5, at off", bulitampaw_signal_holds(2, 5, 5), 0);
    same("the largest numbers", bulitampaw_signal_holds(0xFFFFFFFFu, 0, 0xFFFFFFFFu), 1);

    return finished("questions");
}
