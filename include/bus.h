/* A list of bus cycles on the KS0713, played on a packed state: the state is unpacked once, before the first cycle, and packed once,
 * after the last. What the head of panel.h says of its calls, and what it leaves to the caller, holds here too. The archive is
 * libbus.a; states are those of panel.h: panel_power_up makes one, and panel_switch_set puts it into the other command set. */
#ifndef BUS_H
#define BUS_H

#include <stddef.h>
#include <stdint.h>

#ifdef __cplusplus
extern "C" {
#endif

/* Plays the cycles: two bytes each, the kind (PANEL_INSTRUCTION and so on) and the value; a last odd byte is no cycle. The state of 32
 * bytes and the memory become what they are after them. A cycle that is refused changes nothing, and the next is played. All are played
 * in the command set that the state is in: no cycle changes it.
 *
 * Each cycle has an entry in the four outputs: in numbers the number that it is refused with, 0 for none, as panel_cycle answers it;
 * in reads 1 where it read a byte, else 0; in bytes the byte that it read, 0 where it read none; in fresh 1 where that is a fresh byte of
 * a data read, else 0 (a stale byte, a status byte, no byte). Entries past the list stay.
 *
 * Refuses the whole list, and plays none of it, with 1 (memory not 1,188 bytes), 2 (state), 5 (an output with fewer entries than there
 * are cycles). */
uint8_t bus_run(uint8_t state[32], uint8_t *memory, size_t memory_length, const uint8_t *cycles, size_t cycles_length,
                uint8_t *numbers, size_t numbers_length, uint8_t *reads, size_t reads_length, uint8_t *bytes, size_t bytes_length,
                uint8_t *fresh, size_t fresh_length);

#ifdef __cplusplus
}
#endif

#endif
