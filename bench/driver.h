/* The driver by hand: the model's four calls over two pictures, with the model's arguments and answers, under other names. */
#ifndef DRIVER_H
#define DRIVER_H
#include <stddef.h>
#include <stdint.h>

#define DRIVER_CALLS(chip) \
uint8_t chip##_first_difference(const uint8_t *, size_t, const uint8_t *, size_t, uint8_t *, size_t *, size_t *); \
uint8_t chip##_update_length(const uint8_t *, size_t, const uint8_t *, size_t, size_t *); \
uint8_t chip##_update(const uint8_t *, size_t, const uint8_t *, size_t, uint8_t *, size_t, uint8_t *, size_t, size_t *); \
uint8_t chip##_page_group(const uint8_t *, size_t, const uint8_t *, size_t, size_t, uint8_t *, size_t, uint8_t *, size_t, size_t *);

DRIVER_CALLS(driver)
DRIVER_CALLS(driver0717)

/* driver.c is compiled once for each chip: with -DCHIP0717 for the second */
#ifdef CHIP0717
#define DRIVER(call) driver0717_##call
#define DRIVER_WIDTH 100
#else
#define DRIVER(call) driver_##call
#define DRIVER_WIDTH 132
#endif
#endif
