// The monitor in plain C without its text: set-up by frames of bytes, and calls that tell what the library tells of them.

#include <stdint.h>

void plain_begin(void);
unsigned plain_set_up(const uint8_t *frame);
unsigned plain_call(uint64_t number, const uint64_t x[8], uint64_t told[7]);
