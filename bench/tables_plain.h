// Page tables in plain C: built from a list of mappings, walked, and vetted page by page.

#include <stdbool.h>
#include <stddef.h>
#include <stdint.h>

struct plain_mapping {
    uint64_t virtual, physical, size, attributes;  // attributes: 0, 1 writable, 2 executable
};

// How many numbers the tables take; 0 where that is more than 'lent', and then nothing is written.
size_t plain_build(const struct plain_mapping *list, size_t held, uint64_t *numbers, size_t lent);

// Where an address leads: false for nowhere. Attributes 3 are writable and executable.
bool plain_walk(const uint64_t *numbers, size_t lent, uint64_t virtual, uint64_t *physical, uint64_t *attributes);

// 0 where the tables answer as the list does, else 0x8a to 0x8d and the address. 'reached' has room for a byte for each 512 numbers lent.
unsigned plain_vet(const struct plain_mapping *list, size_t held, const uint64_t *numbers, size_t lent, uint8_t *reached, uint64_t *address);
