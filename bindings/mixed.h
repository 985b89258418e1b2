/* Keys to hashes, for the drivers of this folder: splitmix64 with a seed. */
#ifndef MIXED_H
#define MIXED_H

#include <stdint.h>

static inline uint64_t mixed(uint64_t key, uint64_t seed) {
    uint64_t z = key + (seed + 1) * UINT64_C(0x9E3779B97F4A7C15);
    z = (z ^ (z >> 30)) * UINT64_C(0xBF58476D1CE4E5B9);
    z = (z ^ (z >> 27)) * UINT64_C(0x94D049BB133111EB);
    return z ^ (z >> 31);
}

#endif
