#ifndef POWERS_H
#define POWERS_H

#include <stdint.h>

enum { POWERS = 16 };

extern const uint64_t power_of_ten[POWERS];

#endif
