/* The judgement on a lower bound, proved in Rattle and exported by the library quote. */
#ifndef QUOTE_H
#define QUOTE_H

#include <stddef.h>
#include <stdint.h>

/*
 * 0 if the certificate proves a lower bound for the access structure, else the number of the refusal, the access
 * structure's first (docs/REFUSALS.md). Both pointers are non-null, also for a length of 0. Neither buffer is changed.
 */
uint32_t quote_check(const uint8_t *structure, size_t structure_length,
                     const uint8_t *certificate, size_t certificate_length);

#endif
