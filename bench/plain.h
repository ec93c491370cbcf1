/* Fill written plainly in C, with nothing proved, to measure against. Both take what angatupyi_fill takes and answer alike, as far as
 * the numbers go that they write: whether it is done; the count, or the refusal's number; its place. */
#ifndef PLAIN_H
#define PLAIN_H

#include <stddef.h>
#include <stdint.h>

enum { PLAIN_NUMBERS = 3 };

typedef void fill_function(const uint8_t *maker, size_t maker_length, const uint8_t *depot, size_t depot_length,
                           const uint8_t *sheet, size_t sheet_length, uint8_t *out, size_t out_length, uint64_t *answer);

fill_function fill_by_sweeps; /* passes over all records until one changes nothing */
fill_function fill_by_queue;  /* the records of each box listed; only those of a box just settled are looked at */

#endif
