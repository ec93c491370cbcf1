/* The desk library for C: every public operation, its answers, and who owns what.
 *
 * Link with libport.a (`tools/library` builds it for x86-64 Linux, and prints where it is).
 *
 * A table, sheet or list is lent as a pointer and a length in bytes. Any bytes of any length may be lent: a call that is bad in
 * form is refused by number and place, and a refusal leaves `out` as it was. Nothing is kept after a call, and nothing is
 * allocated: every buffer stays the caller's. `out` and `answer` must overlap nothing else that is lent.
 *
 * A null pointer with length 0 stands for nothing; the functions below put a valid address in its place.
 *
 * A sheet is one byte a box: 0 out, 1 in, 2 open; a list is a sheet with no 2. There are at most 256 boxes. A table holds
 * records of eight bytes, at most 1,024 in both tables together: byte 0 the kind, byte 1 zero, then the boxes x, y, z, two
 * bytes each, the low one first.
 *
 *   kind   rule          z
 *   1 EQU  x = y         65535, for none
 *   2 NOT  not x = y     65535, for none
 *   3 AND  x and y = z   a box
 *   4 OR   x or y = z    a box
 *
 * A record is bad if its kind is not 1 to 4, byte 1 is not 0, a box that it names is not below the number of boxes (for Test,
 * the list's length), kind 1 or 2 has z other than 65535, or two boxes that it names are equal.
 *
 * "Box 0 needs box 1" takes a helper, box 2: box 0 and box 1 = box 2, box 0 = box 2. Its lists are 000, 010 and 111. As bytes:
 *
 *   {3, 0, 0, 0, 1, 0, 2, 0}   {1, 0, 0, 0, 2, 0, 255, 255}
 *
 * docs/FORMAT.md has more on it.
 *
 *   answer        [0]                  [1]                       [2]
 *   test          ANGATUPYI_DONE       0                         0          the list fits
 *                 ANGATUPYI_BROKEN     the first broken record   0
 *   show          table: 0 maker's,    where the part starts     its bytes: 8, or 0 where Test names no broken record
 *                 1 depot's
 *   fill          ANGATUPYI_DONE       boxes filled              0          the filled sheet is in out
 *   first, next   ANGATUPYI_DONE       0                         0          the list is in out
 *   all but show  ANGATUPYI_REFUSED    the refusal's number      its place
 *
 *   number  place
 *   1       0               more than 256 boxes
 *   2       0, 1, 2         the maker's table has a bad length, the depot's has, or there are more than 1,024 records
 *   3       record number   a bad record; the depot's records are counted on after the maker's
 *   4       box             a byte of the sheet that is not 0, 1 or 2
 *   5       0, 1            the list has not as many bytes as the sheet; out has not
 *   6       box             a byte of the list that is not 0 or 1
 *   7       0               clash: the rules force some box both in and out
 *   8       record number   every box is filled and this record, the first such, is broken
 *   9       0               no list, or none after the given one
 */
#ifndef ANGATUPYI_H
#define ANGATUPYI_H

#include <stddef.h>
#include <stdint.h>

#ifdef __cplusplus
extern "C" {
#endif

enum { ANGATUPYI_DONE = 0, ANGATUPYI_REFUSED = 1, ANGATUPYI_BROKEN = 2 };
enum { ANGATUPYI_OUT = 0, ANGATUPYI_IN = 1, ANGATUPYI_OPEN = 2 };
enum { ANGATUPYI_NUMBERS = 3 }; /* that `answer` has room for */

/* The library's own functions. They take no null pointer: call the ones further down. */
void angatupyi_test(const uint8_t *maker, size_t maker_length, const uint8_t *depot, size_t depot_length,
                    const uint8_t *list, size_t list_length, uint64_t *answer);
void angatupyi_show(const uint8_t *maker, size_t maker_length, const uint8_t *depot, size_t depot_length,
                    const uint8_t *list, size_t list_length, uint64_t *answer);
void angatupyi_fill(const uint8_t *maker, size_t maker_length, const uint8_t *depot, size_t depot_length,
                    const uint8_t *sheet, size_t sheet_length, uint8_t *out, size_t out_length, uint64_t *answer);
void angatupyi_first(const uint8_t *maker, size_t maker_length, const uint8_t *depot, size_t depot_length,
                     const uint8_t *sheet, size_t sheet_length, uint8_t *out, size_t out_length, uint64_t *answer);
void angatupyi_next(const uint8_t *maker, size_t maker_length, const uint8_t *depot, size_t depot_length,
                    const uint8_t *sheet, size_t sheet_length, const uint8_t *given, size_t given_length, uint8_t *out,
                    size_t out_length, uint64_t *answer);

#ifdef __cplusplus
}
#endif

typedef struct {
  const uint8_t *bytes;
  size_t length;
} angatupyi_lent;

typedef struct {
  uint64_t code, first, second;
} angatupyi_answer;

static inline const uint8_t *angatupyi_there(const uint8_t *bytes) {
  static const uint8_t nothing[1] = {0};
  return bytes ? bytes : nothing;
}

static inline uint8_t *angatupyi_room(uint8_t *bytes, uint8_t *nothing) {
  return bytes ? bytes : nothing;
}

static inline angatupyi_answer angatupyi_as_answer(const uint64_t *said) {
  angatupyi_answer answer = {said[0], said[1], said[2]};
  return answer;
}

static inline angatupyi_answer desk_test(angatupyi_lent maker, angatupyi_lent depot, angatupyi_lent list) {
  uint64_t said[ANGATUPYI_NUMBERS] = {0};
  angatupyi_test(angatupyi_there(maker.bytes), maker.length, angatupyi_there(depot.bytes), depot.length,
                 angatupyi_there(list.bytes), list.length, said);
  return angatupyi_as_answer(said);
}

/* The part itself: eight bytes inside one of the two tables, or no bytes at the start of the maker's. */
static inline angatupyi_lent desk_show(angatupyi_lent maker, angatupyi_lent depot, angatupyi_lent list) {
  uint64_t said[ANGATUPYI_NUMBERS] = {0};
  angatupyi_show(angatupyi_there(maker.bytes), maker.length, angatupyi_there(depot.bytes), depot.length,
                 angatupyi_there(list.bytes), list.length, said);
  angatupyi_lent part = {said[0] ? depot.bytes : maker.bytes, (size_t)said[2]};
  if (said[2]) part.bytes += said[1];
  return part;
}

static inline angatupyi_answer desk_fill(angatupyi_lent maker, angatupyi_lent depot, angatupyi_lent sheet, uint8_t *out,
                                         size_t out_length) {
  uint64_t said[ANGATUPYI_NUMBERS] = {0};
  uint8_t nothing[1] = {0};
  angatupyi_fill(angatupyi_there(maker.bytes), maker.length, angatupyi_there(depot.bytes), depot.length,
                 angatupyi_there(sheet.bytes), sheet.length, angatupyi_room(out, nothing), out_length, said);
  return angatupyi_as_answer(said);
}

static inline angatupyi_answer desk_first(angatupyi_lent maker, angatupyi_lent depot, angatupyi_lent sheet, uint8_t *out,
                                          size_t out_length) {
  uint64_t said[ANGATUPYI_NUMBERS] = {0};
  uint8_t nothing[1] = {0};
  angatupyi_first(angatupyi_there(maker.bytes), maker.length, angatupyi_there(depot.bytes), depot.length,
                  angatupyi_there(sheet.bytes), sheet.length, angatupyi_room(out, nothing), out_length, said);
  return angatupyi_as_answer(said);
}

static inline angatupyi_answer desk_next(angatupyi_lent maker, angatupyi_lent depot, angatupyi_lent sheet,
                                         angatupyi_lent given, uint8_t *out, size_t out_length) {
  uint64_t said[ANGATUPYI_NUMBERS] = {0};
  uint8_t nothing[1] = {0};
  angatupyi_next(angatupyi_there(maker.bytes), maker.length, angatupyi_there(depot.bytes), depot.length,
                 angatupyi_there(sheet.bytes), sheet.length, angatupyi_there(given.bytes), given.length,
                 angatupyi_room(out, nothing), out_length, said);
  return angatupyi_as_answer(said);
}

#endif
