/* A clerk's call in C: a sheet is filled, the first lists are asked for, and a list that does not fit is shown its rule.
 * The maker's rule is AND of boxes 0 and 1 is box 2; the depot's is EQU of boxes 0 and 2. */
#include <stdio.h>

#include "angatupyi.h"

static void print_boxes(const char *name, const uint8_t *boxes, size_t n) {
  printf("%s", name);
  for (size_t b = 0; b < n; b++) printf(" %u", (unsigned)boxes[b]);
  printf("\n");
}

static void print_answer(const char *name, angatupyi_answer a) {
  printf("%s %u %u %u\n", name, (unsigned)a.code, (unsigned)a.first, (unsigned)a.second);
}

int main(void) {
  static const uint8_t maker_bytes[8] = {3, 0, 0, 0, 1, 0, 2, 0}, depot_bytes[8] = {1, 0, 0, 0, 2, 0, 255, 255};
  static const uint8_t wanted[3] = {1, 2, 2}, all_open[3] = {2, 2, 2}, clashing[3] = {1, 0, 2}, misfit[3] = {1, 0, 0};
  const angatupyi_lent maker = {maker_bytes, 8}, depot = {depot_bytes, 8}, nothing = {NULL, 0};
  uint8_t out[3] = {9, 9, 9}, given[3];

  print_answer("fill", desk_fill(maker, depot, (angatupyi_lent){wanted, 3}, out, 3));
  print_boxes("filled", out, 3);

  out[0] = out[1] = out[2] = 9;
  print_answer("fill", desk_fill(maker, depot, (angatupyi_lent){clashing, 3}, out, 3));
  print_boxes("left", out, 3);

  angatupyi_answer said = desk_first(maker, depot, (angatupyi_lent){all_open, 3}, out, 3);
  while (said.code == ANGATUPYI_DONE) {
    print_boxes("list", out, 3);
    for (int b = 0; b < 3; b++) given[b] = out[b];
    said = desk_next(maker, depot, (angatupyi_lent){all_open, 3}, (angatupyi_lent){given, 3}, out, 3);
  }
  print_answer("no more", said);

  print_answer("test", desk_test(maker, depot, (angatupyi_lent){misfit, 3}));
  angatupyi_lent part = desk_show(maker, depot, (angatupyi_lent){misfit, 3});
  print_boxes("shown", part.bytes, part.length);

  print_answer("nothing", desk_first(nothing, nothing, nothing, NULL, 0));
  return 0;
}
