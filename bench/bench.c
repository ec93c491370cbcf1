/* Times Fill, First and the first 65 lists on fixed kits, through the C face.
 * bench            times every kit
 * bench growth     times Fill on chains of 64 to 1,024 records, in two orders
 * bench KIT WHAT   does one of fill, first, lists on that kit once, for counting calls
 */
#include <stdio.h>
#include <stdlib.h>
#include <string.h>
#include <time.h>

#include "angatupyi.h"

enum { EQU = 1, NOT, AND, OR, NONE = 65535, RECORD = 8 };

typedef struct {
  const char *name;
  size_t boxes, makers, records;
  uint8_t sheet[256], table[1024 * RECORD];
} kit;

static void put_word(uint8_t *to, unsigned word) {
  to[0] = word & 255;
  to[1] = word >> 8;
}

static void put_record(kit *k, unsigned kind, unsigned x, unsigned y, unsigned z) {
  uint8_t *to = k->table + RECORD * k->records++;
  put_word(to, kind);
  put_word(to + 2, x);
  put_word(to + 4, y);
  put_word(to + 6, z);
}

static void begin(kit *k, const char *name, size_t boxes) {
  memset(k, 0, sizeof *k);
  k->name = name;
  k->boxes = boxes;
  memset(k->sheet, ANGATUPYI_OPEN, boxes);
}

static unsigned drawn(unsigned *seed, unsigned below) {
  *seed = *seed * 1103515245u + 12345u;
  return (*seed >> 16) % below;
}

/* 255 EQU, so ordered that a sweep through the records settles one box. */
static void reversed_chain(kit *k) {
  begin(k, "chain", 256);
  for (unsigned i = 255; i > 0; i--) put_record(k, EQU, i - 1, i, NONE);
  k->makers = k->records;
  k->sheet[0] = ANGATUPYI_IN;
}

/* A chain of EQU with box 0 in: link 254 first, or in a drawn order. Where there are more records than links, each link stands as
 * often as any other, one after the other. */
static void chain(kit *k, unsigned records, int in_drawn_order) {
  unsigned links = records < 255 ? records : 255, order[1024], seed = 3;
  begin(k, in_drawn_order ? "drawn" : "back", links + 1);
  for (unsigned i = 0; i < records; i++) order[i] = links - 1 - i * links / records;
  for (unsigned i = records - 1; in_drawn_order && i > 0; i--) {
    unsigned j = drawn(&seed, i + 1), link = order[i];
    order[i] = order[j];
    order[j] = link;
  }
  for (unsigned i = 0; i < records; i++) put_record(k, EQU, order[i], order[i] + 1, NONE);
  k->makers = k->records;
  k->sheet[0] = ANGATUPYI_IN;
}

/* 1,024 records, all true of one drawn list, half of them the depot's; `settled` boxes are settled as in that list. */
static void full_table(kit *k, const char *name, unsigned settled) {
  unsigned seed = 1;
  uint8_t hidden[256];
  begin(k, name, 256);
  for (unsigned b = 0; b < 256; b++) hidden[b] = drawn(&seed, 2);
  while (k->records < 1024) {
    unsigned kind = 1 + drawn(&seed, 4), x = drawn(&seed, 256), y = drawn(&seed, 256), z = drawn(&seed, 256);
    unsigned a = hidden[x], b = hidden[y], c = hidden[z];
    if (x == y || x == z || y == z) continue;
    if (kind == EQU && a == b) put_record(k, EQU, x, y, NONE);
    if (kind == NOT && a != b) put_record(k, NOT, x, y, NONE);
    if (kind == AND && (a & b) == c) put_record(k, AND, x, y, z);
    if (kind == OR && (a | b) == c) put_record(k, OR, x, y, z);
  }
  k->makers = 512;
  for (unsigned b = 0; b < settled; b++) k->sheet[b] = hidden[b];
}

/* Twenty cabs of twelve boxes: meter, dispatch computer, display, two feed boards and what they bring with them. The depot's own
 * rule is that every cab has its receiver where the first has. */
static void fleet(kit *k) {
  begin(k, "fleet", 240);
  for (unsigned at = 0; at < 240; at += 12) {
    unsigned receiver = at, meter = at + 1, dispatch = at + 2, display = at + 3, needed = at + 4, left = at + 5;
    unsigned right = at + 6, feed = at + 7, adapter = at + 8, plate = at + 9, mount = at + 10, cable = at + 11;
    put_record(k, OR, meter, dispatch, needed);
    put_record(k, OR, left, right, feed);
    put_record(k, EQU, needed, feed, NONE);
    put_record(k, AND, dispatch, display, adapter);
    put_record(k, NOT, left, plate, NONE);
    put_record(k, AND, left, right, mount);
    put_record(k, OR, adapter, mount, cable);
    put_record(k, EQU, receiver, needed, NONE);
    k->sheet[at % 24 ? dispatch : meter] = ANGATUPYI_IN;
    k->sheet[display] = at % 36 ? ANGATUPYI_IN : ANGATUPYI_OPEN;
  }
  k->makers = k->records;
  for (unsigned at = 12; at < 240; at += 12) put_record(k, EQU, 0, at, NONE);
}

static angatupyi_lent lent(const uint8_t *bytes, size_t length) {
  angatupyi_lent l = {bytes, length};
  return l;
}

static angatupyi_answer ask(const kit *k, int what, const uint8_t *given, uint8_t *out) {
  angatupyi_lent maker = lent(k->table, RECORD * k->makers), sheet = lent(k->sheet, k->boxes);
  angatupyi_lent depot = lent(k->table + RECORD * k->makers, RECORD * (k->records - k->makers));
  if (what == 0) return desk_fill(maker, depot, sheet, out, k->boxes);
  if (!given) return desk_first(maker, depot, sheet, out, k->boxes);
  return desk_next(maker, depot, sheet, lent(given, k->boxes), out, k->boxes);
}

/* What was handed out: boxes filled, or lists, at most 1 (First) or 65. */
static unsigned done(const kit *k, int what) {
  uint8_t given[256] = {0}, out[256] = {0};
  angatupyi_answer said = ask(k, what, NULL, out);
  if (what == 0) return said.code == ANGATUPYI_DONE ? (unsigned)said.first : 999;
  unsigned lists = 0, most = what == 1 ? 1 : 65;
  while (said.code == ANGATUPYI_DONE && ++lists < most) {
    memcpy(given, out, sizeof given);
    said = ask(k, what, given, out);
  }
  return lists;
}

static double now(void) {
  struct timespec t;
  clock_gettime(CLOCK_MONOTONIC, &t);
  return t.tv_sec * 1e6 + t.tv_nsec / 1e3;
}

static int ascending(const void *a, const void *b) {
  double x = *(const double *)a, y = *(const double *)b;
  return (x > y) - (x < y);
}

/* The median of 11 turns, each of as many calls as take 20 ms or more. */
static double microseconds(const kit *k, int what) {
  double turns[11];
  unsigned calls = 1;
  for (;;) {
    double start = now();
    for (unsigned i = 0; i < calls; i++) done(k, what);
    if (now() - start > 2e4) break;
    calls *= 2;
  }
  for (int t = 0; t < 11; t++) {
    double start = now();
    for (unsigned i = 0; i < calls; i++) done(k, what);
    turns[t] = (now() - start) / calls;
  }
  qsort(turns, 11, sizeof turns[0], ascending);
  return turns[5];
}

static void growth(void) {
  static kit k;
  for (int in_drawn_order = 0; in_drawn_order < 2; in_drawn_order++)
    for (unsigned records = 64; records <= 1024; records *= 2) {
      chain(&k, records, in_drawn_order);
      double took = microseconds(&k, 0);
      printf("%-6s %5u records %4u filled %8.2f us %6.1f ns a record\n", k.name, records, done(&k, 0), took, 1e3 * took / records);
      fflush(stdout);
    }
}

int main(int count, char **words) {
  static const char *whats[3] = {"fill", "first", "lists"};
  static kit kits[4];
  if (count == 2 && !strcmp(words[1], "growth")) {
    growth();
    return 0;
  }
  reversed_chain(&kits[0]);
  full_table(&kits[1], "full", 4);
  fleet(&kits[2]);
  begin(&kits[3], "empty", 256);
  for (int i = 0; i < 4; i++)
    for (int what = 0; what < 3; what++) {
      if (count == 3 && (strcmp(words[1], kits[i].name) || strcmp(words[2], whats[what]))) continue;
      printf("%-6s %-6s %4u", kits[i].name, whats[what], done(&kits[i], what));
      if (count == 3) printf("\n");
      else printf(" %12.1f us\n", microseconds(&kits[i], what));
      fflush(stdout);
    }
  return 0;
}
