/* Times Fill, proved and compiled by the kit, beside two plain programs in C. Every case is first answered by all three, and many
 * small random calls too; where they differ, nothing is timed. */
#include "angatupyi.h"
#include "plain.h"

#include <stdio.h>
#include <stdlib.h>
#include <string.h>
#include <time.h>

enum { EQU = 1, NOT, AND, OR };
enum { OUT, IN, OPEN };

struct call {
    uint8_t maker[8192], depot[8192], sheet[256];
    size_t makers, depots, n; /* records, records, boxes */
};

static fill_function *const fills[] = {angatupyi_fill, fill_by_sweeps, fill_by_queue};

static uint64_t seed = 20261115;

static uint64_t random_below(uint64_t n) { /* splitmix64 */
    uint64_t z = (seed += 0x9e3779b97f4a7c15);
    z = (z ^ (z >> 30)) * 0xbf58476d1ce4e5b9;
    z = (z ^ (z >> 27)) * 0x94d049bb133111eb;
    return (z ^ (z >> 31)) % n;
}

static void put(uint8_t *table, size_t number, int kind, int x, int y, int z) {
    uint8_t bytes[8] = {kind, 0, x & 255, x >> 8, y & 255, y >> 8, z & 255, z >> 8};
    memcpy(table + 8 * number, bytes, 8);
}

static void fill(fill_function *f, const struct call *c, uint8_t *out, uint64_t *answer) {
    f(c->maker, 8 * c->makers, c->depot, 8 * c->depots, c->sheet, c->n, out, c->n, answer);
}

/* (a) 255 EQU on 256 boxes, the last two boxes first, so that a pass settles one box */
static void reversed_chain(struct call *c) {
    c->n = 256;
    c->makers = 255;
    c->depots = 0;
    memset(c->sheet, OPEN, 256);
    c->sheet[0] = IN;
    for (int i = 0; i < 255; i++) {
        put(c->maker, i, EQU, 254 - i, 255 - i, 65535);
    }
}

/* (b) 1,024 records of the four kinds that a hidden list of 256 boxes fits, and a few boxes settled as it has them: no clash */
static void full_tables(struct call *c) {
    uint8_t hidden[256];
    c->n = 256;
    c->makers = c->depots = 512;
    memset(c->sheet, OPEN, 256);
    for (int b = 0; b < 256; b++) {
        hidden[b] = random_below(2);
    }
    for (int i = 0; i < 1024;) {
        int kind = 1 + random_below(4), x = random_below(256), y = random_below(256), z = random_below(256);
        int a = hidden[x], b = hidden[y], fits = kind == EQU ? a == b : kind == NOT ? a != b : (kind == AND ? a & b : a | b) == hidden[z];
        if (!fits || x == y || (kind > NOT && (x == z || y == z))) {
            continue;
        }
        put(i < 512 ? c->maker : c->depot, i % 512, kind, x, y, kind > NOT ? z : 65535);
        i++;
    }
    for (int k = 0; k < 4; k++) {
        int b = random_below(256);
        c->sheet[b] = hidden[b];
    }
}

/* (c) a cab's kit: its boxes, the maker's rules, the depot's rules, and an order of five boxes */
enum cab {
    SALOON, VAN, VOLTS_12, VOLTS_24, MUX_2, MUX_4, METER, RADIO, TRACKER, CARD, ROOF,
    DASH, LONG_LEAD, SHORT_LEAD, FRONT_PAIR, REAR_PAIR, FRONT, REAR, ALL_FOUR, BOTH_ENDS, THREE_FRONT, THREE_REAR,
    CONVERTER, BIG_FUSE, SMALL_FUSE, BRACKET, AMPLIFIER, SURGE, SEAL, DIN_PLATE, SPARE_PORT, VAN_24, HEATER,
    CAB_BOXES, NONE = 65535
};

static const int cab_maker[][4] = {
    {NOT, SALOON, VAN, NONE}, {NOT, VOLTS_12, VOLTS_24, NONE}, {NOT, MUX_2, MUX_4, NONE}, {NOT, ROOF, DASH, NONE},
    {NOT, LONG_LEAD, SHORT_LEAD, NONE}, {NOT, BIG_FUSE, SMALL_FUSE, NONE}, {AND, METER, RADIO, FRONT_PAIR},
    {AND, TRACKER, CARD, REAR_PAIR}, {OR, METER, RADIO, FRONT}, {OR, TRACKER, CARD, REAR},
    {AND, FRONT_PAIR, REAR_PAIR, ALL_FOUR}, {AND, FRONT, REAR, BOTH_ENDS}, {AND, BOTH_ENDS, FRONT_PAIR, THREE_FRONT},
    {AND, BOTH_ENDS, REAR_PAIR, THREE_REAR}, {OR, THREE_FRONT, THREE_REAR, MUX_4}, {EQU, CONVERTER, VOLTS_24, NONE},
    {OR, CONVERTER, MUX_4, BIG_FUSE}, {EQU, BRACKET, VAN, NONE}, {EQU, LONG_LEAD, VAN, NONE},
    {AND, ROOF, LONG_LEAD, AMPLIFIER}, {AND, ROOF, VOLTS_24, SURGE}, {EQU, SEAL, ROOF, NONE}, {NOT, DIN_PLATE, VAN, NONE},
    {NOT, SPARE_PORT, ALL_FOUR, NONE},
};

static const int cab_depot[][4] = {
    {AND, BRACKET, LONG_LEAD, VAN}, {EQU, SHORT_LEAD, SALOON, NONE}, {NOT, BRACKET, SALOON, NONE}, {NOT, SEAL, DASH, NONE},
    {NOT, CONVERTER, VOLTS_12, NONE}, {NOT, LONG_LEAD, DIN_PLATE, NONE}, {EQU, DIN_PLATE, SALOON, NONE},
    {AND, VAN, VOLTS_24, VAN_24}, {OR, VAN_24, AMPLIFIER, HEATER}, {EQU, SHORT_LEAD, DIN_PLATE, NONE},
    {NOT, BRACKET, DIN_PLATE, NONE}, {NOT, BRACKET, SHORT_LEAD, NONE}, {EQU, BRACKET, LONG_LEAD, NONE},
    {AND, SALOON, VOLTS_12, DASH}, {OR, VAN, VOLTS_24, ROOF}, {EQU, SURGE, CONVERTER, NONE},
};

static const int cab_order[] = {VAN, VOLTS_24, METER, RADIO, CARD};

#define COUNT(a) (sizeof(a) / sizeof *(a))

static void cab_kit(struct call *c) {
    c->n = CAB_BOXES;
    c->makers = COUNT(cab_maker);
    c->depots = COUNT(cab_depot);
    for (size_t i = 0; i < c->makers; i++) {
        put(c->maker, i, cab_maker[i][0], cab_maker[i][1], cab_maker[i][2], cab_maker[i][3]);
    }
    for (size_t i = 0; i < c->depots; i++) {
        put(c->depot, i, cab_depot[i][0], cab_depot[i][1], cab_depot[i][2], cab_depot[i][3]);
    }
    memset(c->sheet, OPEN, CAB_BOXES);
    for (size_t k = 0; k < COUNT(cab_order); k++) {
        c->sheet[cab_order[k]] = IN;
    }
}

static int other_than(int x, int y, int boxes) {
    int b;
    do {
        b = random_below(boxes);
    } while (b == x || b == y);
    return b;
}

/* a few boxes and records; now and then a bad one, or a bad sheet byte */
static void small_call(struct call *c) {
    c->n = 3 + random_below(6);
    c->makers = random_below(6);
    c->depots = random_below(6);
    for (size_t i = 0; i < c->makers + c->depots; i++) {
        int boxes = c->n + (random_below(60) == 0), kind = 1 + random_below(4 + (random_below(60) == 0));
        int x = random_below(boxes), y = other_than(x, x, boxes), z = kind > NOT ? other_than(x, y, boxes) : NONE;
        put(i < c->makers ? c->maker : c->depot, i < c->makers ? i : i - c->makers, kind, x, y, z);
    }
    for (size_t b = 0; b < c->n; b++) {
        c->sheet[b] = random_below(3) ? OPEN : random_below(300) ? random_below(2) : 3;
    }
}

/* All three answer alike, and leave the same in the buffer. */
static void compare(const struct call *c, const char *name) {
    uint8_t out[COUNT(fills)][256];
    uint64_t answer[COUNT(fills)][ANGATUPYI_NUMBERS];
    for (size_t f = 0; f < COUNT(fills); f++) {
        memset(out[f], 9, 256);
        fill(fills[f], c, out[f], answer[f]);
        if (memcmp(answer[f], answer[0], PLAIN_NUMBERS * sizeof answer[0][0]) || memcmp(out[f], out[0], 256)) {
            fprintf(stderr, "%s: program %zu answers otherwise\n", name, f);
            exit(1);
        }
    }
}

static void compare_small(void) {
    static struct call c;
    uint64_t said[9] = {0}, answer[ANGATUPYI_NUMBERS];
    uint8_t out[256];
    int calls = 200000;
    for (int i = 0; i < calls; i++) {
        small_call(&c);
        compare(&c, "a small call");
        fill(angatupyi_fill, &c, out, answer);
        said[answer[0] ? answer[1] : 0]++;
    }
    printf("%d random small calls: all three alike; %llu filled, refused", calls, (unsigned long long)said[0]);
    for (int number = 1; number <= 8; number++) {
        if (said[number]) {
            printf(" %d (%llu times)", number, (unsigned long long)said[number]);
        }
    }
    printf("\n\n");
}

/* Processor time, so that other programs on the machine count little. */
static double now(void) {
    struct timespec t;
    clock_gettime(CLOCK_PROCESS_CPUTIME_ID, &t);
    return t.tv_sec + 1e-9 * t.tv_nsec;
}

static double seconds(fill_function *f, const struct call *c, long calls) {
    uint8_t out[256];
    uint64_t answer[ANGATUPYI_NUMBERS];
    double begun = now();
    for (long i = 0; i < calls; i++) {
        fill(f, c, out, answer);
    }
    return now() - begun;
}

/* Nanoseconds a call: the least of 15 runs, which take turns, of at least a fiftieth of a second. */
static void measure(const struct call *c, double best[COUNT(fills)]) {
    long calls[COUNT(fills)];
    for (size_t f = 0; f < COUNT(fills); f++) {
        for (calls[f] = 1; seconds(fills[f], c, calls[f]) < 0.02; calls[f] *= 2) {
        }
        best[f] = 1e9;
    }
    for (int run = 0; run < 15; run++) {
        for (size_t f = 0; f < COUNT(fills); f++) {
            double each = 1e9 * seconds(fills[f], c, calls[f]) / calls[f];
            best[f] = each < best[f] ? each : best[f];
        }
    }
}

static void line(const char *name, void make(struct call *)) {
    static struct call c;
    uint8_t out[256];
    uint64_t answer[ANGATUPYI_NUMBERS];
    double best[COUNT(fills)];
    make(&c);
    compare(&c, name);
    fill(angatupyi_fill, &c, out, answer);
    if (answer[0]) {
        fprintf(stderr, "%s: refused %llu\n", name, (unsigned long long)answer[1]);
        exit(1);
    }
    measure(&c, best);
    printf("%-15s %5zu %7zu %6llu %10.0f %10.0f %10.0f %9.2f %9.2f\n", name, c.n, c.makers + c.depots,
           (unsigned long long)answer[1], best[0], best[1], best[2], best[0] / best[1], best[0] / best[2]);
}

int main(void) {
    compare_small();
    printf("Fill, nanoseconds a call\n\n");
    printf("%-15s %5s %7s %6s %10s %10s %10s %9s %9s\n", "case", "boxes", "records", "filled", "proved", "C, sweeps", "C, queue",
           "to sweeps", "to queue");
    line("reversed chain", reversed_chain);
    line("full tables", full_tables);
    line("cab kit", cab_kit);
}
