#include "plain.h"

#include <string.h>

enum { EQU = 1, NOT, AND, OR };
enum { OUT, IN, OPEN };

struct record {
    uint8_t kind, one;
    uint16_t x, y, z;
};

struct job {
    size_t n, count;
    struct record records[1024];
    uint8_t states[256];
    uint8_t *queue; /* where settled boxes are put, or none */
    size_t tail;
    int clash;
};

static void refuse(uint64_t *answer, uint64_t number, uint64_t place) {
    answer[0] = 1;
    answer[1] = number;
    answer[2] = place;
}

static struct record read_record(const uint8_t *b) {
    struct record r = {b[0], b[1], (uint16_t)(b[2] | b[3] << 8), (uint16_t)(b[4] | b[5] << 8), (uint16_t)(b[6] | b[7] << 8)};
    return r;
}

static int is_bad(const struct record *r, size_t n) {
    if (r->kind < EQU || r->kind > OR || r->one != 0 || r->x >= n || r->y >= n || r->x == r->y) {
        return 1;
    }
    if (r->kind <= NOT) {
        return r->z != 65535;
    }
    return r->z >= n || r->x == r->z || r->y == r->z;
}

static int refused(uint64_t *answer, uint64_t number, uint64_t place) {
    refuse(answer, number, place);
    return 0;
}

static void read_records(struct job *j, const uint8_t *table, size_t length) {
    for (size_t at = 0; at < length; at += 8) {
        j->records[j->count++] = read_record(table + at);
    }
}

/* The checks 1 to 5, with the records read. */
static int accepted(struct job *j, const uint8_t *maker, size_t maker_length, const uint8_t *depot, size_t depot_length,
                    const uint8_t *sheet, size_t n, size_t out_length, uint64_t *answer) {
    if (n > 256)
        return refused(answer, 1, 0);
    if (maker_length % 8)
        return refused(answer, 2, 0);
    if (depot_length % 8)
        return refused(answer, 2, 1);
    if (maker_length / 8 + depot_length / 8 > 1024)
        return refused(answer, 2, 2);
    j->n = n;
    j->count = j->tail = 0;
    j->queue = NULL;
    j->clash = 0;
    read_records(j, maker, maker_length);
    read_records(j, depot, depot_length);
    for (size_t i = 0; i < j->count; i++)
        if (is_bad(&j->records[i], n))
            return refused(answer, 3, i);
    for (size_t b = 0; b < n; b++)
        if (sheet[b] > 2)
            return refused(answer, 4, b);
    if (out_length != n)
        return refused(answer, 5, 1);
    if (n)
        memcpy(j->states, sheet, n);
    return 1;
}

/* Gives a box a state; answers whether that is new. */
static inline int give(struct job *j, size_t box, uint8_t state) {
    uint8_t old = j->states[box];
    if (old == state) {
        return 0;
    }
    if (old != OPEN) {
        j->clash = 1;
        return 0;
    }
    j->states[box] = state;
    if (j->queue) {
        j->queue[j->tail++] = (uint8_t)box;
    }
    return 1;
}

static int fire_pair(struct job *j, const struct record *r, uint8_t flip) {
    uint8_t x = j->states[r->x], y = j->states[r->y];
    if (x != OPEN) {
        return give(j, r->y, x ^ flip);
    }
    return y != OPEN ? give(j, r->x, y ^ flip) : 0;
}

/* AND, and OR as AND with in and out exchanged: `low` is the state of x or y that settles z. */
static int fire_triple(struct job *j, const struct record *r, uint8_t low) {
    uint8_t high = 1 - low;
    uint8_t x = j->states[r->x], y = j->states[r->y], z = j->states[r->z];
    int moved = 0;
    if (x == low || y == low) {
        moved = give(j, r->z, low);
        z = j->states[r->z];
    } else if (x == high && y == high) {
        return give(j, r->z, high);
    }
    if (z == high) {
        moved |= give(j, r->x, high);
        moved |= give(j, r->y, high);
    } else if (z == low && x == high) {
        moved |= give(j, r->y, low);
    } else if (z == low && y == high) {
        moved |= give(j, r->x, low);
    }
    return moved;
}

static inline int fire(struct job *j, const struct record *r) {
    switch (r->kind) {
    case EQU:
        return fire_pair(j, r, 0);
    case NOT:
        return fire_pair(j, r, 1);
    case AND:
        return fire_triple(j, r, OUT);
    default:
        return fire_triple(j, r, IN);
    }
}

static void hand_out(const struct job *j, const uint8_t *sheet, uint8_t *out, uint64_t *answer) {
    if (j->clash) {
        refuse(answer, 7, 0);
        return;
    }
    uint64_t count = 0;
    for (size_t b = 0; b < j->n; b++) {
        count += sheet[b] == OPEN && j->states[b] != OPEN;
        out[b] = j->states[b];
    }
    answer[0] = 0;
    answer[1] = count;
    answer[2] = 0;
}

void fill_by_sweeps(const uint8_t *maker, size_t maker_length, const uint8_t *depot, size_t depot_length,
                    const uint8_t *sheet, size_t n, uint8_t *out, size_t out_length, uint64_t *answer) {
    struct job j;
    if (!accepted(&j, maker, maker_length, depot, depot_length, sheet, n, out_length, answer)) {
        return;
    }
    int moved = 1;
    while (moved && !j.clash) {
        moved = 0;
        for (size_t i = 0; i < j.count && !j.clash; i++) {
            moved |= fire(&j, &j.records[i]);
        }
    }
    hand_out(&j, sheet, out, answer);
}

/* The records that name box b are list[start[b]] to list[start[b + 1] - 1]. */
struct index {
    uint16_t start[257], list[3 * 1024];
};

static void build(struct index *x, const struct job *j) {
    uint16_t at[256];
    memset(x->start, 0, sizeof x->start);
    for (size_t i = 0; i < j->count; i++) {
        const struct record *r = &j->records[i];
        x->start[r->x + 1]++;
        x->start[r->y + 1]++;
        if (r->kind > NOT)
            x->start[r->z + 1]++;
    }
    for (size_t b = 0; b < j->n; b++) {
        at[b] = x->start[b];
        x->start[b + 1] += x->start[b];
    }
    for (size_t i = 0; i < j->count; i++) {
        const struct record *r = &j->records[i];
        x->list[at[r->x]++] = (uint16_t)i;
        x->list[at[r->y]++] = (uint16_t)i;
        if (r->kind > NOT)
            x->list[at[r->z]++] = (uint16_t)i;
    }
}

void fill_by_queue(const uint8_t *maker, size_t maker_length, const uint8_t *depot, size_t depot_length,
                   const uint8_t *sheet, size_t n, uint8_t *out, size_t out_length, uint64_t *answer) {
    struct job j;
    if (!accepted(&j, maker, maker_length, depot, depot_length, sheet, n, out_length, answer)) {
        return;
    }
    struct index x;
    build(&x, &j);
    uint8_t queue[256];
    j.queue = queue;
    for (size_t b = 0; b < n; b++) {
        if (sheet[b] != OPEN) {
            queue[j.tail++] = (uint8_t)b;
        }
    }
    for (size_t head = 0; head < j.tail && !j.clash; head++) {
        size_t b = queue[head];
        for (size_t k = x.start[b]; k < x.start[b + 1] && !j.clash; k++) {
            fire(&j, &j.records[x.list[k]]);
        }
    }
    hand_out(&j, sheet, out, answer);
}
