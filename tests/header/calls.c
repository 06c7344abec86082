/*
 * Every call of skwarzyna.h but the flume's (flume.c) on good and on bad input, held to the figures and the table of document 01. The
 * same text is compiled as C and as C++. Arguments: the record of case T, and what gridstep prints for it.
 */
#include "expect.h"

#include <stdlib.h>

/* The most cells of a grid here. */
#define ROOM 64
/* Case T: a box of 27 cells, all wall but for the middle. */
#define CELLS 27
#define MIDDLE 13
#define RECORD 199
/* The same grid as the writer writes it, with poured and taken. */
#define WRITTEN 215

struct set {
    uint8_t flags[ROOM];
    int32_t parts[SKW_PARTS * ROOM];
    int32_t masses[ROOM];
    uint32_t fills[ROOM];
    int64_t carry[4];
    uint64_t words[2];
    uint64_t count[2];
};

/* Lengths under which a set and its index are lent, and marks and room besides. */
struct lengths {
    size_t flags, parts, masses, fills, carry, words, count, marks;
};

struct sides {
    size_t nx, ny, nz;
};

struct settings {
    int64_t p, gx, gy, gz;
};

struct site {
    int64_t edge, ox, oy, oz;
};

static const struct sides THREE = {3, 3, 3};
/* No sides of a grid. */
static const struct sides FLAT = {3, 3, 2};
static const struct settings FALLING = {1024, 0, 0, -1024};
static const struct site CORNER = {50, 0, 0, 0};

/* The mode of every step and run: what is expected of one is expected of both, unless said. */
static bool turbulent = false;

static struct lengths lengths_of(size_t cells)
{
    struct lengths l;
    l.flags = l.masses = l.fills = l.marks = cells;
    l.parts = SKW_PARTS * cells;
    l.carry = 3;
    l.count = 1;
    l.words = SKW_WORDS(cells);
    return l;
}

/* The lengths of case T with one of them wrong, in sixteen ways. */
static struct lengths wrong_lengths(int way)
{
    struct lengths l = lengths_of(CELLS);
    size_t *const each[8] = {&l.flags, &l.parts, &l.masses, &l.fills, &l.carry, &l.words, &l.count, &l.marks};
    size_t *const one = each[way / 2];
    *one = way % 2 ? *one + 1 : *one - 1;
    return l;
}
#define WRONG_LENGTHS 16
/* Those of them that are about the set or its index, and about the set alone. */
#define WRONG_HELD_LENGTHS 14
#define WRONG_SET_LENGTHS 10

/* A value that no call writes, to see what it leaves alone. */
static size_t unset(void)
{
    return (size_t)-1;
}

static long check(const struct set *a, struct lengths l, struct sides s)
{
    size_t place = unset();
    const uint8_t number = skw_check(a->flags, l.flags, a->parts, l.parts, a->masses, l.masses, a->fills, l.fills, a->carry, l.carry,
                                     s.nx, s.ny, s.nz, &place);
    return REFUSED(number, place);
}

static long load(const struct set *a, struct lengths l, struct sides s)
{
    size_t place = unset();
    const uint8_t number = skw_load(a->flags, l.flags, a->parts, l.parts, a->masses, l.masses, a->fills, l.fills, a->carry, l.carry, a->words,
                                    l.words, a->count, l.count, s.nx, s.ny, s.nz, &place);
    return REFUSED(number, place);
}

static long surface_count(const uint64_t *words, size_t words_len, struct sides s, size_t *cells)
{
    size_t place = unset();
    const uint8_t number = skw_surface_count(words, words_len, s.nx, s.ny, s.nz, cells, &place);
    return REFUSED(number, place);
}

/* What skw_surface_next answers. */
struct next {
    uint8_t kind;
    size_t cell, read;
};

static long surface_next(const uint64_t *words, size_t words_len, struct sides s, size_t start, struct next *n)
{
    size_t place = unset();
    memset(n, 255, sizeof *n);
    const uint8_t number = skw_surface_next(words, words_len, s.nx, s.ny, s.nz, start, &n->kind, &n->cell, &n->read, &place);
    return REFUSED(number, place);
}

static long step(const struct set *a, struct lengths la, struct set *b, struct lengths lb, uint8_t *marks, struct sides s,
                 struct settings g)
{
    size_t place = unset();
    const uint8_t number = skw_step(a->flags, la.flags, a->parts, la.parts, a->masses, la.masses, a->fills, la.fills, a->carry, la.carry,
                                    a->words, la.words, a->count, la.count,
                                    b->flags, lb.flags, b->parts, lb.parts, b->masses, lb.masses, b->fills, lb.fills, b->carry, lb.carry,
                                    b->words, lb.words, b->count, lb.count, marks, lb.marks, s.nx, s.ny, s.nz, g.p, g.gx, g.gy, g.gz, turbulent,
                                    &place);
    return REFUSED(number, place);
}

static long run(size_t steps, struct set *a, struct lengths la, struct set *b, struct lengths lb, uint8_t *marks, struct sides s,
                struct settings g, size_t *count)
{
    uint8_t number = 255;
    size_t place = unset();
    *count = skw_run(steps, a->flags, la.flags, a->parts, la.parts, a->masses, la.masses, a->fills, la.fills, a->carry, la.carry,
                     a->words, la.words, a->count, la.count, b->flags, lb.flags, b->parts, lb.parts, b->masses, lb.masses, b->fills, lb.fills,
                     b->carry, lb.carry, b->words, lb.words, b->count, lb.count, marks, lb.marks, s.nx, s.ny, s.nz, g.p, g.gx, g.gy, g.gz, turbulent,
                     &number, &place);
    return REFUSED(number, place);
}

/* What the reader answers beside the slices. */
struct head {
    struct sides s;
    struct settings g;
    struct site t;
    size_t flags_from, flags_to;
};

static long read_record(const uint8_t *rec, size_t rec_len, struct set *a, struct lengths l, struct head *h)
{
    size_t place = unset();
    memset(h, 255, sizeof *h);
    const uint8_t number = skw_read(rec, rec_len, a->parts, l.parts, a->masses, l.masses, a->fills, l.fills, a->carry, l.carry, a->words,
                                    l.words, a->count, l.count, &h->s.nx, &h->s.ny, &h->s.nz, &h->g.p, &h->g.gx, &h->g.gy, &h->g.gz, &h->t.edge, &h->t.ox, &h->t.oy, &h->t.oz,
                                    &h->flags_from, &h->flags_to, &place);
    return REFUSED(number, place);
}

static long write_record(struct sides s, struct settings g, struct site t, const struct set *a, struct lengths l, uint8_t *room,
                         size_t room_len, size_t *bytes)
{
    size_t place = unset();
    *bytes = unset();
    const uint8_t number = skw_write(s.nx, s.ny, s.nz, g.p, g.gx, g.gy, g.gz, t.edge, t.ox, t.oy, t.oz, a->flags, l.flags, a->parts,
                                     l.parts, a->masses, l.masses, a->fills, l.fills, a->carry, l.carry, room, room_len, bytes, &place);
    return REFUSED(number, place);
}

static long place_point(struct sides s, struct site t, int64_t x, int64_t y, int64_t z, size_t *cell)
{
    size_t place = unset();
    *cell = unset();
    const uint8_t number = skw_place(s.nx, s.ny, s.nz, t.edge, t.ox, t.oy, t.oz, x, y, z, cell, &place);
    return REFUSED(number, place);
}

static long point(struct sides s, const uint32_t *fills, size_t fills_len, size_t cell, float answer[4])
{
    size_t place = unset();
    answer[0] = answer[1] = answer[2] = answer[3] = -1;
    const uint8_t number = skw_point(s.nx, s.ny, s.nz, fills, fills_len, cell, &answer[0], &answer[1], &answer[2], &answer[3], &place);
    return REFUSED(number, place);
}

static long depth(struct sides s, const struct set *a, size_t flags_len, size_t fills_len, size_t x, size_t y, int *kind, float *deep)
{
    size_t place = unset();
    uint8_t found = 255;
    *deep = -1;
    const uint8_t number = skw_depth(s.nx, s.ny, s.nz, a->flags, flags_len, a->fills, fills_len, x, y, &found, deep, &place);
    *kind = found;
    return REFUSED(number, place);
}

/* A set that is not good in any of its numbers, to see what is overwritten and what is not. */
static void soil(struct set *a)
{
    memset(a, 0x5a, sizeof *a);
}

static int same(const struct set *a, const struct set *b)
{
    return memcmp(a, b, sizeof *a) == 0;
}

/* Equal in the first so many cells, at most 64, the carry and the index. */
static int same_state(const struct set *a, const struct set *b, size_t cells)
{
    return memcmp(a->flags, b->flags, cells) == 0 && memcmp(a->parts, b->parts, SKW_PARTS * cells * sizeof a->parts[0]) == 0 &&
           memcmp(a->masses, b->masses, cells * sizeof a->masses[0]) == 0 &&
           memcmp(a->fills, b->fills, cells * sizeof a->fills[0]) == 0 && a->carry[0] == b->carry[0] && a->words[0] == b->words[0] &&
           a->count[0] == b->count[0];
}

static int all(const uint8_t *bytes, size_t count, uint8_t value)
{
    size_t i;
    for (i = 0; i < count; i += 1) {
        if (bytes[i] != value) {
            return 0;
        }
    }
    return 1;
}

static void rest(struct set *a, size_t cell)
{
    int k;
    for (k = 0; k < SKW_PARTS; k += 1) {
        a->parts[SKW_PARTS * cell + (size_t)k] = (k == 0 ? 12 : k < 7 ? 2 : 1) * 16384;
    }
}

/* The index of so many cells, at most 64. */
static void mark(struct set *a, size_t cells)
{
    size_t c;
    a->words[0] = a->count[0] = 0;
    for (c = 0; c < cells; c += 1) {
        a->words[0] |= (uint64_t)(a->flags[c] == SKW_INTERFACE) << c;
        a->count[0] += a->flags[c] == SKW_INTERFACE;
    }
}

/* Case T, made by hand. */
static void case_t(struct set *a)
{
    memset(a, 0, sizeof *a);
    memset(a->flags, SKW_WALL, CELLS);
    a->flags[MIDDLE] = SKW_INTERFACE;
    rest(a, MIDDLE);
    a->masses[MIDDLE] = SKW_ONE / 2;
    a->fills[MIDDLE] = SKW_FULL / 2;
    mark(a, CELLS);
}

/* A row of three cells between walls, in a box of 5, 3, 3: fluid, interface without water, empty. */
#define ROW 45
#define ROW_FLUID 21
static const struct sides FIVE = {5, 3, 3};

static void row(struct set *a)
{
    memset(a, 0, sizeof *a);
    memset(a->flags, SKW_WALL, ROW);
    a->flags[ROW_FLUID] = SKW_FLUID, a->flags[ROW_FLUID + 1] = SKW_INTERFACE, a->flags[ROW_FLUID + 2] = SKW_EMPTY;
    rest(a, ROW_FLUID), rest(a, ROW_FLUID + 1);
    a->masses[ROW_FLUID] = SKW_ONE;
    a->fills[ROW_FLUID] = SKW_FULL;
    mark(a, ROW);
}

/* The same with its interface and its empty cell changed over, so that the fluid lies open. */
static void open_row(struct set *a)
{
    row(a);
    a->flags[ROW_FLUID + 1] = SKW_EMPTY, a->flags[ROW_FLUID + 2] = SKW_INTERFACE;
}

/* Case T with its water moving along x at density ONE; parts by document 01's stage 5. */
static void moving(struct set *a, int64_t j)
{
    static const int along[SKW_PARTS] = {0, 1, -1, 0, 0, 0, 0, 1, -1, 1, -1, 0, 0, 0, 0, 1, -1, 1, -1};
    const int64_t rho = SKW_ONE;
    int64_t others = 0;
    int k;
    case_t(a);
    for (k = 1; k < SKW_PARTS; k += 1) {
        const int64_t w = k < 7 ? 2 : 1;
        const int64_t q = 2 * rho * rho + 6 * rho * along[k] * j + 9 * along[k] * along[k] * j * j - 3 * j * j;
        const int64_t part = w * q / (72 * rho);
        a->parts[SKW_PARTS * MIDDLE + k] = (int32_t)part;
        others += part;
    }
    a->parts[SKW_PARTS * MIDDLE] = (int32_t)(rho - others);
}

/* The fields of gridstep's lines: fluid, interface, empty, wall cells, total with the carry, carry. */
static void tally(const struct set *a, size_t cells, char *line, size_t room)
{
    int counts[4] = {0, 0, 0, 0};
    long total = (long)a->carry[0];
    size_t c;
    for (c = 0; c < cells; c += 1) {
        counts[a->flags[c]] += 1;
        total += a->masses[c];
    }
    snprintf(line, room, "%d %d %d %d %ld %ld", counts[SKW_FLUID], counts[SKW_INTERFACE], counts[SKW_EMPTY], counts[SKW_WALL], total,
             (long)a->carry[0]);
}

static void test_check(void)
{
    const struct lengths l = lengths_of(CELLS);
    struct set a;
    struct sides s;
    int way;
    case_t(&a);
    EXPECT(check(&a, l, THREE) == ACCEPTED);
    s = THREE, s.nx = 2;
    EXPECT(check(&a, l, s) == REFUSED(SKW_BAD_SIDES, 0));
    s = THREE, s.nz = SKW_SIDE_MOST + 1;
    EXPECT(check(&a, l, s) == REFUSED(SKW_BAD_SIDES, 0));
    s = THREE, s.ny = (size_t)-1;
    EXPECT(check(&a, l, s) == REFUSED(SKW_BAD_SIDES, 0));
    s.nx = s.ny = 128, s.nz = 17;
    EXPECT(check(&a, l, s) == REFUSED(SKW_BAD_SIDES, 0));
    s.nz = 16;
    EXPECT(check(&a, l, s) == REFUSED(SKW_BAD_LENGTH, 0));
    for (way = 0; way < WRONG_SET_LENGTHS; way += 1) {
        EXPECT(check(&a, wrong_lengths(way), THREE) == REFUSED(SKW_BAD_LENGTH, 0));
    }
    EXPECT(check(&a, lengths_of(0), THREE) == REFUSED(SKW_BAD_LENGTH, 0));

    case_t(&a), a.flags[26] = 4;
    EXPECT(check(&a, l, THREE) == REFUSED(SKW_BAD_FLAG, 26));
    a.flags[12] = SKW_EMPTY;
    EXPECT(check(&a, l, THREE) == REFUSED(SKW_BAD_FLAG, 12));
    case_t(&a), a.fills[MIDDLE] += 1;
    EXPECT(check(&a, l, THREE) == REFUSED(SKW_BAD_STATE, MIDDLE));
    case_t(&a), a.masses[5] = 1;
    EXPECT(check(&a, l, THREE) == REFUSED(SKW_BAD_STATE, 5));
    case_t(&a), a.masses[MIDDLE] = SKW_MASS_MOST, a.fills[MIDDLE] = SKW_FULL;
    EXPECT(check(&a, l, THREE) == ACCEPTED);
    a.masses[MIDDLE] += 1;
    EXPECT(check(&a, l, THREE) == REFUSED(SKW_BAD_STATE, MIDDLE));
    case_t(&a), a.carry[0] = -SKW_CARRY_MOST;
    EXPECT(check(&a, l, THREE) == ACCEPTED);
    a.carry[0] -= 1;
    EXPECT(check(&a, l, THREE) == REFUSED(SKW_BAD_STATE, CELLS));
    case_t(&a), a.flags[MIDDLE] = SKW_FLUID, a.masses[MIDDLE] = SKW_ONE, a.fills[MIDDLE] = SKW_FULL;
    EXPECT(check(&a, l, THREE) == ACCEPTED);

    row(&a);
    EXPECT(check(&a, lengths_of(ROW), FIVE) == ACCEPTED);
    open_row(&a);
    EXPECT(check(&a, lengths_of(ROW), FIVE) == REFUSED(SKW_BAD_LAYER, ROW_FLUID));
}

static void test_load(void)
{
    const struct lengths l = lengths_of(CELLS);
    struct set a;
    struct sides s = THREE;
    int way;
    case_t(&a);
    EXPECT(load(&a, l, THREE) == ACCEPTED);
    s.nx = 2;
    EXPECT(load(&a, l, s) == REFUSED(SKW_BAD_SIDES, 0));
    for (way = 0; way < WRONG_HELD_LENGTHS; way += 1) {
        EXPECT(load(&a, wrong_lengths(way), THREE) == REFUSED(SKW_BAD_LENGTH, 0));
    }
    a.words[0] ^= 1;
    EXPECT(load(&a, l, THREE) == REFUSED(SKW_BAD_INDEX, 0));
    a.masses[5] = 1;
    EXPECT(load(&a, l, THREE) == REFUSED(SKW_BAD_STATE, 5));
    case_t(&a), a.words[0] |= (uint64_t)1 << CELLS;
    EXPECT(load(&a, l, THREE) == REFUSED(SKW_BAD_INDEX, 0));
    case_t(&a), a.count[0] = 0;
    EXPECT(load(&a, l, THREE) == REFUSED(SKW_BAD_INDEX, 0));
    case_t(&a), a.flags[26] = 4;
    EXPECT(load(&a, l, THREE) == REFUSED(SKW_BAD_FLAG, 26));
    row(&a);
    EXPECT(load(&a, lengths_of(ROW), FIVE) == ACCEPTED);
    open_row(&a);
    EXPECT(load(&a, lengths_of(ROW), FIVE) == REFUSED(SKW_BAD_LAYER, ROW_FLUID));
}

static void test_surface(void)
{
    /* 5, 5, 5: cells 31 and 93 are interface; then with bit 61 of word 1, which would be cell 125. */
    static const struct sides CUBE = {5, 5, 5};
    uint64_t words[3] = {(uint64_t)1 << 31, (uint64_t)1 << 29, 0};
    static const size_t asked[6][4] = {{0, SKW_SURFACE_FOUND, 31, 1}, {31, SKW_SURFACE_FOUND, 31, 1}, {32, SKW_SURFACE_FOUND, 93, 2},
                                       {64, SKW_SURFACE_FOUND, 93, 1}, {94, SKW_SURFACE_NONE, 0, 1}, {125, SKW_SURFACE_NONE, 0, 0}};
    struct next n;
    size_t cells = unset(), start = 0, found = 0, read = 0;
    int way;
    EXPECT(SKW_WORDS(125) == 2 && SKW_WORDS(64) == 1 && SKW_WORDS(65) == 2 && SKW_WORDS(SKW_CELLS_MOST) == 4096);
    EXPECT(surface_count(words, 2, CUBE, &cells) == ACCEPTED && cells == 2);
    for (way = 0; way < 6; way += 1) {
        EXPECT(surface_next(words, 2, CUBE, asked[way][0], &n) == ACCEPTED);
        EXPECT(n.kind == asked[way][1] && n.cell == asked[way][2] && n.read == asked[way][3]);
    }
    EXPECT(surface_next(words, 2, CUBE, 126, &n) == REFUSED(SKW_OUTSIDE, 0));
    EXPECT(n.kind == SKW_SURFACE_REFUSED && n.cell == 0 && n.read == 0);
    EXPECT(surface_next(words, 2, CUBE, (size_t)-1, &n) == REFUSED(SKW_OUTSIDE, 0));

    /* A sweep: two cells, and no more words read than two and one for each. */
    while (surface_next(words, 2, CUBE, start, &n) == ACCEPTED && n.kind == SKW_SURFACE_FOUND) {
        start = n.cell + 1, found += 1, read += n.read;
    }
    EXPECT(n.kind == SKW_SURFACE_NONE && found == 2 && read + n.read == 4);

    words[1] |= (uint64_t)1 << 61;
    EXPECT(surface_count(words, 2, CUBE, &cells) == ACCEPTED && cells == 2);
    EXPECT(surface_next(words, 2, CUBE, 94, &n) == ACCEPTED && n.kind == SKW_SURFACE_NONE && n.read == 1);
    EXPECT(surface_count(words, 1, CUBE, &cells) == REFUSED(SKW_BAD_LENGTH, 0) && cells == 0);
    EXPECT(surface_next(words, 3, CUBE, 999, &n) == REFUSED(SKW_BAD_LENGTH, 0) && n.kind == SKW_SURFACE_REFUSED);
    EXPECT(surface_count(words, 0, FLAT, &cells) == REFUSED(SKW_BAD_SIDES, 0) && cells == 0);
    EXPECT(surface_next(words, 0, FLAT, 0, &n) == REFUSED(SKW_BAD_SIDES, 0) && n.kind == SKW_SURFACE_REFUSED);
}

static void test_step(const char *wanted)
{
    const struct lengths l = lengths_of(CELLS);
    struct set a, b, kept, dirty;
    struct settings g;
    struct sides s;
    uint8_t marks[ROOM];
    char before[99], after[99], text[300];
    int way, k;
    case_t(&a), case_t(&kept), soil(&b), soil(&dirty);
    memset(marks, 7, sizeof marks);

    /* Case T. */
    EXPECT(step(&a, l, &b, l, marks, THREE, FALLING) == ACCEPTED);
    EXPECT(same(&a, &kept));
    EXPECT(all(marks, CELLS, 0) && all(marks + CELLS, ROOM - CELLS, 7));
    for (k = 0; k < SKW_PARTS; k += 1) {
        /* Directions of weight 1 with z up, and with z down. */
        const int up = k == 11 || k == 14 || k == 15 || k == 18, down = k == 12 || k == 13 || k == 16 || k == 17;
        const int32_t old = a.parts[SKW_PARTS * MIDDLE + k], now = b.parts[SKW_PARTS * MIDDLE + k];
        EXPECT(now == (k == 0 ? 196603 : k == 5 ? 32673 : k == 6 ? 32864 : up ? 16337 : down ? 16432 : old));
        kept.parts[SKW_PARTS * MIDDLE + k] = now;
    }
    EXPECT(same_state(&b, &kept, CELLS));
    EXPECT(b.flags[CELLS] == 0x5a && b.parts[SKW_PARTS * CELLS] == 0x5a5a5a5a && b.masses[CELLS] == 0x5a5a5a5a);
    tally(&a, CELLS, before, sizeof before), tally(&b, CELLS, after, sizeof after);
    snprintf(text, sizeof text, "before %s\nstep 0 0\nafter %s\n", before, after);
    EXPECT(strcmp(text, wanted) == 0);
    case_t(&kept);

    /* Refused before the step: nothing is written. */
    soil(&b), memset(marks, 7, sizeof marks);
    s = THREE, s.nx = 0;
    EXPECT(step(&a, l, &b, l, marks, s, FALLING) == REFUSED(SKW_BAD_SIDES, 0));
    for (way = 0; way < WRONG_LENGTHS; way += 1) {
        EXPECT(step(&a, l, &b, wrong_lengths(way), marks, THREE, FALLING) == REFUSED(SKW_BAD_LENGTH, 0));
    }
    for (way = 0; way < WRONG_HELD_LENGTHS; way += 1) {
        EXPECT(step(&a, wrong_lengths(way), &b, l, marks, THREE, FALLING) == REFUSED(SKW_BAD_LENGTH, 0));
    }
    g = FALLING, g.p = 0;
    EXPECT(step(&a, l, &b, l, marks, THREE, g) == REFUSED(SKW_BAD_SETTING, 0));
    g.p = SKW_P_MOST + 1;
    EXPECT(step(&a, l, &b, l, marks, THREE, g) == REFUSED(SKW_BAD_SETTING, 0));
    g = FALLING, g.gx = 35, g.gz = -1048;
    EXPECT(step(&a, l, &b, l, marks, THREE, g) == REFUSED(SKW_BAD_SETTING, 0));
    g.gx = INT64_MIN;
    EXPECT(step(&a, l, &b, l, marks, THREE, g) == REFUSED(SKW_BAD_SETTING, 0));
    a.flags[0] = SKW_FLUID;
    EXPECT(step(&a, l, &b, l, marks, THREE, FALLING) == REFUSED(SKW_BAD_FLAG, 0));
    open_row(&a);
    EXPECT(step(&a, lengths_of(ROW), &b, lengths_of(ROW), marks, FIVE, FALLING) == REFUSED(SKW_BAD_LAYER, ROW_FLUID));
    case_t(&a), a.carry[0] = INT64_MAX, a.count[0] = 2;
    EXPECT(step(&a, l, &b, l, marks, THREE, FALLING) == REFUSED(SKW_BAD_STATE, CELLS));
    a.carry[0] = 0;
    EXPECT(step(&a, l, &b, l, marks, THREE, FALLING) == REFUSED(SKW_BAD_INDEX, 0));
    case_t(&a);
    EXPECT(same(&b, &dirty) && all(marks, ROOM, 7));
    g = FALLING, g.gx = 34, g.gz = -1048;
    EXPECT(step(&a, l, &b, l, marks, THREE, g) == ACCEPTED);

    /* Refused on the way: the second set is a copy of the first. Water at the limit of speed is thrown back by the wall, and gravity
       adds to it; and with p above 1024 it adds more than was tested. */
    g.p = 1024, g.gx = -1024, g.gy = 0, g.gz = 0;
    moving(&a, SKW_ONE / 3), soil(&b), memset(marks, 7, sizeof marks);
    EXPECT(check(&a, l, THREE) == ACCEPTED);
    EXPECT(step(&a, l, &b, l, marks, THREE, g) == REFUSED(SKW_BAD_FLOW, MIDDLE));
    EXPECT(same_state(&a, &b, CELLS) && all(marks, CELLS, 0));
    g.p = 1500, g.gx = 1048;
    moving(&a, -196018), soil(&b), memset(marks, 7, sizeof marks);
    EXPECT(step(&a, l, &b, l, marks, THREE, g) == REFUSED(SKW_BAD_NEXT, MIDDLE));
    EXPECT(same_state(&a, &b, CELLS) && all(marks, CELLS, 0));
}

static void test_run(void)
{
    const struct lengths l = lengths_of(CELLS);
    struct set a, b, kept, single, next, dirty;
    struct settings g = FALLING;
    struct sides s = THREE;
    uint8_t marks[ROOM];
    size_t count;
    int way, made;
    case_t(&a), case_t(&kept), soil(&b), soil(&dirty), memset(marks, 7, sizeof marks);

    EXPECT(run(SKW_STEPS_MOST + 1, &a, l, &b, l, marks, THREE, FALLING, &count) == REFUSED(SKW_BAD_STEPS, 0) && count == 0);
    s.ny = 129;
    EXPECT(run(1, &a, l, &b, l, marks, s, FALLING, &count) == REFUSED(SKW_BAD_SIDES, 0) && count == 0);
    for (way = 0; way < WRONG_LENGTHS; way += 1) {
        EXPECT(run(1, &a, l, &b, wrong_lengths(way), marks, THREE, FALLING, &count) == REFUSED(SKW_BAD_LENGTH, 0) && count == 0);
    }
    for (way = 0; way < WRONG_HELD_LENGTHS; way += 1) {
        EXPECT(run(1, &a, wrong_lengths(way), &b, l, marks, THREE, FALLING, &count) == REFUSED(SKW_BAD_LENGTH, 0) && count == 0);
    }
    g.p = -1;
    EXPECT(run(0, &a, l, &b, l, marks, THREE, g, &count) == REFUSED(SKW_BAD_SETTING, 0) && count == 0);
    EXPECT(same(&a, &kept));
    a.flags[1] = 9, kept = a;
    EXPECT(run(3, &a, l, &b, l, marks, THREE, FALLING, &count) == REFUSED(SKW_BAD_FLAG, 1) && count == 0);
    EXPECT(same(&a, &kept));
    open_row(&a), kept = a;
    EXPECT(run(0, &a, lengths_of(ROW), &b, lengths_of(ROW), marks, FIVE, FALLING, &count) == REFUSED(SKW_BAD_LAYER, ROW_FLUID));
    EXPECT(same(&a, &kept) && count == 0);
    case_t(&a), a.fills[0] = 1, kept = a;
    EXPECT(run(3, &a, l, &b, l, marks, THREE, FALLING, &count) == REFUSED(SKW_BAD_STATE, 0) && count == 0);
    EXPECT(same(&a, &kept) && same(&b, &dirty) && all(marks, ROOM, 7));
    case_t(&a), a.words[0] |= (uint64_t)1 << CELLS, kept = a;
    EXPECT(run(3, &a, l, &b, l, marks, THREE, FALLING, &count) == REFUSED(SKW_BAD_INDEX, 0) && count == 0);
    EXPECT(same(&a, &kept) && same(&b, &dirty) && all(marks, ROOM, 7));
    case_t(&a), case_t(&kept);

    EXPECT(run(0, &a, l, &b, l, marks, THREE, FALLING, &count) == ACCEPTED && count == 0);
    EXPECT(same(&a, &kept) && same_state(&a, &b, CELLS) && all(marks, CELLS, 0));

    /* Five steps at once, and five single ones. */
    EXPECT(run(5, &a, l, &b, l, marks, THREE, FALLING, &count) == ACCEPTED && count == 5);
    case_t(&single);
    for (made = 0; made < 5; made += 1) {
        next = single;
        EXPECT(step(&single, l, &next, l, marks, THREE, FALLING) == ACCEPTED);
        single = next;
    }
    EXPECT(same_state(&a, &single, CELLS) && same_state(&b, &single, CELLS) && !same_state(&a, &kept, CELLS));

    /* Stopped on the way, at the step that single steps stop at: the walls turn the water round at every step, so that gravity, hardly
       taken over with p 1, brakes it at the first and pushes it past the limit at the second. */
    g.p = 1, g.gx = 1048, g.gz = 0;
    moving(&a, 196300), single = a, soil(&b), memset(marks, 7, sizeof marks);
    for (made = 0; made < 50; made += 1) {
        next = single;
        if (step(&single, l, &next, l, marks, THREE, g) != ACCEPTED) {
            break;
        }
        single = next;
    }
    EXPECT(made == 1);
    EXPECT(run(50, &a, l, &b, l, marks, THREE, g, &count) == REFUSED(SKW_BAD_FLOW, MIDDLE));
    EXPECT(count == (size_t)made);
    EXPECT(same_state(&a, &single, CELLS) && same_state(&b, &single, CELLS) && all(marks, CELLS, 0));
    EXPECT(run(SKW_STEPS_MOST, &a, l, &b, l, marks, THREE, FALLING, &count) == ACCEPTED && count == SKW_STEPS_MOST);
}

/* Case U: parts along x above rest and along z below, so that stress takes 16 off p 2037 in the turbulent mode. Walls give back what
   they are given, and so a step is its collision. */
static void case_u(struct set *a)
{
    int32_t *const parts = a->parts + SKW_PARTS * MIDDLE;
    case_t(a);
    parts[1] = parts[2] = 33768, parts[5] = parts[6] = 31768;
}

static void test_modes(void)
{
    static const struct settings still = {2037, 0, 0, 0};
    const struct lengths l = lengths_of(CELLS);
    struct set a, b, other, kept;
    uint8_t marks[ROOM];
    size_t count;
    int mode, k;
    memset(marks, 7, sizeof marks);
    for (mode = 0; mode < 2; mode += 1) {
        turbulent = mode == 1;
        case_u(&a), kept = a, soil(&b);
        EXPECT(step(&a, l, &b, l, marks, THREE, still) == ACCEPTED && same(&a, &kept));
        for (k = 0; k < SKW_PARTS; k += 1) {
            const int along = k == 1 || k == 2, up = k == 5 || k == 6;
            EXPECT(b.parts[SKW_PARTS * MIDDLE + k] ==
                   (along ? (turbulent ? 31795 : 31779) : up ? (turbulent ? 33741 : 33757) : a.parts[SKW_PARTS * MIDDLE + k]));
        }
        EXPECT(b.masses[MIDDLE] == SKW_ONE / 2 && b.fills[MIDDLE] == SKW_FULL / 2 && b.carry[0] == 0);
        /* A run is its steps in its own mode. */
        kept = b;
        EXPECT(run(1, &a, l, &b, l, marks, THREE, still, &count) == ACCEPTED && count == 1 && same_state(&a, &kept, CELLS));
        EXPECT(step(&a, l, &b, l, marks, THREE, still) == ACCEPTED);
        kept = b, case_u(&a);
        EXPECT(run(2, &a, l, &b, l, marks, THREE, still, &count) == ACCEPTED && count == 2 && same_state(&a, &kept, CELLS));
        EXPECT(mode == 0 || !same_state(&a, &other, CELLS));
        other = a;
    }
    /* One mode after the other; at p 1 both are one. */
    case_u(&a);
    EXPECT(step(&a, l, &b, l, marks, THREE, still) == ACCEPTED);
    turbulent = false;
    EXPECT(step(&b, l, &a, l, marks, THREE, still) == ACCEPTED && a.parts[SKW_PARTS * MIDDLE + 1] == 33730);
    {
        const struct settings slow = {1, 0, 0, 0};
        case_u(&a), soil(&b), soil(&other);
        EXPECT(step(&a, l, &b, l, marks, THREE, slow) == ACCEPTED);
        turbulent = true;
        EXPECT(step(&a, l, &other, l, marks, THREE, slow) == ACCEPTED && same_state(&b, &other, CELLS));
    }
    turbulent = false;
}

static int refused_head(const struct head *h)
{
    return h->s.nx == 0 && h->s.ny == 0 && h->s.nz == 0 && h->g.p == 0 && h->g.gx == 0 && h->g.gy == 0 && h->g.gz == 0 && h->t.edge == 0 &&
           h->t.ox == 0 && h->t.oy == 0 && h->t.oz == 0 && h->flags_from == 0 && h->flags_to == 0;
}

static void test_read(const uint8_t *record)
{
    /* Where the counts of case T's seven sections stand. */
    static const size_t counts[7] = {0, 16, 40, 68, 80, 111, 119};
    const struct lengths l = lengths_of(CELLS);
    struct set a, wanted, dirty;
    struct head h;
    uint8_t bytes[RECORD + 1], row_record[SKW_RECORD_BYTES(ROW, 1, 2)];
    size_t length;
    int way;
    case_t(&wanted), soil(&a), soil(&dirty);

    EXPECT(read_record(record, RECORD, &a, l, &h) == ACCEPTED);
    EXPECT(h.s.nx == 3 && h.s.ny == 3 && h.s.nz == 3);
    EXPECT(h.g.p == 1024 && h.g.gx == 0 && h.g.gy == 0 && h.g.gz == -1024);
    EXPECT(h.t.edge == 50 && h.t.ox == 0 && h.t.oy == 0 && h.t.oz == 0);
    EXPECT(h.flags_from == 84 && h.flags_to == 84 + CELLS);
    memcpy(a.flags, record + h.flags_from, CELLS);
    EXPECT(same_state(&a, &wanted, CELLS));

    /* Cut at every byte, and with one byte left over. */
    soil(&a);
    for (length = 0, way = 0; length < RECORD; length += 1) {
        way += way < 6 && length == counts[way + 1];
        EXPECT(read_record(record, length, &a, l, &h) == REFUSED(SKW_BAD_END, counts[way]) && refused_head(&h));
    }
    memcpy(bytes, record, RECORD), bytes[RECORD] = 0;
    EXPECT(read_record(bytes, RECORD + 1, &a, l, &h) == REFUSED(SKW_BAD_END, RECORD) && refused_head(&h));

    /* A wrong count in each section. */
    for (way = 0; way < 7; way += 1) {
        memcpy(bytes, record, RECORD), bytes[counts[way]] ^= 128;
        EXPECT(read_record(bytes, RECORD, &a, l, &h) == REFUSED(SKW_BAD_COUNT, way + 1) && refused_head(&h));
    }
    for (way = 0; way < WRONG_HELD_LENGTHS; way += 1) {
        /* The reader is lent no flags. */
        EXPECT(read_record(record, RECORD, &a, wrong_lengths(way), &h) == (way < 2 ? ACCEPTED : REFUSED(SKW_BAD_LENGTH, 0)));
        EXPECT(way < 2 || refused_head(&h));
        soil(&a);
    }
    memcpy(bytes, record, RECORD), bytes[4] = 2;
    EXPECT(read_record(bytes, RECORD, &a, lengths_of(0), &h) == REFUSED(SKW_BAD_SIDES, 0) && refused_head(&h));
    memcpy(bytes, record, RECORD), bytes[36] = 0;
    EXPECT(read_record(bytes, RECORD, &a, l, &h) == REFUSED(SKW_BAD_SETTING, 0) && refused_head(&h));
    memcpy(bytes, record, RECORD), bytes[84 + 20] = SKW_EMPTY;
    EXPECT(read_record(bytes, RECORD, &a, l, &h) == REFUSED(SKW_BAD_FLAG, 20) && refused_head(&h));
    memcpy(bytes, record, RECORD), bytes[118] = 127;
    EXPECT(read_record(bytes, RECORD, &a, l, &h) == REFUSED(SKW_BAD_STATE, MIDDLE) && refused_head(&h));
    EXPECT(same(&a, &dirty));

    row(&wanted);
    EXPECT(write_record(FIVE, FALLING, CORNER, &wanted, lengths_of(ROW), row_record, sizeof row_record, &length) == ACCEPTED);
    EXPECT(read_record(row_record, length, &a, lengths_of(ROW), &h) == ACCEPTED);
    memcpy(a.flags, row_record + h.flags_from, ROW);
    EXPECT(h.flags_to == 100 + ROW && same_state(&a, &wanted, ROW));
    soil(&a), row_record[100 + ROW_FLUID + 1] = SKW_EMPTY, row_record[100 + ROW_FLUID + 2] = SKW_INTERFACE;
    EXPECT(read_record(row_record, length, &a, lengths_of(ROW), &h) == REFUSED(SKW_BAD_LAYER, ROW_FLUID) && refused_head(&h));
    EXPECT(same(&a, &dirty));
}

static void test_write(const uint8_t *record)
{
    const struct lengths l = lengths_of(CELLS);
    struct set a;
    struct sides s = THREE;
    struct settings g = FALLING;
    struct site t = CORNER;
    uint8_t room[SKW_RECORD_BYTES_MOST(CELLS)];
    size_t bytes;
    int way;
    case_t(&a), memset(room, 7, sizeof room);

    EXPECT(SKW_RECORD_BYTES(CELLS, 1, 1) == WRITTEN);
    EXPECT(write_record(THREE, FALLING, CORNER, &a, l, room, WRITTEN - 1, &bytes) == REFUSED(SKW_BAD_ROOM, WRITTEN) && bytes == 0);
    EXPECT(write_record(THREE, FALLING, CORNER, &a, l, room, 0, &bytes) == REFUSED(SKW_BAD_ROOM, WRITTEN) && bytes == 0);
    s.nz = 2;
    EXPECT(write_record(s, FALLING, CORNER, &a, l, room, sizeof room, &bytes) == REFUSED(SKW_BAD_SIDES, 0) && bytes == 0);
    for (way = 0; way < WRONG_SET_LENGTHS; way += 1) {
        EXPECT(write_record(THREE, FALLING, CORNER, &a, wrong_lengths(way), room, sizeof room, &bytes) == REFUSED(SKW_BAD_LENGTH, 0));
        EXPECT(bytes == 0);
    }
    t.edge = SKW_EDGE_MOST + 1;
    EXPECT(write_record(THREE, FALLING, t, &a, l, room, sizeof room, &bytes) == REFUSED(SKW_BAD_SETTING, 0) && bytes == 0);
    t = CORNER, t.oy = SKW_COORDINATE_MOST + 1;
    EXPECT(write_record(THREE, FALLING, t, &a, l, room, sizeof room, &bytes) == REFUSED(SKW_BAD_SETTING, 0) && bytes == 0);
    g.gy = 1049;
    EXPECT(write_record(THREE, g, CORNER, &a, l, room, sizeof room, &bytes) == REFUSED(SKW_BAD_SETTING, 0) && bytes == 0);
    a.flags[MIDDLE] = 4;
    EXPECT(write_record(THREE, FALLING, CORNER, &a, l, room, sizeof room, &bytes) == REFUSED(SKW_BAD_FLAG, MIDDLE) && bytes == 0);
    open_row(&a);
    EXPECT(write_record(FIVE, FALLING, CORNER, &a, lengths_of(ROW), room, sizeof room, &bytes) == REFUSED(SKW_BAD_LAYER, ROW_FLUID));
    EXPECT(bytes == 0);
    case_t(&a), a.masses[0] = 1;
    EXPECT(write_record(THREE, FALLING, CORNER, &a, l, room, sizeof room, &bytes) == REFUSED(SKW_BAD_STATE, 0) && bytes == 0);
    EXPECT(all(room, sizeof room, 7));

    case_t(&a);
    EXPECT(write_record(THREE, FALLING, CORNER, &a, l, room, sizeof room, &bytes) == ACCEPTED && bytes == WRITTEN);
    /* The record of one number in section 4 with three there: its first 68 bytes, the count 3, its carry, sixteen bytes of 0, and the rest. */
    EXPECT(memcmp(room, record, 68) == 0 && room[68] == 3 && all(room + 69, 3, 0) && memcmp(room + 72, record + 72, 8) == 0);
    EXPECT(all(room + 80, 16, 0) && memcmp(room + 96, record + 80, RECORD - 80) == 0 && all(room + WRITTEN, sizeof room - WRITTEN, 7));
    EXPECT(write_record(THREE, FALLING, CORNER, &a, l, room, WRITTEN, &bytes) == ACCEPTED && bytes == WRITTEN);
    a.carry[2] = -1;
    EXPECT(write_record(THREE, FALLING, CORNER, &a, l, room, WRITTEN, &bytes) == REFUSED(SKW_BAD_STATE, CELLS) && bytes == 0);
}

static long act(uint8_t (*call)(const uint8_t *, size_t, const int32_t *, size_t, int32_t *, size_t, uint32_t *, size_t, int64_t *, size_t,
                                size_t, size_t, size_t, size_t, int64_t, int64_t *, size_t *),
                struct set *a, struct lengths l, struct sides s, size_t cell, int64_t amount, int64_t *moved)
{
    size_t place = unset();
    const uint8_t number = call(a->flags, l.flags, a->parts, l.parts, a->masses, l.masses, a->fills, l.fills, a->carry, l.carry,
                                s.nx, s.ny, s.nz, cell, amount, moved, &place);
    return REFUSED(number, place);
}

/* The worked figures of pour and take, one act after another. */
static void test_acts(void)
{
    const struct lengths l = lengths_of(CELLS);
    struct set a, kept;
    int64_t moved;
    int way;
    case_t(&a);

    EXPECT(act(skw_pour, &a, l, THREE, MIDDLE, 100000, &moved) == ACCEPTED && moved == 100000);
    EXPECT(a.masses[MIDDLE] == 394912 && a.fills[MIDDLE] == 43879 && a.carry[1] == 100000 && a.carry[2] == 0);
    EXPECT(act(skw_take, &a, l, THREE, MIDDLE, SKW_AMOUNT_MOST, &moved) == ACCEPTED && moved == 394912);
    EXPECT(a.masses[MIDDLE] == 0 && a.fills[MIDDLE] == 0 && a.carry[2] == 394912);
    EXPECT(act(skw_take, &a, l, THREE, MIDDLE, 5, &moved) == ACCEPTED && moved == 0);
    kept = a;
    EXPECT(act(skw_pour, &a, l, THREE, MIDDLE, SKW_AMOUNT_MOST + 1, &moved) == REFUSED(SKW_BAD_AMOUNT, 0) && moved == 0);
    EXPECT(act(skw_pour, &a, l, THREE, 12, 1, &moved) == REFUSED(SKW_NOT_INTERFACE, 12) && moved == 0);
    EXPECT(act(skw_take, &a, l, THREE, CELLS, 1, &moved) == REFUSED(SKW_OUTSIDE, 0) && moved == 0);
    EXPECT(act(skw_take, &a, l, FLAT, MIDDLE, 1, &moved) == REFUSED(SKW_BAD_SIDES, 0) && moved == 0);
    for (way = 0; way < WRONG_SET_LENGTHS; way += 1) {
        EXPECT(act(skw_pour, &a, wrong_lengths(way), THREE, MIDDLE, 1, &moved) == REFUSED(SKW_BAD_LENGTH, 0) && moved == 0);
    }
    EXPECT(memcmp(&a, &kept, sizeof a) == 0);
    for (way = 0; way < 4; way += 1) {
        EXPECT(act(skw_pour, &a, l, THREE, MIDDLE, SKW_AMOUNT_MOST, &moved) == ACCEPTED && moved == SKW_AMOUNT_MOST);
    }
    EXPECT(a.masses[MIDDLE] == SKW_MASS_MOST && a.carry[1] == 2459296);
    EXPECT(act(skw_pour, &a, l, THREE, MIDDLE, 1, &moved) == REFUSED(SKW_BAD_AMOUNT, 0) && moved == 0);
    EXPECT(a.masses[MIDDLE] + a.carry[0] + a.carry[2] - a.carry[1] == 294912);
    EXPECT(check(&a, l, THREE) == ACCEPTED);
    a.carry[1] = SKW_TOTAL_MOST + 1;
    EXPECT(check(&a, l, THREE) == REFUSED(SKW_BAD_STATE, CELLS));
}

static void test_place(void)
{
    const int64_t far = (int64_t)52 * 100000000;
    struct sides s = {10, 3, 4};
    struct site t = {50, 0, 0, 0};
    size_t cell;
    t.ox = t.oy = t.oz = far;

    EXPECT(place_point(s, t, far, far, far, &cell) == ACCEPTED && cell == 0);
    EXPECT(place_point(s, t, far + 149, far, far, &cell) == ACCEPTED && cell == 2);
    EXPECT(place_point(s, t, far + 150, far, far, &cell) == ACCEPTED && cell == 3);
    EXPECT(place_point(s, t, far + 499, far + 149, far + 199, &cell) == ACCEPTED && cell == 9 + 10 * (2 + 3 * 3));
    EXPECT(place_point(s, t, far - 1, far, far, &cell) == REFUSED(SKW_OUTSIDE, 0) && cell == 0);
    EXPECT(place_point(s, t, far, far + 150, far, &cell) == REFUSED(SKW_OUTSIDE, 0) && cell == 0);
    EXPECT(place_point(s, t, far, far, SKW_COORDINATE_MOST, &cell) == REFUSED(SKW_OUTSIDE, 0) && cell == 0);
    EXPECT(place_point(s, t, far, far, SKW_COORDINATE_MOST + 1, &cell) == REFUSED(SKW_BAD_SETTING, 0) && cell == 0);
    EXPECT(place_point(s, t, INT64_MIN, far, far, &cell) == REFUSED(SKW_BAD_SETTING, 0) && cell == 0);
    t.edge = 0;
    EXPECT(place_point(s, t, far, far, far, &cell) == REFUSED(SKW_BAD_SETTING, 0) && cell == 0);
    t.edge = 50, t.oz = -SKW_COORDINATE_MOST - 1;
    EXPECT(place_point(s, t, far, far, far, &cell) == REFUSED(SKW_BAD_SETTING, 0) && cell == 0);
    s.ny = 2;
    EXPECT(place_point(s, t, far, far, far, &cell) == REFUSED(SKW_BAD_SIDES, 0) && cell == 0);
}

static int nothing(const float answer[4])
{
    return answer[0] == 0 && answer[1] == 0 && answer[2] == 0 && answer[3] == 0;
}

static void test_point(void)
{
    struct sides s = {3, 4, 5};
    uint32_t fills[60];
    float answer[4];
    memset(fills, 0, sizeof fills);
    fills[1 + 3 * (2 + 4 * 3)] = 65535;

    EXPECT(point(s, fills, 60, 1 + 3 * (2 + 4 * 3), answer) == ACCEPTED);
    EXPECT(answer[0] == 1.5f && answer[1] == 2.5f && answer[2] == 3.5f && answer[3] == 65535.0f / 65536.0f);
    EXPECT(point(s, fills, 60, 59, answer) == ACCEPTED);
    EXPECT(answer[0] == 2.5f && answer[1] == 3.5f && answer[2] == 4.5f && answer[3] == 0);
    EXPECT(point(s, fills, 60, 60, answer) == REFUSED(SKW_OUTSIDE, 0) && nothing(answer));
    EXPECT(point(s, fills, 60, (size_t)-1, answer) == REFUSED(SKW_OUTSIDE, 0) && nothing(answer));
    EXPECT(point(s, fills, 59, 0, answer) == REFUSED(SKW_BAD_LENGTH, 0) && nothing(answer));
    fills[59] = SKW_FULL + 1;
    EXPECT(point(s, fills, 60, 59, answer) == REFUSED(SKW_BAD_STATE, 59) && nothing(answer));
    EXPECT(point(s, fills, 60, 58, answer) == ACCEPTED);
    s.nx = 1;
    EXPECT(point(s, fills, 60, 0, answer) == REFUSED(SKW_BAD_SIDES, 0) && nothing(answer));
}

static void test_depth(void)
{
    const struct sides s = {3, 4, 5};
    const struct sides none = {0, 0, 0};
    const size_t foot = 1 + 3 * 2, layer = 12;
    struct set a;
    float deep;
    int kind;
    memset(&a, 0, sizeof a), memset(a.flags, SKW_WALL, 60);

    EXPECT(depth(s, &a, 60, 60, 1, 2, &kind, &deep) == ACCEPTED && kind == SKW_DEPTH_SOLID && deep == 0);
    a.flags[foot + 2 * layer] = SKW_EMPTY;
    EXPECT(depth(s, &a, 60, 60, 1, 2, &kind, &deep) == ACCEPTED && kind == SKW_DEPTH_DRY && deep == 0);
    a.flags[foot + layer] = SKW_FLUID, a.fills[foot + layer] = SKW_FULL, a.flags[foot + 2 * layer] = SKW_INTERFACE;
    a.fills[foot + 2 * layer] = 16384;
    EXPECT(depth(s, &a, 60, 60, 1, 2, &kind, &deep) == ACCEPTED && kind == SKW_DEPTH_DEEP && deep == 1.25f);
    EXPECT(depth(s, &a, 60, 60, 3, 2, &kind, &deep) == REFUSED(SKW_OUTSIDE, 0) && kind == SKW_DEPTH_REFUSED && deep == 0);
    EXPECT(depth(s, &a, 60, 60, 1, 4, &kind, &deep) == REFUSED(SKW_OUTSIDE, 0) && kind == SKW_DEPTH_REFUSED && deep == 0);
    EXPECT(depth(s, &a, 59, 60, 1, 2, &kind, &deep) == REFUSED(SKW_BAD_LENGTH, 0) && kind == SKW_DEPTH_REFUSED && deep == 0);
    EXPECT(depth(s, &a, 60, 61, 1, 2, &kind, &deep) == REFUSED(SKW_BAD_LENGTH, 0) && kind == SKW_DEPTH_REFUSED && deep == 0);
    EXPECT(depth(none, &a, 60, 60, 1, 2, &kind, &deep) == REFUSED(SKW_BAD_SIDES, 0) && kind == SKW_DEPTH_REFUSED && deep == 0);
    a.fills[foot] = SKW_FULL + 1;
    EXPECT(depth(s, &a, 60, 60, 1, 2, &kind, &deep) == REFUSED(SKW_BAD_STATE, foot) && kind == SKW_DEPTH_REFUSED && deep == 0);
    a.flags[foot + 4 * layer] = 4;
    EXPECT(depth(s, &a, 60, 60, 1, 2, &kind, &deep) == REFUSED(SKW_BAD_FLAG, foot + 4 * layer) && kind == SKW_DEPTH_REFUSED && deep == 0);
    EXPECT(depth(s, &a, 60, 60, 1, 1, &kind, &deep) == ACCEPTED && kind == SKW_DEPTH_SOLID && deep == 0);
}

/* A list of seven points over a grid of 5 by 4 by 4 cells, as document 01's figures of the profile have it. */
#define POINTS 7
#define GUTTER 80

struct list {
    uint8_t flags[GUTTER + 1];
    uint32_t fills[GUTTER + 1];
    int64_t chainages[SKW_POINTS_MOST + 1];
    int64_t points[3 * (SKW_POINTS_MOST + 1)];
    uint8_t kinds[SKW_POINTS_MOST + 1];
    float depths[SKW_POINTS_MOST + 1];
    struct site site;
    size_t ny;
    /* Under which lengths these are lent. */
    size_t flags_len, fills_len, chainages_len, points_len, kinds_len, depths_len;
};

static void gutter(struct list *l)
{
    static const int low[4] = {26, 27, 28, 32};
    static const uint32_t fill[4] = {32768, 65536, 0, 49152};
    static const int at[POINTS][3] = {{25, 75, 60}, {50, 50, 0}, {60, 99, 199}, {60, 99, 200}, {0, 100, 0}, {125, 125, 0}, {75, 120, 10}};
    const int64_t north = (int64_t)52 * 100000000;
    int i;
    memset(l, 0, sizeof *l), memset(l->flags, SKW_WALL, GUTTER);
    for (i = 0; i < 4; i += 1) {
        l->flags[low[i]] = SKW_INTERFACE, l->fills[low[i]] = fill[i], l->flags[low[i] + 20] = SKW_EMPTY;
    }
    l->flags[33] = l->flags[53] = SKW_EMPTY;
    for (i = 0; i < POINTS; i += 1) {
        l->chainages[i] = 1000 * i;
        l->points[3 * i] = at[i][0], l->points[3 * i + 1] = north + at[i][1], l->points[3 * i + 2] = at[i][2];
    }
    for (i = 0; i <= SKW_POINTS_MOST; i += 1) {
        l->kinds[i] = 77, l->depths[i] = -7.5f;
    }
    l->site.edge = 50, l->site.ox = -50, l->site.oy = north, l->ny = 4;
    l->flags_len = l->fills_len = GUTTER, l->points_len = 3 * POINTS, l->chainages_len = l->kinds_len = l->depths_len = POINTS;
}

/* So many points, all at the place of the first. */
static void long_gutter(struct list *l, size_t points)
{
    size_t i;
    gutter(l);
    for (i = 0; i < points; i += 1) {
        l->chainages[i] = (int64_t)i;
        memcpy(l->points + 3 * i, l->points, 3 * sizeof l->points[0]);
    }
    l->points_len = 3 * points, l->chainages_len = l->kinds_len = l->depths_len = points;
}

/* The answer: number and place; the deepest point, or -1 if none is wet. */
static long profile(struct list *l, long *deepest_wet)
{
    size_t place = unset(), deepest = unset();
    uint8_t wet = 255;
    const uint8_t number = skw_profile(5, l->ny, 4, l->site.edge, l->site.ox, l->site.oy, l->site.oz, l->flags, l->flags_len, l->fills,
                                       l->fills_len, l->chainages, l->chainages_len, l->points, l->points_len, l->kinds, l->kinds_len,
                                       l->depths, l->depths_len, &wet, &deepest, &place);
    EXPECT(wet <= 1 && (wet == 1 || deepest == 0) && (number == SKW_ACCEPTED || wet == 0));
    *deepest_wet = wet ? (long)deepest : -1;
    return REFUSED(number, place);
}

/* That it is refused so, and has written nothing. */
static int refused_profile(struct list *l, long answer)
{
    static struct list before;
    long deepest;
    before = *l;
    return profile(l, &deepest) == answer && deepest == -1 && memcmp(l->kinds, before.kinds, sizeof before.kinds) == 0
           && memcmp(l->depths, before.depths, sizeof before.depths) == 0;
}

static void test_profile(void)
{
    static const uint8_t kinds[POINTS] = {SKW_LINE_DEEP,  SKW_LINE_DEEP, SKW_LINE_DEEP, SKW_LINE_OUTSIDE,
                                          SKW_LINE_SOLID, SKW_LINE_DRY,  SKW_LINE_DEEP};
    static const float depths[POINTS] = {0.5f, 1, 1, 0, 0, 0, 0.75f};
    static struct list l;
    long deepest;
    gutter(&l);

    EXPECT(profile(&l, &deepest) == ACCEPTED && deepest == 1);
    EXPECT(memcmp(l.kinds, kinds, sizeof kinds) == 0 && l.kinds[POINTS] == 77);
    EXPECT(memcmp(l.depths, depths, sizeof depths) == 0 && l.depths[POINTS] == -7.5f);

    /* each fault is added to those before it, and is found before them */
    gutter(&l), l.fills[32] = SKW_FULL + 1;
    EXPECT(refused_profile(&l, REFUSED(SKW_BAD_STATE, 32)));
    l.flags[67] = 4;
    EXPECT(refused_profile(&l, REFUSED(SKW_BAD_FLAG, 67)));
    l.points[3] = SKW_COORDINATE_MOST + 1;
    EXPECT(refused_profile(&l, REFUSED(SKW_BAD_SETTING, 1)));
    l.chainages[3] = l.chainages[2];
    EXPECT(refused_profile(&l, REFUSED(SKW_BAD_CHAINAGE, 3)));
    l.site.edge = 0;
    EXPECT(refused_profile(&l, REFUSED(SKW_BAD_SETTING, 0)));
    l.kinds_len -= 1;
    EXPECT(refused_profile(&l, REFUSED(SKW_BAD_LENGTH, 0)));
    l.ny = 2;
    EXPECT(refused_profile(&l, REFUSED(SKW_BAD_SIDES, 0)));

    gutter(&l), l.flags_len += 1;
    EXPECT(refused_profile(&l, REFUSED(SKW_BAD_LENGTH, 0)));
    gutter(&l), l.fills_len -= 1;
    EXPECT(refused_profile(&l, REFUSED(SKW_BAD_LENGTH, 0)));
    gutter(&l), l.points_len -= 1;
    EXPECT(refused_profile(&l, REFUSED(SKW_BAD_LENGTH, 0)));
    gutter(&l), l.depths_len += 1;
    EXPECT(refused_profile(&l, REFUSED(SKW_BAD_LENGTH, 0)));
    gutter(&l), l.site.oz = -SKW_COORDINATE_MOST - 1;
    EXPECT(refused_profile(&l, REFUSED(SKW_BAD_SETTING, 0)));

    long_gutter(&l, 0);
    EXPECT(refused_profile(&l, REFUSED(SKW_BAD_LIST, 0)));
    long_gutter(&l, 1);
    EXPECT(profile(&l, &deepest) == ACCEPTED && deepest == 0 && l.kinds[0] == SKW_LINE_DEEP && l.kinds[1] == 77);
    long_gutter(&l, SKW_POINTS_MOST);
    EXPECT(profile(&l, &deepest) == ACCEPTED && deepest == 0 && l.depths[SKW_POINTS_MOST - 1] == 0.5f);
    long_gutter(&l, SKW_POINTS_MOST + 1);
    EXPECT(refused_profile(&l, REFUSED(SKW_BAD_LIST, 0)));

    gutter(&l), memset(l.fills, 0, sizeof l.fills);
    EXPECT(profile(&l, &deepest) == ACCEPTED && deepest == -1 && l.kinds[1] == SKW_LINE_DRY && l.depths[1] == 0);
}

/* A grid of 4 by 4 by 4 cells with water in two corners, as document 01's figures of the pools have it, and what is lent beside it. */
#define LAKE 64
#define LIST 4

struct lake {
    uint8_t flags[LAKE + 1];
    int32_t parts[SKW_PARTS * LAKE + 1];
    int32_t masses[LAKE + 1];
    uint32_t fills[LAKE + 1];
    int64_t carry[4];
    uint32_t counts[LIST];
    int64_t waters[LIST];
    uint16_t marks[LAKE + 1];
    uint32_t work[LAKE + 1];
    size_t ny;
    /* Under which lengths these are lent. */
    size_t flags_len, parts_len, masses_len, fills_len, carry_len, counts_len, waters_len, marks_len, work_len;
};

/* Water at rest. */
static void wet(struct lake *l, size_t cell, int32_t mass, uint32_t fill)
{
    int k;
    l->flags[cell] = SKW_INTERFACE, l->masses[cell] = mass, l->fills[cell] = fill;
    for (k = 0; k < SKW_PARTS; k += 1) {
        l->parts[SKW_PARTS * cell + (size_t)k] = SKW_ONE / 36 * (k == 0 ? 12 : k <= 6 ? 2 : 1);
    }
}

static void lake(struct lake *l, size_t room)
{
    size_t c;
    memset(l, 0, sizeof *l);
    for (c = 0; c < LAKE; c += 1) {
        const size_t x = c % 4, y = c / 4 % 4, z = c / 16;
        l->flags[c] = x % 3 == 0 || y % 3 == 0 || z % 3 == 0 ? SKW_WALL : SKW_EMPTY;
    }
    wet(l, 21, 1000, 111), wet(l, 42, -7, 0);
    for (c = 0; c <= LAKE; c += 1) {
        l->marks[c] = 777, l->work[c] = 7777;
    }
    for (c = 0; c < LIST; c += 1) {
        l->counts[c] = 77, l->waters[c] = -77;
    }
    l->ny = 4;
    l->flags_len = l->masses_len = l->fills_len = l->marks_len = l->work_len = LAKE, l->parts_len = SKW_PARTS * LAKE;
    l->carry_len = 3, l->counts_len = l->waters_len = room;
}

static long ask_pools(struct lake *l, size_t *pools)
{
    size_t place = unset();
    uint8_t number;
    *pools = unset();
    number = skw_pools(l->flags, l->flags_len, l->parts, l->parts_len, l->masses, l->masses_len, l->fills, l->fills_len, l->carry,
                       l->carry_len, l->counts, l->counts_len, l->waters, l->waters_len, l->marks, l->marks_len, l->work, l->work_len, 4,
                       l->ny, 4, pools, &place);
    return REFUSED(number, place);
}

/* That it is refused so, and has written nothing. */
static int refused_pools(struct lake *l, long answer)
{
    static struct lake before;
    size_t pools;
    before = *l;
    return ask_pools(l, &pools) == answer && pools == 0 && memcmp(l, &before, sizeof before) == 0;
}

/* That marks and work are 0 but for these marks, and nothing behind them is written. */
static int marked(const struct lake *l, unsigned at21, unsigned at22, unsigned at42)
{
    size_t c;
    for (c = 0; c < LAKE; c += 1) {
        const unsigned mark = c == 21 ? at21 : c == 22 ? at22 : c == 42 ? at42 : 0;
        if (l->marks[c] != mark || l->work[c] != 0) {
            return 0;
        }
    }
    return l->marks[LAKE] == 777 && l->work[LAKE] == 7777;
}

static void test_pools(void)
{
    static struct lake l;
    size_t pools;
    int way;

    lake(&l, LIST);
    EXPECT(ask_pools(&l, &pools) == ACCEPTED && pools == 2 && marked(&l, 1, 0, 2));
    EXPECT(l.counts[0] == 1 && l.counts[1] == 1 && l.counts[2] == 77 && l.waters[0] == 1000 && l.waters[1] == -7 && l.waters[2] == -77);
    lake(&l, 2);
    EXPECT(ask_pools(&l, &pools) == ACCEPTED && pools == 2);
    lake(&l, 1);
    EXPECT(ask_pools(&l, &pools) == REFUSED(SKW_BAD_POOLS, 2) && pools == 0 && marked(&l, 0, 0, 0) && l.counts[0] == 77 && l.waters[0] == -77);
    lake(&l, 1), wet(&l, 22, 50, 5);
    EXPECT(ask_pools(&l, &pools) == ACCEPTED && pools == 1 && marked(&l, 1, 1, 1) && l.counts[0] == 3 && l.waters[0] == 1043);
    lake(&l, 0), memset(l.flags, SKW_WALL, LAKE), memset(l.parts, 0, sizeof l.parts), memset(l.masses, 0, sizeof l.masses),
        memset(l.fills, 0, sizeof l.fills);
    EXPECT(ask_pools(&l, &pools) == ACCEPTED && pools == 0 && marked(&l, 0, 0, 0));
    EXPECT(SKW_POOLS_MOST(64, 64, 64) == 62511 && SKW_POOLS_MOST(5, 5, 5) == 16);

    lake(&l, 2), l.carry[0] = -SKW_CARRY_MOST, l.carry[1] = l.carry[2] = SKW_TOTAL_MOST;
    EXPECT(ask_pools(&l, &pools) == ACCEPTED && pools == 2);

    /* each fault is added to those before it, and is found before them */
    lake(&l, 0), l.carry[2] = SKW_TOTAL_MOST + 1;
    EXPECT(refused_pools(&l, REFUSED(SKW_BAD_STATE, LAKE)));
    l.fills[42] = 1;
    EXPECT(refused_pools(&l, REFUSED(SKW_BAD_STATE, 42)));
    l.flags[41] = SKW_FLUID;
    EXPECT(refused_pools(&l, REFUSED(SKW_BAD_LAYER, 41)));
    l.flags[63] = SKW_EMPTY;
    EXPECT(refused_pools(&l, REFUSED(SKW_BAD_FLAG, 63)));
    l.waters_len = 1;
    EXPECT(refused_pools(&l, REFUSED(SKW_BAD_LENGTH, 0)));
    l.ny = 2;
    EXPECT(refused_pools(&l, REFUSED(SKW_BAD_SIDES, 0)));

    lake(&l, 2), l.carry[1] = -1;
    EXPECT(refused_pools(&l, REFUSED(SKW_BAD_STATE, LAKE)));
    for (way = 0; way < 18; way += 1) {
        size_t *const each[9] = {&l.flags_len, &l.parts_len,  &l.masses_len, &l.fills_len, &l.carry_len,
                                 &l.marks_len, &l.work_len, &l.counts_len, &l.waters_len};
        lake(&l, 2);
        *each[way / 2] = way % 2 ? *each[way / 2] + 1 : *each[way / 2] - 1;
        EXPECT(refused_pools(&l, REFUSED(SKW_BAD_LENGTH, 0)));
    }
}

/* A grid of 5 by 4 by 3 cells with one surface cell, as document 01's figures of the mirror have it, and a second set with its index. */
#define GLASS 60

struct glass {
    uint8_t flags[GLASS + 1];
    int32_t parts[SKW_PARTS * GLASS + 1];
    int32_t masses[GLASS + 1];
    uint32_t fills[GLASS + 1];
    int64_t carry[4];
    uint64_t words[2];
    uint64_t count[2];
    /* Under which lengths these are lent. */
    size_t flags_len, parts_len, masses_len, fills_len, carry_len, words_len, count_len;
};

static void glass(struct glass *g)
{
    memset(g, 0x5a, sizeof *g);
    g->flags_len = g->masses_len = g->fills_len = GLASS, g->parts_len = SKW_PARTS * GLASS;
    g->carry_len = 3, g->words_len = SKW_WORDS(GLASS), g->count_len = 1;
}

static void figure(struct glass *g)
{
    size_t c;
    int k;
    glass(g);
    memset(g->parts, 0, sizeof g->parts), memset(g->masses, 0, sizeof g->masses), memset(g->fills, 0, sizeof g->fills);
    for (c = 0; c < GLASS; c += 1) {
        const size_t x = c % 5, y = c / 5 % 4, z = c / 20;
        g->flags[c] = x % 4 == 0 || y % 3 == 0 || z % 2 == 0 ? SKW_WALL : SKW_EMPTY;
    }
    g->flags[26] = SKW_INTERFACE, g->masses[26] = 100000, g->fills[26] = 11107;
    for (k = 0; k < SKW_PARTS; k += 1) {
        g->parts[SKW_PARTS * 26 + k] = SKW_ONE / 36 * (k == 0 ? 12 : k <= 6 ? 2 : 1) + k;
    }
    g->carry[0] = 7, g->carry[1] = 100000, g->carry[2] = 3;
}

static long mirror(const struct glass *a, struct glass *b, size_t ny, size_t axis)
{
    size_t place = unset();
    const uint8_t number = skw_mirror(a->flags, a->flags_len, a->parts, a->parts_len, a->masses, a->masses_len, a->fills, a->fills_len, a->carry,
                                      a->carry_len, b->flags, b->flags_len, b->parts, b->parts_len, b->masses, b->masses_len, b->fills,
                                      b->fills_len, b->carry, b->carry_len, b->words, b->words_len, b->count, b->count_len, 5, ny, 3, axis, &place);
    return REFUSED(number, place);
}

/* That it is refused so, and has written nothing. */
static int refused_mirror(const struct glass *a, struct glass *b, size_t ny, size_t axis, long answer)
{
    static struct glass before;
    before = *b;
    return mirror(a, b, ny, axis) == answer && memcmp(b, &before, sizeof before) == 0;
}

/* That the second set has the first one's cells but for its one surface cell, which is at c, with these parts in a few directions, and nothing behind. */
static int reflected(const struct glass *a, const struct glass *b, size_t c, const int32_t *few)
{
    static const int at[7] = {1, 2, 3, 5, 7, 11, 15};
    size_t i, wet = 0;
    int k;
    for (i = 0; i < GLASS; i += 1) {
        wet += b->flags[i] == SKW_INTERFACE;
        if (i != c && i != 26 && b->flags[i] != a->flags[i]) {
            return 0;
        }
    }
    for (k = 0; k < 7; k += 1) {
        if (b->parts[SKW_PARTS * c + (size_t)at[k]] != few[k]) {
            return 0;
        }
    }
    return wet == 1 && b->flags[c] == SKW_INTERFACE && b->masses[c] == 100000 && b->fills[c] == 11107 && b->parts[SKW_PARTS * c] == 196608 &&
           b->carry[0] == 7 && b->carry[1] == 100000 && b->carry[2] == 3 && b->words[0] == (uint64_t)1 << c && b->count[0] == 1 &&
           b->flags[GLASS] == 0x5a && b->masses[GLASS] == 0x5a5a5a5a && b->words[1] != 0 && b->count[1] != 0 && b->carry[3] != 0;
}

static void test_mirror(void)
{
    static const int32_t few[3][7] = {{32770, 32769, 32771, 32773, 16394, 16395, 16402},
                                      {32769, 32770, 32772, 32773, 16393, 16398, 16399},
                                      {32769, 32770, 32771, 32774, 16391, 16397, 16401}};
    static const size_t cells[3] = {28, 31, 26};
    static struct glass a, b, back;
    size_t axis, place = 0;
    int way;

    for (axis = SKW_AXIS_X; axis <= SKW_AXIS_Z; axis += 1) {
        figure(&a), glass(&b), glass(&back);
        EXPECT(mirror(&a, &b, 4, axis) == ACCEPTED && reflected(&a, &b, cells[axis], few[axis]));
        EXPECT(skw_load(b.flags, GLASS, b.parts, SKW_PARTS * GLASS, b.masses, GLASS, b.fills, GLASS, b.carry, 3, b.words, 1, b.count, 1, 5, 4, 3,
                        &place) == SKW_ACCEPTED);
        EXPECT(mirror(&b, &back, 4, axis) == ACCEPTED);
        EXPECT(memcmp(back.flags, a.flags, GLASS) == 0 && memcmp(back.parts, a.parts, sizeof(int32_t) * SKW_PARTS * GLASS) == 0 &&
               memcmp(back.masses, a.masses, sizeof(int32_t) * GLASS) == 0 && memcmp(back.fills, a.fills, sizeof(uint32_t) * GLASS) == 0 &&
               memcmp(back.carry, a.carry, 3 * sizeof(int64_t)) == 0 && back.words[0] == (uint64_t)1 << 26);
    }

    /* each fault is added to those before it, and is found before them */
    figure(&a), glass(&b), a.carry[1] = -1;
    EXPECT(refused_mirror(&a, &b, 4, 2, REFUSED(SKW_BAD_STATE, GLASS)));
    a.fills[26] = 1;
    EXPECT(refused_mirror(&a, &b, 4, 1, REFUSED(SKW_BAD_STATE, 26)));
    a.flags[27] = SKW_FLUID;
    EXPECT(refused_mirror(&a, &b, 4, 0, REFUSED(SKW_BAD_LAYER, 27)));
    a.flags[59] = SKW_EMPTY;
    EXPECT(refused_mirror(&a, &b, 4, 0, REFUSED(SKW_BAD_FLAG, 59)));
    EXPECT(refused_mirror(&a, &b, 4, 3, REFUSED(SKW_BAD_SETTING, 0)));
    EXPECT(refused_mirror(&a, &b, 4, unset(), REFUSED(SKW_BAD_SETTING, 0)));
    b.flags_len = 59;
    EXPECT(refused_mirror(&a, &b, 4, 3, REFUSED(SKW_BAD_LENGTH, 0)));
    EXPECT(refused_mirror(&a, &b, 2, 3, REFUSED(SKW_BAD_SIDES, 0)));

    for (way = 0; way < 24; way += 1) {
        size_t *const each[12] = {&a.flags_len, &a.parts_len,  &a.masses_len, &a.fills_len, &a.carry_len, &b.flags_len,
                                  &b.parts_len, &b.masses_len, &b.fills_len,  &b.carry_len, &b.words_len, &b.count_len};
        figure(&a), glass(&b);
        *each[way / 2] = way % 2 ? *each[way / 2] + 1 : *each[way / 2] - 1;
        EXPECT(refused_mirror(&a, &b, 4, 0, REFUSED(SKW_BAD_LENGTH, 0)));
    }
}

/* Two designers' tunnel as document 01's figures have it: the row's box with a wall in its middle, and what a wall change is lent. */
#define STONE 22

struct tunnel {
    uint8_t map[ROW + 1];
    struct set asker, other;
    size_t map_len;
    struct lengths la, lo;
    struct sides s;
};

/* Water at rest in one cell, its own flags without walls. */
static void scheme(struct set *a, size_t cell, uint8_t flag)
{
    memset(a, 0, sizeof *a);
    a->flags[cell] = flag;
    rest(a, cell);
    a->masses[cell] = flag == SKW_FLUID ? SKW_ONE : SKW_ONE / 2;
    a->fills[cell] = flag == SKW_FLUID ? SKW_FULL : SKW_FULL / 2;
    mark(a, ROW);
}

/* An interface cell at 21 for the asker, for the other a fluid one at 23 or no water. */
static void tunnel(struct tunnel *t, int dry)
{
    memset(t, 0, sizeof *t);
    memset(t->map, 1, ROW);
    t->map[21] = t->map[23] = 0, t->map[ROW] = 77;
    scheme(&t->asker, 21, SKW_INTERFACE);
    scheme(&t->other, 23, SKW_FLUID);
    if (dry) {
        memset(&t->other, 0, sizeof t->other);
    }
    t->map_len = ROW, t->la = t->lo = lengths_of(ROW), t->s = FIVE;
}

static long join(const struct tunnel *t, uint8_t *grid, size_t grid_len)
{
    size_t place = unset();
    const struct set *a = &t->asker;
    const uint8_t number = skw_scheme_join(t->map, t->map_len, a->flags, t->la.flags, a->parts, t->la.parts, a->masses, t->la.masses, a->fills,
                                           t->la.fills, a->carry, t->la.carry, grid, grid_len, t->s.nx, t->s.ny, t->s.nz, &place);
    return REFUSED(number, place);
}

static long part(const uint8_t *grid, size_t grid_len, uint8_t *own, size_t own_len, struct sides s)
{
    size_t place = unset();
    const uint8_t number = skw_scheme_part(grid, grid_len, own, own_len, s.nx, s.ny, s.nz, &place);
    return REFUSED(number, place);
}

/* One of the two wall changes; their arguments are the same. */
typedef uint8_t wall_change(uint8_t *, size_t, const uint8_t *, size_t, const int32_t *, size_t, const int32_t *, size_t, const uint32_t *, size_t,
                            const int64_t *, size_t, const uint8_t *, size_t, const int32_t *, size_t, const int32_t *, size_t, const uint32_t *,
                            size_t, const int64_t *, size_t, size_t, size_t, size_t, size_t, size_t *);

static long change(wall_change *call, struct tunnel *t, size_t cell)
{
    size_t place = unset();
    const struct set *a = &t->asker, *o = &t->other;
    const uint8_t number =
        call(t->map, t->map_len, a->flags, t->la.flags, a->parts, t->la.parts, a->masses, t->la.masses, a->fills, t->la.fills, a->carry,
             t->la.carry, o->flags, t->lo.flags, o->parts, t->lo.parts, o->masses, t->lo.masses, o->fills, t->lo.fills, o->carry, t->lo.carry,
             t->s.nx, t->s.ny, t->s.nz, cell, &place);
    return REFUSED(number, place);
}

/* That it is refused so, and has written nothing. */
static int refused_change(wall_change *call, struct tunnel *t, size_t cell, long answer)
{
    static struct tunnel before;
    before = *t;
    return change(call, t, cell) == answer && memcmp(t, &before, sizeof before) == 0;
}

/* That it is accepted, and has written this cell's byte of the map and nothing else. */
static int accepted_change(wall_change *call, struct tunnel *t, size_t cell, uint8_t byte)
{
    static struct tunnel after;
    after = *t;
    after.map[cell] = byte;
    return change(call, t, cell) == ACCEPTED && memcmp(t, &after, sizeof after) == 0;
}

static void test_schemes(void)
{
    static struct tunnel t;
    static struct set a, b;
    uint8_t grid[ROW + 1], own[ROW + 1], marks[ROW];
    int way;
    size_t c;

    /* a scheme is joined, stepped and parted, and is then a scheme of the same map */
    tunnel(&t, 0), memset(grid, 77, sizeof grid), memset(own, 77, sizeof own);
    EXPECT(join(&t, grid, ROW) == ACCEPTED && grid[ROW] == 77);
    for (c = 0; c < ROW; c += 1) {
        EXPECT(t.map[c] == 1 ? grid[c] == SKW_WALL : grid[c] == t.asker.flags[c]);
    }
    EXPECT(part(grid, ROW, own, ROW, FIVE) == ACCEPTED && memcmp(own, t.asker.flags, ROW) == 0 && own[ROW] == 77);
    a = t.asker, memcpy(a.flags, grid, ROW);
    EXPECT(check(&a, lengths_of(ROW), FIVE) == ACCEPTED);
    EXPECT(step(&a, lengths_of(ROW), &b, lengths_of(ROW), marks, FIVE, FALLING) == ACCEPTED);
    b.carry[1] = a.carry[1], b.carry[2] = a.carry[2];
    t.asker = b;
    EXPECT(part(b.flags, ROW, t.asker.flags, ROW, FIVE) == ACCEPTED);
    EXPECT(join(&t, grid, ROW) == ACCEPTED && memcmp(grid, b.flags, ROW) == 0);

    /* part's refusals, in order */
    EXPECT(part(grid, ROW, own, ROW + 1, FIVE) == REFUSED(SKW_BAD_LENGTH, 0) && part(grid, ROW - 1, own, ROW, FIVE) == REFUSED(SKW_BAD_LENGTH, 0));
    EXPECT(part(grid, ROW - 1, own, ROW, FLAT) == REFUSED(SKW_BAD_SIDES, 0));
    memset(own, 77, sizeof own), grid[STONE] = 4;
    EXPECT(part(grid, ROW, own, ROW, FIVE) == REFUSED(SKW_BAD_FLAG, STONE));
    grid[3] = SKW_EMPTY;
    EXPECT(part(grid, ROW, own, ROW, FIVE) == REFUSED(SKW_BAD_FLAG, 3) && all(own, ROW, 77));

    /* own flags at a wall, and what a refused join leaves */
    memset(grid, 77, sizeof grid);
    tunnel(&t, 0), t.asker.flags[0] = SKW_WALL;
    EXPECT(join(&t, grid, ROW) == REFUSED(SKW_BAD_FLAG, 0));
    t.asker.flags[0] = SKW_INTERFACE;
    EXPECT(join(&t, grid, ROW) == REFUSED(SKW_BAD_STATE, 0) && all(grid, ROW, 77));
    tunnel(&t, 0);
    EXPECT(join(&t, grid, ROW + 1) == REFUSED(SKW_BAD_LENGTH, 0) && all(grid, ROW, 77));

    /* document 01's figures, beside the other's water and beside none */
    for (way = 0; way < 2; way += 1) {
        tunnel(&t, way);
        EXPECT(refused_change(skw_wall_add, &t, 21, REFUSED(SKW_IN_THE_WAY, 21)));
        EXPECT(refused_change(skw_wall_add, &t, STONE, REFUSED(SKW_BAD_CHANGE, STONE)));
        EXPECT(refused_change(skw_wall_remove, &t, 0, REFUSED(SKW_BAD_CHANGE, 0)));
        EXPECT(refused_change(skw_wall_add, &t, 0, REFUSED(SKW_BAD_CHANGE, 0)));
        EXPECT(refused_change(skw_wall_remove, &t, 23, REFUSED(SKW_BAD_CHANGE, 23)));
        EXPECT(refused_change(skw_wall_add, &t, ROW, REFUSED(SKW_OUTSIDE, 0)) && refused_change(skw_wall_remove, &t, unset(), REFUSED(SKW_OUTSIDE, 0)));
    }
    EXPECT(accepted_change(skw_wall_add, &t, 23, 1));
    tunnel(&t, 1);
    EXPECT(accepted_change(skw_wall_remove, &t, STONE, 0));
    tunnel(&t, 0);
    EXPECT(refused_change(skw_wall_add, &t, 23, REFUSED(SKW_IN_THE_WAY, 23)));
    EXPECT(refused_change(skw_wall_remove, &t, STONE, REFUSED(SKW_IN_THE_WAY, STONE)));

    /* each fault is added to those before it, and is found before them: the other's, then the asker's */
    t.other.carry[1] = -1;
    EXPECT(refused_change(skw_wall_add, &t, ROW, REFUSED(SKW_BAD_STATE, ROW)));
    t.other.flags[STONE] = SKW_INTERFACE;
    EXPECT(refused_change(skw_wall_add, &t, ROW, REFUSED(SKW_BAD_STATE, STONE)));
    t.map[STONE] = 0, t.other.flags[STONE] = SKW_EMPTY;
    EXPECT(refused_change(skw_wall_add, &t, ROW, REFUSED(SKW_BAD_LAYER, 23)));
    t.other.flags[4] = SKW_WALL;
    EXPECT(refused_change(skw_wall_add, &t, ROW, REFUSED(SKW_BAD_FLAG, 4)));
    t.lo.carry = 1;
    EXPECT(refused_change(skw_wall_add, &t, ROW, REFUSED(SKW_BAD_LENGTH, 0)));
    t.asker.carry[2] = SKW_TOTAL_MOST + 1;
    EXPECT(refused_change(skw_wall_remove, &t, ROW, REFUSED(SKW_BAD_STATE, ROW)));
    t.asker.flags[STONE] = SKW_FLUID;
    EXPECT(refused_change(skw_wall_remove, &t, ROW, REFUSED(SKW_BAD_LAYER, STONE)));
    t.map[40] = 2;
    EXPECT(refused_change(skw_wall_remove, &t, ROW, REFUSED(SKW_BAD_FLAG, 40)));
    t.map[2] = 0;
    EXPECT(refused_change(skw_wall_remove, &t, ROW, REFUSED(SKW_BAD_FLAG, 2)));
    t.map_len = ROW + 1;
    EXPECT(refused_change(skw_wall_remove, &t, ROW, REFUSED(SKW_BAD_LENGTH, 0)));
    t.s = FLAT;
    EXPECT(refused_change(skw_wall_remove, &t, ROW, REFUSED(SKW_BAD_SIDES, 0)));

    for (way = 0; way < 22; way += 1) {
        size_t *const each[11] = {&t.map_len,   &t.la.flags,  &t.la.parts, &t.la.masses, &t.la.fills, &t.la.carry,
                                  &t.lo.flags, &t.lo.parts, &t.lo.masses, &t.lo.fills, &t.lo.carry};
        tunnel(&t, 1);
        *each[way / 2] = way % 2 ? *each[way / 2] + 1 : *each[way / 2] - 1;
        EXPECT(refused_change(skw_wall_add, &t, 23, REFUSED(SKW_BAD_LENGTH, 0)));
        EXPECT(refused_change(skw_wall_remove, &t, STONE, REFUSED(SKW_BAD_LENGTH, 0)));
        if (way < 12) {
            EXPECT(join(&t, grid, ROW) == REFUSED(SKW_BAD_LENGTH, 0) && all(grid, ROW, 77));
        }
    }
}

/* The figures of the height grids: a box of 5 by 4 by 4 cells of 50 mm, its invert, and its depth map with water in four columns. */
#define TRENCH 80
#define HEADER_LINES "ncols 5\nnrows 4\nxllcorner -0.050\nyllcorner 5200000.000\ncellsize 0.050\nNODATA_value -9999\n"
static const char INVERT[] = HEADER_LINES "0 0 0 0 0\n0 75 76 125 0\n0 126 -9999 -40 0\n0 0 0 0 0\n";
/* The same box with one column that is all wall. */
static const char PILLAR[] = HEADER_LINES "0 0 0 0 0\n0 -9999 0 0 0\n0 0 0 0 0\n0 0 0 0 0";
static const char DEPTHS[] = HEADER_LINES
    "-9999 -9999 -9999 -9999 -9999\n-9999 -9999 37 0 -9999\n-9999 25 50 0 -9999\n-9999 -9999 -9999 -9999 -9999\n";
#define DEPTHS_BYTES (sizeof DEPTHS - 1)
#define NORTHING ((int64_t)5200000 * 1000)

struct trench {
    uint8_t flags[TRENCH + 1];
    int32_t parts[SKW_PARTS * TRENCH + 1];
    int32_t masses[TRENCH + 1];
    uint32_t fills[TRENCH + 1];
    int64_t carry[4];
    uint64_t words[3];
    uint64_t count[2];
    uint8_t room[DEPTHS_BYTES + 8];
    size_t nx, nz;
    int64_t edge, ox, oy, oz;
    struct settings g;
    /* Under which lengths these are lent. */
    size_t flags_len, parts_len, masses_len, fills_len, carry_len, words_len, count_len, room_len;
};

/* All that is to be written holds something else before. */
static void trench(struct trench *t)
{
    memset(t, 7, sizeof *t);
    t->nx = 5, t->nz = 4, t->edge = 50, t->ox = -50, t->oy = NORTHING, t->oz = 118000, t->g = FALLING;
    t->flags_len = t->masses_len = t->fills_len = TRENCH, t->parts_len = SKW_PARTS * TRENCH;
    t->carry_len = 3, t->words_len = SKW_WORDS(TRENCH), t->count_len = 1, t->room_len = sizeof t->room;
}

/* What skw_invert_read answers beside number and place. */
struct header {
    size_t nx, ny;
    int64_t edge, ox, oy;
};

static long invert(struct trench *t, const char *text, size_t length, struct header *h)
{
    size_t place = unset();
    uint8_t number;
    memset(h, 7, sizeof *h);
    number = skw_invert_read((const uint8_t *)text, length, t->nz, t->oz, t->g.p, t->g.gx, t->g.gy, t->g.gz, t->flags, t->flags_len, t->parts,
                             t->parts_len, t->masses, t->masses_len, t->fills, t->fills_len, t->carry, t->carry_len, t->words, t->words_len,
                             t->count, t->count_len, &h->nx, &h->ny, &h->edge, &h->ox, &h->oy, &place);
    return REFUSED(number, place);
}

/* That a text is refused so, has answered 0 else, and written nothing. */
static int refused_text(struct trench *t, const char *text, size_t length, long answer)
{
    static struct trench before;
    struct header h;
    before = *t;
    return invert(t, text, length, &h) == answer && h.nx == 0 && h.ny == 0 && h.edge == 0 && h.ox == 0 && h.oy == 0 &&
           memcmp(t, &before, sizeof before) == 0;
}

static int refused_invert(struct trench *t, long answer)
{
    return refused_text(t, INVERT, sizeof INVERT - 1, answer);
}

/* That the figure's invert with one text made another is refused so. */
static int refused_with(const char *old, const char *other, long answer)
{
    static struct trench t;
    char text[sizeof INVERT + 40];
    const char *const at = strstr(INVERT, old);
    const size_t before = (size_t)(at - INVERT);
    strcpy(text, INVERT);
    strcpy(text + before, other);
    strcat(text, at + strlen(old));
    trench(&t);
    return refused_text(&t, text, strlen(text), answer);
}

static void test_invert(void)
{
    static struct trench t;
    struct header h;
    size_t c, open = 0;
    int way, zeros = 1;

    trench(&t);
    EXPECT(invert(&t, INVERT, sizeof INVERT - 1, &h) == ACCEPTED);
    EXPECT(h.nx == 5 && h.ny == 4 && h.edge == 50 && h.ox == -50 && h.oy == NORTHING);
    for (c = 0; c < TRENCH; c += 1) {
        const int empty = c == 28 || c == 31 || c == 48 || c == 51 || c == 52 || c == 53;
        open += t.flags[c] == (empty ? SKW_EMPTY : SKW_WALL);
        zeros = zeros && t.masses[c] == 0 && t.fills[c] == 0;
    }
    for (c = 0; c < SKW_PARTS * TRENCH; c += 1) {
        zeros = zeros && t.parts[c] == 0;
    }
    EXPECT(open == TRENCH && zeros && t.carry[0] == 0 && t.carry[1] == 0 && t.carry[2] == 0);
    EXPECT(t.words[0] == 0 && t.words[1] == 0 && t.count[0] == 0);
    /* nothing behind the slices is written */
    EXPECT(t.flags[TRENCH] == 7 && t.fills[TRENCH] == 0x07070707 && t.carry[3] != 0 && t.words[2] != 0 && t.count[1] != 0);
    c = unset();
    EXPECT(skw_check(t.flags, TRENCH, t.parts, SKW_PARTS * TRENCH, t.masses, TRENCH, t.fills, TRENCH, t.carry, 3, 5, 4, 4, &c) == SKW_ACCEPTED &&
           c == 0);

    EXPECT(refused_with("ncols 5", "ncols five", REFUSED(SKW_BAD_HEADER, 1)));
    EXPECT(refused_with("ncols 5", "ncols 5 5", REFUSED(SKW_BAD_HEADER, 1)));
    EXPECT(refused_with("ncols 5", "ncols 2", REFUSED(SKW_BAD_SIDES, 0)));
    EXPECT(refused_with("ncols 5", "ncols -5", REFUSED(SKW_BAD_SIDES, 0)));
    EXPECT(refused_with("xllcorner", "xllcenter", REFUSED(SKW_BAD_HEADER, 3)));
    EXPECT(refused_with("-0.050", "-0.0505", REFUSED(SKW_BAD_HEADER, 3)));
    EXPECT(refused_with("cellsize 0.050", "cellsize 1.001", REFUSED(SKW_BAD_SETTING, 0)));
    EXPECT(refused_with("cellsize 0.050\n", "", REFUSED(SKW_BAD_HEADER, 5)));
    EXPECT(refused_with("value -9999", "value -1", REFUSED(SKW_BAD_HEADER, 6)));
    EXPECT(refused_with("0 75 76 125 0", "75 76 125 0", REFUSED(SKW_BAD_ROW, 8)));
    EXPECT(refused_with("76", "76.5", REFUSED(SKW_BAD_ROW, 8)));
    EXPECT(refused_with("0 75 76 125 0", "", REFUSED(SKW_BAD_ROW, 8)));
    EXPECT(refused_with("0 75 76 125 0\n", "", REFUSED(SKW_BAD_ROW, 10)));
    EXPECT(refused_with("-40 0\n0 0 0 0 0\n", "-40 0\n0 0 0 0 0\nx\n", REFUSED(SKW_BAD_ROW, 11)));

    /* each fault is added to those before it, and is found before them */
    trench(&t);
    EXPECT(refused_text(&t, INVERT, sizeof INVERT - 3, REFUSED(SKW_BAD_ROW, 10)));
    t.oz = SKW_COORDINATE_MOST + 1;
    EXPECT(refused_text(&t, INVERT, sizeof INVERT - 3, REFUSED(SKW_BAD_SETTING, 0)));
    t.count_len = 2;
    EXPECT(refused_text(&t, INVERT, sizeof INVERT - 3, REFUSED(SKW_BAD_LENGTH, 0)));
    t.nz = 2;
    EXPECT(refused_text(&t, INVERT, sizeof INVERT - 3, REFUSED(SKW_BAD_SIDES, 0)));
    EXPECT(refused_text(&t, INVERT, 0, REFUSED(SKW_BAD_HEADER, 1)));
    EXPECT(refused_text(&t, INVERT, 9, REFUSED(SKW_BAD_HEADER, 2)));

    trench(&t), t.g.p = SKW_P_MOST + 1;
    EXPECT(refused_invert(&t, REFUSED(SKW_BAD_SETTING, 0)));
    trench(&t), t.g.gz = INT64_MIN;
    EXPECT(refused_invert(&t, REFUSED(SKW_BAD_SETTING, 0)));
    for (way = 0; way < 14; way += 1) {
        size_t *const each[7] = {&t.flags_len, &t.parts_len, &t.masses_len, &t.fills_len, &t.carry_len, &t.words_len, &t.count_len};
        trench(&t);
        *each[way / 2] = way % 2 ? *each[way / 2] + 1 : *each[way / 2] - 1;
        EXPECT(refused_invert(&t, REFUSED(SKW_BAD_LENGTH, 0)));
    }
}

/* Water at rest. */
static void pooled(struct trench *t, size_t cell, int32_t mass, uint32_t fill)
{
    int k;
    t->flags[cell] = SKW_INTERFACE, t->masses[cell] = mass, t->fills[cell] = fill;
    for (k = 0; k < SKW_PARTS; k += 1) {
        t->parts[SKW_PARTS * cell + (size_t)k] = SKW_ONE / 36 * (k == 0 ? 12 : k <= 6 ? 2 : 1);
    }
}

/* The grid of the figure's depth map. */
static void filled_trench(struct trench *t)
{
    struct header h;
    trench(t);
    EXPECT(invert(t, PILLAR, sizeof PILLAR - 1, &h) == ACCEPTED);
    pooled(t, 26, SKW_ONE / 2, SKW_FULL / 2), pooled(t, 27, SKW_ONE, SKW_FULL), pooled(t, 28, 1, 0), pooled(t, 32, 442368, 49152);
}

static long depths(struct trench *t, size_t *bytes)
{
    size_t place = unset();
    uint8_t number;
    *bytes = unset();
    number = skw_depths_write(t->nx, 4, t->nz, t->edge, t->ox, t->oy, t->flags, t->flags_len, t->parts, t->parts_len, t->masses, t->masses_len,
                              t->fills, t->fills_len, t->carry, t->carry_len, t->room, t->room_len, bytes, &place);
    return REFUSED(number, place);
}

static int refused_depths(struct trench *t, long answer)
{
    static struct trench before;
    size_t bytes;
    before = *t;
    return depths(t, &bytes) == answer && bytes == 0 && memcmp(t, &before, sizeof before) == 0;
}

static void test_depths(void)
{
    static struct trench t;
    size_t bytes;
    int way;

    filled_trench(&t);
    EXPECT(DEPTHS_BYTES == 192 && SKW_DEPTHS_BYTES_MOST == 98406);
    EXPECT(depths(&t, &bytes) == ACCEPTED && bytes == DEPTHS_BYTES && memcmp(t.room, DEPTHS, DEPTHS_BYTES) == 0 && t.room[DEPTHS_BYTES] == 7);
    filled_trench(&t), t.room_len = DEPTHS_BYTES;
    EXPECT(depths(&t, &bytes) == ACCEPTED && memcmp(t.room, DEPTHS, DEPTHS_BYTES) == 0);

    /* each fault is added to those before it, and is found before them */
    filled_trench(&t), t.room_len = DEPTHS_BYTES - 1;
    EXPECT(refused_depths(&t, REFUSED(SKW_BAD_ROOM, DEPTHS_BYTES)));
    t.room_len = 0;
    EXPECT(refused_depths(&t, REFUSED(SKW_BAD_ROOM, DEPTHS_BYTES)));
    t.carry[2] = -1;
    EXPECT(refused_depths(&t, REFUSED(SKW_BAD_STATE, TRENCH)));
    t.fills[32] += 1;
    EXPECT(refused_depths(&t, REFUSED(SKW_BAD_STATE, 32)));
    t.flags[28] = SKW_FLUID;
    EXPECT(refused_depths(&t, REFUSED(SKW_BAD_LAYER, 28)));
    t.flags[79] = SKW_EMPTY;
    EXPECT(refused_depths(&t, REFUSED(SKW_BAD_FLAG, 79)));
    t.oy = -SKW_COORDINATE_MOST - 1;
    EXPECT(refused_depths(&t, REFUSED(SKW_BAD_SETTING, 0)));
    t.masses_len = TRENCH - 1;
    EXPECT(refused_depths(&t, REFUSED(SKW_BAD_LENGTH, 0)));
    t.nx = SKW_SIDE_MOST + 1;
    EXPECT(refused_depths(&t, REFUSED(SKW_BAD_SIDES, 0)));

    filled_trench(&t), t.edge = SKW_EDGE_MOST + 1;
    EXPECT(refused_depths(&t, REFUSED(SKW_BAD_SETTING, 0)));
    filled_trench(&t), t.ox = INT64_MAX;
    EXPECT(refused_depths(&t, REFUSED(SKW_BAD_SETTING, 0)));
    for (way = 0; way < 10; way += 1) {
        size_t *const each[5] = {&t.flags_len, &t.parts_len, &t.masses_len, &t.fills_len, &t.carry_len};
        filled_trench(&t);
        *each[way / 2] = way % 2 ? *each[way / 2] + 1 : *each[way / 2] - 1;
        EXPECT(refused_depths(&t, REFUSED(SKW_BAD_LENGTH, 0)));
    }
}

/* A file of at most so many bytes; its length, or one more than fits. */
static size_t contents(const char *name, void *bytes, size_t room)
{
    FILE *file = fopen(name, "rb");
    size_t length;
    if (file == NULL) {
        perror(name);
        exit(2);
    }
    length = fread(bytes, 1, room, file);
    if (length == room && fgetc(file) != EOF) {
        length += 1;
    }
    fclose(file);
    return length;
}

int main(int count, char **words)
{
    uint8_t record[RECORD];
    char text[300];
    size_t length;
    int mode;
    if (count != 3) {
        fprintf(stderr, "usage: calls RECORD TEXT: case T's record, and what gridstep prints for it\n");
        return 2;
    }
    EXPECT(contents(words[1], record, sizeof record) == RECORD);
    length = contents(words[2], text, sizeof text - 1);
    EXPECT(length < sizeof text);
    text[length < sizeof text ? length : 0] = 0;

    test_check();
    test_load();
    test_surface();
    for (mode = 0; mode < 2; mode += 1) {
        turbulent = mode == 1;
        test_step(text);
        test_run();
    }
    test_modes();
    test_read(record);
    test_write(record);
    test_acts();
    test_place();
    test_point();
    test_depth();
    test_profile();
    test_pools();
    test_mirror();
    test_schemes();
    test_invert();
    test_depths();
    printf("header (%s): %d expectations, %d failed\n", LANGUAGE, tried, failed);
    return failed != 0;
}
