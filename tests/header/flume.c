/*
 * Every call of the flume in skwarzyna.h on good and on bad input, held to the figures of document 01 as amended (P3, P10, P13). The same text is
 * compiled as C and as C++.
 */
#include "expect.h"

/* The most cells of a flume here. */
#define ROOM 20
/* Case F: a section of nine cells, all wall but for the centre. */
#define CELLS 9
#define CENTRE 4
#define RECORD 125
/* The mirror's figure: a section of 5 by 4 cells with one surface cell. */
#define GLASS 20
#define GLASS_WET 6
/* A row of three inner cells: the second is fluid in one of the states below. */
#define ROW 15
#define ROW_FLUID 7

struct set {
    uint8_t flags[ROOM];
    int32_t parts[SKW_FLUME_PARTS * ROOM];
    int32_t masses[ROOM];
    uint32_t fills[ROOM];
    int64_t carry[2];
};

/* Lengths under which a set is lent, and marks beside it. */
struct lengths {
    size_t flags, parts, masses, fills, carry, marks;
};

struct sides {
    size_t nx, nz;
};

struct settings {
    int64_t p, gx, gz;
};

struct site {
    int64_t edge, ox, oz;
};

/* What skw_flume_read answers beside the slices. */
struct head {
    struct sides s;
    struct settings g;
    struct site t;
    size_t flags_from, flags_to;
};

static const struct sides THREE = {3, 3};
static const struct sides FIVE = {5, 3};
static const struct sides WIDE = {5, 4};
static const struct settings FALLING = {1024, 0, -1024};
static const struct site CORNER = {50, 0, 0};

/* The mode of every step and run: what is expected of one is expected of both, unless said. */
static bool turbulent = false;

static struct lengths lengths_of(size_t cells)
{
    struct lengths l;
    l.flags = l.masses = l.fills = l.marks = cells;
    l.parts = SKW_FLUME_PARTS * cells;
    l.carry = 1;
    return l;
}

/* The lengths of case F with one of them wrong, in twelve ways. */
static struct lengths wrong_lengths(int way)
{
    struct lengths l = lengths_of(CELLS);
    size_t *const each[6] = {&l.flags, &l.parts, &l.masses, &l.fills, &l.carry, &l.marks};
    size_t *const one = each[way / 2];
    *one = way % 2 ? *one + 1 : *one - 1;
    return l;
}
#define WRONG_LENGTHS 12
/* Those of them that are about the set alone. */
#define WRONG_SET_LENGTHS 10

static long check(const struct set *a, struct lengths l, struct sides s)
{
    size_t place = (size_t)-1;
    const uint8_t number = skw_flume_check(a->flags, l.flags, a->parts, l.parts, a->masses, l.masses, a->fills, l.fills, a->carry, l.carry,
                                           s.nx, s.nz, &place);
    return REFUSED(number, place);
}

static long step(const struct set *a, struct lengths la, struct set *b, struct lengths lb, uint8_t *marks, struct sides s, struct settings g)
{
    size_t place = (size_t)-1;
    const uint8_t number = skw_flume_step(a->flags, la.flags, a->parts, la.parts, a->masses, la.masses, a->fills, la.fills, a->carry, la.carry,
                                          b->flags, lb.flags, b->parts, lb.parts, b->masses, lb.masses, b->fills, lb.fills, b->carry, lb.carry,
                                          marks, lb.marks, s.nx, s.nz, g.p, g.gx, g.gz, turbulent, &place);
    return REFUSED(number, place);
}

static long run(size_t steps, struct set *a, struct lengths la, struct set *b, struct lengths lb, uint8_t *marks, struct sides s,
                struct settings g, size_t *count)
{
    size_t place = (size_t)-1;
    uint8_t number = 77;
    *count = skw_flume_run(steps, a->flags, la.flags, a->parts, la.parts, a->masses, la.masses, a->fills, la.fills, a->carry, la.carry, b->flags,
                           lb.flags, b->parts, lb.parts, b->masses, lb.masses, b->fills, lb.fills, b->carry, lb.carry, marks, lb.marks, s.nx, s.nz,
                           g.p, g.gx, g.gz, turbulent, &number, &place);
    return REFUSED(number, place);
}

static long mirror(const struct set *a, struct lengths la, struct set *b, struct lengths lb, struct sides s, size_t axis)
{
    size_t place = (size_t)-1;
    const uint8_t number = skw_flume_mirror(a->flags, la.flags, a->parts, la.parts, a->masses, la.masses, a->fills, la.fills, a->carry, la.carry,
                                            b->flags, lb.flags, b->parts, lb.parts, b->masses, lb.masses, b->fills, lb.fills, b->carry, lb.carry,
                                            s.nx, s.nz, axis, &place);
    return REFUSED(number, place);
}

static long read_record(const uint8_t *rec, size_t rec_len, struct set *a, struct lengths l, struct head *h)
{
    size_t place = (size_t)-1;
    uint8_t number;
    memset(h, 255, sizeof *h);
    number = skw_flume_read(rec, rec_len, a->parts, l.parts, a->masses, l.masses, a->fills, l.fills, a->carry, l.carry, &h->s.nx, &h->s.nz,
                            &h->g.p, &h->g.gx, &h->g.gz, &h->t.edge, &h->t.ox, &h->t.oz, &h->flags_from, &h->flags_to, &place);
    return REFUSED(number, place);
}

static long write_record(struct sides s, struct settings g, struct site t, const struct set *a, struct lengths l, uint8_t *room,
                         size_t room_len, size_t *bytes)
{
    size_t place = (size_t)-1;
    uint8_t number;
    *bytes = (size_t)-1;
    number = skw_flume_write(s.nx, s.nz, g.p, g.gx, g.gz, t.edge, t.ox, t.oz, a->flags, l.flags, a->parts, l.parts, a->masses, l.masses,
                             a->fills, l.fills, a->carry, l.carry, room, room_len, bytes, &place);
    return REFUSED(number, place);
}

static void soil(struct set *a)
{
    memset(a, 0x5a, sizeof *a);
}

static int same(const struct set *a, const struct set *b)
{
    return memcmp(a, b, sizeof *a) == 0;
}

/* Equal in the first so many cells and the carry. */
static int same_state(const struct set *a, const struct set *b, size_t cells)
{
    return memcmp(a->flags, b->flags, cells) == 0 && memcmp(a->parts, b->parts, SKW_FLUME_PARTS * cells * sizeof a->parts[0]) == 0 &&
           memcmp(a->masses, b->masses, cells * sizeof a->masses[0]) == 0 &&
           memcmp(a->fills, b->fills, cells * sizeof a->fills[0]) == 0 && a->carry[0] == b->carry[0];
}

static int all(const uint8_t *bytes, size_t count, uint8_t value)
{
    size_t i;
    for (i = 0; i < count; i += 1) {
        if (bytes[i] != value) {
            return 0;
        }
    }
    return 1;
}

/* Walls alone. */
static void solid(struct set *a, size_t cells)
{
    memset(a, 0, sizeof *a);
    memset(a->flags, SKW_WALL, cells);
}

/* Water at rest at one density unit. */
static void wet(struct set *a, size_t cell, uint8_t flag, int32_t mass, uint32_t fill)
{
    int k;
    for (k = 0; k < SKW_FLUME_PARTS; k += 1) {
        a->parts[SKW_FLUME_PARTS * cell + (size_t)k] = (k == 0 ? 16 : k < 5 ? 4 : 1) * 16384;
    }
    a->flags[cell] = flag, a->masses[cell] = mass, a->fills[cell] = fill;
}

static void case_f(struct set *a)
{
    solid(a, CELLS);
    wet(a, CENTRE, SKW_INTERFACE, SKW_ONE / 2, SKW_FULL / 2);
}

/* Fluid in the middle of the row, a wall before it and interface behind it; or with an empty cell behind it. */
static void row(struct set *a, int open)
{
    solid(a, ROW);
    wet(a, ROW_FLUID, SKW_FLUID, SKW_ONE, SKW_FULL);
    wet(a, ROW_FLUID + 1, SKW_INTERFACE, 1000, 111);
    if (open) {
        a->flags[ROW_FLUID - 1] = SKW_EMPTY;
    }
}

static void figure(struct set *a)
{
    size_t c;
    int k;
    solid(a, GLASS);
    for (c = 0; c < GLASS; c += 1) {
        a->flags[c] = c % 5 % 4 == 0 || c / 5 % 3 == 0 ? SKW_WALL : SKW_EMPTY;
    }
    wet(a, GLASS_WET, SKW_INTERFACE, 100000, 11110);
    for (k = 1; k < SKW_FLUME_PARTS; k += 1) {
        a->parts[SKW_FLUME_PARTS * GLASS_WET + k] += k;
    }
    a->carry[0] = 7;
}

static void test_check(void)
{
    const struct lengths l = lengths_of(CELLS);
    struct set a;
    struct sides s;
    int way;
    case_f(&a);
    EXPECT(check(&a, l, THREE) == ACCEPTED);
    s = THREE, s.nx = 2;
    EXPECT(check(&a, l, s) == REFUSED(SKW_BAD_SIDES, 0));
    s.nx = SKW_FLUME_SIDE_MOST + 1, s.nz = 3;
    EXPECT(check(&a, l, s) == REFUSED(SKW_BAD_SIDES, 0));
    s.nx = 3, s.nz = (size_t)-1;
    EXPECT(check(&a, l, s) == REFUSED(SKW_BAD_SIDES, 0));
    s.nx = s.nz = SKW_FLUME_SIDE_MOST;
    EXPECT(check(&a, l, s) == REFUSED(SKW_BAD_LENGTH, 0));
    for (way = 0; way < WRONG_SET_LENGTHS; way += 1) {
        EXPECT(check(&a, wrong_lengths(way), THREE) == REFUSED(SKW_BAD_LENGTH, 0));
    }
    EXPECT(check(&a, lengths_of(0), THREE) == REFUSED(SKW_BAD_LENGTH, 0));

    a.flags[8] = 4;
    EXPECT(check(&a, l, THREE) == REFUSED(SKW_BAD_FLAG, 8));
    a.flags[3] = SKW_EMPTY;
    EXPECT(check(&a, l, THREE) == REFUSED(SKW_BAD_FLAG, 3));
    case_f(&a), a.fills[CENTRE] += 1;
    EXPECT(check(&a, l, THREE) == REFUSED(SKW_BAD_STATE, CENTRE));
    case_f(&a), a.masses[5] = 1;
    EXPECT(check(&a, l, THREE) == REFUSED(SKW_BAD_STATE, 5));
    case_f(&a), a.masses[CENTRE] = SKW_MASS_MOST, a.fills[CENTRE] = SKW_FULL;
    EXPECT(check(&a, l, THREE) == ACCEPTED);
    a.masses[CENTRE] += 1;
    EXPECT(check(&a, l, THREE) == REFUSED(SKW_BAD_STATE, CENTRE));
    case_f(&a), a.carry[0] = SKW_CARRY_MOST;
    EXPECT(check(&a, l, THREE) == ACCEPTED);
    a.carry[0] += 1;
    EXPECT(check(&a, l, THREE) == REFUSED(SKW_BAD_STATE, CELLS));
    /* A third of the density from one side to the other: the limit of speed, and one past it. */
    case_f(&a), a.parts[9 * CENTRE + 1] += SKW_ONE / 6, a.parts[9 * CENTRE + 2] -= SKW_ONE / 6;
    EXPECT(check(&a, l, THREE) == ACCEPTED);
    a.parts[9 * CENTRE + 1] += 1, a.parts[9 * CENTRE] -= 1;
    EXPECT(check(&a, l, THREE) == REFUSED(SKW_BAD_STATE, CENTRE));

    row(&a, 0);
    EXPECT(check(&a, lengths_of(ROW), FIVE) == ACCEPTED);
    row(&a, 1);
    EXPECT(check(&a, lengths_of(ROW), FIVE) == REFUSED(SKW_BAD_LAYER, ROW_FLUID));
}

/* The centre of case F after one step, by the amendment. */
static const int32_t FALLEN[SKW_FLUME_PARTS] = {262141, 65536, 65536, 65345, 65728, 16337, 16432, 16432, 16337};

/* A cell between walls close to the limit of speed: the amendment's refusal 8. */
static void fast(struct set *a)
{
    /* The equilibrium of density 589,824 and momentum -196,018 along x. */
    static const int64_t rho = 589824, j = -196018;
    static const int x[SKW_FLUME_PARTS] = {0, 1, -1, 0, 0, 1, -1, 1, -1};
    int32_t *const parts = a->parts + SKW_FLUME_PARTS * CENTRE;
    int k;
    case_f(a);
    parts[0] = (int32_t)rho;
    for (k = 1; k < SKW_FLUME_PARTS; k += 1) {
        const int64_t q = 2 * rho * rho + 6 * rho * x[k] * j + 9 * x[k] * x[k] * j * j - 3 * j * j;
        parts[k] = (int32_t)((k < 5 ? 4 : 1) * q / (72 * rho));
        parts[0] -= parts[k];
    }
}

static void test_step(void)
{
    static const struct settings speeding = {1500, 1048, 0}, level = {1024, 0, 0};
    const struct lengths l = lengths_of(CELLS);
    struct set a, b, kept, dirty;
    struct settings g = FALLING;
    uint8_t marks[ROOM];
    int way;
    case_f(&a), kept = a, soil(&b), memset(marks, 7, sizeof marks);

    EXPECT(step(&a, l, &b, l, marks, THREE, FALLING) == ACCEPTED);
    EXPECT(memcmp(b.parts + SKW_FLUME_PARTS * CENTRE, FALLEN, sizeof FALLEN) == 0 && b.masses[CENTRE] == SKW_ONE / 2);
    EXPECT(b.fills[CENTRE] == SKW_FULL / 2 && b.carry[0] == 0 && memcmp(a.flags, b.flags, CELLS) == 0);
    EXPECT(all(marks, CELLS, 0) && all(marks + CELLS, ROOM - CELLS, 7) && same(&a, &kept));

    /* What 1 to 6 leave. */
    soil(&b), soil(&dirty), memset(marks, 7, sizeof marks);
    {
        const struct sides flat = {3, 2};
        EXPECT(step(&a, l, &b, l, marks, flat, FALLING) == REFUSED(SKW_BAD_SIDES, 0));
    }
    for (way = 0; way < WRONG_LENGTHS; way += 1) {
        EXPECT(step(&a, l, &b, wrong_lengths(way), marks, THREE, FALLING) == REFUSED(SKW_BAD_LENGTH, 0));
        EXPECT(way >= WRONG_SET_LENGTHS || step(&a, wrong_lengths(way), &b, l, marks, THREE, FALLING) == REFUSED(SKW_BAD_LENGTH, 0));
    }
    g.p = SKW_P_MOST + 1;
    EXPECT(step(&a, l, &b, l, marks, THREE, g) == REFUSED(SKW_BAD_SETTING, 0));
    g.p = 1024, g.gx = 35, g.gz = -1048;
    EXPECT(step(&a, l, &b, l, marks, THREE, g) == REFUSED(SKW_BAD_SETTING, 0));
    a.flags[CENTRE] = 4;
    EXPECT(step(&a, l, &b, l, marks, THREE, FALLING) == REFUSED(SKW_BAD_FLAG, CENTRE));
    row(&a, 1);
    EXPECT(step(&a, lengths_of(ROW), &b, lengths_of(ROW), marks, FIVE, FALLING) == REFUSED(SKW_BAD_LAYER, ROW_FLUID));
    case_f(&a), a.carry[0] = SKW_CARRY_MOST + 1;
    EXPECT(step(&a, l, &b, l, marks, THREE, FALLING) == REFUSED(SKW_BAD_STATE, CELLS));
    EXPECT(same(&b, &dirty) && all(marks, sizeof marks, 7));

    /* 8, and then 7, copy the first set. */
    fast(&a), kept = a;
    EXPECT(check(&a, l, THREE) == ACCEPTED);
    EXPECT(step(&a, l, &b, l, marks, THREE, speeding) == REFUSED(SKW_BAD_NEXT, CENTRE));
    EXPECT(same_state(&a, &b, CELLS) && same(&a, &kept) && all(marks, CELLS, 0));
    /* Walls turn the momentum around, which is at its limit, and gravity adds to it. */
    soil(&b), memset(marks, 7, sizeof marks);
    case_f(&a), a.parts[9 * CENTRE + 1] -= SKW_ONE / 6, a.parts[9 * CENTRE + 2] += SKW_ONE / 6;
    g.p = 1024, g.gx = 1048, g.gz = 0;
    EXPECT(step(&a, l, &b, l, marks, THREE, g) == REFUSED(SKW_BAD_FLOW, CENTRE));
    EXPECT(same_state(&a, &b, CELLS) && all(marks, CELLS, 0));

    /* A cell that fills gives its excess along its normal: 4 by 4, masses after the step by the amendment. */
    {
        static const struct sides four = {4, 4};
        memset(&a, 0, sizeof a), memset(a.flags, SKW_WALL, 16);
        wet(&a, 5, SKW_INTERFACE, 591424, 65536), wet(&a, 6, SKW_INTERFACE, 147456, 16384);
        wet(&a, 9, SKW_INTERFACE, 442368, 49152), wet(&a, 10, SKW_INTERFACE, 294912, 32768);
        EXPECT(step(&a, lengths_of(16), &b, lengths_of(16), marks, four, level) == ACCEPTED);
        EXPECT(b.flags[5] == SKW_FLUID && b.masses[5] == 589824 && b.fills[5] == SKW_FULL);
        EXPECT(b.masses[6] == 148056 && b.masses[9] == 442568 && b.masses[10] == 295712);
    }
}

static void test_run(void)
{
    static const struct settings speeding = {1500, 1048, 0};
    const struct lengths l = lengths_of(CELLS);
    struct set a, b, kept, dirty;
    uint8_t marks[ROOM];
    size_t count;
    int way;
    case_f(&a), kept = a, soil(&b), soil(&dirty), memset(marks, 7, sizeof marks);

    EXPECT(run(SKW_STEPS_MOST + 1, &a, l, &b, l, marks, THREE, FALLING, &count) == REFUSED(SKW_BAD_STEPS, 0) && count == 0);
    EXPECT(run((size_t)-1, &a, lengths_of(0), &b, l, marks, THREE, FALLING, &count) == REFUSED(SKW_BAD_STEPS, 0) && count == 0);
    for (way = 0; way < WRONG_LENGTHS; way += 1) {
        EXPECT(run(3, &a, l, &b, wrong_lengths(way), marks, THREE, FALLING, &count) == REFUSED(SKW_BAD_LENGTH, 0) && count == 0);
    }
    EXPECT(same(&a, &kept) && same(&b, &dirty) && all(marks, sizeof marks, 7));

    EXPECT(run(0, &a, l, &b, l, marks, THREE, FALLING, &count) == ACCEPTED && count == 0);
    EXPECT(same_state(&a, &kept, CELLS) && same_state(&b, &kept, CELLS) && all(marks, CELLS, 0));
    EXPECT(run(1, &a, l, &b, l, marks, THREE, FALLING, &count) == ACCEPTED && count == 1);
    EXPECT(memcmp(a.parts + SKW_FLUME_PARTS * CENTRE, FALLEN, sizeof FALLEN) == 0 && same_state(&a, &b, CELLS));

    /* Three more steps at once and one by one. */
    kept = a;
    EXPECT(run(3, &a, l, &b, l, marks, THREE, FALLING, &count) == ACCEPTED && count == 3 && same_state(&a, &b, CELLS));
    for (way = 0; way < 3; way += 1) {
        EXPECT(step(&kept, l, &b, l, marks, THREE, FALLING) == ACCEPTED);
        kept = b;
    }
    EXPECT(same_state(&a, &kept, CELLS));

    fast(&a), kept = a, soil(&b);
    EXPECT(run(5, &a, l, &b, l, marks, THREE, speeding, &count) == REFUSED(SKW_BAD_NEXT, CENTRE) && count == 0);
    EXPECT(same_state(&a, &kept, CELLS) && same_state(&b, &kept, CELLS) && all(marks, CELLS, 0));
}

/* Case U of the flume: parts along x above rest and up below, so that stress takes 16 off p 2037 in the turbulent mode. */
static void case_u(struct set *a)
{
    int32_t *const parts = a->parts + SKW_FLUME_PARTS * CENTRE;
    case_f(a);
    parts[1] = parts[2] = 66536, parts[3] = parts[4] = 64536;
}

static void test_modes(void)
{
    static const struct settings still = {2037, 0, 0};
    const struct lengths l = lengths_of(CELLS);
    struct set a, b, kept;
    uint8_t marks[ROOM];
    size_t count;
    int mode, k;
    memset(marks, 7, sizeof marks);
    for (mode = 0; mode < 2; mode += 1) {
        turbulent = mode == 1;
        case_u(&a), kept = a, soil(&b);
        EXPECT(step(&a, l, &b, l, marks, THREE, still) == ACCEPTED && same(&a, &kept));
        for (k = 0; k < SKW_FLUME_PARTS; k += 1) {
            const int along = k == 1 || k == 2, up = k == 3 || k == 4;
            EXPECT(b.parts[SKW_FLUME_PARTS * CENTRE + k] ==
                   (along ? (turbulent ? 64563 : 64547) : up ? (turbulent ? 66509 : 66525) : a.parts[SKW_FLUME_PARTS * CENTRE + k]));
        }
        EXPECT(b.masses[CENTRE] == SKW_ONE / 2 && b.fills[CENTRE] == SKW_FULL / 2 && b.carry[0] == 0);
        /* A run is its steps in its own mode. */
        kept = b;
        EXPECT(run(1, &a, l, &b, l, marks, THREE, still, &count) == ACCEPTED && count == 1 && same_state(&a, &kept, CELLS));
        EXPECT(step(&a, l, &b, l, marks, THREE, still) == ACCEPTED);
        kept = b, case_u(&a);
        EXPECT(run(2, &a, l, &b, l, marks, THREE, still, &count) == ACCEPTED && count == 2 && same_state(&a, &kept, CELLS));
    }
    /* A plain step after a turbulent one. */
    case_u(&a);
    EXPECT(step(&a, l, &b, l, marks, THREE, still) == ACCEPTED);
    turbulent = false;
    EXPECT(step(&b, l, &a, l, marks, THREE, still) == ACCEPTED && a.parts[SKW_FLUME_PARTS * CENTRE + 1] == 66498);
}

static int refused_head(const struct head *h)
{
    return h->s.nx == 0 && h->s.nz == 0 && h->g.p == 0 && h->g.gx == 0 && h->g.gz == 0 && h->t.edge == 0 && h->t.ox == 0 && h->t.oz == 0 &&
           h->flags_from == 0 && h->flags_to == 0;
}

/* That it is refused so, and has written nothing. */
static int refused_mirror(const struct set *a, struct lengths la, struct lengths lb, struct sides s, size_t axis, long answer)
{
    struct set b, dirty;
    soil(&b), soil(&dirty);
    return mirror(a, la, &b, lb, s, axis) == answer && same(&b, &dirty);
}

static void test_mirror(void)
{
    /* Parts 1 to 8 of the surface cell, and where it is then, by axis; a flume has no y. */
    static const int32_t parts[3][8] = {{65538, 65537, 65539, 65540, 16392, 16391, 16390, 16389},
                                        {0},
                                        {65537, 65538, 65540, 65539, 16391, 16392, 16389, 16390}};
    static const size_t cells[3] = {8, 0, 11};
    const struct lengths l = lengths_of(GLASS);
    struct lengths short_flags = l;
    struct set a, b, wanted, back;
    size_t axis;
    int way;

    for (axis = SKW_AXIS_X; axis <= SKW_AXIS_Z; axis += 2) {
        const size_t c = cells[axis];
        figure(&a), soil(&b), soil(&back);
        figure(&wanted), wanted.flags[GLASS_WET] = SKW_EMPTY, wanted.masses[GLASS_WET] = 0, wanted.fills[GLASS_WET] = 0;
        memset(wanted.parts, 0, sizeof wanted.parts);
        wet(&wanted, c, SKW_INTERFACE, 100000, 11110);
        memcpy(wanted.parts + SKW_FLUME_PARTS * c + 1, parts[axis], sizeof parts[axis]);
        EXPECT(mirror(&a, l, &b, l, WIDE, axis) == ACCEPTED && same_state(&b, &wanted, GLASS));
        EXPECT(check(&b, l, WIDE) == ACCEPTED);
        EXPECT(mirror(&b, l, &back, l, WIDE, axis) == ACCEPTED && same_state(&back, &a, GLASS));
    }

    /* each fault is added to those before it, and is found before them */
    figure(&a), a.carry[0] = 1000000000001;
    EXPECT(refused_mirror(&a, l, l, WIDE, SKW_AXIS_Z, REFUSED(SKW_BAD_STATE, GLASS)));
    a.fills[GLASS_WET] = 1;
    EXPECT(refused_mirror(&a, l, l, WIDE, SKW_AXIS_X, REFUSED(SKW_BAD_STATE, GLASS_WET)));
    a.flags[GLASS_WET + 1] = SKW_FLUID;
    EXPECT(refused_mirror(&a, l, l, WIDE, SKW_AXIS_X, REFUSED(SKW_BAD_LAYER, GLASS_WET + 1)));
    a.flags[GLASS - 1] = SKW_EMPTY;
    EXPECT(refused_mirror(&a, l, l, WIDE, SKW_AXIS_X, REFUSED(SKW_BAD_FLAG, GLASS - 1)));
    EXPECT(refused_mirror(&a, l, l, WIDE, SKW_AXIS_Y, REFUSED(SKW_BAD_SETTING, 0)));
    EXPECT(refused_mirror(&a, l, l, WIDE, 3, REFUSED(SKW_BAD_SETTING, 0)));
    EXPECT(refused_mirror(&a, l, l, WIDE, (size_t)-1, REFUSED(SKW_BAD_SETTING, 0)));
    short_flags.flags = GLASS - 1;
    EXPECT(refused_mirror(&a, l, short_flags, WIDE, SKW_AXIS_Y, REFUSED(SKW_BAD_LENGTH, 0)));
    {
        const struct sides flat = {5, 2};
        EXPECT(refused_mirror(&a, l, short_flags, flat, SKW_AXIS_Y, REFUSED(SKW_BAD_SIDES, 0)));
    }

    for (way = 0; way < WRONG_SET_LENGTHS; way += 1) {
        case_f(&a);
        EXPECT(refused_mirror(&a, wrong_lengths(way), lengths_of(CELLS), THREE, SKW_AXIS_X, REFUSED(SKW_BAD_LENGTH, 0)));
        EXPECT(refused_mirror(&a, lengths_of(CELLS), wrong_lengths(way), THREE, SKW_AXIS_X, REFUSED(SKW_BAD_LENGTH, 0)));
    }
}

static void test_write(uint8_t *record)
{
    const struct lengths l = lengths_of(CELLS);
    struct set a;
    struct sides s = THREE;
    struct settings g = FALLING;
    struct site t = CORNER;
    uint8_t room[SKW_FLUME_RECORD_BYTES_MOST(CELLS)];
    size_t bytes;
    int way;
    case_f(&a), memset(room, 7, sizeof room);

    EXPECT(SKW_FLUME_RECORD_BYTES(CELLS, 1, 1) == RECORD);
    EXPECT(write_record(THREE, FALLING, CORNER, &a, l, room, RECORD - 1, &bytes) == REFUSED(SKW_BAD_ROOM, RECORD) && bytes == 0);
    EXPECT(write_record(THREE, FALLING, CORNER, &a, l, room, 0, &bytes) == REFUSED(SKW_BAD_ROOM, RECORD) && bytes == 0);
    s.nz = 2;
    EXPECT(write_record(s, FALLING, CORNER, &a, l, room, sizeof room, &bytes) == REFUSED(SKW_BAD_SIDES, 0) && bytes == 0);
    for (way = 0; way < WRONG_SET_LENGTHS; way += 1) {
        EXPECT(write_record(THREE, FALLING, CORNER, &a, wrong_lengths(way), room, sizeof room, &bytes) == REFUSED(SKW_BAD_LENGTH, 0));
        EXPECT(bytes == 0);
    }
    t.edge = 0;
    EXPECT(write_record(THREE, FALLING, t, &a, l, room, sizeof room, &bytes) == REFUSED(SKW_BAD_SETTING, 0) && bytes == 0);
    t = CORNER, t.oz = -SKW_COORDINATE_MOST - 1;
    EXPECT(write_record(THREE, FALLING, t, &a, l, room, sizeof room, &bytes) == REFUSED(SKW_BAD_SETTING, 0) && bytes == 0);
    g.gx = 35, g.gz = -1048;
    EXPECT(write_record(THREE, g, CORNER, &a, l, room, sizeof room, &bytes) == REFUSED(SKW_BAD_SETTING, 0) && bytes == 0);
    a.flags[CENTRE] = 4;
    EXPECT(write_record(THREE, FALLING, CORNER, &a, l, room, sizeof room, &bytes) == REFUSED(SKW_BAD_FLAG, CENTRE) && bytes == 0);
    row(&a, 1);
    EXPECT(write_record(FIVE, FALLING, CORNER, &a, lengths_of(ROW), room, sizeof room, &bytes) == REFUSED(SKW_BAD_LAYER, ROW_FLUID));
    EXPECT(bytes == 0);
    case_f(&a), a.masses[0] = 1;
    EXPECT(write_record(THREE, FALLING, CORNER, &a, l, room, sizeof room, &bytes) == REFUSED(SKW_BAD_STATE, 0) && bytes == 0);
    EXPECT(all(room, sizeof room, 7));

    case_f(&a), g.gx = 34, t.ox = 1, t.oz = -2;
    EXPECT(write_record(THREE, g, t, &a, l, room, sizeof room, &bytes) == ACCEPTED && bytes == RECORD);
    EXPECT(all(room + RECORD, sizeof room - RECORD, 7));
    EXPECT(write_record(THREE, FALLING, CORNER, &a, l, record, RECORD, &bytes) == ACCEPTED && bytes == RECORD);
    /* Its counts and some of its numbers, by the table of document 01. */
    EXPECT(record[0] == 2 && record[4] == 3 && record[8] == 3 && record[12] == 4 && record[16] == 0 && record[17] == 4 && record[28] == 50);
    EXPECT(record[32] == 2 && record[52] == 1 && record[64] == 9 && record[68] == SKW_WALL && record[68 + CENTRE] == SKW_INTERFACE);
    EXPECT(record[77] == 1 && record[81] == 0 && record[82] == 128 && record[83] == 4 && record[85] == 9 && record[91] == 4);
}

static void test_read(const uint8_t *record)
{
    /* Where the counts of case F's seven sections stand. */
    static const size_t counts[7] = {0, 12, 32, 52, 64, 77, 85};
    const struct lengths l = lengths_of(CELLS);
    struct set a, wanted, dirty;
    struct head h;
    uint8_t bytes[RECORD + 1], row_record[SKW_FLUME_RECORD_BYTES(ROW, 1, 2)];
    size_t length;
    int way;
    case_f(&wanted), soil(&a), soil(&dirty);

    EXPECT(read_record(record, RECORD, &a, l, &h) == ACCEPTED);
    EXPECT(h.s.nx == 3 && h.s.nz == 3 && h.g.p == 1024 && h.g.gx == 0 && h.g.gz == -1024);
    EXPECT(h.t.edge == 50 && h.t.ox == 0 && h.t.oz == 0 && h.flags_from == 68 && h.flags_to == 68 + CELLS);
    memcpy(a.flags, record + h.flags_from, CELLS);
    EXPECT(same_state(&a, &wanted, CELLS));

    /* Cut at every byte, and with one byte left over. */
    soil(&a);
    for (length = 0, way = 0; length < RECORD; length += 1) {
        way += way < 6 && length == counts[way + 1];
        EXPECT(read_record(record, length, &a, l, &h) == REFUSED(SKW_BAD_END, counts[way]) && refused_head(&h));
    }
    memcpy(bytes, record, RECORD), bytes[RECORD] = 0;
    EXPECT(read_record(bytes, RECORD + 1, &a, l, &h) == REFUSED(SKW_BAD_END, RECORD) && refused_head(&h));

    /* A wrong count in each section, and the box's in the first. */
    for (way = 0; way < 7; way += 1) {
        memcpy(bytes, record, RECORD), bytes[counts[way]] ^= 128;
        EXPECT(read_record(bytes, RECORD, &a, l, &h) == REFUSED(SKW_BAD_COUNT, way + 1) && refused_head(&h));
    }
    memcpy(bytes, record, RECORD), bytes[0] = 3;
    EXPECT(read_record(bytes, RECORD, &a, l, &h) == REFUSED(SKW_BAD_COUNT, 1) && refused_head(&h));
    for (way = 0; way < WRONG_SET_LENGTHS; way += 1) {
        /* The reader is lent no flags. */
        EXPECT(read_record(record, RECORD, &a, wrong_lengths(way), &h) == (way < 2 ? ACCEPTED : REFUSED(SKW_BAD_LENGTH, 0)));
        EXPECT(way < 2 || refused_head(&h));
        soil(&a);
    }
    memcpy(bytes, record, RECORD), bytes[4] = 2;
    EXPECT(read_record(bytes, RECORD, &a, lengths_of(0), &h) == REFUSED(SKW_BAD_SIDES, 0) && refused_head(&h));
    memcpy(bytes, record, RECORD), bytes[28] = 0;
    EXPECT(read_record(bytes, RECORD, &a, l, &h) == REFUSED(SKW_BAD_SETTING, 0) && refused_head(&h));
    memcpy(bytes, record, RECORD), bytes[68 + 8] = SKW_EMPTY;
    EXPECT(read_record(bytes, RECORD, &a, l, &h) == REFUSED(SKW_BAD_FLAG, 8) && refused_head(&h));
    memcpy(bytes, record, RECORD), bytes[84] = 127;
    EXPECT(read_record(bytes, RECORD, &a, l, &h) == REFUSED(SKW_BAD_STATE, CENTRE) && refused_head(&h));
    memcpy(bytes, record, RECORD), bytes[63] = 127;
    EXPECT(read_record(bytes, RECORD, &a, l, &h) == REFUSED(SKW_BAD_STATE, CELLS) && refused_head(&h));
    EXPECT(same(&a, &dirty));

    row(&wanted, 0);
    EXPECT(write_record(FIVE, FALLING, CORNER, &wanted, lengths_of(ROW), row_record, sizeof row_record, &length) == ACCEPTED);
    EXPECT(length == sizeof row_record && read_record(row_record, length, &a, lengths_of(ROW), &h) == ACCEPTED);
    memcpy(a.flags, row_record + h.flags_from, ROW);
    EXPECT(h.flags_to == 68 + ROW && same_state(&a, &wanted, ROW));
    soil(&a), row_record[68 + ROW_FLUID - 1] = SKW_EMPTY;
    EXPECT(read_record(row_record, length, &a, lengths_of(ROW), &h) == REFUSED(SKW_BAD_LAYER, ROW_FLUID) && refused_head(&h));
    EXPECT(same(&a, &dirty));
}

int main(void)
{
    uint8_t record[RECORD];
    int mode;
    test_check();
    for (mode = 0; mode < 2; mode += 1) {
        turbulent = mode == 1;
        test_step();
        test_run();
    }
    test_modes();
    test_mirror();
    test_write(record);
    test_read(record);
    printf("header, the flume (%s): %d expectations, %d failed\n", LANGUAGE, tried, failed);
    return failed != 0;
}
