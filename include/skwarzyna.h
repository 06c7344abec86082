/*
 * skwarzyna.h: the library as a host in C (C99) or C++ sees it. Water in a grid of cells, stepped in whole numbers.
 *
 * THE GRID has sides nx, ny, nz of 3 to 128 cells and N = nx*ny*nz of at most 262,144 cells; cell (x, y, z) has the number
 * c = x + nx*(y + ny*z). A SET is one state of it, lent as five slices of exactly these lengths:
 *
 *     flags     N      SKW_EMPTY, SKW_INTERFACE, SKW_FLUID or SKW_WALL; the outer layer of cells is all wall
 *     parts     19*N   part k of cell c at [19*c + k]; a cell's density is the sum of its parts, and SKW_ONE is one density unit
 *     masses    N      the water in the cell, in the unit of the parts
 *     fills     N      how full the cell is, in 65,536ths: 0 to SKW_FULL
 *     carry     3      in the unit of the parts: water that found no cell to go to (the carry), all that was poured, all that was taken
 *
 * The water of a set is the sum of its masses and its carry. No accepted step changes it by one unit; over steps, pours and takes in any
 * order the water, and what was taken, less what was poured, never changes.
 *
 * AN INDEX of its surface stands beside a set that is loaded, stepped, run, mirrored to or read (of a record or a height grid), so that a host finds interface cells without
 * walking the grid:
 *
 *     words     W      SKW_WORDS(N) words of 64 bits: cell c is bit c % 64 of words[c / 64], set if the cell is interface; bits past N 0
 *     count     1      the number of interface cells
 *
 * It is true when every word is the one that the flags make and the count is right. Step, run, mirror and reader leave a true one. A host that
 * lays a state by hand fills both itself, and skw_load says whether they are right.
 *
 * A GOOD STATE: flags and outer layer are right; no fluid cell has an empty one among its 18 neighbours (those that share a face or
 * an edge with it); wall and empty cells have parts, mass and fill 0; a liquid cell (fluid or interface) has parts within +-1,179,648,
 * density rho of 294,912 to 1,179,648 and momentum j (sum of part times direction) with 9*|j|*|j| <= rho*rho; a fluid cell has mass
 * rho and fill 65,536; an interface cell has mass m within +-2,359,296 and fill floor(65,536*m/rho), held to 0..65,536; the carry is
 * within +-10^12, poured and taken are 0 to 10^15.
 *
 * SETTINGS: p of 1 to 2037, the relaxation in 1,024ths; gx, gy, gz, gravity in cells per step and step, in 1,048,576ths, the sum of
 * their squares at most 1,099,511. edge, that of a cell, 1 to 1,000 mm. ox, oy, oz, the survey point of the grid's corner, and every
 * survey point in whole mm within +-10^10. Numbers are wider than their ranges, so that none has to be cut to be refused.
 *
 * THE MODE of a step or a run, turbulent: false is the plain mode, in which every cell is relaxed by p. true is the turbulent one, in which
 * each cell is relaxed by a p of its own, that its stress takes off the plain one: at most p, at least 1, and p itself where the parts are at
 * their equilibrium. The more stress, the less p, so that water is damped where it is sheared. Tests and refusals are the same in both, 3
 * is about the plain p, and the water is kept to the unit in either, in any order. A run has one mode for all its steps; records, and all
 * other calls, have none.
 *
 * WHAT EVERY CALL KEEPS. It accepts any numbers and slices of any length, and ends. It answers 0 if accepted, else the refusal's number
 * (SKW_BAD_.. below), and then the place through *place; 0 if accepted. All other numbers that it answers through pointers are written
 * too: 0 beside a refusal, but for the run's count. It allocates nothing and keeps nothing between calls, so that calls on buffers of
 * their own may run at the same time.
 *
 * WHAT A CALLER OWES. A slice is a pointer, then its length in numbers (not bytes). Pointers are never null and are aligned for
 * their type, those of slices of length 0 as well. Every number lent has been given a value (memory from calloc has). What is lent for
 * writing (no const: slices, and the numbers that answers go to) overlaps nothing else that is lent to the same call; const slices may.
 *
 * LINKING: `bindings/object` prints the path of what a host links with on this machine; nothing beyond C's own library is needed.
 */
#ifndef SKWARZYNA_H
#define SKWARZYNA_H

#include <stddef.h>
#include <stdint.h>
#ifndef __cplusplus
#include <stdbool.h>
#endif

#ifdef __cplusplus
extern "C" {
#endif

/* The library is for 64-bit processors. */
typedef char skw_size_t_has_64_bits[sizeof(size_t) == 8 ? 1 : -1];

/* Flags. */
enum { SKW_EMPTY = 0, SKW_INTERFACE = 1, SKW_FLUID = 2, SKW_WALL = 3 };

/* Kinds of depth. */
enum { SKW_DEPTH_REFUSED = 0, SKW_DEPTH_SOLID = 1, SKW_DEPTH_DRY = 2, SKW_DEPTH_DEEP = 3 };

/* Kinds of answer to skw_surface_next. */
enum { SKW_SURFACE_REFUSED = 0, SKW_SURFACE_FOUND = 1, SKW_SURFACE_NONE = 2 };

/* Kinds of line in a profile. */
enum { SKW_LINE_SOLID = 1, SKW_LINE_DRY = 2, SKW_LINE_DEEP = 3, SKW_LINE_OUTSIDE = 4 };

/* Axes of skw_mirror, and but for y of skw_flume_mirror. */
enum { SKW_AXIS_X = 0, SKW_AXIS_Y = 1, SKW_AXIS_Z = 2 };

/* One density unit, 36*16,384: the water of a full cell under no pressure. */
#define SKW_ONE 589824
/* The fill of a full cell. */
#define SKW_FULL 65536
/* Parts of a cell. */
#define SKW_PARTS 19

/* Ranges. */
#define SKW_SIDE_LEAST 3
#define SKW_SIDE_MOST 128
#define SKW_CELLS_MOST 262144
#define SKW_STEPS_MOST 1000
#define SKW_P_LEAST 1
#define SKW_P_MOST 2037
#define SKW_GRAVITY_SQUARED_MOST 1099511
#define SKW_EDGE_LEAST 1
#define SKW_EDGE_MOST 1000
#define SKW_COORDINATE_MOST ((int64_t)10000 * 1000000)
#define SKW_PART_MOST 1179648
#define SKW_DENSITY_LEAST 294912
#define SKW_DENSITY_MOST 1179648
#define SKW_MASS_MOST 2359296
#define SKW_POINTS_MOST 2000
#define SKW_CARRY_MOST ((int64_t)1000000 * 1000000)
#define SKW_TOTAL_MOST ((int64_t)1000000 * 1000000 * 1000)
#define SKW_AMOUNT_LEAST 1
#define SKW_AMOUNT_MOST 589824

/* Words of the index of a grid with so many cells. */
#define SKW_WORDS(cells) (((size_t)(cells) + 63) / 64)

/* More pools than this no grid with these sides has; at most 62,511, so that a mark has room in two bytes. */
#define SKW_POOLS_MOST(nx, ny, nz) ((((size_t)(nx)-1) * ((size_t)(ny)-1) * ((size_t)(nz)-1)) / 4)

/* Length in bytes of the record of a grid with so many cells, interface cells and liquid cells (fluid and interface). */
#define SKW_RECORD_BYTES(cells, interfaces, liquids) \
    ((size_t)108 + (size_t)(cells) + (size_t)4 * (size_t)(interfaces) + (size_t)76 * (size_t)(liquids))
/* Room in bytes that the record of any grid with so many cells fits into. */
#define SKW_RECORD_BYTES_MOST(cells) SKW_RECORD_BYTES(cells, cells, cells)
/* Room in bytes that the depth map of any grid fits into. */
#define SKW_DEPTHS_BYTES_MOST 98406

/*
 * Refusals: document 01's numbers, in the words of its table, and the place beside each. Where not said otherwise the tests come in
 * ascending order and the first that fails is told. All but 7, 8 and 21 leave every lent slice as it was.
 */
enum {
    SKW_ACCEPTED = 0,
    /* a side or the product of the sides is outside its range; place 0 */
    SKW_BAD_SIDES = 1,
    /* a lent slice is not of its exact length (record and room have none); place 0 */
    SKW_BAD_LENGTH = 2,
    /* a setting, origin, point coordinate or axis is out of range; place 0, but for a profile's points the first such point */
    SKW_BAD_SETTING = 3,
    /* a flag is above 3, or an outer cell is not wall; place: the lowest such cell */
    SKW_BAD_FLAG = 4,
    /* fluid beside empty; place: the lowest fluid cell that has an empty neighbour */
    SKW_BAD_LAYER = 5,
    /* another rule of a good state is broken; place: the lowest such cell, N for the carry, poured or taken alone */
    SKW_BAD_STATE = 6,
    /* density or speed is out of range after streaming and gravity; place: the lowest such cell */
    SKW_BAD_FLOW = 7,
    /* the next state breaks a rule that 6 stands for; place as for 6 */
    SKW_BAD_NEXT = 8,
    /* steps above 1,000 (tested first); place 0 */
    SKW_BAD_STEPS = 9,
    /* the record ends early or has bytes left over; place: the byte where the section's count stands, or where the rest begins */
    SKW_BAD_END = 10,
    /* a section's count is wrong; place: the section, 1 to 7 */
    SKW_BAD_COUNT = 11,
    /* room for the record or the depth map is too small (tested last); place: the bytes needed */
    SKW_BAD_ROOM = 12,
    /* column, cell or point outside the grid, or a start above N; place 0 */
    SKW_OUTSIDE = 13,
    /* a word of the index is not the one that the flags make, or the stored count is wrong (tested after 6, before 7); place 0 */
    SKW_BAD_INDEX = 14,
    /* the cell of a pour or a take is not interface (tested after 13); place: the cell */
    SKW_NOT_INTERFACE = 15,
    /* an amount outside 1 to 589,824, or one with which the mass would pass 2,359,296, or poured or taken 10^15; place 0 */
    SKW_BAD_AMOUNT = 16,
    /* a wall change at an outer cell, or where the cell is already as asked (tested after 13); place: the cell */
    SKW_BAD_CHANGE = 17,
    /* a wall change with water in the way, the asker's or the other's (tested after 17); place: the cell */
    SKW_IN_THE_WAY = 18,
    /* a header line of a height grid is unreadable (tested first); place: its line, 1 to 6 */
    SKW_BAD_HEADER = 19,
    /* a row of a height grid is unreadable, or something follows the rows (tested after 3); place: its line */
    SKW_BAD_ROW = 20,
    /* the list has room for fewer pools than there are; place: their number */
    SKW_BAD_POOLS = 21,
    /* a profile's list has not 1 to 2,000 points; place 0 */
    SKW_BAD_LIST = 22,
    /* a profile's chainage is not above the one before; place: the first such point, from 0 */
    SKW_BAD_CHAINAGE = 23
};

/*
 * CHECK: is this set a good state of a grid with these sides?
 * Tests 1, 2, 4, 5, 6. Writes *place alone.
 */
uint8_t skw_check(const uint8_t *flags, size_t flags_len,
                  const int32_t *parts, size_t parts_len,
                  const int32_t *masses, size_t masses_len,
                  const uint32_t *fills, size_t fills_len,
                  const int64_t *carry, size_t carry_len,
                  size_t nx, size_t ny, size_t nz,
                  size_t *place);

/*
 * POUR: an amount into an interface cell, in the unit of the masses. TAKE: the smaller of an amount and its mass out of it, nothing if the mass is not above 0.
 * What is moved goes into or out of the cell's mass, and is added to poured or taken; the cell's fill is worked out again. Nothing else is
 * written, so that an index that was true stays so.
 * Tests 1, 2, 4, 5, 6, 13, 15, 16. Beside a refusal *moved is 0 and no slice is written.
 */
uint8_t skw_pour(const uint8_t *flags, size_t flags_len,
                 const int32_t *parts, size_t parts_len,
                 int32_t *masses, size_t masses_len,
                 uint32_t *fills, size_t fills_len,
                 int64_t *carry, size_t carry_len,
                 size_t nx, size_t ny, size_t nz,
                 size_t cell, int64_t amount,
                 int64_t *moved, size_t *place);
uint8_t skw_take(const uint8_t *flags, size_t flags_len,
                 const int32_t *parts, size_t parts_len,
                 int32_t *masses, size_t masses_len,
                 uint32_t *fills, size_t fills_len,
                 int64_t *carry, size_t carry_len,
                 size_t nx, size_t ny, size_t nz,
                 size_t cell, int64_t amount,
                 int64_t *moved, size_t *place);

/*
 * LOAD: is this set a good state, and is this its index?
 * Tests 1, 2, 4, 5, 6, 14. Writes *place alone.
 */
uint8_t skw_load(const uint8_t *flags, size_t flags_len,
                 const int32_t *parts, size_t parts_len,
                 const int32_t *masses, size_t masses_len,
                 const uint32_t *fills, size_t fills_len,
                 const int64_t *carry, size_t carry_len,
                 const uint64_t *words, size_t words_len,
                 const uint64_t *count, size_t count_len,
                 size_t nx, size_t ny, size_t nz,
                 size_t *place);

/*
 * SURFACE COUNT: how many interface cells the words hold, bits past N never counted. It is lent the words alone, and answers for any.
 * Tests 1, 2. Beside a refusal *cells is 0.
 */
uint8_t skw_surface_count(const uint64_t *words, size_t words_len,
                          size_t nx, size_t ny, size_t nz,
                          size_t *cells, size_t *place);

/*
 * SURFACE NEXT: the lowest interface cell at or after the start, by the words alone, and how many words were read to find it.
 *
 *     *kind                   when                                       *cell       *read
 *     SKW_SURFACE_REFUSED     the answer is not 0                        0           0
 *     SKW_SURFACE_FOUND       there is one                               the cell    words from the start's to the cell's, both counted
 *     SKW_SURFACE_NONE        there is none                              0           words from the start's to the last; 0 from start N
 *
 * Tests 1, 2, then 13 for a start above N. To sweep the surface, ask from 0, then each time from the cell after the last one found,
 * until there is none: all of it reads at most the words and one more for each cell found.
 */
uint8_t skw_surface_next(const uint64_t *words, size_t words_len,
                         size_t nx, size_t ny, size_t nz,
                         size_t start,
                         uint8_t *kind, size_t *cell, size_t *read,
                         size_t *place);

/*
 * STEP: the state one step after the first set, into the second, with its index. marks is N bytes of work space, whatever they hold.
 * Tests 1 to 6 (2 on both sets, both indexes and the marks; 4 to 6 on the first set alone), 14 on the first index, then 7, then 8.
 *
 *     answer           second set and index       marks
 *     accepted         the next state and its     all 0
 *     7, 8             copies of the first        all 0
 *     1 to 6, 14       as they were               as they were
 *
 * The first set and its index are never written. turbulent is the mode of this step.
 */
uint8_t skw_step(const uint8_t *flags, size_t flags_len,
                 const int32_t *parts, size_t parts_len,
                 const int32_t *masses, size_t masses_len,
                 const uint32_t *fills, size_t fills_len,
                 const int64_t *carry, size_t carry_len,
                 const uint64_t *words, size_t words_len,
                 const uint64_t *count, size_t count_len,
                 uint8_t *flags2, size_t flags2_len,
                 int32_t *parts2, size_t parts2_len,
                 int32_t *masses2, size_t masses2_len,
                 uint32_t *fills2, size_t fills2_len,
                 int64_t *carry2, size_t carry2_len,
                 uint64_t *words2, size_t words2_len,
                 uint64_t *count2, size_t count2_len,
                 uint8_t *marks, size_t marks_len,
                 size_t nx, size_t ny, size_t nz,
                 int64_t p, int64_t gx, int64_t gy, int64_t gz,
                 bool turbulent, size_t *place);

/*
 * RUN: so many steps, 0 to 1,000, from the state in the first set; it stops at the first step that is refused. It returns how many
 * steps were accepted; *number and *place are those of the refusal that stopped it, 0 0 if none did.
 * Tests 9, then 1 to 6 and 14 as a step makes them, then 7 and 8 of each step.
 *
 *     *number          returns                      both sets and indexes         marks
 *     0                the steps asked              the state reached, its own    all 0
 *     7, 8             the steps before that one    the state reached, its own    all 0
 *     1 to 6, 9, 14    0                            as they were                  as they were
 *
 * It is faster than so many single steps: it tests the state once, goes back and forth between the sets, and makes the index once.
 * turbulent is the mode of all its steps.
 */
size_t skw_run(size_t steps,
               uint8_t *flags, size_t flags_len,
               int32_t *parts, size_t parts_len,
               int32_t *masses, size_t masses_len,
               uint32_t *fills, size_t fills_len,
               int64_t *carry, size_t carry_len,
               uint64_t *words, size_t words_len,
               uint64_t *count, size_t count_len,
               uint8_t *flags2, size_t flags2_len,
               int32_t *parts2, size_t parts2_len,
               int32_t *masses2, size_t masses2_len,
               uint32_t *fills2, size_t fills2_len,
               int64_t *carry2, size_t carry2_len,
               uint64_t *words2, size_t words2_len,
               uint64_t *count2, size_t count2_len,
               uint8_t *marks, size_t marks_len,
               size_t nx, size_t ny, size_t nz,
               int64_t p, int64_t gx, int64_t gy, int64_t gz,
               bool turbulent, uint8_t *number, size_t *place);

/*
 * READ: a grid record, rec_len bytes of it, into a set without flags: 19*N parts, N masses, N fills (worked out), the carry; and the
 * index of its flags, which it makes. The flags are not copied: they are the bytes rec[*flags_from] to before rec[*flags_to] of the caller's own record. Sides, settings, edge and
 * origin come through their pointers.
 *
 * How much to lend: the sides stand in bytes 4 to 15 of the record, three unsigned 32-bit numbers, little-endian. Where a record is too
 * short for them or they are out of range, lend slices of any length: the record is refused before these are looked at.
 *
 * A section that is not whole is 10, and its count is tested (11) as soon as it is read; after section 1 come tests 1 and 2, after
 * section 5 test 4, after section 7 that no bytes are left over (10), then 3, 5 and 6. Beside a refusal the slices are as they were
 * and all numbers 0, so that the flags are the empty part rec[0..0].
 */
uint8_t skw_read(const uint8_t *rec, size_t rec_len,
                 int32_t *parts, size_t parts_len,
                 int32_t *masses, size_t masses_len,
                 uint32_t *fills, size_t fills_len,
                 int64_t *carry, size_t carry_len,
                 uint64_t *words, size_t words_len,
                 uint64_t *count, size_t count_len,
                 size_t *nx, size_t *ny, size_t *nz,
                 int64_t *p, int64_t *gx, int64_t *gy, int64_t *gz,
                 int64_t *edge, int64_t *ox, int64_t *oy, int64_t *oz,
                 size_t *flags_from, size_t *flags_to,
                 size_t *place);

/*
 * WRITE: the record of a set, settings, edge and origin, from the front of the room; *bytes is its length, SKW_RECORD_BYTES. Room past
 * the record stays as it was; beside a refusal all of it does, and *bytes is 0. What is written reads back as the same grid.
 * Tests 1 to 6, then 12, whose place is the bytes needed: a first call with little room is a way to ask for them.
 */
uint8_t skw_write(size_t nx, size_t ny, size_t nz,
                  int64_t p, int64_t gx, int64_t gy, int64_t gz,
                  int64_t edge, int64_t ox, int64_t oy, int64_t oz,
                  const uint8_t *flags, size_t flags_len,
                  const int32_t *parts, size_t parts_len,
                  const int32_t *masses, size_t masses_len,
                  const uint32_t *fills, size_t fills_len,
                  const int64_t *carry, size_t carry_len,
                  uint8_t *room, size_t room_len,
                  size_t *bytes, size_t *place);

/*
 * DEPTHS WRITE: the depth map of a set as an ASCII height grid, from the front of the room; *bytes is its length, for no grid more
 * than SKW_DEPTHS_BYTES_MOST. Six header lines: ncols, nrows, xllcorner, yllcorner, cellsize, NODATA_value -9999; the corner (ox, oy)
 * and the edge in metres with three decimals. Then ny rows of nx values, from the north (y = ny - 1) to the south. A value is the
 * column's depth in whole mm, floor(sum of its fills * edge/65,536), or -9999 if every cell of it is wall; dry and less than a
 * millimetre are both 0. LF behind every line, one space between values. Room past the text stays as it was; beside a refusal all of
 * it does, and *bytes is 0. Tests 1 to 6 (3: edge, ox and oy), then 12, whose place is the bytes needed.
 */
uint8_t skw_depths_write(size_t nx, size_t ny, size_t nz,
                         int64_t edge, int64_t ox, int64_t oy,
                         const uint8_t *flags, size_t flags_len,
                         const int32_t *parts, size_t parts_len,
                         const int32_t *masses, size_t masses_len,
                         const uint32_t *fills, size_t fills_len,
                         const int64_t *carry, size_t carry_len,
                         uint8_t *room, size_t room_len,
                         size_t *bytes, size_t *place);

/*
 * INVERT READ: a height grid (.asc), text_len bytes of it, into a set and its index: walls below the heights, and no water. The text has
 * six header lines of two words each, keywords in either case, then nrows lines of ncols whole numbers:
 *
 *     ncols         whole number     nx
 *     nrows         whole number     ny
 *     xllcorner     metres           ox, the corner's easting; at most three decimals other than 0
 *     yllcorner     metres           oy, its northing, likewise
 *     cellsize      metres           edge, likewise
 *     NODATA_value  -9999            no other
 *
 * Line 7 is the northmost row, y = nrows - 1; its words are x from 0. A value is a height in whole mm above oz; -9999 means wall all the
 * way up. Cell (x, y, z) becomes SKW_WALL if it is outer, if the value is -9999, or if its centre lies below the height:
 * (2*z + 1)*edge < 2*value; else SKW_EMPTY. Border values are read and have no effect. Parts, masses, fills, the three totals and the index become 0,
 * so that skw_load accepts set and index. A number is a minus or none, 1 to 12 digits, and a point with digits or none, those after the
 * third all 0; it has no plus and no exponent. Blanks, tabs and CR part words; blank lines behind the rows do no harm.
 *
 * The host gives nz, oz and the settings; *nx, *ny, *edge, *ox, *oy are what the header says. How much to lend: the sides stand in lines 1
 * and 2.
 *
 * Tests 19; then 1 for (ncols, nrows, nz), a negative one being out of range; 2; 3 for the settings, edge and origin; then 20. Beside a
 * refusal the slices are as they were, and the numbers 0.
 */
uint8_t skw_invert_read(const uint8_t *text, size_t text_len,
                        size_t nz, int64_t oz,
                        int64_t p, int64_t gx, int64_t gy, int64_t gz,
                        uint8_t *flags, size_t flags_len,
                        int32_t *parts, size_t parts_len,
                        int32_t *masses, size_t masses_len,
                        uint32_t *fills, size_t fills_len,
                        int64_t *carry, size_t carry_len,
                        uint64_t *words, size_t words_len,
                        uint64_t *count, size_t count_len,
                        size_t *nx, size_t *ny,
                        int64_t *edge, int64_t *ox, int64_t *oy,
                        size_t *place);

/*
 * PLACE: the number of the cell that holds survey point (x, y, z), in mm: per axis floor((point - origin)/edge).
 * Tests 1, 3 (edge, origin, point), 13. Beside a refusal *cell is 0.
 */
uint8_t skw_place(size_t nx, size_t ny, size_t nz,
                  int64_t edge, int64_t ox, int64_t oy, int64_t oz,
                  int64_t x, int64_t y, int64_t z,
                  size_t *cell, size_t *place);

/*
 * POINT: the centre of a cell, in cells from the grid's corner, and its fill as a share of 1; all four exact.
 * Tests 1, 2, 13, then 6: that this cell's fill is at most 65,536. Beside a refusal the four are 0.
 */
uint8_t skw_point(size_t nx, size_t ny, size_t nz,
                  const uint32_t *fills, size_t fills_len,
                  size_t cell,
                  float *x, float *y, float *z, float *fill,
                  size_t *place);

/*
 * DEPTH: of the water in column (x, y), in cells, exact: the fills of the cells that are not wall, added and divided by 65,536.
 *
 *     *kind                 when                                       *depth
 *     SKW_DEPTH_REFUSED     the answer is not 0                        0
 *     SKW_DEPTH_SOLID       every cell of the column is wall           0
 *     SKW_DEPTH_DRY         the fills of the others add to 0           0
 *     SKW_DEPTH_DEEP        else                                       above 0, at most 128
 *
 * Tests 1, 2, 13, then in this column alone that no flag is above 3 (4), and that no fill, walls' included, is above 65,536 (6), each
 * at the lowest such cell.
 */
uint8_t skw_depth(size_t nx, size_t ny, size_t nz,
                  const uint8_t *flags, size_t flags_len,
                  const uint32_t *fills, size_t fills_len,
                  size_t x, size_t y,
                  uint8_t *kind, float *depth,
                  size_t *place);

/*
 * PROFILE: the depth at each point of a list of survey points along the gutter, and the deepest of them. The list has M points, 1 to
 * 2,000: M chainages in mm, which rise strictly, and 3*M coordinates in mm, x, y and z of point i at [3*i], [3*i + 1] and [3*i + 2].
 * Into kinds and depths, M each, goes a line for each point:
 *
 *     kinds[i]              when                                                            depths[i]
 *     SKW_LINE_OUTSIDE      skw_place answers SKW_OUTSIDE for the point                     0
 *     SKW_LINE_SOLID        else, and skw_depth finds the column of its cell solid          0
 *     SKW_LINE_DRY          the same, dry                                                   0
 *     SKW_LINE_DEEP         the same, deep                                                  the depth in cells, exact, above 0
 *
 * *wet is 1 if a point is deep, and *deepest then the deepest point, the first in the list among equals; both are 0 if none is.
 *
 * Tests, in this order: 1; 2 (flags, fills, points, kinds, depths); 22; 3 of edge and origin, place 0; 23 over the whole list; 3 of
 * the points, place the first such point; then point by point, where the point is in a cell, 4 and 6 of that cell's column as
 * skw_depth gives them. Beside a refusal kinds and depths are as they were, and *wet and *deepest 0.
 */
uint8_t skw_profile(size_t nx, size_t ny, size_t nz,
                    int64_t edge, int64_t ox, int64_t oy, int64_t oz,
                    const uint8_t *flags, size_t flags_len,
                    const uint32_t *fills, size_t fills_len,
                    const int64_t *chainages, size_t chainages_len,
                    const int64_t *points, size_t points_len,
                    uint8_t *kinds, size_t kinds_len,
                    float *depths, size_t depths_len,
                    uint8_t *wet, size_t *deepest,
                    size_t *place);

/*
 * POOLS: which water hangs together. A pool is a greatest set of liquid cells that chains of liquid neighbours, by the 18, join. Pools
 * are numbered from 1 in the order of their lowest cells; *pools is how many there are.
 *
 *     counts    R      how many cells pool k has, at [k - 1]
 *     waters    R      the sum of their masses, which may be 0 or below, at [k - 1]; all pools' and the carry add up to the set's water
 *     marks     N      for each cell the number of its pool, 0 where it is not liquid; a pool's lowest cell is the first with its mark
 *     work      N      work space, whatever it holds
 *
 * Counts and waters are the list: both have R numbers, the room that there is. SKW_POOLS_MOST is always enough. The carry's slice has
 * three numbers: carry, poured and taken, the last two of 0 to SKW_TOTAL_MOST.
 *
 * Tests 1, 2 (that counts and waters are as many, too), 4, 5, 6 (N for carry, poured or taken), then 21.
 *
 *     answer           *pools       counts, waters                           marks          work
 *     accepted         how many     the pools; behind the last as it was     all            all 0
 *     21               0            as they were                             all 0          all 0
 *     1 to 6           0            as they were                             as they were   as it was
 *
 * The set is never written. 21's place is how many pools there are: a first call with little room is a way to ask for them.
 */
uint8_t skw_pools(const uint8_t *flags, size_t flags_len,
                  const int32_t *parts, size_t parts_len,
                  const int32_t *masses, size_t masses_len,
                  const uint32_t *fills, size_t fills_len,
                  const int64_t *carry, size_t carry_len,
                  uint32_t *counts, size_t counts_len,
                  int64_t *waters, size_t waters_len,
                  uint16_t *marks, size_t marks_len,
                  uint32_t *work, size_t work_len,
                  size_t nx, size_t ny, size_t nz,
                  size_t *pools, size_t *place);

/*
 * MIRROR: the first set reflected in an axis into the second, with its index. On the axis cell x goes to n - 1 - x, with its flag, mass, fill and
 * parts, part k to the place of the reflected direction; carry, poured and taken are the first's. The second set may hold anything before.
 * Gravity is no part of a set: step the second with the sign of that component changed. As long as no cell is filled or emptied, it then
 * does what the first does, mirrored. Mirrored once more in the same axis it is the first set again.
 * Tests 1, 2 (both sets, the second's index), 3 (an axis above 2), 4, 5, 6 of the first set. Beside a refusal the second set is as it was.
 */
uint8_t skw_mirror(const uint8_t *flags, size_t flags_len,
                   const int32_t *parts, size_t parts_len,
                   const int32_t *masses, size_t masses_len,
                   const uint32_t *fills, size_t fills_len,
                   const int64_t *carry, size_t carry_len,
                   uint8_t *flags2, size_t flags2_len,
                   int32_t *parts2, size_t parts2_len,
                   int32_t *masses2, size_t masses2_len,
                   uint32_t *fills2, size_t fills2_len,
                   int64_t *carry2, size_t carry2_len,
                   uint64_t *words2, size_t words2_len,
                   uint64_t *count2, size_t count2_len,
                   size_t nx, size_t ny, size_t nz,
                   size_t axis, size_t *place);

/*
 * SCHEMES: two designers try their water in one tunnel. They share a WALL MAP, N bytes, 1 for wall and 0 for not, and each has a SCHEME,
 * a set whose flags are its own: SKW_EMPTY, SKW_INTERFACE or SKW_FLUID, and SKW_EMPTY where the map has a wall. The grid of a scheme has
 * SKW_WALL where the map is 1 and the scheme's own flag elsewhere, and all else of the set as it stands.
 *
 * The tests of a scheme: 1; 2, the map too; 4 at the lowest cell whose map byte is above 1, whose own flag is above 2, or that is outer
 * and not wall in the map; 5 of its grid; 6 of its grid, where an own flag other than 0 at a wall is a fault too.
 *
 * SCHEME JOIN: the flags of a scheme's grid, N bytes, so that it can be stepped, run, poured into and read as any set can.
 * The tests of the scheme; 2 of the grid too. Beside a refusal the grid is as it was.
 */
uint8_t skw_scheme_join(const uint8_t *map, size_t map_len,
                        const uint8_t *flags, size_t flags_len,
                        const int32_t *parts, size_t parts_len,
                        const int32_t *masses, size_t masses_len,
                        const uint32_t *fills, size_t fills_len,
                        const int64_t *carry, size_t carry_len,
                        uint8_t *grid, size_t grid_len,
                        size_t nx, size_t ny, size_t nz,
                        size_t *place);

/*
 * SCHEME PART: a scheme's own flags back from the flags of its grid: SKW_EMPTY for every SKW_WALL, all others as they are.
 * Tests 1, 2, 4. Beside a refusal the flags are as they were.
 */
uint8_t skw_scheme_part(const uint8_t *grid, size_t grid_len,
                        uint8_t *flags, size_t flags_len,
                        size_t nx, size_t ny, size_t nz,
                        size_t *place);

/*
 * WALL ADD: a wall is asked for in an inner cell of the map. WALL REMOVE: an inner wall of the map is to be taken out. The first set is
 * the scheme that asks, the second (flags2 ..) the other one; both are on this map. Water is in the way of a wall if the cell is not
 * empty in either scheme, and of taking one out if one of the cell's 18 neighbours is fluid in either.
 * Tests: those of the asker's scheme, those of the other's, 13, 17, 18. Accepted, the map's byte of the cell becomes 1, or 0, and nothing
 * else is written: the cell is then wall, or empty, in both. Beside a refusal the map is as it was.
 */
uint8_t skw_wall_add(uint8_t *map, size_t map_len,
                     const uint8_t *flags, size_t flags_len,
                     const int32_t *parts, size_t parts_len,
                     const int32_t *masses, size_t masses_len,
                     const uint32_t *fills, size_t fills_len,
                     const int64_t *carry, size_t carry_len,
                     const uint8_t *flags2, size_t flags2_len,
                     const int32_t *parts2, size_t parts2_len,
                     const int32_t *masses2, size_t masses2_len,
                     const uint32_t *fills2, size_t fills2_len,
                     const int64_t *carry2, size_t carry2_len,
                     size_t nx, size_t ny, size_t nz,
                     size_t cell, size_t *place);
uint8_t skw_wall_remove(uint8_t *map, size_t map_len,
                        const uint8_t *flags, size_t flags_len,
                        const int32_t *parts, size_t parts_len,
                        const int32_t *masses, size_t masses_len,
                        const uint32_t *fills, size_t fills_len,
                        const int64_t *carry, size_t carry_len,
                        const uint8_t *flags2, size_t flags2_len,
                        const int32_t *parts2, size_t parts2_len,
                        const int32_t *masses2, size_t masses2_len,
                        const uint32_t *fills2, size_t fills2_len,
                        const int64_t *carry2, size_t carry2_len,
                        size_t nx, size_t ny, size_t nz,
                        size_t cell, size_t *place);

/*
 * THE FLUME: a long section in two dimensions, x along and z up, beside the box and with calls of its own. Sides nx, nz are 3 to 512
 * cells, N = nx*nz; cell (x, z) has the number c = x + nx*z, and the cells with x or z at 0 or at the last are all wall. A SET of it
 * is lent as five slices:
 *
 *     flags     N      SKW_EMPTY, SKW_INTERFACE, SKW_FLUID or SKW_WALL
 *     parts     9*N    part k of cell c at [9*c + k]; a cell's density is the sum of its parts, and SKW_ONE is one density unit
 *     masses    N      the water in the cell, in the unit of the parts
 *     fills     N      how full the cell is, in 65,536ths: 0 to SKW_FULL
 *     carry     1      in the unit of the parts: water that found no cell to go to
 *
 * DIRECTIONS of the nine parts (x, z): 0 rest; 1 (1, 0), 2 (-1, 0), 3 (0, 1), 4 (0, -1); 5 (1, 1), 6 (-1, -1), 7 (1, -1), 8 (-1, 1).
 * A cell's neighbours are those of directions 1 to 8. At rest the parts have 16, then 4, then 1 thirty-sixths of the density.
 *
 * A GOOD STATE is the box's with these eight neighbours and nine parts: no fluid cell has an empty neighbour; wall and empty cells
 * have parts, mass and fill 0; a liquid cell has parts within +-1,179,648, density rho of 294,912 to 1,179,648 and momentum j = (x,
 * z) with 9*|j|*|j| <= rho*rho; a fluid cell has mass rho and fill 65,536, an interface cell mass m within +-2,359,296 and fill
 * floor(65,536*m/rho), held to 0..65,536; the carry is within +-10^12. The water of a set is the sum of its masses and its carry.
 *
 * SETTINGS: p of 1 to 2037; gx, gz, the sum of their squares at most 1,099,511; edge of 1 to 1,000 mm; ox, oz in whole mm within
 * +-10^10. Units are the box's, and so are the modes, the refusals, their order, and what every call keeps and a caller owes. There is no
 * index, no pour and no take.
 */
#define SKW_FLUME_PARTS 9
#define SKW_FLUME_SIDE_MOST 512

/* Length in bytes of the record of a flume with so many cells, interface cells and liquid cells (fluid and interface). */
#define SKW_FLUME_RECORD_BYTES(cells, interfaces, liquids) \
    ((size_t)76 + (size_t)(cells) + (size_t)4 * (size_t)(interfaces) + (size_t)36 * (size_t)(liquids))
/* Room in bytes that the record of any flume with so many cells fits into. */
#define SKW_FLUME_RECORD_BYTES_MOST(cells) SKW_FLUME_RECORD_BYTES(cells, cells, cells)

/*
 * FLUME CHECK: is this set a good state of a flume with these sides?
 * Tests 1, 2, 4, 5, 6. Writes *place alone; 6's place is N for the carry alone.
 */
uint8_t skw_flume_check(const uint8_t *flags, size_t flags_len,
                        const int32_t *parts, size_t parts_len,
                        const int32_t *masses, size_t masses_len,
                        const uint32_t *fills, size_t fills_len,
                        const int64_t *carry, size_t carry_len,
                        size_t nx, size_t nz,
                        size_t *place);

/*
 * FLUME STEP: the state one step after the first set, into the second. marks is N bytes of work space, whatever they hold.
 * Tests 1 to 6 (2 on both sets and the marks, 3 on p and gravity, 4 to 6 on the first set alone), then 7, then 8.
 *
 *     answer           second set               marks
 *     accepted         the next state           all 0
 *     7, 8             a copy of the first      all 0
 *     1 to 6           as it was                as they were
 *
 * The first set is never written, and an accepted step does not change the water by one unit. turbulent is the mode of this step.
 */
uint8_t skw_flume_step(const uint8_t *flags, size_t flags_len,
                       const int32_t *parts, size_t parts_len,
                       const int32_t *masses, size_t masses_len,
                       const uint32_t *fills, size_t fills_len,
                       const int64_t *carry, size_t carry_len,
                       uint8_t *flags2, size_t flags2_len,
                       int32_t *parts2, size_t parts2_len,
                       int32_t *masses2, size_t masses2_len,
                       uint32_t *fills2, size_t fills2_len,
                       int64_t *carry2, size_t carry2_len,
                       uint8_t *marks, size_t marks_len,
                       size_t nx, size_t nz,
                       int64_t p, int64_t gx, int64_t gz,
                       bool turbulent, size_t *place);

/*
 * FLUME RUN: so many steps, 0 to 1,000, from the state in the first set; it stops at the first step that is refused. It returns how
 * many steps were accepted; *number and *place are those of the refusal that stopped it, 0 0 if none did.
 * Tests 9, then 1 to 6 as a step makes them, then 7 and 8 of each step.
 *
 *     *number          returns                      both sets              marks
 *     0                the steps asked              the state reached      all 0
 *     7, 8             the steps before that one    the state reached      all 0
 *     1 to 6, 9        0                            as they were           as they were
 *
 * turbulent is the mode of all its steps.
 */
size_t skw_flume_run(size_t steps,
                     uint8_t *flags, size_t flags_len,
                     int32_t *parts, size_t parts_len,
                     int32_t *masses, size_t masses_len,
                     uint32_t *fills, size_t fills_len,
                     int64_t *carry, size_t carry_len,
                     uint8_t *flags2, size_t flags2_len,
                     int32_t *parts2, size_t parts2_len,
                     int32_t *masses2, size_t masses2_len,
                     uint32_t *fills2, size_t fills2_len,
                     int64_t *carry2, size_t carry2_len,
                     uint8_t *marks, size_t marks_len,
                     size_t nx, size_t nz,
                     int64_t p, int64_t gx, int64_t gz,
                     bool turbulent, uint8_t *number, size_t *place);

/*
 * FLUME MIRROR: the first set reflected in an axis into the second. On the axis cell x goes to n - 1 - x, with its flag, mass, fill and parts, part k to
 * the place of the reflected direction; the carry is the first's. The second set may hold anything before. Gravity is no part of a set: step
 * the second with the sign of that component changed. As long as no cell is filled or emptied, it then does what the first does, mirrored.
 * Mirrored once more in the same axis it is the first set again.
 * Tests 1, 2 (both sets), 3 (an axis other than SKW_AXIS_X and SKW_AXIS_Z), 4, 5, 6 of the first set. Beside a refusal the second set is as it was.
 */
uint8_t skw_flume_mirror(const uint8_t *flags, size_t flags_len,
                         const int32_t *parts, size_t parts_len,
                         const int32_t *masses, size_t masses_len,
                         const uint32_t *fills, size_t fills_len,
                         const int64_t *carry, size_t carry_len,
                         uint8_t *flags2, size_t flags2_len,
                         int32_t *parts2, size_t parts2_len,
                         int32_t *masses2, size_t masses2_len,
                         uint32_t *fills2, size_t fills2_len,
                         int64_t *carry2, size_t carry2_len,
                         size_t nx, size_t nz,
                         size_t axis, size_t *place);

/*
 * FLUME READ: a record of the flume, rec_len bytes of it, into a set without flags, fills worked out. The flags are the record's own
 * bytes, rec[*flags_from] to rec[*flags_to - 1]. Seven sections in this order, each after its count of numbers (u32), all
 * little-endian; I is the number of interface cells, L that of liquid ones:
 *
 *     section      1 sides   2 p, gx, gz, edge   3 origin   4 carry   5 flags   6 interface masses   7 parts of liquid cells   rest
 *     numbers      2 u32     4 i32               2 i64      1 i64     N u8      I i32                9*L i32
 *     its byte     0         12                  32         52        64        68 + N               72 + N + 4*I              76 + N + 4*I + 36*L
 *
 * How much to lend: the record begins with nx at byte 4 and nz at byte 8, behind the count 2; where a record is too short for them or
 * they are out of range, lend slices of any length. A record of the box is refused by its first count, and one of the flume by
 * skw_read: 11, place 1.
 *
 * Tests, in this order: a section that is not whole is 10, its count 11, in the order of the bytes; after section 1 tests 1 and 2,
 * after section 5 test 4; left-over bytes are 10; then 3, 5, 6. Beside a refusal the slices are as they were, and the numbers 0.
 */
uint8_t skw_flume_read(const uint8_t *rec, size_t rec_len,
                       int32_t *parts, size_t parts_len,
                       int32_t *masses, size_t masses_len,
                       uint32_t *fills, size_t fills_len,
                       int64_t *carry, size_t carry_len,
                       size_t *nx, size_t *nz,
                       int64_t *p, int64_t *gx, int64_t *gz,
                       int64_t *edge, int64_t *ox, int64_t *oz,
                       size_t *flags_from, size_t *flags_to,
                       size_t *place);

/*
 * FLUME WRITE: the record of a set, settings, edge and origin, from the front of the room; *bytes is its length,
 * SKW_FLUME_RECORD_BYTES. Room past the record stays as it was; beside a refusal all of it does, and *bytes is 0. What is written
 * reads back as the same flume.
 * Tests 1 to 6, then 12, whose place is the bytes needed.
 */
uint8_t skw_flume_write(size_t nx, size_t nz,
                        int64_t p, int64_t gx, int64_t gz,
                        int64_t edge, int64_t ox, int64_t oz,
                        const uint8_t *flags, size_t flags_len,
                        const int32_t *parts, size_t parts_len,
                        const int32_t *masses, size_t masses_len,
                        const uint32_t *fills, size_t fills_len,
                        const int64_t *carry, size_t carry_len,
                        uint8_t *room, size_t room_len,
                        size_t *bytes, size_t *place);

#ifdef __cplusplus
}
#endif

#endif
