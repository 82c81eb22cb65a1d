/*
 * Gantry cells for C and C++: a mesh of tetrahedra over the nodes of a box, in tables that the caller owns.
 *
 * Every call ends and answers for all numbers handed in; none allocates, keeps a pointer or a state, or prints. What each one
 * answers and leaves in every lent entry is proved (crates/gantry_numbers/specs). All memory is the caller's and is lent for one
 * call: a pointer, then the number of entries behind it. A pointer is aligned for its type, and not NULL even where the length is 0;
 * the areas lent to one call do not overlap, unless both are only read, and no other thread touches them meanwhile. The caller sees to
 * that: it is assumed, not proved. A call takes less than 52 KiB of stack, which is not proved either: the gate holds the archive to it.
 *
 * Link with libgantry.a alone ('rt lib --cpu=x86-64' in crates/gantry writes it, for x86-64 Linux); it takes memcpy and memset from
 * the C library.
 */
#ifndef GANTRY_H
#define GANTRY_H

#include <stdbool.h>
#include <stddef.h>
#include <stdint.h>

#ifdef __cplusplus
extern "C" {
#endif

/*
 * Refusals; docs/MANUAL.md says what to do about each. A refusal changes nothing but the work area; a list that stops at a refused
 * node keeps the nodes before it. Tests are made in number order, but 13 and then 12 directly after 5, a file's 9 before its 2, and
 * gantry_merge's in the order given there.
 * 7 is never answered: that is proved, as never_seven in crates/covering.
 */
#define GANTRY_ACCEPTED 0
#define GANTRY_SHORT 1          /* room for fewer than 8 points or 6 cells; fewer answers than the used length, or corrections than 3 a point of room */
#define GANTRY_BOX 2            /* a side is 0 or above 131,072 */
#define GANTRY_NO_MESH 3        /* record and tables fail the mesh check */
#define GANTRY_OUTSIDE 4        /* a position outside the box; in the sphere test, a coordinate above 131,072 */
#define GANTRY_TAKEN 5          /* a point is already there */
#define GANTRY_POINTS_FULL 6    /* there is no room for a further point; in a merge, more than 1,016 nodes are left */
#define GANTRY_UNHELD 7         /* no cell holds the position */
#define GANTRY_CELLS_FULL 8     /* the old cells and the new ones together exceed the room for cells */
#define GANTRY_TRAILER 9        /* a file under 20 bytes, or a wrong count or distance in its trailer */
#define GANTRY_NO_PLACE 10      /* the output is shorter than what is to be written */
#define GANTRY_FLAT_CELL 11     /* a sphere test on a cell of volume 0 or less */
#define GANTRY_OUT_OF_RANGE 12  /* a correction outside -1,000 to 1,000, handed in or standing in the table for a point of the mesh */
#define GANTRY_NO_POINT 13      /* a point number that is not in the mesh */
#define GANTRY_OTHER_MARKS 14   /* the marks handed in are too few, or not those that a look would now give */
#define GANTRY_UNEQUAL_SIDES 19 /* the boxes of two files to be merged differ in a side */

/* Sphere answers; 0 in a refusal. 3 was 'close' up to version 0.4: it is retired, and never answered. */
#define GANTRY_SPHERE_INSIDE 1
#define GANTRY_SPHERE_OUTSIDE 2

#define GANTRY_NONE 65535                      /* no neighbour; a corner of a freed cell number; the end of the chain */
#define GANTRY_VOLUME_NONE ((int64_t)1 << 62)  /* gantry_volume6 with a coordinate outside 0 to 131,072 */

/*
 * The record of a mesh: sides, point count, cell count, the first of the chain of freed cell numbers (GANTRY_NONE where none is freed), and
 * the used length: every cell's number is below it. The caller keeps it beside the tables, hands it to each call, and goes on with the one
 * in the answer. chain and used are the library's: hand them on, and never write them.
 */
typedef struct { uint32_t x, y, z, points, cells, chain, used; } gantry_mesh;

/*
 * Answers. refusal is 0 where the call was accepted. In a refusal, mesh is the record as it then stands, and a field without
 * meaning is 0.
 */
typedef struct { uint8_t refusal; gantry_mesh mesh; } gantry_started;                    /* refused: a record of zeros */
typedef struct { uint8_t refusal; gantry_mesh mesh; uint32_t point, before, after, made; double least; } gantry_inserted;
typedef struct { uint8_t refusal; uint32_t point, before, after, made; double least; } gantry_looked;
typedef struct { uint8_t refusal; gantry_mesh mesh; uint32_t place; } gantry_listed;      /* place: of the refused node, or how many went in */
typedef struct { uint8_t refusal; uint32_t cell; } gantry_located;
typedef struct { uint8_t refusal; uint32_t count; } gantry_counted;
typedef struct { uint8_t refusal; int32_t x, y, z; } gantry_corrected;
typedef struct { uint8_t refusal; uint8_t answer; double t; } gantry_sphere;              /* 1 inside, 2 outside */
typedef struct { uint8_t refusal; uint32_t x, y, z, count; } gantry_read;
typedef struct { uint8_t refusal; uint32_t bytes; } gantry_written;

/*
 * The lent tables of a mesh.
 *
 *   points      3 entries a point: x, y, z. Points 0 to 7 are the corners of the box, the nodes follow in the order they went in.
 *   corners     4 entries a cell: the point numbers of its corners.
 *   neighbours  4 entries a cell: neighbour i lies across the face opposite corner i; GANTRY_NONE at a wall.
 *   work        3 entries a cell, of any content. Every call that is lent one sets all of it to 0, accepted or refused.
 *
 * A length is in entries, not in bytes. points_len / 3 is the room for points: 8 or more, and 1,024 at most are used. The least of
 * corners_len / 4, neighbours_len / 4 and work_len / 3 is the room for cells: 6 or more, and 4,096 at most are used. An insertion
 * counts the old cells and the new ones together, so leave room for more cells than the mesh ends with. Less room than the record
 * has points, or less than its used length, is no mesh (3). Entries past the point count and the used length may hold anything.
 */
#define GANTRY_TABLES                                                              \
    uint32_t *points, size_t points_len, uint16_t *corners, size_t corners_len,    \
    uint16_t *neighbours, size_t neighbours_len, uint16_t *work, size_t work_len

/*
 * The corrections: a table beside these, 3 signed entries a point, for x, y, z in steps, each from -1,000 to 1,000. A start, the insertions,
 * the look, gantry_correction and gantry_set_correction are lent it; the other calls are not. It has at least 3 entries for each point of
 * room, that is points_len / 3, at most 1,024 (else 1).
 *
 * An accepted start sets the corrections of the eight box corners to 0. An accepted node gets those that its position had before, and
 * gantry_set_correction gives a point others. Nothing else of the table is written, and nothing for a node or a setting that is refused.
 * A number out of range that stands there for a point of the mesh is refused with 12, whether or not the call would use it; entries past the
 * points of the mesh may hold anything.
 */

/*
 * Cell numbers stay. An insertion replaces the cells of its corrected cavity; where it goes by the sphere test, a look names them before, by
 * a mark of 1. Every other cell keeps its number and its four corners. Its neighbours are the same too, but where a replaced cell was across
 * a face: there it names a new one.
 *
 * The numbers of replaced cells are freed, and cells that later insertions make take them, the last freed first, before the table grows.
 * So there may be gaps: a number below the used length is a cell's, or it is freed. The four corners of a freed number are GANTRY_NONE; its
 * first neighbour is the next number on the chain, GANTRY_NONE at the end, and the other three are GANTRY_NONE. In a mesh the first corner
 * tells, and this visits the cells by rising number:
 *
 *     for (uint32_t c = 0; c < mesh.used; c++) {
 *         if (corners[4 * c] == GANTRY_NONE)
 *             continue;
 *         visit(c, corners + 4 * c, neighbours + 4 * c);
 *     }
 *
 * So a stored number is good until its cell is replaced. That can be seen afterwards too: a new cell has the new point as a corner, so a
 * number is that of the same cell as long as its four corners are below the point count at which it was stored; a freed number's are not.
 */

/* The mesh of a box: its eight corners, with corrections 0, and six cells; chain GANTRY_NONE, used 6. Refusals 1 2. */
gantry_started gantry_start(uint32_t x, uint32_t y, uint32_t z, GANTRY_TABLES, int32_t *corrections, size_t corrections_len);

/*
 * Inserts one node, by the sphere test. The answer has the node's point number, how many cells its cavity had before and
 * after correction, how many cells were made, and the least T over the cavity before correction; T is a float and may be 0 or
 * below (see gantry_sphere_test). Point numbers stay, and so do the numbers of the cells outside the cavity. The position's correction
 * is the same before and after. Refusals 1 2 3 4 5 12 6 7 8.
 *
 * While all nodes since the start have gone in by the sphere test, here or in a list, no point of the mesh lies strictly inside the
 * sphere of any cell, and the correction removes nothing: before and after are equal. Refused calls of any kind may stand between. That
 * is proved in crates/spheres and crates/corrected_calls. It is not said of a mesh with nodes that version 0.4 put in, or of tables of
 * another origin: gantry_check does not look at spheres.
 */
gantry_inserted gantry_insert(gantry_mesh mesh, GANTRY_TABLES, int32_t *corrections, size_t corrections_len,
                              uint32_t x, uint32_t y, uint32_t z);

/*
 * The same by answers handed in, one byte for each number below the used length: nonzero where the node counts as inside the cell's sphere;
 * a freed number's is ignored. Fewer bytes are refused with 1. least is 0.0. Any answers leave a mesh; but once a node has gone in so,
 * nothing is promised of points and spheres.
 */
gantry_inserted gantry_insert_answers(gantry_mesh mesh, GANTRY_TABLES, int32_t *corrections, size_t corrections_len,
                                      const uint8_t *answers, size_t answers_len, uint32_t x, uint32_t y, uint32_t z);

/*
 * Looks at the insertion of a node by the sphere test, and inserts nothing. The answer is the report that gantry_insert would give. marks
 * gets a byte for each number below the used length: 1 where the node would replace the cell, 0 for the other cells and for freed numbers;
 * bytes beyond stay as they were, and all of them do where the look is refused. Writes the work area and marks alone. Refused just as
 * gantry_insert would be, and after that with 10 for fewer bytes than the used length.
 */
gantry_looked gantry_look(gantry_mesh mesh, GANTRY_TABLES, const int32_t *corrections, size_t corrections_len,
                          uint8_t *marks, size_t marks_len, uint32_t x, uint32_t y, uint32_t z);

/*
 * Inserts a node as gantry_insert does, but only if a look would now give these marks: each byte up to the used length must be exactly the
 * one that gantry_look would write; bytes beyond are not read. After a look at this node, with its marks, with record and tables as it left
 * them and a work area of the same length, the node goes in, with the report that the look gave; with other marks the answer is 14. That is
 * proved in crates/look_first. Refused as gantry_insert is, then with 14.
 */
gantry_inserted gantry_insert_marked(gantry_mesh mesh, GANTRY_TABLES, int32_t *corrections, size_t corrections_len,
                                     const uint8_t *marks, size_t marks_len, uint32_t x, uint32_t y, uint32_t z);

/*
 * Inserts nodes, three numbers each, up to the first that is refused: then place is its place in the list, from 0, and the nodes
 * before it stay in. nodes_len counts numbers, and one or two after the last whole node are not read: an accepted list has place
 * nodes_len / 3. Refusals 1 to 3 refuse the whole list, with place 0. A 12 stops it at its first node: after one that went in all
 * corrections are in range.
 */
gantry_listed gantry_insert_list(gantry_mesh mesh, GANTRY_TABLES, int32_t *corrections, size_t corrections_len,
                                 const uint32_t *nodes, size_t nodes_len);

/*
 * Of the cells that hold a position, their faces, edges and corners included, the one whose four corner numbers, sorted upward, come
 * first in order: of two cells the one with the lower number where they first differ. No two cells have the same four, so which cell it
 * is does not depend on the numbers of the cells. While a cell with its corners stands, the position is located in it after insertions
 * too, though new cells may hold it: that is proved in crates/located. Its number is then the same. Writes the work area alone.
 * Refusals 1 2 3 4 7.
 */
gantry_located gantry_locate(gantry_mesh mesh, GANTRY_TABLES, uint32_t x, uint32_t y, uint32_t z);

/*
 * The cells on a straight drive from a to b: every cell that shares at least one place with the segment, ends included and fractions of a
 * step included, and no other. Their numbers go to cells, rising, and the answer has their count; entries beyond stay as they were, and all
 * of them do where the call is refused. A cell is its faces, edges and corners too, so one that is touched in a single point is listed. From
 * b to a the list is the same. Where a and b are equal, it is the cells that hold a. Every place of the segment is held by a listed cell, and
 * the located cells of both ends are listed: all this is proved in crates/segment. An output of mesh.cells entries is always long enough.
 * Writes the work area and cells alone. Refusals 1 2 3, 4 for an end outside the box, 10 for an output shorter than the list.
 */
gantry_counted gantry_drive_cells(gantry_mesh mesh, GANTRY_TABLES, uint32_t ax, uint32_t ay, uint32_t az,
                                  uint32_t bx, uint32_t by, uint32_t bz, uint16_t *cells, size_t cells_len);

/*
 * The correction of a position on each axis. In the located cell each corner has its share, the six-fold volume of the cell with that corner
 * replaced by the position; the correction is the sum of the corners' corrections, each times its share, over the cell's six-fold volume,
 * rounded to the nearest whole number, halves away from zero. It is the same from every cell that holds the position, lies between the least
 * and the greatest of the four corners', and is a point's own where one is: that is proved in crates/corrections. Writes the work area alone.
 * Refusals 1 2 3 4 12 7.
 */
gantry_corrected gantry_correction(gantry_mesh mesh, GANTRY_TABLES, const int32_t *corrections, size_t corrections_len,
                                   uint32_t x, uint32_t y, uint32_t z);

/*
 * Gives a point of the mesh, a box corner or a node, the corrections x, y, z. Answers the refusal, 0 where they were set. 12 is answered where
 * one of the three is out of range, and where a number out of range stands in the table, even one that this call would replace. Writes the
 * work area and the point's three entries alone. Refusals 1 2 3 13 12.
 */
uint8_t gantry_set_correction(gantry_mesh mesh, GANTRY_TABLES, int32_t *corrections, size_t corrections_len,
                              uint32_t point, int32_t x, int32_t y, int32_t z);

/*
 * Whether record and tables are a mesh. In one, every place of the box, at whole steps and at any fraction of one, is held by a cell,
 * and none lies strictly inside two: that is proved in crates/covering. The cell count is that of the numbers below the used length that
 * are not freed, and the chain has every freed one, each one time, and nothing else. Writes the work area alone.
 */
bool gantry_check(gantry_mesh mesh, GANTRY_TABLES);

/* The sides and nodes of a node file, three numbers a node: at most 3048. Positions are not tested. Refusals 9 2 10. */
gantry_read gantry_read_nodes(const uint8_t *file, size_t file_len, uint32_t *nodes, size_t nodes_len);

/* The nodes of a mesh as a node file: 12 bytes a node and 20. Writes the work area and out alone. Refusals 1 2 3 10. */
gantry_written gantry_write_nodes(gantry_mesh mesh, GANTRY_TABLES, uint8_t *out, size_t out_len);

/*
 * Two node files of one box as one, without a note: the first's nodes in order, then the second's, each position a single time where
 * it first stands, within one file too; box corners are left out. That is 12 bytes a node left and 20, at most 12,212. The two files may
 * overlap, or be the same. Refusals, in this order: 9 2 of the first file, 9 2 of the second, 19, 4 for any node of either file, 6, 10.
 */
gantry_written gantry_merge(const uint8_t *first, size_t first_len, const uint8_t *second, size_t second_len,
                            uint8_t *out, size_t out_len);

/*
 * Six times the volume of (a, b, c, d), below 0 where they turn the other way, and within -2^52 to 2^52; GANTRY_VOLUME_NONE for a
 * number that is no coordinate.
 */
int64_t gantry_volume6(int32_t ax, int32_t ay, int32_t az, int32_t bx, int32_t by, int32_t bz,
                       int32_t cx, int32_t cy, int32_t cz, int32_t dx, int32_t dy, int32_t dz);

/*
 * Whether p lies strictly inside the sphere through a, b, c, d (1) or not (2); on the sphere it is not. The answer is exact: inside is
 * where the whole number E of docs/MANUAL.md is above 0. t is T, the same sum in floats. It lies within 2^39 of E, so beyond -2^39 to
 * 2^39 it has E's sign; nearer to 0 it may be 0 or have the other sign. Refusals 4 11.
 */
gantry_sphere gantry_sphere_test(uint32_t ax, uint32_t ay, uint32_t az, uint32_t bx, uint32_t by, uint32_t bz,
                                 uint32_t cx, uint32_t cy, uint32_t cz, uint32_t dx, uint32_t dy, uint32_t dz,
                                 uint32_t px, uint32_t py, uint32_t pz);

#undef GANTRY_TABLES

#ifdef __cplusplus
}
#endif

#endif
