/*
 * Corrects the position of a bore. The nodes get the corrections that were measured there; the cell that holds the bore, and the share that
 * each corner has in it, show where its correction comes from. The tables are this program's own; the library is lent them for each call.
 */
#include <stdio.h>

#include "gantry.h"

enum { POINTS = 64, CELLS = 256 };

static uint32_t points[3 * POINTS];
static uint16_t corners[4 * CELLS];
static uint16_t neighbours[4 * CELLS];
static uint16_t work[3 * CELLS];
static int32_t corrections[3 * POINTS];

#define TABLES points, 3 * POINTS, corners, 4 * CELLS, neighbours, 4 * CELLS, work, 3 * CELLS
#define CORRECTIONS corrections, 3 * POINTS

typedef struct { int32_t at[3]; } position;

static position corner(uint32_t cell, int i)
{
    const uint32_t *p = points + 3 * corners[4 * cell + i];
    position q = {{(int32_t)p[0], (int32_t)p[1], (int32_t)p[2]}};
    return q;
}

static int64_t volume(const position *k)
{
    return gantry_volume6(k[0].at[0], k[0].at[1], k[0].at[2], k[1].at[0], k[1].at[1], k[1].at[2],
                          k[2].at[0], k[2].at[1], k[2].at[2], k[3].at[0], k[3].at[1], k[3].at[2]);
}

/* A point has these from now on, if they were not refused. */
static void correct(gantry_mesh mesh, uint32_t point, int32_t x, int32_t y, int32_t z)
{
    uint8_t refusal = gantry_set_correction(mesh, TABLES, CORRECTIONS, point, x, y, z);
    printf("set point %u to (%d, %d, %d): refusal %u\n", (unsigned)point, (int)x, (int)y, (int)z, (unsigned)refusal);
}

static void print_correction(const char *what, gantry_mesh mesh, position p)
{
    gantry_corrected c = gantry_correction(mesh, TABLES, CORRECTIONS, (uint32_t)p.at[0], (uint32_t)p.at[1], (uint32_t)p.at[2]);
    printf("%s: refusal %u; correction (%d, %d, %d)\n", what, (unsigned)c.refusal, (int)c.x, (int)c.y, (int)c.z);
}

/* Six times the volume of the cell, and with each corner in turn replaced by p. These four add up to the first. */
static void print_shares(uint32_t cell, position p)
{
    position k[4];
    int i;
    for (i = 0; i < 4; i++)
        k[i] = corner(cell, i);
    printf("cell %u, volume %lld\n", (unsigned)cell, (long long)volume(k));
    for (i = 0; i < 4; i++) {
        position own = k[i];
        k[i] = p;
        const int32_t *c = corrections + 3 * corners[4 * cell + i];
        printf("  point %u at (%d, %d, %d) has %lld, correction (%d, %d, %d)\n", (unsigned)corners[4 * cell + i],
               (int)own.at[0], (int)own.at[1], (int)own.at[2], (long long)volume(k), (int)c[0], (int)c[1], (int)c[2]);
        k[i] = own;
    }
}

int main(void)
{
    static const uint32_t measured[] = {
        500, 400, 300,
        1500, 400, 300,
        1000, 900, 600,
        1000, 900, 1400, /* above the box: the list stops here */
        200, 200, 200,
    };
    const position bore = {{1000, 500, 400}}, last = {{1000, 900, 700}};

    gantry_started start = gantry_start(2000, 1200, 800, TABLES, CORRECTIONS);
    if (start.refusal != GANTRY_ACCEPTED) {
        printf("start refused %u\n", (unsigned)start.refusal);
        return 1;
    }

    gantry_listed list = gantry_insert_list(start.mesh, TABLES, CORRECTIONS, measured, sizeof measured / sizeof measured[0]);
    printf("list: refusal %u at node %u; %u points, %u cells\n", (unsigned)list.refusal, (unsigned)list.place,
           (unsigned)list.mesh.points, (unsigned)list.mesh.cells);

    correct(list.mesh, 8, -12, 7, 3);
    correct(list.mesh, 9, 9, -4, -6);
    correct(list.mesh, 10, 1, 5, -20);
    correct(list.mesh, 10, 1, 5, -1001); /* 12: corrections are from -1,000 to 1,000 */
    correct(list.mesh, 11, 0, 0, 0);     /* 13: the points are 0 to 10 */

    print_correction("before the last node, there", list.mesh, last);

    /* An answer's mesh is the record to go on with, also after a refusal. */
    gantry_inserted node = gantry_insert(list.mesh, TABLES, CORRECTIONS, 1000, 900, 700);
    printf("node: refusal %u; point %u, cavity %u then %u, %u cells made, least T %.17g\n", (unsigned)node.refusal,
           (unsigned)node.point, (unsigned)node.before, (unsigned)node.after, (unsigned)node.made, node.least);

    print_correction("after it, there", node.mesh, last); /* a node starts with what its position had */
    correct(node.mesh, node.point, 20, -15, 8);

    gantry_inserted again = gantry_insert(node.mesh, TABLES, CORRECTIONS, 1000, 900, 700);
    printf("again: refusal %u\n", (unsigned)again.refusal);

    printf("check: %s\n", gantry_check(again.mesh, TABLES) ? "a mesh" : "no mesh");

    gantry_located found = gantry_locate(again.mesh, TABLES, (uint32_t)bore.at[0], (uint32_t)bore.at[1], (uint32_t)bore.at[2]);
    if (found.refusal != GANTRY_ACCEPTED) {
        printf("locate refused %u\n", (unsigned)found.refusal);
        return 1;
    }
    print_shares(found.cell, bore);
    print_correction("the bore", again.mesh, bore);
    return 0;
}
