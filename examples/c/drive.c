/*
 * Which cells does the head touch on a straight drive? They are listed for a drive between two positions, for one through a node, and for a
 * head that stays where it is. An output that is too short, and an end outside the box, are refused.
 */
#include <stdio.h>

#include "gantry.h"

enum { POINTS = 64, CELLS = 256 };

static uint32_t points[3 * POINTS];
static uint16_t corners[4 * CELLS];
static uint16_t neighbours[4 * CELLS];
static uint16_t work[3 * CELLS];
static int32_t corrections[3 * POINTS];
static uint16_t on_drive[CELLS]; /* room for as many cells as a mesh in these tables can have */

#define TABLES points, 3 * POINTS, corners, 4 * CELLS, neighbours, 4 * CELLS, work, 3 * CELLS
#define CORRECTIONS corrections, 3 * POINTS

typedef struct { uint32_t x, y, z; } position;

static void drive(const char *what, gantry_mesh mesh, position a, position b, size_t room)
{
    gantry_counted listed = gantry_drive_cells(mesh, TABLES, a.x, a.y, a.z, b.x, b.y, b.z, on_drive, room);
    uint32_t k;

    printf("%s: refusal %u; %u of %u cells:", what, (unsigned)listed.refusal, (unsigned)listed.count, (unsigned)mesh.cells);
    for (k = 0; k < listed.count; k++)
        printf(" %u", (unsigned)on_drive[k]);
    printf("\n");
}

int main(void)
{
    static const uint32_t measured[] = {500, 400, 300, 1500, 400, 300, 1000, 900, 600};
    const position a = {200, 300, 500}, b = {1900, 700, 300}, node = {500, 400, 300}, behind = {800, 500, 100}, above = {1900, 700, 900};

    gantry_started start = gantry_start(2000, 1200, 800, TABLES, CORRECTIONS);
    gantry_listed list = gantry_insert_list(start.mesh, TABLES, CORRECTIONS, measured, sizeof measured / sizeof measured[0]);
    gantry_mesh mesh = list.mesh;
    if (start.refusal != GANTRY_ACCEPTED || list.refusal != GANTRY_ACCEPTED) {
        printf("refused %u %u\n", (unsigned)start.refusal, (unsigned)list.refusal);
        return 1;
    }

    drive("from a to b", mesh, a, b, CELLS);
    drive("back", mesh, b, a, CELLS);                   /* the same list */
    drive("through a node", mesh, a, behind, CELLS);    /* with the cells that it touches there alone */
    drive("at the node", mesh, node, node, CELLS);      /* the cells that hold it */
    drive("in little room", mesh, a, b, 3);             /* 10 */
    drive("out of the box", mesh, a, above, CELLS);     /* 4 */
    return 0;
}
