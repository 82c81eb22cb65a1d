/*
 * Two nodes are to be added to a finished mesh. Each is looked at first: which cells it would replace. The first goes in with the marks of
 * its look; the second's marks are then out of date, so it is looked at again.
 */
#include <stdio.h>

#include "gantry.h"

enum { POINTS = 64, CELLS = 256 };

static uint32_t points[3 * POINTS];
static uint16_t corners[4 * CELLS];
static uint16_t neighbours[4 * CELLS];
static uint16_t work[3 * CELLS];
static int32_t corrections[3 * POINTS];

#define TABLES points, 3 * POINTS, corners, 4 * CELLS, neighbours, 4 * CELLS, work, 3 * CELLS
#define CORRECTIONS corrections, 3 * POINTS

/* A node with what a look at it marked. */
typedef struct { const char *name; uint32_t x, y, z; uint8_t marks[CELLS]; } planned;

static void look(gantry_mesh mesh, planned *node)
{
    gantry_looked looked = gantry_look(mesh, TABLES, CORRECTIONS, node->marks, CELLS, node->x, node->y, node->z);
    uint32_t cell;

    printf("look at the %s node: refusal %u; point %u, %u of %u cells would be replaced by %u:", node->name, (unsigned)looked.refusal,
           (unsigned)looked.point, (unsigned)looked.after, (unsigned)mesh.cells, (unsigned)looked.made);
    /* A freed number's mark is 0. */
    for (cell = 0; cell < mesh.used && looked.refusal == GANTRY_ACCEPTED; cell++)
        if (node->marks[cell] == 1)
            printf(" %u", (unsigned)cell);
    printf("\n");
}

static gantry_mesh insert(gantry_mesh mesh, const planned *node)
{
    gantry_inserted inserted = gantry_insert_marked(mesh, TABLES, CORRECTIONS, node->marks, CELLS, node->x, node->y, node->z);

    printf("insert the %s node: refusal %u; %u points, %u cells\n", node->name, (unsigned)inserted.refusal,
           (unsigned)inserted.mesh.points, (unsigned)inserted.mesh.cells);
    return inserted.mesh; /* the record as it was, where the node was refused */
}

int main(void)
{
    static const uint32_t measured[] = {500, 400, 300, 1500, 400, 300, 1000, 900, 600};
    static planned first = {"first", 1000, 600, 400, {0}}, second = {"second", 1200, 500, 300, {0}};

    gantry_started start = gantry_start(2000, 1200, 800, TABLES, CORRECTIONS);
    gantry_listed list = gantry_insert_list(start.mesh, TABLES, CORRECTIONS, measured, sizeof measured / sizeof measured[0]);
    gantry_mesh mesh = list.mesh;
    if (start.refusal != GANTRY_ACCEPTED || list.refusal != GANTRY_ACCEPTED) {
        printf("refused %u %u\n", (unsigned)start.refusal, (unsigned)list.refusal);
        return 1;
    }

    look(mesh, &first);
    look(mesh, &second);
    mesh = insert(mesh, &first);
    mesh = insert(mesh, &second); /* 14: some of the cells that its look marked are gone */
    look(mesh, &second);
    mesh = insert(mesh, &second);
    printf("check: %s\n", gantry_check(mesh, TABLES) ? "a mesh" : "no mesh");
    return 0;
}
