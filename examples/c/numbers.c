/*
 * The cells of parked heads are stored by number. A node that goes in replaces some cells, and all others keep their numbers. A look says
 * beforehand which stored numbers go; the corners say it afterwards too. At the end all cells are visited.
 */
#include <stdio.h>

#include "gantry.h"

enum { POINTS = 64, CELLS = 256, HEADS = 3 };

static uint32_t points[3 * POINTS];
static uint16_t corners[4 * CELLS];
static uint16_t neighbours[4 * CELLS];
static uint16_t work[3 * CELLS];
static int32_t corrections[3 * POINTS];
static uint8_t marks[CELLS];

#define TABLES points, 3 * POINTS, corners, 4 * CELLS, neighbours, 4 * CELLS, work, 3 * CELLS
#define CORRECTIONS corrections, 3 * POINTS

/* A parked head, its cell's number, and the point count at which that was stored. */
typedef struct { uint32_t x, y, z, cell, points; } parked;

static parked heads[HEADS] = {{1000, 500, 400, 0, 0}, {300, 900, 300, 0, 0}, {1500, 900, 500, 0, 0}};

static void store(gantry_mesh mesh, parked *head)
{
    gantry_located found = gantry_locate(mesh, TABLES, head->x, head->y, head->z);

    head->cell = found.cell; /* every position of the box is located */
    head->points = mesh.points;
}

/* A cell made since then has a later point as a corner, and the corners of a freed number are GANTRY_NONE. */
static int is_good(const parked *head)
{
    int i;

    for (i = 0; i < 4; i++)
        if (corners[4 * head->cell + i] >= head->points)
            return 0;
    return 1;
}

/* Locates only the heads whose stored number is of no use any more. */
static void renew(gantry_mesh mesh)
{
    int i;

    for (i = 0; i < HEADS; i++) {
        uint32_t stored = heads[i].cell;
        if (is_good(&heads[i])) {
            printf("  head %d: cell %u still\n", i, (unsigned)stored);
        } else {
            store(mesh, &heads[i]);
            printf("  head %d: cell %u is gone, cell %u now\n", i, (unsigned)stored, (unsigned)heads[i].cell);
        }
    }
}

static int64_t volume(uint32_t cell)
{
    int32_t at[4][3];
    int i, axis;

    for (i = 0; i < 4; i++)
        for (axis = 0; axis < 3; axis++)
            at[i][axis] = (int32_t)points[3 * corners[4 * cell + i] + axis];
    return gantry_volume6(at[0][0], at[0][1], at[0][2], at[1][0], at[1][1], at[1][2],
                          at[2][0], at[2][1], at[2][2], at[3][0], at[3][1], at[3][2]);
}

/* The cells are the numbers below the used length that are not freed. */
static void visit_all(gantry_mesh mesh)
{
    uint32_t cell, visited = 0;
    int64_t sum = 0;

    for (cell = 0; cell < mesh.used; cell++) {
        if (corners[4 * cell] == GANTRY_NONE)
            continue;
        visited++;
        sum += volume(cell);
    }
    printf("visited %u of %u numbers; %u cells, six-fold volumes %lld\n", (unsigned)visited, (unsigned)mesh.used, (unsigned)mesh.cells,
           (long long)sum);
}

int main(void)
{
    static const uint32_t measured[] = {500, 400, 300, 1500, 400, 300, 1000, 900, 600};
    static const uint32_t later[] = {1800, 300, 200, 400, 1000, 400};
    int i;

    gantry_started start = gantry_start(2000, 1200, 800, TABLES, CORRECTIONS);
    gantry_listed list = gantry_insert_list(start.mesh, TABLES, CORRECTIONS, measured, sizeof measured / sizeof measured[0]);
    if (start.refusal != GANTRY_ACCEPTED || list.refusal != GANTRY_ACCEPTED) {
        printf("refused %u %u\n", (unsigned)start.refusal, (unsigned)list.refusal);
        return 1;
    }
    for (i = 0; i < HEADS; i++)
        store(list.mesh, &heads[i]);

    gantry_looked look = gantry_look(list.mesh, TABLES, CORRECTIONS, marks, CELLS, 1000, 600, 400);
    printf("a look: refusal %u, %u cells would go\n", (unsigned)look.refusal, (unsigned)look.after);
    for (i = 0; i < HEADS; i++)
        printf("  head %d: cell %u would %s\n", i, (unsigned)heads[i].cell, marks[heads[i].cell] == 1 ? "go" : "stay");

    gantry_inserted node = gantry_insert_marked(list.mesh, TABLES, CORRECTIONS, marks, CELLS, 1000, 600, 400);
    printf("the node: refusal %u, %u cells made\n", (unsigned)node.refusal, (unsigned)node.made);
    renew(node.mesh);

    list = gantry_insert_list(node.mesh, TABLES, CORRECTIONS, later, sizeof later / sizeof later[0]);
    printf("two nodes more: refusal %u, %u went in\n", (unsigned)list.refusal, (unsigned)list.place);
    renew(list.mesh);
    visit_all(list.mesh);
    return 0;
}
