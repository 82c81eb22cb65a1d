/* The layouts and calls that src/raw.rs declares, asked of gantry.h, as C11 and as C++: cc -fsyntax-only -I DIRECTORY layout.c */
#include <assert.h>
#include <stdbool.h>
#include <stddef.h>
#include <stdint.h>

#include "gantry.h"

#define AT(type, field, place) static_assert(offsetof(type, field) == (place), #type "." #field)
#define SIZE(type, bytes) static_assert(sizeof(type) == (bytes), #type)

SIZE(gantry_mesh, 28);
AT(gantry_mesh, x, 0);
AT(gantry_mesh, y, 4);
AT(gantry_mesh, z, 8);
AT(gantry_mesh, points, 12);
AT(gantry_mesh, cells, 16);
AT(gantry_mesh, chain, 20);
AT(gantry_mesh, used, 24);
SIZE(gantry_started, 32);
AT(gantry_started, refusal, 0);
AT(gantry_started, mesh, 4);
SIZE(gantry_inserted, 56);
AT(gantry_inserted, refusal, 0);
AT(gantry_inserted, mesh, 4);
AT(gantry_inserted, point, 32);
AT(gantry_inserted, before, 36);
AT(gantry_inserted, after, 40);
AT(gantry_inserted, made, 44);
AT(gantry_inserted, least, 48);
SIZE(gantry_looked, 32);
AT(gantry_looked, refusal, 0);
AT(gantry_looked, point, 4);
AT(gantry_looked, before, 8);
AT(gantry_looked, after, 12);
AT(gantry_looked, made, 16);
AT(gantry_looked, least, 24);
SIZE(gantry_listed, 36);
AT(gantry_listed, refusal, 0);
AT(gantry_listed, mesh, 4);
AT(gantry_listed, place, 32);
SIZE(gantry_located, 8);
AT(gantry_located, refusal, 0);
AT(gantry_located, cell, 4);
SIZE(gantry_counted, 8);
AT(gantry_counted, refusal, 0);
AT(gantry_counted, count, 4);
SIZE(gantry_corrected, 16);
AT(gantry_corrected, refusal, 0);
AT(gantry_corrected, x, 4);
AT(gantry_corrected, y, 8);
AT(gantry_corrected, z, 12);
SIZE(gantry_sphere, 16);
AT(gantry_sphere, refusal, 0);
AT(gantry_sphere, answer, 1);
AT(gantry_sphere, t, 8);
SIZE(gantry_read, 20);
AT(gantry_read, refusal, 0);
AT(gantry_read, x, 4);
AT(gantry_read, y, 8);
AT(gantry_read, z, 12);
AT(gantry_read, count, 16);
SIZE(gantry_written, 8);
AT(gantry_written, refusal, 0);
AT(gantry_written, bytes, 4);

static_assert(GANTRY_NONE == 65535, "GANTRY_NONE");
static_assert(GANTRY_SPHERE_INSIDE == 1, "GANTRY_SPHERE_INSIDE");
static_assert(GANTRY_SPHERE_OUTSIDE == 2, "GANTRY_SPHERE_OUTSIDE");

/* A second declaration is an error where it differs from the header's; in C++ only with C linkage, else it is an overload. */
#ifdef __cplusplus
extern "C" {
#endif
#define TABLES uint32_t *, size_t, uint16_t *, size_t, uint16_t *, size_t, uint16_t *, size_t
#define CORRECTIONS int32_t *, size_t
#define CORRECTIONS_READ const int32_t *, size_t
#define SIGNED_POSITION int32_t, int32_t, int32_t
#define POSITION uint32_t, uint32_t, uint32_t
int64_t gantry_volume6(SIGNED_POSITION, SIGNED_POSITION, SIGNED_POSITION, SIGNED_POSITION);
gantry_sphere gantry_sphere_test(POSITION, POSITION, POSITION, POSITION, POSITION);
gantry_started gantry_start(POSITION, TABLES, CORRECTIONS);
gantry_inserted gantry_insert(gantry_mesh, TABLES, CORRECTIONS, POSITION);
gantry_inserted gantry_insert_answers(gantry_mesh, TABLES, CORRECTIONS, const uint8_t *, size_t, POSITION);
gantry_looked gantry_look(gantry_mesh, TABLES, CORRECTIONS_READ, uint8_t *, size_t, POSITION);
gantry_inserted gantry_insert_marked(gantry_mesh, TABLES, CORRECTIONS, const uint8_t *, size_t, POSITION);
gantry_listed gantry_insert_list(gantry_mesh, TABLES, CORRECTIONS, const uint32_t *, size_t);
gantry_located gantry_locate(gantry_mesh, TABLES, POSITION);
gantry_counted gantry_drive_cells(gantry_mesh, TABLES, POSITION, POSITION, uint16_t *, size_t);
gantry_corrected gantry_correction(gantry_mesh, TABLES, CORRECTIONS_READ, POSITION);
uint8_t gantry_set_correction(gantry_mesh, TABLES, CORRECTIONS, uint32_t, SIGNED_POSITION);
bool gantry_check(gantry_mesh, TABLES);
gantry_read gantry_read_nodes(const uint8_t *, size_t, uint32_t *, size_t);
gantry_written gantry_write_nodes(gantry_mesh, TABLES, uint8_t *, size_t);
gantry_written gantry_merge(const uint8_t *, size_t, const uint8_t *, size_t, uint8_t *, size_t);
#ifdef __cplusplus
}
#endif
