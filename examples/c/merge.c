/*
 * merge FIRST SECOND MERGED: two node files of one box become a third, whose nodes are printed. All memory is this program's; a merge
 * takes no tables of a mesh.
 */
#include <stdio.h>

#include "gantry.h"

enum { NODES = 1016, LONGEST = 12 * NODES + 20, INPUT = 65536 };

static uint8_t first[INPUT + 1], second[INPUT + 1], merged[LONGEST];
static uint32_t nodes[3 * NODES];

/* A file that is cut may be a node file too, of other nodes: so it is read whole, with its note, or not at all. */
static int read_file(const char *name, uint8_t *bytes, size_t *length)
{
    FILE *file = fopen(name, "rb");
    int is_read = 0;

    if (file != NULL) {
        *length = fread(bytes, 1, INPUT + 1, file);
        is_read = !ferror(file) && *length <= INPUT;
        fclose(file);
    }
    if (!is_read)
        printf("%s could not be read, or has more than %d bytes\n", name, INPUT);
    return is_read;
}

static int write_file(const char *name, const uint8_t *bytes, size_t length)
{
    FILE *file = fopen(name, "wb");
    if (file == NULL)
        return 0;
    size_t written = fwrite(bytes, 1, length, file);
    return fclose(file) == 0 && written == length;
}

int main(int argc, char **argv)
{
    size_t first_length, second_length;
    uint32_t i;

    if (argc != 4) {
        printf("usage: merge FIRST SECOND MERGED\n");
        return 2;
    }
    if (!read_file(argv[1], first, &first_length) || !read_file(argv[2], second, &second_length))
        return 1;
    gantry_written written = gantry_merge(first, first_length, second, second_length, merged, LONGEST);
    if (written.refusal != GANTRY_ACCEPTED) {
        printf("refused %u\n", (unsigned)written.refusal);
        return 1;
    }
    if (!write_file(argv[3], merged, written.bytes)) {
        printf("%s could not be written\n", argv[3]);
        return 1;
    }

    gantry_read read = gantry_read_nodes(merged, written.bytes, nodes, 3 * NODES);
    printf("%u bytes: box %u %u %u, %u nodes\n", (unsigned)written.bytes, (unsigned)read.x, (unsigned)read.y, (unsigned)read.z,
           (unsigned)read.count);
    for (i = 0; i < read.count; i++)
        printf("%u %u %u\n", (unsigned)nodes[3 * i], (unsigned)nodes[3 * i + 1], (unsigned)nodes[3 * i + 2]);
    return 0;
}
