/* Prints the functions of a Rust file, each with the line that it starts on. In this folder, after `./run --lib` at the top:
 *
 * cc -o outline outline.c heap.c ../../crates/ras_c/out/libras_c.a && ./outline FILE
 */
#include "ras.h"
#include <stdio.h>

#define TOKEN (1u << 31)

int main(int argc, char **argv) {
    FILE *file = argc == 2 ? fopen(argv[1], "rb") : NULL;
    if (!file) return fprintf(stderr, "usage: outline FILE\n"), 2;
    if (ras_c_version() != RAS_VERSION)
        return fprintf(stderr, "outline: the library has the number %08x, ras.h %08x\n", ras_c_version(), RAS_VERSION), 1;
    static uint8_t text[1 << 24];
    size_t length = fread(text, 1, sizeof text, file);
    fclose(file);

    ras_handle parse = {0};
    ras_tree_rows tree = {0};
    ras_counts counts = {0, 0, 0, 0};
    uint32_t status = ras_c_parse(text, length, 2024, &parse);
    /* Without room the errors are only counted. Then the library hands over the tree. */
    if (status == RAS_OK) status = ras_c_errors(&parse, RAS_ALL_ERRORS, NULL, 0, NULL, 0, &counts);
    if (status == RAS_OK || status == RAS_NO_ROOM) status = ras_c_take_tree(&parse, &tree);
    ras_c_free(&parse);
    if (status != RAS_OK) return fprintf(stderr, "outline: status %u\n", status), 1;

    const ras_flat_row *rows = tree.rows;
    uint32_t fn = ras_c_kind_of_name((const uint8_t *)"FN", 2), name = ras_c_kind_of_name((const uint8_t *)"NAME", 4);
    unsigned line = 1;
    size_t at = 0;
    for (size_t n = 0; n < tree.row_count; n++) {
        if (rows[n].kind != name || rows[rows[n].parent].kind != fn) continue;
        for (; at < rows[n].start; at++) line += tree.text[at] == '\n';
        size_t end = rows[n].subtree_end < tree.row_count ? rows[rows[n].subtree_end].start : tree.text_len;
        printf("%u: %.*s\n", line, (int)(end - rows[n].start), tree.text + rows[n].start);
    }
    printf("%u errors\n", counts.errors);
    ras_c_free_tree(&tree);
    return 0;
}
