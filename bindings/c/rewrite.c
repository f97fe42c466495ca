/* Replaces what matches a rule in a Rust file, such as '$a == None ==>> $a.is_none()'. In this folder, after `./run --lib` at the top:
 *
 * cc -o rewrite rewrite.c heap.c ../../crates/ras_c/out/libras_c.a && ./rewrite RULE FILE
 */
#include "ras.h"
#include <stdio.h>
#include <stdlib.h>
#include <string.h>

static uint8_t text[1 << 24], message[256];

static const char *why(uint32_t status) {
    switch (status) {
    case RAS_NO_TEMPLATE: return "the rule has no template";
    case RAS_LOSES_COMMENT: return "a comment would be lost";
    case RAS_READS_OTHERWISE: return "the new text would be read otherwise than it is meant";
    case RAS_NOT_UTF8: return "the text is not UTF-8";
    case RAS_TOO_LONG: return "the text is too long";
    default: return "out of memory";
    }
}

int main(int argc, char **argv) {
    FILE *file = argc == 3 ? fopen(argv[2], "rb") : NULL;
    if (!file) return fprintf(stderr, "usage: rewrite RULE FILE\n"), 2;
    if (ras_c_version() != RAS_VERSION)
        return fprintf(stderr, "rewrite: the library has the number %08x, ras.h %08x\n", ras_c_version(), RAS_VERSION), 1;
    size_t length = fread(text, 1, sizeof text, file), room = length + length / 4 + 1024, matches = 0;
    fclose(file);

    const uint8_t *rule = (const uint8_t *)argv[1];
    uint32_t count = 0, status = RAS_NO_MEMORY;
    ras_rule_fault fault = {0, 0};
    uint8_t *out = (uint8_t *)malloc(room);
    while (out) {
        status = ras_c_rewrite(rule, strlen(argv[1]), false, text, length, 2024, out, room, &count, &matches, message, sizeof message, &fault);
        if (status != RAS_NO_ROOM) break;
        free(out);
        out = (uint8_t *)malloc(room = count);
        status = RAS_NO_MEMORY;
    }
    if (status == RAS_BAD_RULE)
        fprintf(stderr, "rewrite: byte %zu of the rule: %.*s\n", fault.offset, fault.message <= sizeof message ? (int)fault.message : 0, (char *)message);
    else if (status != RAS_OK)
        fprintf(stderr, "rewrite: %s\n", why(status));
    else if (matches && (!(file = fopen(argv[2], "wb")) || (fwrite(out, 1, count, file) != count) | (fclose(file) != 0)))
        fprintf(stderr, "rewrite: cannot write %s\n", argv[2]), status = RAS_NO_PLACE;
    else
        printf("%zu matches\n", matches);
    free(out);
    return status != RAS_OK;
}
