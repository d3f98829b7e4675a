/* Lists the packets of a file over the static library, in the lines of tools/list: an example for callers in C.
 *
 *     cc -std=c99 -I crates/face samples/list.c "$(tools/archive)" -o list && ./list samples/good.bin */
#include "face.h"

#include <inttypes.h>
#include <stdio.h>
#include <stdlib.h>

enum { MOST = 1 << 16, PARTS = 2048 };

static uint8_t input[MOST + 1];
static uint64_t parts[PARTS * CABLEFINCH_PART_WORDS];

static void print_id(const uint64_t *words) {
    uint8_t id[CABLEFINCH_GUID_BYTES], text[CABLEFINCH_GUID_TEXT_BYTES];
    cablefinch_outcome o;
    cablefinch_guid_from_parts(&o, (uint32_t)words[0], (uint32_t)words[1], (uint32_t)words[2], (uint32_t)words[3],
                               id, sizeof id);
    cablefinch_guid_print(&o, id, sizeof id, text, sizeof text);
    fwrite(text, 1, (size_t)o.count, stdout);
}

int main(int count, char **words) {
    FILE *file = count == 2 ? fopen(words[1], "rb") : NULL;
    size_t n, at = 0;
    if (file == NULL) {
        fputs("list: the name of one file\n", stderr);
        return 2;
    }
    n = fread(input, 1, sizeof input, file);
    fclose(file);
    if (n > MOST) {
        puts("too long");
        return 0;
    }
    while (at < n) {
        cablefinch_outcome o;
        uint64_t index, found;
        cablefinch_decode_with(&o, CABLEFINCH_ARCHIVE, input + at, n - at, MOST, PARTS, parts,
                PARTS * CABLEFINCH_PART_WORDS);
        if (o.kind == CABLEFINCH_MORE) {
            printf("more %zu\n", at);
            return 0;
        }
        if (o.kind == CABLEFINCH_REFUSED) {
            printf("refused %zu %" PRIu64 "\n", at, o.number);
            return 0; /* and no byte behind it is looked at */
        }
        found = o.values[6];
        printf("packet %zu %" PRIu64 " %" PRIu64 " ", at, o.values[0], o.values[1]);
        print_id(o.values + 2);
        printf(" %" PRIu64 "\n", found);
        for (index = 0; index < found; index++) {
            uint64_t length = parts[index * CABLEFINCH_PART_WORDS + 1];
            size_t filled = (size_t)found * CABLEFINCH_PART_WORDS;
            if (cablefinch_part_state(n - at, parts, filled, (size_t)index) == CABLEFINCH_PART_NULL)
                printf("part %" PRIu64 " null\n", index);
            else
                printf("part %" PRIu64 " %" PRIu64 " %s\n", index, length,
                        parts[index * CABLEFINCH_PART_WORDS + 2] != 0 ? "guarded" : "bare");
        }
        at += (size_t)o.count;
    }
    printf("end %zu\n", at);
    return 0;
}
