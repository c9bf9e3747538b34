/* What a line-end station does with a program: reads the map and the image from standard input, foretells, makes room for
 * the table, admits, and, if admitted, prints its listing page and runs one pass over a recording of zeros from reset. Build,
 * from the repository's root, after `tools/library`:
 *   cc -Iinclude hosts/c/station.c target/staticlib/libriptide.a -o target/station
 */
#include <stdio.h>
#include <stdlib.h>
#include <string.h>

#include "riptide.h"

#define MOST_INPUT (RIPTIDE_MAP_BYTES + RIPTIDE_MOST_IMAGE_BYTES)
#define PAIRS 1000

int main(void)
{
    static uint8_t input[MOST_INPUT + 1], page[RIPTIDE_PAGE_BYTES(RIPTIDE_MOST_IMAGE_BYTES)];
    uint8_t state[RIPTIDE_STATE_BYTES];
    uint8_t recording[RIPTIDE_PAIR_BYTES * PAIRS], trace[RIPTIDE_TRACE_RECORD_BYTES * PAIRS];
    size_t length = fread(input, 1, sizeof input, stdin);
    if (length < RIPTIDE_MAP_BYTES || length > MOST_INPUT) {
        puts("the input is a map of 128 bytes and an image of at most 16,384");
        return 2;
    }
    const uint8_t *map = input, *image = input + RIPTIDE_MAP_BYTES;
    size_t image_length = length - RIPTIDE_MAP_BYTES;

    uint64_t told = riptide_foretell(image, image_length);
    unsigned number = RIPTIDE_NUMBER(told);
    if (number != 0) {
        printf("refused %u: %s\n", number, riptide_text(number));
        return 1;
    }
    uint8_t *table = malloc(RIPTIDE_TABLE_LENGTH(told));
    if (table == NULL) {
        puts("no room for the table");
        return 2;
    }
    /* map and table have their lengths, so nothing is refused at the door any more */
    uint64_t answer = riptide_admit(image, image_length, map, RIPTIDE_MAP_BYTES, table, RIPTIDE_TABLE_LENGTH(told));
    free(table);
    printf("sweeps %u of at most %u\n", RIPTIDE_SWEEPS(answer), RIPTIDE_SWEEP_BOUND(told));
    number = RIPTIDE_NUMBER(answer);
    if (number != 0) {
        printf("refused %u depth %u address %u: %s\n", number, RIPTIDE_DEPTH(answer), RIPTIDE_ADDRESS(answer),
               riptide_text(number));
        return 1;
    }
    uint64_t sets = riptide_count_sets(map, RIPTIDE_MAP_BYTES);
    printf("admitted, left %u %u right %u %u\n", RIPTIDE_LEFT_READABLE(sets), RIPTIDE_LEFT_WRITABLE(sets),
           RIPTIDE_RIGHT_READABLE(sets), RIPTIDE_RIGHT_WRITABLE(sets));
    riptide_list(image, image_length, page, RIPTIDE_PAGE_BYTES(image_length));
    fwrite(page, 1, RIPTIDE_PAGE_BYTES(image_length), stdout);

    memset(recording, 0, sizeof recording);
    riptide_reset(state, sizeof state);
    answer = riptide_run(image, image_length, map, RIPTIDE_MAP_BYTES, state, sizeof state, recording, sizeof recording,
                         trace, sizeof trace);
    printf("ran %llu steps, stop %u\n", (unsigned long long)RIPTIDE_COUNT(answer), RIPTIDE_NUMBER(answer));
    return 0;
}
