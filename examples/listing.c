/* Prints the listing of the records in a file. */
#include "gristpebble.h"
#include <stdio.h>

int main(int count, char **words)
{
    static uint8_t records[65536], out[GRISTPEBBLE_LISTING_BYTES];
    FILE *file = count == 2 ? fopen(words[1], "rb") : NULL;
    if (!file) {
        fprintf(stderr, "usage: listing FILE\n");
        return 2;
    }
    size_t length = fread(records, 1, sizeof records, file);
    uint64_t result = gristpebble_listing(records, length, out, sizeof out);
    if (gristpebble_refusal(result)) {
        printf("X %u\n", gristpebble_refusal(result));
        return 1;
    }
    fwrite(out, 1, (size_t)result, stdout);
    return 0;
}
