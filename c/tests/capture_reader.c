/* Reads the files 0 to COUNT - 1 of a folder with the server's reader of captures: `capture_reader FOLDER COUNT` prints
   for each file the number of its frames, their digest, and whether the reader reached the file's end. */
#include <inttypes.h>

#include "capture.h"
#include "check.h"

enum { ROOM = 1 << 24 };

static uint64_t digest(uint64_t value, const uint8_t *bytes, size_t length)
{
    for (size_t k = 0; k < length; k++)
        value = (value ^ bytes[k]) * UINT64_C(0x100000001B3);
    return (value ^ length) * UINT64_C(0x100000001B3);
}

static void tell(FILE *file, uint8_t *frame)
{
    struct capture_reader reader;
    enum capture_next next = CAPTURE_BROKEN;
    uint64_t value = UINT64_C(0xCBF29CE484222325);
    unsigned count = 0;
    size_t length;
    if (capture_open(&reader, file))
        while ((next = capture_next(&reader, frame, ROOM, &length)) == CAPTURE_FRAME) {
            value = digest(value, frame, length);
            count++;
        }
    printf("%u %016" PRIx64 " %s\n", count, value, next == CAPTURE_END ? "end" : "broken");
}

int main(int words, char **word)
{
    static uint8_t frame[ROOM];
    char path[4096];
    CHECK(words == 3);
    for (long number = 0; number < atol(word[2]); number++) {
        snprintf(path, sizeof path, "%s/%ld", word[1], number);
        FILE *file = fopen(path, "rb");
        CHECK(file);
        tell(file, frame);
        fclose(file);
    }
    return 0;
}
