/* A pit unit in C: the report of a script, the word of a reading, and what is refused. */
#include "gelmuska.h"

#include <inttypes.h>
#include <stdio.h>

static uint8_t script[GELMUSKA_MOST_SCRIPT + 1];
static uint8_t page[GELMUSKA_LEAST_PAGE];

static int print_report(const char *path) {
    FILE *file = fopen(path, "rb");
    if (file == NULL) {
        perror(path);
        return 1;
    }
    size_t read = fread(script, 1, sizeof script, file);
    fclose(file);
    uint64_t length = 0;
    uint32_t status = gelmuska_report(script, read, page, sizeof page, &length);
    if (status != 0) {
        printf("report: refused %" PRIu32 "\n", status);
        return 1;
    }
    fwrite(page, 1, (size_t)length, stdout);
    return 0;
}

/* Axle 2, right, 12,500 N, 6.40 bar, under label 5. */
static void print_reading(void) {
    const struct gelmuska_reading reading = {.axle = 2, .side = 1, .force = 1250, .pressure = 640};
    uint64_t payload = 0;
    uint32_t packed = gelmuska_reading_pack(&reading, &payload);
    const struct gelmuska_word parts = {.label = 5, .kind = 2, .payload = payload};
    uint64_t word = 0;
    uint32_t joined = gelmuska_word_pack(&parts, &word);
    printf("reading: %" PRIu32 " %" PRIu32 " %016" PRIX64 "\n", packed, joined, word);

    struct gelmuska_word carried = {0};
    struct gelmuska_reading back = {0};
    uint32_t whole = gelmuska_word_read(word, &carried);
    uint32_t unpacked = gelmuska_reading_unpack(carried.payload, &back);
    printf("carried: %" PRIu32 " %" PRIu32 " label %u, kind %u, axle %u, side %u, force %u, pressure %u\n", whole, unpacked,
           carried.label, carried.kind, back.axle, back.side, back.force, back.pressure);
}

/* A refused call leaves what it would have written. */
static void print_refusals(void) {
    struct gelmuska_word parts = {.label = 7, .kind = 7, .payload = 7};
    uint32_t spoilt = gelmuska_word_read(0x0100000000001EF0, &parts);
    printf("not whole: %" PRIu32 " label %u\n", spoilt, parts.label);

    const struct gelmuska_command too_fast = {.code = 2, .argument = 61};
    uint64_t payload = 9;
    uint32_t code = gelmuska_command_pack(&too_fast, &payload);
    printf("too fast: %" PRIu32 " payload %" PRIu64 "\n", code, payload);

    uint64_t length = 9;
    uint32_t small = gelmuska_report(script, 0, page, sizeof page - 1, &length);
    printf("small page: %" PRIu32 " length %" PRIu64 "\n", small, length);
}

int main(int count, char **arguments) {
    if (count != 2) {
        fprintf(stderr, "usage: pit SCRIPT\n");
        return 2;
    }
    if (print_report(arguments[1]) != 0) {
        return 1;
    }
    print_reading();
    print_refusals();
    return 0;
}
