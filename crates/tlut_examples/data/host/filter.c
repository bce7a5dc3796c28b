/*
 * Retunes the filter of examples/fir: gives its three coefficients new values, and prints the configuration bits to rewrite.
 *
 *     filter PACK C0 C1 C2 [C0 C1 C2]..
 *
 * PACK is made by `./tlut map 4 examples/fir/fir.blif examples/fir/fir.par TEMPLATE PACK`. A coefficient is 0 to 7. Its
 * three bits are parameters of the pack, the lowest first, in the order of fir.par.
 */
#include <inttypes.h>
#include <stdio.h>
#include <stdlib.h>

#include "tlut_host.h"

enum { COEFFICIENTS = 3, DIGITS = 3, PARAMETERS = COEFFICIENTS * DIGITS };

static uint8_t *read_file(const char *name, size_t *length)
{
    FILE *file = fopen(name, "rb");
    uint8_t *bytes = NULL;
    size_t room = 0;
    *length = 0;
    if (file == NULL)
        return NULL;
    do {
        room = 2 * room + 4096;
        uint8_t *more = realloc(bytes, room);
        if (more == NULL)
            break;
        bytes = more;
        *length += fread(bytes + *length, 1, room - *length, file);
    } while (*length == room);
    fclose(file);
    return bytes;
}

static int retune(tlut_host *host, char **coefficients)
{
    static tlut_write writes[4096];
    tlut_setting settings[PARAMETERS];
    size_t count = 0;
    for (int place = 0; place < PARAMETERS; place++) {
        long coefficient = strtol(coefficients[place / DIGITS], NULL, 10);
        settings[place].parameter = (uint16_t)place;
        settings[place].bit = (coefficient >> (place % DIGITS)) & 1;
    }
    tlut_status status = tlut_set(host, settings, PARAMETERS);
    if (status == TLUT_DONE)
        status = tlut_writes(host, writes, sizeof writes / sizeof *writes, &count);
    if (status != TLUT_DONE) {
        fprintf(stderr, "filter: status %" PRIu32 "\n", status);
        return 1;
    }
    printf("set %s %s %s writes %zu", coefficients[0], coefficients[1], coefficients[2], count);
    for (size_t place = 0; place < count && place < sizeof writes / sizeof *writes; place++)
        printf(" %" PRIu32 "=%d", writes[place].address, writes[place].bit);
    printf("\n");
    return 0;
}

int main(int argc, char **argv)
{
    tlut_host host = TLUT_HOST_CLOSED;
    tlut_refusal refusal = {0, 0};
    size_t length;
    int failed = 0;
    if (argc < 2 || (argc - 2) % COEFFICIENTS != 0) {
        fprintf(stderr, "usage: filter PACK [C0 C1 C2]..\n");
        return 2;
    }
    uint8_t *pack = read_file(argv[1], &length);
    if (pack == NULL) {
        fprintf(stderr, "filter: can't read %s\n", argv[1]);
        return 2;
    }
    tlut_status status = tlut_open(pack, length, &host, &refusal);
    free(pack);
    if (status != TLUT_DONE) {
        fprintf(stderr, "filter: status %" PRIu32 ", rule K%" PRIu32 " at byte %" PRIu32 "\n", status, refusal.rule, refusal.offset);
        return 1;
    }
    for (int place = 2; place < argc && !failed; place += COEFFICIENTS)
        failed = retune(&host, argv + place);
    tlut_close(&host);
    return failed;
}
