/*
 * Counts the allocations and frees of every function of the header: on an open handle, on a closed one, and with arguments that are
 * refused. Only the two that open allocate, only the two that close free, and these free all that the other two allocated.
 */
#include <string.h>

#include "counted.h"
#include "tlut_host.h"

static unsigned long wrong;

static void expect(bool holds, const char *text, int line)
{
    if (!holds) {
        wrong++;
        fprintf(stderr, "line %d: %s\n", line, text);
    }
}

#define EXPECT(holds) expect((holds), #holds, __LINE__)

/* A call that returns this status, and neither allocates nor frees. */
#define QUIET(status, call)                                                                          \
    do {                                                                                             \
        unsigned long made = allocations + frees;                                                    \
        expect((call) == (status), #call " has another status", __LINE__);                           \
        expect(allocations + frees == made, #call " allocates or frees", __LINE__);                  \
    } while (0)

/* Room for what calls hand out. */
static tlut_write writes[1 << 16];
static tlut_setting settings[1 << 16];
static bool bits[1 << 16];
static uint8_t name[1 << 16];

/* Settings of all parameters, to values that a turn determines, and one that no pack has. */
static void make_settings(size_t parameters, size_t turn)
{
    for (size_t place = 0; place <= parameters; place++) {
        settings[place].parameter = (uint16_t)place;
        settings[place].bit = (place + turn) % 3 != 0;
    }
}

/* The functions that change something, with settings that are taken, and with each kind that isn't. */
static void change(tlut_host *host, tlut_status open, size_t parameters, size_t addresses)
{
    tlut_status closed = open == TLUT_DONE ? TLUT_RANGE : TLUT_CLOSED, order = open == TLUT_DONE ? TLUT_ORDER : TLUT_CLOSED;
    tlut_setting twice[] = {{0, true}, {0, false}};
    for (size_t turn = 0; turn < 4; turn++) {
        make_settings(parameters, turn);
        QUIET(open, tlut_set(host, settings, parameters));
        QUIET(open, tlut_set(host, settings, 0));
        QUIET(closed, tlut_set(host, settings, parameters + 1));
        QUIET(order, tlut_set(host, twice, 2));
        QUIET(open, tlut_upset(host, (uint32_t)turn));
        QUIET(closed, tlut_upset(host, (uint32_t)addresses));
        QUIET(open, tlut_scrub(host));
        QUIET(open, tlut_scrub(host));
    }
}

/* The functions that hand something out. */
static void read_all(tlut_host *host, tlut_status open, size_t parameters, size_t addresses)
{
    tlut_status closed = open == TLUT_DONE ? TLUT_RANGE : TLUT_CLOSED;
    size_t count = 0, number = 0;
    bool bit = false;
    QUIET(open, tlut_counts(host, &count, &number));
    QUIET(open, tlut_name(host, 0, name, sizeof name, &count));
    QUIET(closed, tlut_name(host, parameters, name, sizeof name, &number));
    QUIET(open, tlut_number(host, name, count, &number));
    QUIET(closed, tlut_number(host, name, 0, &number));
    QUIET(open, tlut_writes(host, writes, addresses, &count));
    QUIET(open, tlut_writes(host, writes, 0, &count));
    QUIET(open, tlut_image(host, bits, addresses, &count));
    QUIET(open, tlut_value(host, 0, &bit));
    QUIET(closed, tlut_value(host, (uint16_t)parameters, &bit));
    QUIET(open, tlut_values(host, bits, parameters, &count));
}

/* The functions at a limited rate. */
static void pace(tlut_paced *device, tlut_status open, size_t parameters, size_t addresses)
{
    tlut_status closed = open == TLUT_DONE ? TLUT_RANGE : TLUT_CLOSED, order = open == TLUT_DONE ? TLUT_ORDER : TLUT_CLOSED;
    tlut_setting twice[] = {{0, true}, {0, false}};
    size_t count = 0, waiting = 0;
    bool is_right = false;
    for (size_t turn = 0; turn < 4; turn++) {
        make_settings(parameters, turn);
        QUIET(open, tlut_ask(device, settings, parameters, &waiting));
        QUIET(closed, tlut_ask(device, settings, parameters + 1, &waiting));
        QUIET(order, tlut_ask(device, twice, 2, &waiting));
        for (size_t tick = 0; tick < 1 + turn * addresses; tick++)
            QUIET(open, tlut_tick(device, &is_right));
        QUIET(open, tlut_sent(device, writes, addresses, &count));
    }
}

static void count_host(const uint8_t *pack, size_t length)
{
    tlut_host host = TLUT_HOST_CLOSED;
    tlut_refusal refusal = {0, 0};
    size_t parameters = 0, addresses = 0;
    unsigned long held = blocks, freed = frees;
    EXPECT(tlut_open(pack, length, &host, &refusal) == TLUT_DONE && blocks > held);
    unsigned long kept = blocks - held, made = allocations;
    EXPECT(tlut_counts(&host, &parameters, &addresses) == TLUT_DONE && parameters > 0 && addresses > 4);
    EXPECT(parameters < sizeof bits - 1 && addresses <= sizeof bits);
    QUIET(TLUT_OPEN, tlut_open(pack, length, &host, &refusal));
    change(&host, TLUT_DONE, parameters, addresses);
    read_all(&host, TLUT_DONE, parameters, addresses);
    freed = frees;
    EXPECT(tlut_close(&host) == TLUT_DONE && frees - freed == kept && blocks == held && allocations == made);
    QUIET(TLUT_CLOSED, tlut_close(&host));
    change(&host, TLUT_CLOSED, parameters, addresses);
    read_all(&host, TLUT_CLOSED, parameters, addresses);
    printf("tlut_host: %lu allocations, %lu blocks freed by tlut_close\n", made, kept);
}

static void count_paced(const uint8_t *pack, size_t length)
{
    tlut_paced device = TLUT_HOST_CLOSED;
    tlut_host host = TLUT_HOST_CLOSED;
    tlut_refusal refusal = {0, 0};
    size_t parameters = 0, addresses = 0;
    EXPECT(tlut_open(pack, length, &host, &refusal) == TLUT_DONE && tlut_counts(&host, &parameters, &addresses) == TLUT_DONE);
    EXPECT(tlut_close(&host) == TLUT_DONE);
    QUIET(TLUT_RANGE, tlut_paced_open(pack, length, 0, &device, &refusal));
    unsigned long held = blocks, made = allocations;
    EXPECT(tlut_paced_open(pack, length, 1, &device, &refusal) == TLUT_DONE && blocks > held);
    unsigned long kept = blocks - held, all = allocations;
    QUIET(TLUT_OPEN, tlut_paced_open(pack, length, 1, &device, &refusal));
    pace(&device, TLUT_DONE, parameters, addresses);
    unsigned long freed = frees;
    EXPECT(tlut_paced_close(&device) == TLUT_DONE && frees - freed == kept && blocks == held && allocations == all);
    QUIET(TLUT_CLOSED, tlut_paced_close(&device));
    pace(&device, TLUT_CLOSED, parameters, addresses);
    printf("tlut_paced: %lu allocations, %lu blocks freed by tlut_paced_close\n", all - made, kept);
}

int main(int argc, char **argv)
{
    size_t length = 0;
    const uint8_t *pack = read_argument(argc, argv, &length);
    EXPECT(strcmp(tlut_version(), TLUT_VERSION) == 0);
    count_host(pack, length);
    count_paced(pack, length);
    printf("%lu wrong\n", wrong);
    return wrong != 0;
}
