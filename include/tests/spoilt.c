/*
 * Opens spoilt packs: each beginning of a pack, and the pack with each byte changed in each bit. Where one is opened all the
 * same, it is played: settings of all parameters, wrong calls, upsets and scrubs, and asks and ticks at a limited rate. Prints how many
 * were opened and refused.
 *
 *     spoilt PACK [EVERY]        EVERY: only each one of this number, where a run is slow
 */
#include <stdio.h>
#include <stdlib.h>
#include <string.h>

#include "tlut_host.h"

static unsigned long statuses[8];
static unsigned long wrong;

static void expect(bool holds, int line)
{
    if (!holds) {
        wrong++;
        fprintf(stderr, "line %d: wrong\n", line);
    }
}

#define EXPECT(holds) expect((holds), __LINE__)

/* The handles on a pack, and room for what they take and hand out. */
struct room {
    tlut_host host;
    tlut_paced device;
    size_t parameters, bits;
    tlut_setting *settings;
    tlut_write *writes;
    bool *before, *after;
};

static void *zeros(size_t count, size_t size)
{
    void *made = calloc(count + 2, size);
    if (made == NULL)
        abort();
    return made;
}

static void make_room(struct room *room)
{
    EXPECT(tlut_counts(&room->host, &room->parameters, &room->bits) == TLUT_DONE);
    room->settings = zeros(room->parameters, sizeof *room->settings);
    room->writes = zeros(room->bits, sizeof *room->writes);
    room->before = zeros(room->bits, sizeof *room->before);
    room->after = zeros(room->bits, sizeof *room->after);
}

static void free_room(struct room *room)
{
    free(room->settings);
    free(room->writes);
    free(room->before);
    free(room->after);
}

/* Sets all parameters: the writes are the bits in which the images before and after differ. */
static void set_all(struct room *room, size_t turn)
{
    size_t count = 0, next = 0;
    EXPECT(tlut_image(&room->host, room->before, room->bits, &count) == TLUT_DONE && count == room->bits);
    for (size_t place = 0; place < room->parameters; place++) {
        bool bit = false;
        EXPECT(tlut_value(&room->host, (uint16_t)place, &bit) == TLUT_DONE);
        room->settings[place].parameter = (uint16_t)place;
        room->settings[place].bit = turn % 2 == 0 ? !bit : (place + turn) % 3 == 0;
    }
    EXPECT(tlut_set(&room->host, room->settings, room->parameters) == TLUT_DONE);
    EXPECT(tlut_image(&room->host, room->after, room->bits, &count) == TLUT_DONE);
    EXPECT(tlut_writes(&room->host, room->writes, room->bits, &count) == TLUT_DONE && count <= room->bits);
    for (size_t address = 0; address < room->bits; address++)
        if (room->before[address] != room->after[address]) {
            const tlut_write *write = &room->writes[next];
            EXPECT(next < count && write->address == address && write->bit == room->after[address]);
            next++;
        }
    EXPECT(next == count);
}

static void look_up_names(struct room *room)
{
    size_t count = 0;
    for (size_t place = 0; place < room->parameters; place++) {
        uint8_t name[256] = {0};
        size_t number = room->parameters, length = 0;
        EXPECT(tlut_name(&room->host, place, name, sizeof name, &length) == TLUT_DONE);
        if (length <= sizeof name)
            EXPECT(tlut_number(&room->host, name, length, &number) == TLUT_DONE && number == place);
    }
    EXPECT(tlut_name(&room->host, room->parameters, (uint8_t *)room->settings, 0, &count) == TLUT_RANGE);
}

/* A parameter that doesn't exist, and one that occurs twice. */
static void set_wrongly(struct room *room)
{
    room->settings[room->parameters].parameter = (uint16_t)room->parameters;
    if (room->parameters < 65535)
        EXPECT(tlut_set(&room->host, room->settings, room->parameters + 1) == TLUT_RANGE);
    if (room->parameters > 0) {
        room->settings[1] = room->settings[0];
        EXPECT(tlut_set(&room->host, room->settings, 2) == TLUT_ORDER);
    }
}

/* After a scrub the image is the one before the upsets, and its writes are as many as these. */
static void upset_and_scrub(struct room *room)
{
    size_t count = 0, upset = 0;
    EXPECT(tlut_writes(&room->host, room->writes, 0, &count) == TLUT_DONE);
    EXPECT(tlut_upset(&room->host, (uint32_t)room->bits) == TLUT_RANGE);
    for (size_t address = 0; address < room->bits; address += 3, upset++)
        EXPECT(tlut_upset(&room->host, (uint32_t)address) == TLUT_DONE);
    EXPECT(tlut_scrub(&room->host) == TLUT_DONE);
    EXPECT(tlut_writes(&room->host, room->writes, room->bits, &count) == TLUT_DONE && count == upset);
    EXPECT(tlut_image(&room->host, room->before, room->bits, &count) == TLUT_DONE);
    EXPECT(memcmp(room->before, room->after, room->bits * sizeof *room->before) == 0);
}

/* One tick: it writes the first of the bits that differ, into before, and after is what was asked for. Returns how many it wrote. */
static size_t tick(struct room *room, uint32_t rate, size_t differ, bool *is_right)
{
    size_t count = 0;
    EXPECT(tlut_tick(&room->device, is_right) == TLUT_DONE && *is_right == (differ == 0));
    EXPECT(tlut_sent(&room->device, room->writes, room->bits, &count) == TLUT_DONE && count == (differ < rate ? differ : rate));
    for (size_t place = 0; place < count; place++) {
        size_t address = room->writes[place].address;
        bool bit = room->writes[place].bit;
        EXPECT(address < room->bits && room->before[address] != bit && room->after[address] == bit);
        EXPECT(place == 0 || room->writes[place - 1].address < address);
        room->before[address] = bit;
    }
    return count;
}

/* Asks for other values of all parameters, and ticks until the device is right, or once. */
static void ask_all(struct room *room, uint32_t rate, size_t turn)
{
    size_t count = 0, waiting = 7, differ = 0;
    for (size_t place = 0; place < room->parameters; place++) {
        room->settings[place].parameter = (uint16_t)place;
        room->settings[place].bit = (place + turn) % 3 == 0;
    }
    EXPECT(tlut_ask(&room->device, room->settings, room->parameters, &waiting) == TLUT_DONE);
    EXPECT(tlut_set(&room->host, room->settings, room->parameters) == TLUT_DONE);
    EXPECT(tlut_image(&room->host, room->after, room->bits, &count) == TLUT_DONE);
    for (size_t address = 0; address < room->bits; address++)
        differ += room->before[address] != room->after[address];
    EXPECT(waiting == differ);
    bool is_right = false;
    for (size_t ticks = turn % 2 == 0 ? 1 : room->bits / rate + 2; ticks > 0 && !is_right; ticks--)
        differ -= tick(room, rate, differ, &is_right);
    EXPECT(turn % 2 == 0 || is_right);
}

/* Settings that are refused, and calls on a closed handle. */
static void ask_wrongly(struct room *room)
{
    size_t count = 0, waiting = 0;
    bool is_right = true;
    room->settings[0].parameter = (uint16_t)room->parameters;
    if (room->parameters < 65535)
        EXPECT(tlut_ask(&room->device, room->settings, 1, &waiting) == TLUT_RANGE);
    room->settings[0].parameter = 0;
    room->settings[1] = room->settings[0];
    if (room->parameters > 0)
        EXPECT(tlut_ask(&room->device, room->settings, 2, &waiting) == TLUT_ORDER);
    EXPECT(tlut_paced_close(&room->device) == TLUT_DONE);
    EXPECT(tlut_tick(&room->device, &is_right) == TLUT_CLOSED && tlut_ask(&room->device, room->settings, 0, &waiting) == TLUT_CLOSED);
    EXPECT(tlut_sent(&room->device, room->writes, 0, &count) == TLUT_CLOSED && tlut_paced_close(&room->device) == TLUT_CLOSED);
}

static void play(struct room *room)
{
    for (size_t turn = 0; turn < 4; turn++)
        set_all(room, turn);
    look_up_names(room);
    set_wrongly(room);
    upset_and_scrub(room);
}

/* Each second ask comes before the device has caught up. The writes make the configuration that a handle without a rate has. */
static void play_paced(struct room *room, const uint8_t *bytes, size_t length, uint32_t rate)
{
    tlut_refusal refusal = {0, 0};
    size_t count = 0;
    EXPECT(tlut_paced_open(bytes, length, 0, &room->device, &refusal) == TLUT_RANGE && !room->device.is_open);
    EXPECT(tlut_paced_open(bytes, length, rate, &room->device, &refusal) == TLUT_DONE);
    EXPECT(tlut_paced_open(bytes, length, rate, &room->device, &refusal) == TLUT_OPEN);
    EXPECT(tlut_image(&room->host, room->before, room->bits, &count) == TLUT_DONE);
    EXPECT(tlut_sent(&room->device, room->writes, room->bits, &count) == TLUT_DONE && count == 0);
    for (size_t turn = 0; turn < 6; turn++)
        ask_all(room, rate, turn);
    ask_wrongly(room);
}

/* Opens a copy of the bytes, which is freed before the handle is used, and plays what is opened. */
static tlut_status try_bytes(const uint8_t *bytes, size_t length)
{
    struct room room = {.host = TLUT_HOST_CLOSED, .device = TLUT_HOST_CLOSED};
    tlut_refusal refusal = {0, 0};
    uint8_t *copy = malloc(length + (length == 0));
    if (copy == NULL)
        abort();
    memcpy(copy, bytes, length);
    tlut_status status = tlut_open(copy, length, &room.host, &refusal);
    free(copy);
    statuses[status & 7]++;
    if (status == TLUT_DONE) {
        make_room(&room);
        play_paced(&room, bytes, length, 5);
        play(&room);
        free_room(&room);
    } else {
        EXPECT(status == TLUT_REFUSED && refusal.rule >= 1 && refusal.rule <= 8 && refusal.offset <= length);
    }
    EXPECT(tlut_close(&room.host) == (status == TLUT_DONE ? TLUT_DONE : TLUT_CLOSED));
    EXPECT(tlut_scrub(&room.host) == TLUT_CLOSED && tlut_close(&room.host) == TLUT_CLOSED);
    return status;
}

int main(int argc, char **argv)
{
    static uint8_t bytes[1 << 20];
    unsigned long every = argc == 3 ? strtoul(argv[2], NULL, 10) : 1;
    FILE *file = argc > 1 ? fopen(argv[1], "rb") : NULL;
    if (file == NULL || every == 0) {
        fprintf(stderr, "usage: spoilt PACK [EVERY]\n");
        return 2;
    }
    size_t length = fread(bytes, 1, sizeof bytes, file);
    fclose(file);
    EXPECT(try_bytes(bytes, length) == TLUT_DONE);
    for (size_t shorter = 0; shorter < length; shorter += every)
        EXPECT(try_bytes(bytes, shorter) == TLUT_REFUSED);
    for (size_t bit = 0; bit < 8 * length; bit += every) {
        bytes[bit / 8] ^= (uint8_t)(1 << bit % 8);
        try_bytes(bytes, length);
        bytes[bit / 8] ^= (uint8_t)(1 << bit % 8);
    }
    printf("opened %lu refused %lu, %lu wrong\n", statuses[TLUT_DONE], statuses[TLUT_REFUSED], wrong);
    return wrong != 0;
}
