/*
 * Opens a pack while each allocation from one on fails, for each one in turn: the call returns TLUT_MEMORY, the handle stays closed,
 * and each block is freed again. First by tlut_open, then by tlut_paced_open.
 */
#include "counted.h"
#include "tlut_host.h"

static const uint8_t *pack;
static size_t length;

/* Opens and closes a handle, and returns the status of the first call. *is_well is false if the second answers anything unexpected. */
static tlut_status opened(bool *is_well)
{
    tlut_host host = TLUT_HOST_CLOSED;
    tlut_refusal refusal = {0, 0};
    tlut_status status = tlut_open(pack, length, &host, &refusal);
    *is_well = host.is_open == (status == TLUT_DONE) && tlut_close(&host) == (status == TLUT_DONE ? TLUT_DONE : TLUT_CLOSED);
    return status;
}

static tlut_status paced_opened(bool *is_well)
{
    tlut_paced device = TLUT_HOST_CLOSED;
    tlut_refusal refusal = {0, 0};
    tlut_status status = tlut_paced_open(pack, length, 5, &device, &refusal);
    *is_well = device.is_open == (status == TLUT_DONE) && tlut_paced_close(&device) == (status == TLUT_DONE ? TLUT_DONE : TLUT_CLOSED);
    return status;
}

/* Whether each failing allocation is answered as it should be. */
static bool is_answered(const char *name, tlut_status (*call)(bool *))
{
    unsigned long held = blocks;
    for (unsigned long number = 1;; number++) {
        bool is_well = false;
        allocations = 0;
        failing = number;
        tlut_status status = call(&is_well);
        failing = 0;
        if (status == TLUT_DONE && allocations < number && is_well && blocks == held) {
            printf("%s: %lu allocations, each was refused\n", name, allocations);
            return allocations > 0;
        }
        if (status != TLUT_MEMORY || !is_well || blocks != held) {
            printf("%s: allocation %lu: status %u, %lu blocks lost\n", name, number, (unsigned)status, blocks - held);
            return false;
        }
    }
}

int main(int argc, char **argv)
{
    pack = read_argument(argc, argv, &length);
    bool is_first = is_answered("tlut_open", opened), is_second = is_answered("tlut_paced_open", paced_opened);
    return !(is_first && is_second);
}
