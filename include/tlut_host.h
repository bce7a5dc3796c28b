/*
 * tlut_host: the run-time specialiser of TLUT Flow, for host programs.
 *
 * A pack (from `tlut map` or `tlut run`) has the configuration bits of a mapped circuit as functions of its parameters. A
 * host opens a pack, gives new values to parameters, and gets the configuration bits to rewrite: exactly those that differ,
 * in ascending order of their addresses. Each function here is proved: docs/host.md says what, and what a caller owes.
 *
 *     tlut_host host = TLUT_HOST_CLOSED;
 *     tlut_refusal refusal = {0, 0};
 *     if (tlut_open(bytes, length, &host, &refusal) != TLUT_DONE) { ... }
 *     tlut_setting settings[] = {{0, true}, {3, false}};        // ascending parameters, each at most once
 *     tlut_write writes[64] = {{0, false}};
 *     size_t count = 0;
 *     if (tlut_set(&host, settings, 2) == TLUT_DONE && tlut_writes(&host, writes, 64, &count) == TLUT_DONE)
 *         for (size_t i = 0; i < count && i < 64; i++) { ... writes[i].address, writes[i].bit ... }
 *     tlut_close(&host);
 *
 * Memory. tlut_open and tlut_paced_open allocate, by malloc; tlut_close and tlut_paced_close free. No other function allocates or
 * frees. No pointer may be null, not even to an array of no elements. Everything that a function writes has to be initialised: arrays,
 * counts and refusals. No array may overlap another one, or the handle. malloc aligns a block to each power of two up to 16 that
 * divides its size, as C libraries do.
 *
 * Threads. A handle belongs to one call at a time, and stays on its thread. Handles share nothing. Call no function in a signal
 * handler, or in the child of a fork in a process that has several threads.
 *
 * Processors. On x86-64 the library runs on every processor, unless it was built with another CPU (`make CPU=x86-64-v2`). It doesn't
 * check the processor: on an older one than it was built for, a call ends the program by SIGILL.
 *
 * Statuses. Each function returns TLUT_DONE or why not; then it changes nothing, and writes through no pointer (but
 * the refusal of a function that opens).
 */
#ifndef TLUT_HOST_H
#define TLUT_HOST_H

#include <stdbool.h>
#include <stddef.h>
#include <stdint.h>

#ifdef __cplusplus
extern "C" {
#endif

/* The version of this header, also as 10000 times the first part, plus 100 times the second one, plus the third one. CHANGELOG.md says how
 * it changes. */
#define TLUT_VERSION "1.1.0"
#define TLUT_VERSION_NUMBER 10100

/* The version of the library that is linked, in the form of TLUT_VERSION. The string is static, and need not be freed. This function alone
 * has no proof: it returns a constant. */
const char *tlut_version(void);

typedef uint32_t tlut_status;

#define TLUT_DONE ((tlut_status)0)
#define TLUT_REFUSED ((tlut_status)1) /* the bytes aren't a pack */
#define TLUT_LIMIT ((tlut_status)2)   /* more than 2^29 bytes (536,870,912): such a pack is refused unread */
#define TLUT_MEMORY ((tlut_status)3)  /* memory ran out */
#define TLUT_CLOSED ((tlut_status)4)  /* the handle isn't open */
#define TLUT_OPEN ((tlut_status)5)    /* the handle is open already */
#define TLUT_RANGE ((tlut_status)6)   /* no parameter has this number, or no bit this address */
#define TLUT_ORDER ((tlut_status)7)   /* the parameters are not in ascending order */

/* A handle. Its members are the library's. Copy it only to move it: the copy that is left behind must not be used. */
typedef struct tlut_host {
    void *state;
    bool is_open;
} tlut_host;

/* A handle before tlut_open. */
#define TLUT_HOST_CLOSED {NULL, false}

/* Why bytes aren't a pack: rule 1 to 8 for K1 to K8 (docs/formats.md), and the offset of the refused field in bytes. Both are 0 after
 * TLUT_LIMIT and TLUT_MEMORY. */
typedef struct tlut_refusal {
    uint32_t rule;
    uint32_t offset;
} tlut_refusal;

/* A new value of the parameter of this number, from 0. */
typedef struct tlut_setting {
    uint16_t parameter;
    bool bit;
} tlut_setting;

/* A write of the configuration bit at this address, from 0. */
typedef struct tlut_write {
    uint32_t address;
    bool bit;
} tlut_write;

/* Opens the pack in these bytes, at its initial values: TLUT_DONE, TLUT_REFUSED, TLUT_LIMIT, TLUT_MEMORY or TLUT_OPEN.
 * Time and memory are linear in the bytes: about 13 bytes of memory for each byte of a large pack. The bytes aren't used after the
 * call. */
tlut_status tlut_open(const uint8_t *pack, size_t length, tlut_host *host, tlut_refusal *refusal);

/* Frees what the handle holds: TLUT_DONE or TLUT_CLOSED. The handle is closed then. */
tlut_status tlut_close(tlut_host *host);

/* The numbers of parameters, at most 65,535, and of configuration bits: TLUT_DONE or TLUT_CLOSED. */
tlut_status tlut_counts(tlut_host *host, size_t *parameters, size_t *bits);

/* The name of a parameter, without a zero at its end: TLUT_DONE, TLUT_CLOSED or TLUT_RANGE. Copies as many bytes as the
 * array has room for, and sets *count to the total number. */
tlut_status tlut_name(tlut_host *host, size_t parameter, uint8_t *name, size_t length, size_t *count);

/* The number of the parameter of this name: TLUT_DONE, TLUT_CLOSED, or TLUT_RANGE if there is none. */
tlut_status tlut_number(tlut_host *host, const uint8_t *name, size_t length, size_t *number);

/* Gives new values to parameters in ascending order, each at most once: TLUT_DONE, TLUT_CLOSED, TLUT_RANGE or TLUT_ORDER.
 * Time is proportional to the number of nodes whose inputs change, and of bits whose functions change. */
tlut_status tlut_set(tlut_host *host, const tlut_setting *settings, size_t length);

/* Flips the bit at an address, as a fault in the device does: TLUT_DONE, TLUT_CLOSED or TLUT_RANGE. */
tlut_status tlut_upset(tlut_host *host, uint32_t address);

/* Corrects every upset bit: TLUT_DONE or TLUT_CLOSED. Time is linear in the bits. */
tlut_status tlut_scrub(tlut_host *host);

/* The writes of the last tlut_set, tlut_upset or tlut_scrub, in ascending order; none before the first. Copies as many as
 * the array has room for, and sets *count to the total number. */
tlut_status tlut_writes(tlut_host *host, tlut_write *writes, size_t length, size_t *count);

/* The configuration of the device, upset bits as they are. Copies as many bits as the array has room for, and sets
 * *count to the total number. */
tlut_status tlut_image(tlut_host *host, bool *bits, size_t length, size_t *count);

/* The value of a parameter: TLUT_DONE, TLUT_CLOSED or TLUT_RANGE. */
tlut_status tlut_value(tlut_host *host, uint16_t parameter, bool *bit);

/* The values of the parameters, in the same way as tlut_image. */
tlut_status tlut_values(tlut_host *host, bool *bits, size_t length, size_t *count);

/* A limited rate.
 *
 * A device whose configuration port takes a fixed number of bits per clock tick has a handle of another type. An ask
 * requests new values, and writes nothing. At each tick the host learns whether the device has the configuration of the values
 * that were requested last, so that the circuit may be clocked. If it hasn't, the tick writes the first bits that differ, at most
 * as many as the rate, and the circuit waits.
 *
 *     tlut_paced device = TLUT_HOST_CLOSED;
 *     if (tlut_paced_open(bytes, length, 64, &device, &refusal) != TLUT_DONE) { ... }
 *     size_t waiting = 0;
 *     if (tlut_ask(&device, settings, 2, &waiting) != TLUT_DONE) { ... }
 *     for (bool is_right = false; tlut_tick(&device, &is_right) == TLUT_DONE && !is_right;)
 *         if (tlut_sent(&device, writes, 64, &count) == TLUT_DONE) { ... send the writes ... }
 *     tlut_paced_close(&device);
 */

/* A handle at a limited rate. Its members are the library's. */
typedef struct tlut_paced {
    void *state;
    bool is_open;
} tlut_paced;

/* Opens the pack in these bytes, at its initial values, with their configuration on the device: as tlut_open, or TLUT_RANGE if
 * the rate is 0. The rate is the number of bits that a tick writes at most. */
tlut_status tlut_paced_open(const uint8_t *pack, size_t length, uint32_t rate, tlut_paced *device, tlut_refusal *refusal);

/* Frees what the handle holds: TLUT_DONE or TLUT_CLOSED. The handle is closed then. */
tlut_status tlut_paced_close(tlut_paced *device);

/* Requests new values, in the form of tlut_set, and sets *waiting to the number of bits of the device that differ from their configuration:
 * TLUT_DONE, TLUT_CLOSED, TLUT_RANGE or TLUT_ORDER. Nothing is written. Time is proportional to the number of nodes whose inputs
 * change, and of bits whose functions change. */
tlut_status tlut_ask(tlut_paced *device, const tlut_setting *settings, size_t length, size_t *waiting);

/* Lets the clock tick: TLUT_DONE or TLUT_CLOSED. Sets *is_right to whether the device had the configuration of the requested values
 * before the tick, so that the circuit may be clocked. If it hadn't, the first bits that differ are written, in ascending order of
 * their addresses. Time is proportional to the number of bits that are written. */
tlut_status tlut_tick(tlut_paced *device, bool *is_right);

/* The writes of the last tick, in the same way as tlut_writes; none before the first. */
tlut_status tlut_sent(tlut_paced *device, tlut_write *writes, size_t length, size_t *count);

#ifdef __cplusplus
}
#endif

#endif
