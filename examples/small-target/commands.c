/* What commands mean: READ and WRITE (10) of RAM disks, and TEST UNIT READY. */
#define _POSIX_C_SOURCE 200809L
#include <stdlib.h>
#include <string.h>
#include <time.h>

#include "parts.h"

enum { BLOCK = 512, BLOCKS = 32768, PIECE = 8192 };
enum { TEST_UNIT_READY = 0x00, GOOD = 0x00, CHECK_CONDITION = 0x02, BUSY = 0x08 };

static pthread_mutex_t medium = PTHREAD_MUTEX_INITIALIZER;
static char **delays; /* how many milliseconds the commands take, in turn .. */
static unsigned turns, turn; /* .. so many numbers; so many commands have begun */
static uint8_t disks[UNITS][BLOCKS * BLOCK];

void set_delays(unsigned count, char **milliseconds) {
    turns = count, delays = milliseconds;
}

/* Puts a Data-In or an R2T. */
static bool put_piece(struct request *request, uint8_t opcode, uint32_t tag, uint32_t offset, uint32_t length) {
    uint8_t header[CUNDARRIX_HEADER] = {opcode, offset + length == request->length ? 0x80 : 0};
    memcpy(header + 8, request->header + 8, 12); /* the LUN and the tag */
    put_number(header + 20, tag);
    put_number(header + 36, request->pieces);
    put_number(header + 40, offset);
    put_number(header + (opcode == R2T ? 44 : 4), length);
    bool is_put = put(request, header);
    request->pieces += is_put;
    return is_put;
}

/* The medium. It takes its time, and can't be called back; none but its own lock is held. */
static void work(struct request *request, uint32_t block) {
    unsigned delay = turns ? (unsigned)atoi(delays[turn++ % turns]) : 0;
    struct timespec time = {delay / 1000, delay % 1000 * 1000000L};
    uint8_t *place = disks[request->unit] + block * BLOCK;
    pthread_mutex_unlock(&lock);
    nanosleep(&time, NULL);
    pthread_mutex_lock(&medium);
    if (request->header[32] == WRITE)
        memcpy(place, request->data, request->length);
    if (request->header[32] == READ)
        memcpy(request->data, place, request->length);
    pthread_mutex_unlock(&medium);
    pthread_mutex_lock(&lock);
}

uint8_t perform(struct request *request) {
    const uint8_t *header = request->header;
    uint32_t block = number(header + 34), count = (uint32_t)header[39] << 8 | header[40];
    bool reads = header[32] == READ, writes = header[32] == WRITE;
    uint32_t length = reads || writes ? count * BLOCK : 0;
    if ((!reads && !writes && header[32] != TEST_UNIT_READY) || length != number(header + 20))
        return CHECK_CONDITION;
    if (length && (block >= BLOCKS || count > BLOCKS - block))
        return CHECK_CONDITION;
    if (length && !(request->data = calloc(1, length)))
        return BUSY;
    request->length = length;
    if (writes && length)
        put_piece(request, R2T, transfer_tag(request), 0, length);
    while (writes && request->arrived < length && !request->stop)
        pthread_cond_wait(&changed, &lock);
    if (!request->stop)
        work(request, length ? block : 0);
    for (uint32_t offset = 0; reads && offset < length; offset += PIECE)
        if (!put_piece(request, DATA_IN, NO_TAG, offset, length - offset < PIECE ? length - offset : PIECE))
            break;
    return GOOD;
}
