/* What the tests of cundarrix.h share: one session, calls that find what they are to write poisoned, headers, and memory that is counted
   and refused. A test that fails prints a line and ends with status 1.

   Linked with --wrap for malloc, calloc, realloc and free. */
#ifndef TESTING_H
#define TESTING_H

#include <stdio.h>
#include <stdlib.h>
#include <string.h>

#include "cundarrix.h"

#define CHECK(is_so) check((is_so), __LINE__, #is_so)

static inline void check(bool is_so, int line, const char *text) {
    if (is_so)
        return;
    printf("%s:%d: not so: %s\n", __BASE_FILE__, line, text);
    exit(1);
}

static inline void check_result(cundarrix_result answer, cundarrix_result wanted, int line, const char *text) {
    if (answer == wanted)
        return;
    printf("%s:%d: %s: \"%s\", and not \"%s\"\n", __BASE_FILE__, line, text, cundarrix_result_text(answer), cundarrix_result_text(wanted));
    exit(1);
}

/* ---- memory */

/* So many requests for memory are granted; all, where it is below 0. */
static long granted = -1;
/* How often memory was asked for and given back, how much of it was asked for, and how many blocks are held. */
static size_t requests, returns, bytes;
static long held;

void *__real_malloc(size_t size);
void *__real_calloc(size_t count, size_t size);
void *__real_realloc(void *block, size_t size);
void __real_free(void *block);
void *__wrap_malloc(size_t size);
void *__wrap_calloc(size_t count, size_t size);
void *__wrap_realloc(void *block, size_t size);
void __wrap_free(void *block);

static inline bool is_refused(size_t size) {
    requests++;
    bytes += size;
    if (granted == 0)
        return true;
    if (granted > 0)
        granted--;
    return false;
}

void *__wrap_malloc(size_t size) {
    void *block = is_refused(size) ? NULL : __real_malloc(size);
    held += block != NULL;
    return block;
}

void *__wrap_calloc(size_t count, size_t size) {
    void *block = is_refused(count * size) ? NULL : __real_calloc(count, size);
    held += block != NULL;
    return block;
}

void *__wrap_realloc(void *block, size_t size) {
    void *moved = is_refused(size) ? NULL : __real_realloc(block, size);
    held += block == NULL && moved != NULL;
    return moved;
}

void __wrap_free(void *block) {
    returns++;
    held -= block != NULL;
    __real_free(block);
}

/* ---- the session that all tests use, one after the other */

enum { ROOM = 64, POISON = 0xee, CMD_SN = 1, STAT_SN = 0x70 };

static cundarrix_session side = CUNDARRIX_CLOSED;
static cundarrix_action actions[ROOM + 1];
static cundarrix_told told;
static size_t requests_at_open, returns_at_open;

/* A call that tells: it finds what it is to write poisoned. */
#define CALL(name, ...) (poison(), cundarrix_##name(&side, __VA_ARGS__, actions, ROOM, &told))
#define ANSWERS(answer, name, ...) check_result(CALL(name, __VA_ARGS__), CUNDARRIX_##answer, __LINE__, #name)
#define LIST(...) (const cundarrix_action[]){__VA_ARGS__}, sizeof((const cundarrix_action[]){__VA_ARGS__}) / sizeof(cundarrix_action)
#define TELLS(...) expect_told(__LINE__, LIST(__VA_ARGS__))
#define TELLS_NOTHING() expect_told(__LINE__, NULL, 0)
/* A call that is done, and what it tells. */
#define DONE(name, ...) ANSWERS(OK, name, __VA_ARGS__)
/* One that is refused, and tells nothing. */
#define REFUSED(answer, name, ...) (ANSWERS(answer, name, __VA_ARGS__), TELLS_NOTHING())

static inline void poison(void) {
    memset(actions, POISON, sizeof actions);
    memset(&told, POISON, sizeof told);
}

static inline cundarrix_action start(uint64_t ticket, uint16_t unit, uint8_t attribute, uint64_t cookie) {
    return (cundarrix_action){.kind = CUNDARRIX_START, .ticket = ticket, .unit = unit, .attribute = attribute, .cookie = cookie};
}

static inline cundarrix_action stop(uint64_t ticket, uint64_t cookie, uint8_t why) {
    return (cundarrix_action){.kind = CUNDARRIX_STOP, .ticket = ticket, .cookie = cookie, .why = why};
}

static inline cundarrix_action reset(uint16_t unit, uint8_t function) {
    return (cundarrix_action){.kind = CUNDARRIX_RESET, .unit = unit, .function = function};
}

static inline cundarrix_action ready(uint16_t cid) {
    return (cundarrix_action){.kind = CUNDARRIX_READY, .cid = cid};
}

static inline cundarrix_action over(uint16_t cid) {
    return (cundarrix_action){.kind = CUNDARRIX_CLOSE, .cid = cid};
}

static inline cundarrix_action forget(uint64_t cookie) {
    return (cundarrix_action){.kind = CUNDARRIX_FORGET, .cookie = cookie};
}

static inline void expect_told(int line, const cundarrix_action *wanted, size_t count) {
    static uint8_t untouched[sizeof actions];
    bool is_so = told.count == count && told.waiting == 0 && (!count || !memcmp(actions, wanted, count * sizeof *wanted));
    memset(untouched, POISON, sizeof untouched);
    is_so = is_so && !memcmp(actions + count, untouched, sizeof actions - count * sizeof *actions);
    if (is_so)
        return;
    printf("%s:%d: told %u, with %u that wait, and not %zu:\n", __BASE_FILE__, line, told.count, told.waiting, count);
    for (size_t index = 0; index < told.count && index < ROOM; index++)
        printf("  %s ticket %llu cookie %llu cid %u unit %u attribute %u why %u function %u\n",
               cundarrix_action_text(actions[index].kind), (unsigned long long)actions[index].ticket,
               (unsigned long long)actions[index].cookie, actions[index].cid, actions[index].unit, actions[index].attribute,
               actions[index].why, actions[index].function);
    exit(1);
}

static inline cundarrix_options usual(void) {
    cundarrix_options options = CUNDARRIX_OPTIONS;
    options.window = 4;
    options.units = 2;
    options.depth = 8;
    options.own = 2;
    options.unwritten = 2;
    return options;
}

/* Opens it with the CIDs 1 to `count`, all of which join: CID 1 with STAT_SN, 2 with STAT_SN + 256, and so on. */
static inline void open_with(cundarrix_options options, uint16_t count) {
    uint16_t cids[64];
    for (uint16_t index = 0; index < count; index++)
        cids[index] = (uint16_t)(1 + index);
    CHECK(held == 0);
    CHECK(cundarrix_open(&side, &options, cids, count) == CUNDARRIX_OK);
    CHECK(held > 0);
    requests_at_open = requests;
    returns_at_open = returns;
    for (uint16_t index = 0; index < count; index++) {
        DONE(join, cids[index], STAT_SN + 256u * index);
        TELLS_NOTHING();
    }
}

/* Closes it. None of the calls since it was opened asked for memory, nor gave any back. */
static inline void close_side(void) {
    CHECK(requests == requests_at_open && returns == returns_at_open);
    CHECK(cundarrix_close(&side) == CUNDARRIX_OK);
    CHECK(held == 0 && !side.open && !side.at);
}

/* ---- headers */

static uint8_t header[CUNDARRIX_HEADER];
static uint8_t buffer[CUNDARRIX_PDU];
static cundarrix_pdu pdu;

static inline void put_number(uint8_t *place, uint32_t number) {
    for (int byte = 0; byte < 4; byte++)
        place[byte] = (uint8_t)(number >> (24 - 8 * byte));
}

static inline uint32_t number_at(const uint8_t *place) {
    return (uint32_t)place[0] << 24 | (uint32_t)place[1] << 16 | (uint32_t)place[2] << 8 | place[3];
}

/* A header with its tag, a second word, CmdSN, and what stands at byte 32. */
static inline const uint8_t *make(uint8_t opcode, uint8_t flags, uint32_t tag, uint32_t word, uint32_t cmd_sn, uint32_t last) {
    memset(header, 0, sizeof header);
    header[0] = opcode;
    header[1] = flags;
    put_number(header + 16, tag);
    put_number(header + 20, word);
    put_number(header + 24, cmd_sn);
    put_number(header + 28, STAT_SN);
    put_number(header + 32, last);
    return header;
}

/* A SCSI Command of an attribute for a unit, whose tag is a0000000 and its CmdSN. */
static inline const uint8_t *command(uint8_t attribute, uint8_t unit, uint32_t cmd_sn) {
    make(0x01, (uint8_t)(0x80 | attribute), 0xa0000000 + cmd_sn, 512, cmd_sn, 0x28000000);
    header[9] = unit;
    return header;
}

/* An immediate function for a unit. */
static inline const uint8_t *function(uint8_t number, uint8_t unit, uint32_t tag, uint32_t cmd_sn) {
    make(0x42, (uint8_t)(0x80 | number), tag, 0xffffffff, cmd_sn, 0);
    header[9] = unit;
    return header;
}

/* An immediate ABORT TASK of the command with a CmdSN, of unit 0. */
static inline const uint8_t *abort_task(uint32_t aborted, uint32_t tag, uint32_t cmd_sn) {
    return make(0x42, 0x81, tag, 0xa0000000 + aborted, cmd_sn, aborted);
}

/* An immediate Logout of a connection. */
static inline const uint8_t *logout(uint16_t cid, uint32_t tag, uint32_t cmd_sn) {
    return make(0x46, 0x81, tag, (uint32_t)cid << 16, cmd_sn, 0);
}

/* An immediate NOP-Out. */
static inline const uint8_t *nop_out(uint32_t tag, uint32_t transfer_tag, uint32_t cmd_sn) {
    return make(0x40, 0x80, tag, transfer_tag, cmd_sn, 0);
}

/* A NOP-In of the target's own. */
static inline const uint8_t *nop_in(uint32_t transfer_tag) {
    return make(0x20, 0x80, 0xffffffff, transfer_tag, 0, 0);
}

static inline const uint8_t *data_in(uint32_t tag) {
    make(0x25, 0x80, tag, 0xffffffff, 0, 0);
    header[6] = 2;
    return header;
}

/* `next` hands out a PDU of a kind, with this cookie, and tells nothing; or one with none. */
#define GIVES(cid, kind, cookie) give(cid, CUNDARRIX_##kind, true, cookie, __LINE__)
#define GIVES_BARE(cid, kind) give(cid, CUNDARRIX_##kind, false, 0, __LINE__)

static inline void give(uint16_t cid, uint8_t kind, bool has_cookie, uint64_t cookie, int line) {
    static const uint8_t zeros[sizeof pdu.reserved];
    memset(buffer, POISON, sizeof buffer);
    memset(&pdu, POISON, sizeof pdu);
    check_result(CALL(next, cid, buffer, sizeof buffer, &pdu), CUNDARRIX_OK, line, "next");
    expect_told(line, NULL, 0);
    check(pdu.kind == kind, line, cundarrix_pdu_text(pdu.kind));
    check(pdu.has_cookie == has_cookie && pdu.cookie == cookie, line, "the cookie");
    check(pdu.length == 48 || pdu.length == 68 || pdu.length == 96, line, "the length");
    check(!memcmp(pdu.reserved, zeros, sizeof zeros), line, "what is kept free");
}

/* `next` gives nothing, and writes nothing. */
#define GIVES_NONE(cid, answer) give_none(cid, CUNDARRIX_##answer, __LINE__)

static inline void give_none(uint16_t cid, cundarrix_result answer, int line) {
    static const cundarrix_pdu none;
    uint8_t untouched[sizeof buffer];
    memset(buffer, POISON, sizeof buffer);
    memset(untouched, POISON, sizeof untouched);
    memset(&pdu, POISON, sizeof pdu);
    check_result(CALL(next, cid, buffer, sizeof buffer, &pdu), answer, line, "next");
    expect_told(line, NULL, 0);
    check(!memcmp(buffer, untouched, sizeof buffer) && !memcmp(&pdu, &none, sizeof pdu), line, "written");
}

static inline void expect_numbers(uint32_t exp_cmd_sn, uint32_t max_cmd_sn) {
    cundarrix_numbers numbers = {0, 0};
    CHECK(cundarrix_numbers_now(&side, &numbers) == CUNDARRIX_OK);
    CHECK(numbers.exp_cmd_sn == exp_cmd_sn && numbers.max_cmd_sn == max_cmd_sn);
}

#endif
