/* Tests of cundarrix.h: what each function refuses, options, memory, arrays that are too small, limits, and the words for it all. */
#include "testing.h"

/* ---- what is refused before anything else */

#define IS_NULL(name, ...) CHECK(cundarrix_##name(__VA_ARGS__) == CUNDARRIX_NULL_POINTER)
/* A call that tells with each of its pointers NULL, `told` is zeros where there is one. */
#define NULLS(name, ...) \
    do { \
        poison(); \
        IS_NULL(name, NULL, __VA_ARGS__, actions, ROOM, &told); \
        CHECK(told.count == 0 && told.waiting == 0); \
        IS_NULL(name, &side, __VA_ARGS__, NULL, 1, &told); \
        IS_NULL(name, &side, __VA_ARGS__, actions, ROOM, NULL); \
    } while (0)

static void test_null(void) {
    const cundarrix_options options = CUNDARRIX_OPTIONS;
    const uint16_t cid = 1;
    cundarrix_numbers numbers;
    IS_NULL(open, NULL, &options, &cid, 1);
    IS_NULL(open, &side, NULL, &cid, 1);
    IS_NULL(open, &side, &options, NULL, 1);
    NULLS(arrive, 1, header, sizeof header, 7);
    NULLS(complete, 1, 0);
    NULLS(stopped, 1);
    NULLS(next, 1, buffer, sizeof buffer, &pdu);
    NULLS(put, 1, 0, header, sizeof header, 7);
    NULLS(written, 1);
    NULLS(heard, 1, header, sizeof header);
    NULLS(join, 1, 1);
    NULLS(lose, 1);
    NULLS(clear, 0);
    NULLS(cleared, 0);
    IS_NULL(arrive, &side, 1, NULL, 48, 7, actions, ROOM, &told);
    IS_NULL(put, &side, 1, 0, NULL, 48, 7, actions, ROOM, &told);
    IS_NULL(heard, &side, 1, NULL, 48, actions, ROOM, &told);
    IS_NULL(next, &side, 1, NULL, 96, &pdu, actions, ROOM, &told);
    IS_NULL(next, &side, 1, buffer, 96, NULL, actions, ROOM, &told);
    IS_NULL(more, NULL, actions, ROOM, &told);
    IS_NULL(more, &side, NULL, 1, &told);
    IS_NULL(more, &side, actions, ROOM, NULL);
    IS_NULL(numbers_now, NULL, &numbers);
    IS_NULL(numbers_now, &side, NULL);
    CHECK(!cundarrix_may_take(NULL) && !cundarrix_is_asked(NULL, 1) && !cundarrix_may_join(NULL, 1));
    IS_NULL(close, NULL);
    CHECK(!side.open && !side.at);
}

/* Each call but an opening on a session that isn't open, and what is looked at before that. */
static void expect_closed(void) {
    cundarrix_numbers numbers = {7, 9};
    REFUSED(SHORT_HEADER, arrive, 1, header, 47, 7);
    REFUSED(SHORT_HEADER, put, 1, 0, header, 47, 7);
    REFUSED(SHORT_HEADER, heard, 1, header, 47);
    REFUSED(SHORT_BUFFER, next, 1, buffer, 95, &pdu);
    REFUSED(NOT_OPEN, arrive, 1, header, 48, 7);
    REFUSED(NOT_OPEN, complete, 1, 0);
    REFUSED(NOT_OPEN, stopped, 1);
    GIVES_NONE(1, NOT_OPEN);
    REFUSED(NOT_OPEN, put, 1, 0, header, 48, 7);
    REFUSED(NOT_OPEN, written, 1);
    REFUSED(NOT_OPEN, heard, 1, header, 48);
    REFUSED(NOT_OPEN, join, 1, 1);
    REFUSED(NOT_OPEN, lose, 1);
    REFUSED(NOT_OPEN, clear, 0);
    REFUSED(NOT_OPEN, cleared, 0);
    poison();
    CHECK(cundarrix_more(&side, actions, ROOM, &told) == CUNDARRIX_NOT_OPEN);
    TELLS_NOTHING();
    CHECK(cundarrix_numbers_now(&side, &numbers) == CUNDARRIX_NOT_OPEN);
    CHECK(numbers.exp_cmd_sn == 7 && numbers.max_cmd_sn == 9);
    CHECK(!cundarrix_may_take(&side) && !cundarrix_is_asked(&side, 1) && !cundarrix_may_join(&side, 1));
    CHECK(cundarrix_close(&side) == CUNDARRIX_NOT_OPEN);
    CHECK(!side.open);
}

static void refuse(cundarrix_options options) {
    const uint16_t cid = 1;
    CHECK(cundarrix_open(&side, &options, &cid, 1) == CUNDARRIX_BAD_OPTIONS);
    CHECK(!side.open && held == 0);
}

static void accept(cundarrix_options options) {
    const uint16_t cid = 1;
    CHECK(cundarrix_open(&side, &options, &cid, 1) == CUNDARRIX_OK);
    CHECK(cundarrix_close(&side) == CUNDARRIX_OK);
    CHECK(held == 0);
}

/* The least and the greatest of an option are taken, and what is beside them isn't. */
#define LIMITS(field, least, most) \
    do { \
        cundarrix_options options = usual(); \
        options.field = (least); \
        accept(options); \
        options.field = (most); \
        accept(options); \
        options.field = (least) - 1; \
        refuse(options); \
        options.field = (most) + 1; \
        refuse(options); \
    } while (0)

static void test_limits(void) {
    LIMITS(events, 1, (uint64_t)1 << 48);
    LIMITS(window, 1, 1024);
    LIMITS(units, 1, 256);
    LIMITS(depth, 1, 1024);
    LIMITS(level, 1, 2);
    LIMITS(own, 1, 1024);
    LIMITS(unwritten, 1, 1024);
}

static void test_options(void) {
    cundarrix_options options = usual();
    for (int flag = 0; flag <= 1; flag++) {
        options = usual();
        options.acknowledged = options.shared = (uint8_t)flag;
        accept(options);
    }
    options.acknowledged = 2;
    refuse(options);
    options = usual();
    options.shared = 2;
    refuse(options);
    for (int byte = 0; byte < 6; byte++) {
        options = usual();
        options.reserved[byte] = 1;
        refuse(options);
    }
    options = usual();
    options.size = 47;
    refuse(options);
    options.size = 49;
    refuse(options);
}

static void test_cids(void) {
    const cundarrix_options options = usual();
    uint16_t cids[65];
    for (uint16_t index = 0; index < 65; index++)
        cids[index] = (uint16_t)(65535 - index);
    CHECK(cundarrix_open(&side, &options, cids, 0) == CUNDARRIX_BAD_OPTIONS);
    CHECK(cundarrix_open(&side, &options, cids, 65) == CUNDARRIX_BAD_OPTIONS);
    CHECK(cundarrix_open(&side, &options, cids, 64) == CUNDARRIX_OK);
    CHECK(cundarrix_may_join(&side, 65472) && !cundarrix_may_join(&side, 65471));
    CHECK(cundarrix_open(&side, &options, cids, 64) == CUNDARRIX_ALREADY_OPEN);
    CHECK(cundarrix_open(&side, &options, cids, 0) == CUNDARRIX_ALREADY_OPEN);
    CHECK(cundarrix_close(&side) == CUNDARRIX_OK);
    cids[63] = cids[0];
    CHECK(cundarrix_open(&side, &options, cids, 64) == CUNDARRIX_BAD_OPTIONS);
    expect_closed();
}

/* Each request for memory of an opening is refused in turn: none of what was granted is lost. */
static void test_memory(void) {
    const cundarrix_options options = usual();
    const uint16_t cids[2] = {1, 2};
    cundarrix_result answer = CUNDARRIX_NO_MEMORY;
    long refused = 0;
    for (; answer == CUNDARRIX_NO_MEMORY; refused++) {
        granted = refused;
        answer = cundarrix_open(&side, &options, cids, 2);
        granted = -1;
        CHECK(held == 0 || answer == CUNDARRIX_OK);
        if (answer == CUNDARRIX_NO_MEMORY)
            expect_closed();
    }
    CHECK(answer == CUNDARRIX_OK && refused > 10);
    CHECK(cundarrix_close(&side) == CUNDARRIX_OK);
    CHECK(held == 0);
}

/* What an opening asks for, by docs/USING.md. */
static size_t formula(const cundarrix_options *options, size_t connections) {
    size_t live = options->window + 8 * connections;
    size_t most = options->depth < live ? options->depth : live;
    return 71668 + (size_t)5574 * options->window + (160 + 48 * most) * options->units
        + (59626 + (size_t)462 * options->own + (size_t)328 * options->unwritten) * connections;
}

/* It asks for that, to a KiB: for usual sessions, the least one and the greatest. */
static void test_formula(void) {
    static const uint32_t rows[][6] = {{32, 1, 64, 64, 16, 1}, {32, 4, 64, 64, 16, 4}, {128, 32, 64, 64, 16, 8}, {128, 256, 1024, 1, 1, 1},
                                       {1, 1, 1, 1, 1, 1}, {1024, 256, 1024, 1024, 1024, 64}};
    cundarrix_options options = CUNDARRIX_OPTIONS;
    uint16_t cids[64];
    for (uint16_t index = 0; index < 64; index++)
        cids[index] = index;
    for (size_t row = 0; row < sizeof rows / sizeof *rows; row++) {
        options.window = rows[row][0], options.units = rows[row][1], options.depth = rows[row][2];
        options.own = rows[row][3], options.unwritten = rows[row][4];
        bytes = 0;
        CHECK(cundarrix_open(&side, &options, cids, rows[row][5]) == CUNDARRIX_OK);
        CHECK(bytes < formula(&options, rows[row][5]) + 1024 && bytes + 1024 > formula(&options, rows[row][5]));
        CHECK(cundarrix_close(&side) == CUNDARRIX_OK && held == 0);
    }
}

/* ---- room */

/* Each call that tells is refused, and tells nothing, while actions wait. What only asks is answered. */
static void expect_waiting(void) {
    cundarrix_numbers numbers = {0, 0};
    REFUSED(ACTIONS_WAIT, arrive, 2, nop_out(5, 0xffffffff, 4), 48, 7);
    REFUSED(ACTIONS_WAIT, complete, 2, 0);
    REFUSED(ACTIONS_WAIT, stopped, 1);
    GIVES_NONE(2, ACTIONS_WAIT);
    REFUSED(ACTIONS_WAIT, put, 2, 0, nop_in(5), 48, 7);
    REFUSED(ACTIONS_WAIT, written, 2);
    REFUSED(ACTIONS_WAIT, heard, 2, nop_out(5, 0xffffffff, 4), 48);
    REFUSED(ACTIONS_WAIT, join, 2, 1);
    REFUSED(ACTIONS_WAIT, lose, 2);
    REFUSED(ACTIONS_WAIT, clear, 0);
    REFUSED(ACTIONS_WAIT, cleared, 0);
    REFUSED(SHORT_HEADER, arrive, 2, header, 47, 7);
    CHECK(cundarrix_numbers_now(&side, &numbers) == CUNDARRIX_OK && numbers.exp_cmd_sn == 3);
    CHECK(cundarrix_may_take(&side) && !cundarrix_is_asked(&side, 2) && !cundarrix_may_join(&side, 2));
}

/* The next action comes alone, and so many wait behind it. */
static void expect_more(cundarrix_action wanted, uint32_t waiting) {
    poison();
    CHECK(cundarrix_more(&side, actions, 1, &told) == CUNDARRIX_OK);
    CHECK(told.count == 1 && told.waiting == waiting && actions[1].kind == POISON);
    CHECK(!memcmp(actions, &wanted, sizeof wanted));
}

/* An array that is too small: what it has no room for waits, and comes in its order, none twice. */
static void test_small_room(void) {
    open_with(usual(), 2);
    for (uint32_t number = 1; number <= 2; number++) {
        DONE(arrive, 1, command(CUNDARRIX_SIMPLE, 0, number), 48, 70 + number);
        TELLS(start(number, 0, CUNDARRIX_SIMPLE, 70 + number));
    }
    DONE(arrive, 1, command(CUNDARRIX_SIMPLE, 0, 4), 48, 74);
    TELLS_NOTHING();
    poison();
    CHECK(cundarrix_lose(&side, 1, NULL, 0, &told) == CUNDARRIX_OK);
    CHECK(told.count == 0 && told.waiting == 4);
    expect_waiting();
    expect_more(stop(1, 71, CUNDARRIX_LOST), 3);
    expect_waiting();
    poison();
    CHECK(cundarrix_more(&side, NULL, 0, &told) == CUNDARRIX_OK);
    CHECK(told.count == 0 && told.waiting == 3);
    expect_more(stop(2, 72, CUNDARRIX_LOST), 2);
    poison();
    CHECK(cundarrix_more(&side, actions, ROOM, &told) == CUNDARRIX_OK);
    TELLS(ready(2), forget(74));
    poison();
    CHECK(cundarrix_more(&side, actions, ROOM, &told) == CUNDARRIX_OK);
    TELLS_NOTHING();
    DONE(stopped, 2);
    TELLS(forget(72));
    close_side();
}

/* No more requests are taken than have room, until something goes out. */
static void test_busy(void) {
    cundarrix_options options = usual();
    uint64_t cookie = 100;
    options.window = 1;
    open_with(options, 1);
    while (cundarrix_may_take(&side)) {
        DONE(arrive, 1, nop_out((uint32_t)cookie, 0xffffffff, 1), 48, cookie);
        CHECK(told.count == (cookie == 100) && told.waiting == 0);
        cookie++;
    }
    CHECK(cookie == 100 + 2 * (1 + 12));
    REFUSED(BUSY, arrive, 1, nop_out(5, 0xffffffff, 1), 48, cookie);
    DONE(heard, 1, header, 48);
    TELLS_NOTHING();
    GIVES(1, REPLY, 100);
    CHECK(cundarrix_may_take(&side));
    DONE(arrive, 1, nop_out(5, 0xffffffff, 1), 48, cookie);
    TELLS_NOTHING();
    DONE(written, 1);
    TELLS(forget(100));
    close_side();
}

/* Events are kept back for what is live. */
static void test_exhausted(void) {
    cundarrix_options options = usual();
    options.events = 64 + 4 + 8 + 2;
    open_with(options, 1);
    DONE(arrive, 1, command(CUNDARRIX_SIMPLE, 0, 1), 48, 70);
    TELLS(start(1, 0, CUNDARRIX_SIMPLE, 70));
    DONE(arrive, 1, command(CUNDARRIX_SIMPLE, 0, 2), 48, 71);
    TELLS(start(2, 0, CUNDARRIX_SIMPLE, 71));
    REFUSED(EXHAUSTED, arrive, 1, command(CUNDARRIX_SIMPLE, 0, 3), 48, 72);
    DONE(complete, 1, 0);
    TELLS(ready(1));
    DONE(lose, 1);
    TELLS(stop(2, 71, CUNDARRIX_LOST), forget(70));
    close_side();
}

/* ---- what it is called */

static void test_texts(void) {
    CHECK(CUNDARRIX_VERSION_MAJOR == 2 && CUNDARRIX_VERSION_MINOR == 0 && !strcmp(cundarrix_version(), "2.0"));
    for (int one = 0; one <= CUNDARRIX_OVER; one++)
        for (int other = 0; other < one; other++)
            CHECK(strcmp(cundarrix_result_text((cundarrix_result)one), cundarrix_result_text((cundarrix_result)other)));
    for (uint8_t one = 0; one <= CUNDARRIX_FORGET; one++)
        for (uint8_t other = 0; other < one; other++)
            CHECK(strcmp(cundarrix_action_text(one), cundarrix_action_text(other)));
    for (uint8_t one = 0; one <= CUNDARRIX_NOTICE; one++)
        for (uint8_t other = 0; other < one; other++)
            CHECK(strcmp(cundarrix_pdu_text(one), cundarrix_pdu_text(other)));
    CHECK(!strcmp(cundarrix_action_text(7), "unknown") && !strcmp(cundarrix_pdu_text(5), "unknown"));
}

/* Zeros are a closed session. */
static void test_zeros(void) {
    const cundarrix_session closed = CUNDARRIX_CLOSED;
    memset(&side, 0, sizeof side);
    CHECK(side.open == closed.open && side.at == closed.at);
    expect_closed();
    open_with(usual(), 1);
    close_side();
}

int main(void) {
    test_null();
    expect_closed();
    test_limits();
    test_options();
    test_cids();
    test_memory();
    test_formula();
    test_small_room();
    test_busy();
    test_exhausted();
    test_texts();
    test_zeros();
    return 0;
}
