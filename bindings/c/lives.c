/* Tests of cundarrix.h: commands from their arrival to their end, what the target puts, aborts, other sessions, and connections. */
#include "testing.h"

/* ---- a command */

/* From its arrival to its response, byte for byte; the cookie comes back once, as that is written. */
static void test_life(void) {
    static const uint8_t response[48] = {0x21, 0x80, [16] = 0xa0, [19] = 1, [27] = STAT_SN, [31] = 2, [35] = 5};
    open_with(usual(), 1);
    expect_numbers(1, 4);
    DONE(arrive, 1, command(CUNDARRIX_ORDERED, 1, 1), 48, 70);
    TELLS(start(1, 1, CUNDARRIX_ORDERED, 70));
    GIVES_NONE(1, NOTHING);
    REFUSED(STALE, stopped, 1);
    DONE(complete, 1, 0);
    TELLS(ready(1));
    REFUSED(STALE, complete, 1, 0);
    REFUSED(STALE, stopped, 1);
    GIVES(1, REPLY, 70);
    CHECK(pdu.length == 48 && !memcmp(buffer, response, sizeof response) && buffer[48] == POISON);
    expect_numbers(2, 5);
    DONE(written, 1);
    TELLS(forget(70));
    GIVES_NONE(1, NOTHING);
    DONE(written, 1);
    TELLS_NOTHING();
    close_side();
}

/* Replies with data of the session's, and requests without an answer. */
static void test_replies(void) {
    open_with(usual(), 1);
    DONE(arrive, 1, command(CUNDARRIX_SIMPLE, 9, 1), 49, 71);
    TELLS(ready(1));
    GIVES(1, REPLY, 71);
    CHECK(pdu.length == 68 && buffer[0] == 0x21 && buffer[3] == 0x02 && buffer[7] == 20);
    CHECK(buffer[49] == 18 && buffer[52] == 5 && buffer[62] == 0x25 && buffer[68] == POISON);
    CHECK(number_at(buffer + 24) == STAT_SN);
    DONE(arrive, 1, make(0x1f, 0x80, 5, 0, 2, 0), 48, 72);
    TELLS_NOTHING();
    GIVES(1, REPLY, 72);
    CHECK(pdu.length == 96 && buffer[0] == 0x3f && buffer[7] == 48 && !memcmp(buffer + 48, header, 48));
    CHECK(number_at(buffer + 24) == STAT_SN + 1);
    DONE(written, 1);
    TELLS(forget(71));
    DONE(written, 1);
    TELLS(forget(72));
    DONE(arrive, 1, make(0x05, 0x80, 5, 0, 2, 0), 48, 73);
    TELLS(forget(73));
    DONE(arrive, 1, nop_out(0xffffffff, 0xffffffff, 2), 48, 74);
    TELLS(forget(74));
    DONE(arrive, 1, command(CUNDARRIX_SIMPLE, 0, 99), 48, 75);
    TELLS(forget(75));
    close_side();
}

/* Commands of a unit wait for one another, and a held request for the number before its own. */
static void test_order(void) {
    open_with(usual(), 1);
    DONE(arrive, 1, command(CUNDARRIX_ORDERED, 0, 2), 48, 72);
    TELLS_NOTHING();
    DONE(arrive, 1, command(CUNDARRIX_SIMPLE, 0, 1), 48, 71);
    TELLS(start(1, 0, CUNDARRIX_SIMPLE, 71));
    DONE(arrive, 1, command(CUNDARRIX_SIMPLE, 1, 3), 48, 73);
    TELLS(start(3, 1, CUNDARRIX_SIMPLE, 73));
    REFUSED(STALE, complete, 2, 0);
    DONE(complete, 1, 0);
    TELLS(start(2, 0, CUNDARRIX_ORDERED, 72), ready(1));
    DONE(arrive, 1, command(CUNDARRIX_HEAD_OF_QUEUE, 0, 4), 48, 74);
    TELLS(start(4, 0, CUNDARRIX_HEAD_OF_QUEUE, 74));
    expect_numbers(5, 4);
    close_side();
}

/* ---- what the target puts */

static void test_put(void) {
    open_with(usual(), 1);
    REFUSED(UNFIT, put, 1, 0, nop_in(0x80000000), 48, 7);
    REFUSED(UNFIT, put, 1, 0, data_in(0xa0000001), 48, 7);
    REFUSED(UNFIT, put, 1, 0, make(0x20, 0x80, 5, 0, 0, 0), 48, 7);
    REFUSED(UNFIT, put, 1, 1, nop_in(5), 48, 7);
    REFUSED(UNFIT, put, 1, 1, make(0x25, 0x81, 5, 0, 0, 0), 48, 7);
    REFUSED(GONE, put, 1, 1, data_in(0xa0000001), 48, 7);
    REFUSED(CLOSED_CONNECTION, put, 2, 0, nop_in(5), 48, 7);
    DONE(put, 1, 0, nop_in(5), 48, 80);
    TELLS(ready(1));
    DONE(put, 1, 0, make(0x32, 0x80, 0xffffffff, 0, 0, 0), 48, 81);
    TELLS_NOTHING();
    REFUSED(FULL, put, 1, 0, nop_in(6), 48, 82);
    GIVES(1, OWN, 80);
    CHECK(buffer[0] == 0x20 && number_at(buffer + 20) == 5 && number_at(buffer + 24) == STAT_SN);
    CHECK(number_at(buffer + 28) == 1 && number_at(buffer + 32) == 4);
    GIVES(1, OWN, 81);
    CHECK(buffer[0] == 0x32 && number_at(buffer + 24) == STAT_SN);
    DONE(written, 1);
    TELLS(forget(80));
    DONE(put, 1, 0, make(0x24, 0x80, 5, 0xffffffff, 0, 0), 48, 83);
    TELLS_NOTHING();
    GIVES(1, OWN, 83);
    CHECK(number_at(buffer + 24) == STAT_SN + 1);
    close_side();
}

/* The data of a READ goes out under its request's cookie, before the response, on its connection. So does an R2T. */
static void test_data(void) {
    open_with(usual(), 2);
    DONE(arrive, 2, command(CUNDARRIX_SIMPLE, 0, 1), 48, 70);
    TELLS(start(1, 0, CUNDARRIX_SIMPLE, 70));
    DONE(put, 1, 1, data_in(0xa0000001), 48, 99);
    TELLS(ready(2));
    DONE(put, 0, 1, make(0x31, 0x80, 0xa0000001, 1, 0, 0), 48, 99);
    TELLS_NOTHING();
    REFUSED(FULL, put, 2, 1, data_in(0xa0000001), 48, 99);
    DONE(complete, 1, 0);
    TELLS_NOTHING();
    REFUSED(GONE, put, 2, 1, data_in(0xa0000001), 48, 99);
    GIVES(2, OWN, 70);
    CHECK(buffer[0] == 0x25 && buffer[6] == 2 && pdu.length == 48 && number_at(buffer + 24) == STAT_SN + 256);
    GIVES(2, OWN, 70);
    CHECK(buffer[0] == 0x31 && number_at(buffer + 20) == 1);
    GIVES_NONE(2, BLOCKED);
    DONE(written, 2);
    TELLS_NOTHING();
    GIVES(2, REPLY, 70);
    CHECK(number_at(buffer + 24) == STAT_SN + 256);
    DONE(written, 2);
    TELLS_NOTHING();
    DONE(written, 2);
    TELLS(forget(70));
    GIVES_NONE(1, NOTHING);
    close_side();
}

/* ---- aborts */

/* The answer waits until the command has stopped, and a second abort's with it; its own data is dropped. */
static void test_abort(void) {
    open_with(usual(), 1);
    DONE(arrive, 1, command(CUNDARRIX_SIMPLE, 0, 1), 48, 70);
    TELLS(start(1, 0, CUNDARRIX_SIMPLE, 70));
    DONE(put, 1, 1, data_in(0xa0000001), 48, 0);
    TELLS(ready(1));
    DONE(arrive, 1, abort_task(1, 0xb1, 2), 48, 80);
    TELLS(stop(1, 70, CUNDARRIX_ABORTED));
    DONE(arrive, 1, abort_task(1, 0xb2, 2), 48, 81);
    TELLS_NOTHING();
    REFUSED(GONE, put, 1, 1, data_in(0xa0000001), 48, 0);
    GIVES_NONE(1, NOTHING);
    DONE(stopped, 1);
    TELLS(ready(1), forget(70));
    REFUSED(STALE, stopped, 1);
    REFUSED(STALE, complete, 1, 0);
    GIVES(1, REPLY, 80);
    CHECK(buffer[0] == 0x22 && buffer[2] == 0 && number_at(buffer + 16) == 0xb1 && number_at(buffer + 24) == STAT_SN);
    GIVES(1, REPLY, 81);
    CHECK(buffer[0] == 0x22 && buffer[2] == 1 && number_at(buffer + 16) == 0xb2 && number_at(buffer + 24) == STAT_SN + 1);
    DONE(written, 1);
    TELLS(forget(80));
    DONE(written, 1);
    TELLS(forget(81));
    close_side();
}

/* A completion that crosses a reset says that the command has stopped. One that waits for its turn is told neither. */
static void test_crossing(void) {
    open_with(usual(), 1);
    DONE(arrive, 1, command(CUNDARRIX_SIMPLE, 0, 1), 48, 70);
    TELLS(start(1, 0, CUNDARRIX_SIMPLE, 70));
    DONE(arrive, 1, command(CUNDARRIX_ORDERED, 0, 2), 48, 71);
    TELLS_NOTHING();
    DONE(arrive, 1, function(5, 0, 0xb1, 3), 48, 80);
    TELLS(stop(1, 70, CUNDARRIX_ABORTED), forget(71));
    REFUSED(STALE, stopped, 2);
    GIVES_NONE(1, NOTHING);
    DONE(complete, 1, 0);
    TELLS(ready(1), forget(70));
    GIVES(1, REPLY, 80);
    CHECK(buffer[0] == 0x22 && buffer[2] == 0);
    close_side();
}

/* ---- other sessions */

/* A reset is told, and waits for the other sessions as for its own. */
static void test_shared(void) {
    cundarrix_options options = usual();
    options.shared = 1;
    open_with(options, 1);
    DONE(arrive, 1, command(CUNDARRIX_SIMPLE, 1, 1), 48, 70);
    TELLS(start(1, 1, CUNDARRIX_SIMPLE, 70));
    DONE(arrive, 1, function(5, 1, 0xb1, 2), 48, 80);
    TELLS(stop(1, 70, CUNDARRIX_ABORTED), reset(1, 5));
    DONE(cleared, 0);
    TELLS_NOTHING();
    DONE(stopped, 1);
    TELLS(forget(70));
    GIVES_NONE(1, NOTHING);
    DONE(cleared, 1);
    TELLS(ready(1));
    GIVES(1, REPLY, 80);
    DONE(written, 1);
    TELLS(forget(80));
    DONE(arrive, 1, function(4, 0, 0xb2, 2), 48, 81);
    TELLS(reset(0, 4));
    DONE(cleared, 0);
    TELLS_NOTHING();
    GIVES(1, REPLY, 81);
    DONE(arrive, 1, function(2, 0, 0xb3, 2), 48, 82);
    TELLS_NOTHING();
    GIVES(1, REPLY, 82);
    close_side();
}

/* Another session's reset takes out what started and what didn't; a HEAD OF QUEUE command meanwhile is answered BUSY. */
static void test_clear(void) {
    open_with(usual(), 1);
    DONE(arrive, 1, command(CUNDARRIX_SIMPLE, 0, 1), 48, 70);
    TELLS(start(1, 0, CUNDARRIX_SIMPLE, 70));
    DONE(arrive, 1, command(CUNDARRIX_ORDERED, 0, 2), 48, 71);
    TELLS_NOTHING();
    DONE(clear, 9);
    TELLS_NOTHING();
    DONE(clear, 0);
    TELLS(stop(1, 70, CUNDARRIX_CLEARED));
    DONE(clear, 0);
    TELLS_NOTHING();
    DONE(arrive, 1, command(CUNDARRIX_HEAD_OF_QUEUE, 0, 3), 48, 72);
    TELLS(ready(1));
    GIVES(1, REPLY, 72);
    CHECK(buffer[0] == 0x21 && buffer[3] == 0x08);
    DONE(stopped, 1);
    TELLS_NOTHING();
    REFUSED(STALE, complete, 1, 0);
    GIVES(1, REPLY, 70);
    CHECK(buffer[0] == 0x21 && buffer[3] == 0x40);
    DONE(written, 1);
    TELLS(forget(72));
    GIVES(1, REPLY, 71);
    CHECK(buffer[0] == 0x21 && buffer[3] == 0x40);
    DONE(arrive, 1, command(CUNDARRIX_HEAD_OF_QUEUE, 0, 4), 48, 73);
    TELLS(start(4, 0, CUNDARRIX_HEAD_OF_QUEUE, 73));
    close_side();
}

/* Its unit's status isn't looked at. */
static void test_cleared_completes(void) {
    open_with(usual(), 1);
    DONE(arrive, 1, command(CUNDARRIX_SIMPLE, 0, 1), 48, 70);
    TELLS(start(1, 0, CUNDARRIX_SIMPLE, 70));
    DONE(clear, 0);
    TELLS(stop(1, 70, CUNDARRIX_CLEARED));
    DONE(complete, 1, 0);
    TELLS(ready(1));
    GIVES(1, REPLY, 70);
    CHECK(buffer[3] == 0x40);
    close_side();
}

/* ---- connections */

static void test_join(void) {
    const cundarrix_options options = usual();
    const uint16_t cids[2] = {1, 2};
    CHECK(cundarrix_open(&side, &options, cids, 2) == CUNDARRIX_OK);
    requests_at_open = requests;
    returns_at_open = returns;
    CHECK(cundarrix_may_join(&side, 1) && cundarrix_may_join(&side, 2) && !cundarrix_may_join(&side, 3));
    REFUSED(UNKNOWN_CONNECTION, arrive, 3, nop_out(5, 0xffffffff, 1), 48, 70);
    REFUSED(NOT_JOINED, arrive, 1, nop_out(5, 0xffffffff, 1), 48, 70);
    REFUSED(CLOSED_CONNECTION, put, 1, 0, nop_in(5), 48, 70);
    GIVES_NONE(1, NOTHING);
    GIVES_NONE(3, NOTHING);
    REFUSED(CANNOT_JOIN, join, 3, 5);
    DONE(join, 1, 5);
    TELLS_NOTHING();
    CHECK(!cundarrix_may_join(&side, 1));
    REFUSED(CANNOT_JOIN, join, 1, 5);
    DONE(heard, 3, nop_out(5, 0xffffffff, 1), 48);
    TELLS_NOTHING();
    DONE(arrive, 1, nop_out(5, 0xffffffff, 1), 48, 70);
    TELLS(ready(1));
    GIVES(1, REPLY, 70);
    CHECK(buffer[0] == 0x20 && number_at(buffer + 24) == 5);
    close_side();
}

/* What a lost connection had is told to stop and forgotten; what its commands barred goes on, and MaxCmdSN is shown anew. */
static void test_lose(void) {
    open_with(usual(), 2);
    DONE(arrive, 1, command(CUNDARRIX_ORDERED, 0, 1), 48, 70);
    TELLS(start(1, 0, CUNDARRIX_ORDERED, 70));
    DONE(arrive, 2, command(CUNDARRIX_SIMPLE, 0, 2), 48, 71);
    TELLS_NOTHING();
    DONE(put, 1, 0, nop_in(5), 48, 72);
    TELLS(ready(1));
    DONE(arrive, 1, command(CUNDARRIX_SIMPLE, 0, 4), 48, 73);
    TELLS_NOTHING();
    REFUSED(UNKNOWN_CONNECTION, lose, 3);
    DONE(lose, 1);
    TELLS(stop(1, 70, CUNDARRIX_LOST), start(2, 0, CUNDARRIX_SIMPLE, 71), ready(2), forget(72), forget(73));
    REFUSED(NOT_JOINED, lose, 1);
    REFUSED(NOT_JOINED, arrive, 1, nop_out(5, 0xffffffff, 1), 48, 74);
    REFUSED(CANNOT_JOIN, join, 1, 5);
    REFUSED(CLOSED_CONNECTION, put, 1, 0, nop_in(5), 48, 74);
    CHECK(!cundarrix_may_join(&side, 1));
    GIVES_NONE(1, NOTHING);
    GIVES_BARE(2, NOTICE);
    CHECK(buffer[0] == 0x20 && number_at(buffer + 16) == 0xffffffff && number_at(buffer + 20) == 0xffffffff);
    DONE(stopped, 1);
    TELLS(forget(70));
    close_side();
}

/* A Logout closes its own connection once its response is written, and another one at once. */
static void test_logout(void) {
    open_with(usual(), 2);
    DONE(arrive, 1, command(CUNDARRIX_SIMPLE, 0, 1), 48, 70);
    TELLS(start(1, 0, CUNDARRIX_SIMPLE, 70));
    DONE(arrive, 2, logout(1, 0xc1, 2), 48, 80);
    TELLS(stop(1, 70, CUNDARRIX_LOGGED_OUT), over(1));
    GIVES_NONE(1, OVER);
    REFUSED(CLOSED_CONNECTION, put, 1, 0, nop_in(5), 48, 81);
    DONE(stopped, 1);
    TELLS(ready(2), forget(70));
    GIVES(2, REPLY, 80);
    CHECK(buffer[0] == 0x26 && buffer[2] == 0);
    DONE(written, 2);
    TELLS(forget(80));
    DONE(lose, 1);
    TELLS_NOTHING();
    GIVES_BARE(2, NOTICE);
    DONE(written, 2);
    TELLS_NOTHING();
    GIVES_NONE(2, NOTHING);
    DONE(arrive, 2, logout(2, 0xc2, 2), 48, 81);
    TELLS(ready(2));
    GIVES(2, REPLY, 81);
    DONE(written, 2);
    TELLS(over(2), forget(81));
    GIVES_NONE(2, OVER);
    DONE(arrive, 2, nop_out(5, 0xffffffff, 2), 48, 82);
    TELLS(forget(82));
    DONE(lose, 2);
    TELLS_NOTHING();
    close_side();
}

/* With `acknowledged` an abort's answer waits until a ping behind the command's data is answered; without, until that is written. */
static void test_arrival(void) {
    open_with(usual(), 2);
    DONE(arrive, 1, command(CUNDARRIX_SIMPLE, 0, 1), 48, 70);
    TELLS(start(1, 0, CUNDARRIX_SIMPLE, 70));
    DONE(put, 1, 1, data_in(0xa0000001), 48, 0);
    TELLS(ready(1));
    GIVES(1, OWN, 70);
    DONE(arrive, 2, abort_task(1, 0xb1, 2), 48, 80);
    TELLS(stop(1, 70, CUNDARRIX_ABORTED));
    CHECK(!cundarrix_is_asked(&side, 1));
    GIVES_BARE(1, PING);
    CHECK(buffer[0] == 0x20 && number_at(buffer + 16) == 0xffffffff && number_at(buffer + 20) == 0x80000000);
    CHECK(cundarrix_is_asked(&side, 1) && !cundarrix_is_asked(&side, 2));
    DONE(stopped, 1);
    TELLS_NOTHING();
    DONE(written, 1);
    TELLS(forget(70));
    DONE(written, 1);
    TELLS_NOTHING();
    GIVES_NONE(2, NOTHING);
    DONE(heard, 1, nop_out(0xffffffff, 0x80000000, 2), 48);
    TELLS(ready(2));
    CHECK(!cundarrix_is_asked(&side, 1));
    GIVES(2, REPLY, 80);
    close_side();
}

static void test_written_is_enough(void) {
    cundarrix_options options = usual();
    options.acknowledged = 0;
    open_with(options, 2);
    DONE(arrive, 1, command(CUNDARRIX_SIMPLE, 0, 1), 48, 70);
    TELLS(start(1, 0, CUNDARRIX_SIMPLE, 70));
    DONE(put, 1, 1, data_in(0xa0000001), 48, 0);
    TELLS(ready(1));
    GIVES(1, OWN, 70);
    DONE(arrive, 2, abort_task(1, 0xb1, 2), 48, 80);
    TELLS(stop(1, 70, CUNDARRIX_ABORTED));
    DONE(stopped, 1);
    TELLS_NOTHING();
    GIVES_NONE(2, NOTHING);
    DONE(written, 1);
    TELLS(ready(2), forget(70));
    GIVES(2, REPLY, 80);
    close_side();
}

/* ---- an abort on one connection of what completed on another */

/* A READ of connection 2 has completed. Its Data-Ins and its response wait there. */
static void complete_a_read(uint8_t acknowledged) {
    cundarrix_options options = usual();
    options.acknowledged = acknowledged;
    open_with(options, 2);
    DONE(arrive, 2, command(CUNDARRIX_SIMPLE, 0, 1), 48, 70);
    TELLS(start(1, 0, CUNDARRIX_SIMPLE, 70));
    DONE(put, 2, 1, data_in(0xa0000001), 48, 0);
    TELLS(ready(2));
    DONE(put, 2, 1, data_in(0xa0000001), 48, 0);
    TELLS_NOTHING();
    DONE(complete, 1, 0);
    TELLS_NOTHING();
}

/* Its data goes out, and is written. */
static void send_its_data(void) {
    for (int place = 0; place < 2; place++) {
        GIVES(2, OWN, 70);
        DONE(written, 2);
        TELLS_NOTHING();
    }
}

/* A function of its initiator's on connection 1 is about it: ABORT TASK finds none, and another one of the unit takes out none. */
static const uint8_t *abort_by(uint8_t number) {
    return number == 1 ? abort_task(1, 0xb1, 2) : function(number, 0, 0xb1, 2);
}

/* Its answer goes out. */
static void expect_answer(uint8_t number) {
    GIVES(1, REPLY, 80);
    CHECK(buffer[0] == 0x22 && buffer[2] == (number == 1) && number_at(buffer + 16) == 0xb1);
    DONE(written, 1);
    TELLS(forget(80));
}

/* Another READ has the tag now, on connection 1: what comes is its own, and of the first one nothing more comes. */
static void use_the_tag_again(void) {
    command(CUNDARRIX_SIMPLE, 0, 2);
    put_number(header + 16, 0xa0000001);
    DONE(arrive, 1, header, 48, 71);
    TELLS(start(2, 0, CUNDARRIX_SIMPLE, 71));
    REFUSED(GONE, put, 2, 1, data_in(0xa0000001), 48, 0);
    DONE(put, 1, 2, data_in(0xa0000001), 48, 0);
    TELLS_NOTHING();
    DONE(complete, 2, 0);
    TELLS_NOTHING();
    GIVES(1, OWN, 71);
    DONE(written, 1);
    TELLS_NOTHING();
    GIVES(1, REPLY, 71);
    CHECK(buffer[0] == 0x21 && number_at(buffer + 16) == 0xa0000001);
    DONE(written, 1);
    TELLS(forget(71));
    GIVES_NONE(2, NOTHING);
    close_side();
}

/* All of it waits, and arrival is looked for: the answer goes out once the initiator has answered a ping behind the response, or
   acknowledged that by a later request. */
static void test_completed_waits(uint8_t number, bool is_pinged) {
    complete_a_read(1);
    DONE(arrive, 1, abort_by(number), 48, 80);
    TELLS_NOTHING();
    GIVES_NONE(1, NOTHING);
    send_its_data();
    GIVES_NONE(1, NOTHING);
    GIVES(2, REPLY, 70);
    CHECK(buffer[0] == 0x21 && number_at(buffer + 16) == 0xa0000001);
    DONE(written, 2);
    TELLS(forget(70));
    GIVES_NONE(1, NOTHING);
    GIVES_BARE(2, PING);
    DONE(written, 2);
    TELLS_NOTHING();
    GIVES_NONE(2, NOTHING);
    GIVES_NONE(1, NOTHING);
    nop_out(0xffffffff, is_pinged ? 0x80000000 : 0xffffffff, 2);
    put_number(header + 28, STAT_SN + 256u + !is_pinged);
    DONE(heard, 2, header, 48);
    TELLS(ready(1));
    expect_answer(number);
    use_the_tag_again();
}

/* All of it is written, and not acknowledged, as the abort comes: a ping is asked for at once. */
static void test_completed_lies_there(uint8_t number) {
    complete_a_read(1);
    send_its_data();
    GIVES(2, REPLY, 70);
    DONE(written, 2);
    TELLS(forget(70));
    GIVES_NONE(2, NOTHING);
    DONE(arrive, 1, abort_by(number), 48, 80);
    TELLS(ready(2));
    GIVES_NONE(1, NOTHING);
    GIVES_BARE(2, PING);
    DONE(heard, 2, nop_out(0xffffffff, 0x80000000, 2), 48);
    TELLS(ready(1));
    expect_answer(number);
    use_the_tag_again();
}

/* Arrival isn't looked for: the answer goes out once the response is written. */
static void test_completed_is_written(uint8_t number) {
    complete_a_read(0);
    DONE(arrive, 1, abort_by(number), 48, 80);
    TELLS_NOTHING();
    send_its_data();
    GIVES_NONE(1, NOTHING);
    GIVES(2, REPLY, 70);
    GIVES_NONE(2, NOTHING);
    GIVES_NONE(1, NOTHING);
    DONE(written, 2);
    TELLS(ready(1), forget(70));
    expect_answer(number);
    use_the_tag_again();
}

/* The connection is lost with all of it: nothing of it is read any more. */
static void test_completed_is_lost(uint8_t number) {
    complete_a_read(1);
    DONE(arrive, 1, abort_by(number), 48, 80);
    TELLS_NOTHING();
    GIVES(2, OWN, 70);
    GIVES_NONE(1, NOTHING);
    DONE(lose, 2);
    TELLS(ready(1), forget(70));
    expect_answer(number);
    use_the_tag_again();
}

static void test_completed(uint8_t number) {
    test_completed_waits(number, true);
    test_completed_waits(number, false);
    test_completed_lies_there(number);
    test_completed_is_written(number);
    test_completed_is_lost(number);
}

int main(void) {
    test_life();
    test_replies();
    test_order();
    test_put();
    test_data();
    test_abort();
    test_crossing();
    test_shared();
    test_clear();
    test_cleared_completes();
    test_join();
    test_lose();
    test_logout();
    test_arrival();
    test_written_is_enough();
    test_completed(2);
    test_completed(4);
    test_completed(5);
    test_completed(1);
    return 0;
}
