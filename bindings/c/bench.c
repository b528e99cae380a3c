/* How long an event takes by the C interface. Commands arrive and complete; of each the actions are read, the response is taken by `next`, and
   `written` is said. Words on the command line: how many commands (1000000); a shape (in-order), which is one of

     in-order     64 commands are live, on one connection, and the oldest completes
     no-order     1,000 are live, on one connection, with tags in no order, and any of them completes
     connections  64 are live, on four connections by turns, and the oldest completes

   and `to-the-end`: as a real writer does, `next` is asked again until nothing more goes out. It prints how many events there were, each arrival
   and each completion one, and nanoseconds an event. */
#define _POSIX_C_SOURCE 199309L
#include <stdio.h>
#include <stdlib.h>
#include <string.h>
#include <time.h>

#include "cundarrix.h"

enum { ROOM = 16, MOST_LIVE = 1000, MOST_CONNECTIONS = 4 };

struct shape {
    const char *name;
    uint32_t live, connections;
    bool in_order;
};

static const struct shape shapes[] = {{"in-order", 64, 1, true}, {"no-order", MOST_LIVE, 1, false}, {"connections", 64, MOST_CONNECTIONS, true}};

static cundarrix_session session = CUNDARRIX_CLOSED;
static cundarrix_action actions[ROOM];
static cundarrix_told told;
/* The actions of each kind. */
static uint64_t counts[CUNDARRIX_FORGET + 1];
static const struct shape *shape = &shapes[0];
static bool to_the_end;
/* The commands that are live, by their numbers, and the StatSN of each connection's next response. */
static uint32_t live[MOST_LIVE], stat_sns[1 + MOST_CONNECTIONS];

static double now(void) {
    struct timespec time;
    clock_gettime(CLOCK_MONOTONIC, &time);
    return (double)time.tv_sec * 1e9 + (double)time.tv_nsec;
}

static void put_number(uint8_t *place, uint32_t number) {
    for (int byte = 0; byte < 4; byte++)
        place[byte] = (uint8_t)(number >> (24 - 8 * byte));
}

static void fail(const char *why) {
    fprintf(stderr, "bench: %s\n", why);
    exit(1);
}

/* Reads what a call told. All of it has room. */
static void read_actions(cundarrix_result answer, cundarrix_result wanted) {
    if (answer != wanted)
        fail(cundarrix_result_text(answer));
    if (told.waiting)
        fail("actions wait");
    for (uint32_t index = 0; index < told.count; index++)
        counts[actions[index].kind]++;
}

static uint16_t cid_of(uint32_t number) {
    return (uint16_t)(1 + number % shape->connections);
}

static void arrive(uint32_t number) {
    uint8_t header[CUNDARRIX_HEADER] = {0x01, 0x81};
    uint16_t cid = cid_of(number);
    put_number(header + 16, shape->in_order ? number : number * 2654435761u);
    put_number(header + 24, number);
    put_number(header + 28, stat_sns[cid]);
    read_actions(cundarrix_arrive(&session, cid, header, sizeof header, number, actions, ROOM, &told), CUNDARRIX_OK);
}

/* Its ticket and its cookie are its number. */
static void complete(uint32_t number) {
    static uint8_t buffer[CUNDARRIX_PDU];
    cundarrix_pdu pdu;
    uint16_t cid = cid_of(number);
    read_actions(cundarrix_complete(&session, number, 0, actions, ROOM, &told), CUNDARRIX_OK);
    read_actions(cundarrix_next(&session, cid, buffer, sizeof buffer, &pdu, actions, ROOM, &told), CUNDARRIX_OK);
    if (pdu.kind != CUNDARRIX_REPLY || pdu.cookie != number)
        fail("another PDU goes out");
    stat_sns[cid]++;
    read_actions(cundarrix_written(&session, cid, actions, ROOM, &told), CUNDARRIX_OK);
    if (to_the_end)
        read_actions(cundarrix_next(&session, cid, buffer, sizeof buffer, &pdu, actions, ROOM, &told), CUNDARRIX_NOTHING);
}

static void open_session(void) {
    static const uint16_t cids[MOST_CONNECTIONS] = {1, 2, 3, 4};
    cundarrix_options options = CUNDARRIX_OPTIONS;
    options.window = options.depth = 1024;
    if (cundarrix_open(&session, &options, cids, shape->connections) != CUNDARRIX_OK)
        fail("it isn't opened");
    for (uint16_t cid = 1; cid <= shape->connections; cid++) {
        stat_sns[cid] = 1;
        read_actions(cundarrix_join(&session, cid, 1, actions, ROOM, &told), CUNDARRIX_OK);
    }
}

/* Which of the live commands completes: the oldest, or any. */
static uint32_t place_of_next(uint32_t number) {
    static uint32_t random_state = 1;
    if (shape->in_order)
        return number % shape->live;
    random_state = random_state * 1664525 + 1013904223;
    return (uint32_t)((uint64_t)random_state * shape->live >> 32);
}

static void run(uint32_t commands) {
    open_session();
    double begin = now();
    for (uint32_t number = 1; number <= commands; number++) {
        uint32_t place = number <= shape->live ? number - 1 : place_of_next(number - 1);
        if (number > shape->live)
            complete(live[place]);
        arrive(number);
        live[place] = number;
    }
    double time = now() - begin;
    uint32_t events = 2 * commands - shape->live;
    if (counts[CUNDARRIX_START] != commands || counts[CUNDARRIX_FORGET] != commands - shape->live)
        fail("a command wasn't started, or not forgotten");
    if (to_the_end && counts[CUNDARRIX_READY] != commands - shape->live)
        fail("a connection wasn't ready for each response");
    printf("%u events, %s, %u live: %.1f ns an event\n", events, shape->name, shape->live, time / events);
    cundarrix_close(&session);
}

static const struct shape *shape_of(const char *name) {
    for (size_t place = 0; place < sizeof shapes / sizeof *shapes; place++)
        if (!strcmp(shapes[place].name, name))
            return &shapes[place];
    fail("the shapes are in-order, no-order and connections");
    return NULL;
}

int main(int count, char **words) {
    long commands = count > 1 ? strtol(words[1], NULL, 10) : 1000000;
    shape = shape_of(count > 2 ? words[2] : "in-order");
    to_the_end = count > 3 && !strcmp(words[3], "to-the-end");
    if (count > 4 || (count > 3 && !to_the_end) || commands < shape->live || commands > 100000000)
        fail("COMMANDS, as many as are live to 100000000, SHAPE, and to-the-end");
    run((uint32_t)commands);
    return 0;
}
