/* Random calls, and what holds of all of them: each cookie comes back once and isn't named behind that; a command starts once, and is told to
   stop once, if it started; a connection is told to be ready before it gives something, once, and to be closed once; StatSNs are in
   sequence, and MaxCmdSN never goes back; a call that is refused tells nothing. Words: the first seed (1), and how many runs (2000). */
#include "testing.h"

enum { CONNECTIONS = 3, STEPS = 400 };
enum { NOT_GIVEN, GIVEN, BACK };
enum { GOING, STOPPING, ENDED };

static uint64_t seed, random_state;
static struct {
    uint16_t connections;
    uint32_t unwritten;
    uint8_t cookies[STEPS + 1]; /* by cookie; 0 is none */
    uint32_t given;
    uint8_t stages[STEPS + 1]; /* by ticket, from 1 on */
    uint64_t started[STEPS];
    uint32_t starts;
    struct {
        bool joined, ready, closed;
        uint32_t stat_sn, unwritten;
    } links[CONNECTIONS + 1]; /* by CID, from 1 on */
    uint32_t max_cmd_sn;
} world;

/* How often each kind of action and of PDU was met, and each answer to a request. */
static uint64_t met_actions[CUNDARRIX_FORGET + 1], met_pdus[CUNDARRIX_NOTICE + 1], met_answers[CUNDARRIX_OVER + 1];

#define HOLDS(is_so) hold((is_so), __LINE__, #is_so)

static void hold(bool is_so, int line, const char *text) {
    if (is_so)
        return;
    printf("random.c:%d: seed %llu: not so: %s\n", line, (unsigned long long)seed, text);
    exit(1);
}

static uint32_t below(uint32_t most) {
    random_state = random_state * 6364136223846793005u + 1442695040888963407u;
    return (uint32_t)(random_state >> 33) % most;
}

static uint16_t any_cid(void) {
    return (uint16_t)(1 + below(world.connections));
}

static uint64_t new_cookie(void) {
    world.cookies[++world.given] = GIVEN;
    return world.given;
}

static void act_on_command(const cundarrix_action *action) {
    HOLDS(world.cookies[action->cookie] == GIVEN);
    if (action->kind == CUNDARRIX_STOP) {
        HOLDS(action->ticket <= STEPS && world.stages[action->ticket] == 1 + GOING);
        HOLDS(action->why >= CUNDARRIX_ABORTED && action->why <= CUNDARRIX_CLEARED);
        world.stages[action->ticket] = 1 + STOPPING;
        return;
    }
    HOLDS(action->ticket && action->ticket <= STEPS && !world.stages[action->ticket]);
    HOLDS(action->attribute >= CUNDARRIX_SIMPLE && action->attribute <= CUNDARRIX_HEAD_OF_QUEUE);
    world.stages[action->ticket] = 1 + GOING;
    world.started[world.starts++] = action->ticket;
}

static void act(const cundarrix_action *action) {
    met_actions[action->kind]++;
    switch (action->kind) {
    case CUNDARRIX_START:
    case CUNDARRIX_STOP:
        act_on_command(action);
        break;
    case CUNDARRIX_RESET:
        HOLDS(action->function == 4 || action->function == 5);
        break;
    case CUNDARRIX_READY:
        HOLDS(!world.links[action->cid].ready);
        world.links[action->cid].ready = true;
        break;
    case CUNDARRIX_CLOSE:
        HOLDS(!world.links[action->cid].closed);
        world.links[action->cid].closed = true;
        break;
    default:
        HOLDS(action->kind == CUNDARRIX_FORGET && world.cookies[action->cookie] == GIVEN);
        world.cookies[action->cookie] = BACK;
    }
}

/* Each call has room for some actions, and the others are asked for. */
#define SOME actions, below(9), &told

static cundarrix_result carry_out(cundarrix_result answer) {
    HOLDS(answer == CUNDARRIX_OK || (!told.count && !told.waiting));
    for (;;) {
        for (uint32_t index = 0; index < told.count; index++)
            act(&actions[index]);
        if (!told.waiting)
            return answer;
        HOLDS(cundarrix_written(&side, 1, SOME) == CUNDARRIX_ACTIONS_WAIT);
        HOLDS(cundarrix_more(&side, actions, 1 + below(8), &told) == CUNDARRIX_OK && told.count);
    }
}

static void join_one(void) {
    uint16_t cid = any_cid();
    uint32_t stat_sn = below(1000);
    bool may_join = cundarrix_may_join(&side, cid);
    if (carry_out(cundarrix_join(&side, cid, stat_sn, SOME)) != CUNDARRIX_OK) {
        HOLDS(!may_join);
        return;
    }
    HOLDS(may_join && !world.links[cid].joined);
    world.links[cid].joined = true;
    world.links[cid].stat_sn = stat_sn;
}

/* A request of any kind, mostly a SCSI Command whose turn it is. */
static void send_request(void) {
    static const uint8_t opcodes[] = {1, 1, 1, 1, 1, 1, 1, 2, 2, 2, 0, 0, 4, 5, 0x1f};
    cundarrix_numbers numbers = {0, 0};
    uint16_t cid = any_cid();
    uint8_t opcode = below(200) ? opcodes[below(sizeof opcodes)] : 6;
    uint8_t flags = (uint8_t)(opcode == 1 ? below(5) : opcode == 2 ? 1 + below(7) : opcode == 6 ? below(3) : 0);
    HOLDS(cundarrix_numbers_now(&side, &numbers) == CUNDARRIX_OK);
    make((uint8_t)(opcode | (below(3) ? 0 : 0x40)), 0x80 | flags, below(20) ? below(60) : 0xffffffff,
         opcode == 6 ? below(4) << 16 : opcode ? below(60) : 0x80000000 + below(4), numbers.exp_cmd_sn + (below(3) ? 0 : below(6)),
         opcode == 2 ? numbers.exp_cmd_sn - below(4) : 0);
    header[9] = (uint8_t)below(4);
    put_number(header + 28, world.links[cid].stat_sn - below(2));
    bool may_take = cundarrix_may_take(&side);
    cundarrix_result answer = cundarrix_arrive(&side, cid, header, sizeof header, new_cookie(), SOME);
    met_answers[answer]++;
    if (answer != CUNDARRIX_OK)
        world.cookies[world.given] = NOT_GIVEN;
    HOLDS(answer != CUNDARRIX_OK || (may_take && world.links[cid].joined));
    carry_out(answer);
}

/* A command completes, or is said to have stopped: one that started, and may be over. */
static void end_command(void) {
    if (!world.starts)
        return;
    uint64_t ticket = world.started[below(2) ? below(world.starts) : world.starts - 1];
    uint8_t stage = world.stages[ticket];
    bool completes = below(3);
    cundarrix_result answer = completes ? cundarrix_complete(&side, ticket, (uint8_t)(below(2) * 2), SOME) : cundarrix_stopped(&side, ticket, SOME);
    bool is_due = stage == 1 + STOPPING || (stage == 1 + GOING && completes);
    HOLDS(answer == (is_due ? CUNDARRIX_OK : CUNDARRIX_STALE));
    if (is_due)
        world.stages[ticket] = 1 + ENDED;
    carry_out(answer);
}

static void check_pdu(uint16_t cid) {
    bool takes = pdu.kind == CUNDARRIX_REPLY || (pdu.kind == CUNDARRIX_OWN && (buffer[0] == 0x24 || buffer[0] == 0x32));
    HOLDS(world.links[cid].joined && world.links[cid].ready && !world.links[cid].closed);
    HOLDS(number_at(buffer + 24) == world.links[cid].stat_sn);
    HOLDS((int32_t)(number_at(buffer + 32) - world.max_cmd_sn) >= 0);
    HOLDS(pdu.has_cookie == (pdu.kind == CUNDARRIX_REPLY || pdu.kind == CUNDARRIX_OWN));
    HOLDS(!pdu.has_cookie || world.cookies[pdu.cookie] == GIVEN);
    met_pdus[pdu.kind]++;
    world.max_cmd_sn = number_at(buffer + 32);
    world.links[cid].stat_sn += takes;
    world.links[cid].unwritten++;
}

static void take_pdu(void) {
    uint16_t cid = any_cid();
    cundarrix_result answer = cundarrix_next(&side, cid, buffer, sizeof buffer, &pdu, SOME);
    if (answer == CUNDARRIX_OK) {
        check_pdu(cid);
    } else {
        HOLDS((answer == CUNDARRIX_BLOCKED) == (world.links[cid].unwritten == world.unwritten));
        HOLDS(answer == CUNDARRIX_BLOCKED || answer == CUNDARRIX_NOTHING || (answer == CUNDARRIX_OVER && world.links[cid].closed));
        world.links[cid].ready = world.links[cid].ready && answer == CUNDARRIX_BLOCKED;
    }
    carry_out(answer);
}

static void write_one(void) {
    uint16_t cid = any_cid();
    HOLDS(carry_out(cundarrix_written(&side, cid, SOME)) == CUNDARRIX_OK);
    world.links[cid].unwritten -= world.links[cid].unwritten > 0;
}

/* A ping is answered, or isn't. */
static void hear_one(void) {
    uint16_t cid = any_cid();
    nop_out(0xffffffff, 0x80000000 + below(8), 1);
    put_number(header + 28, world.links[cid].stat_sn);
    HOLDS(carry_out(cundarrix_heard(&side, cid, header, sizeof header, SOME)) == CUNDARRIX_OK);
}

static void lose_one(uint16_t cid) {
    carry_out(cundarrix_lose(&side, cid, SOME));
    world.links[cid].joined = false;
    world.links[cid].unwritten = 0;
}

static void put_one(void) {
    uint64_t ticket = world.starts && below(2) ? world.started[below(world.starts)] : 0;
    uint64_t cookie = ticket ? 0 : new_cookie();
    make((uint8_t)(ticket ? (below(2) ? 0x25 : 0x31) : (below(2) ? 0x20 : 0x32)), 0x80, 0xffffffff, below(100), 0, 0);
    cundarrix_result answer = cundarrix_put(&side, any_cid(), ticket, header, sizeof header, cookie, SOME);
    HOLDS(answer == CUNDARRIX_OK || answer == CUNDARRIX_FULL || answer == (ticket ? CUNDARRIX_GONE : CUNDARRIX_CLOSED_CONNECTION)
          || answer == CUNDARRIX_CLOSED_CONNECTION);
    if (cookie && answer != CUNDARRIX_OK)
        world.cookies[cookie] = NOT_GIVEN;
    carry_out(answer);
}

static void rarely(void) {
    uint16_t unit = (uint16_t)below(4);
    if (!below(60))
        lose_one(any_cid());
    else
        HOLDS(carry_out(below(2) ? cundarrix_clear(&side, unit, SOME) : cundarrix_cleared(&side, unit, SOME)) == CUNDARRIX_OK);
}

static void (*const deeds[])(void) = {join_one,    send_request, send_request, send_request, send_request, end_command, take_pdu, take_pdu,
                                      take_pdu, write_one,    hear_one,     put_one,      put_one,      rarely};

static void begin(uint64_t from) {
    cundarrix_options options = CUNDARRIX_OPTIONS;
    memset(&world, 0, sizeof world);
    seed = random_state = from;
    options.window = 1 + below(8);
    options.units = 1 + below(3);
    options.depth = 1 + below(6);
    options.own = 1 + below(4);
    options.unwritten = world.unwritten = 1 + below(4);
    options.acknowledged = (uint8_t)below(2);
    options.shared = (uint8_t)below(2);
    options.level = 1 + below(2);
    world.connections = (uint16_t)(1 + below(CONNECTIONS));
    world.max_cmd_sn = options.window;
    CHECK(cundarrix_open(&side, &options, (const uint16_t[]){1, 2, 3}, world.connections) == CUNDARRIX_OK);
}

/* All connections are lost, and all commands stop: then every cookie is back. */
static void end(void) {
    for (uint16_t cid = 1; cid <= world.connections; cid++)
        lose_one(cid);
    for (uint32_t index = 0; index < world.starts; index++)
        if (world.stages[world.started[index]] != 1 + ENDED)
            HOLDS(carry_out(cundarrix_stopped(&side, world.started[index], SOME)) == CUNDARRIX_OK);
    for (uint32_t cookie = 1; cookie <= world.given; cookie++)
        HOLDS(world.cookies[cookie] != GIVEN);
    HOLDS(cundarrix_close(&side) == CUNDARRIX_OK && held == 0);
}

int main(int count, char **words) {
    uint64_t first = count > 1 ? strtoull(words[1], NULL, 10) : 1, runs = count > 2 ? strtoull(words[2], NULL, 10) : 2000;
    for (uint64_t run = first; run < first + runs; run++) {
        begin(run);
        for (int step = 0; step < STEPS; step++)
            deeds[below(sizeof deeds / sizeof *deeds)]();
        end();
    }
    for (int kind = CUNDARRIX_START; kind <= CUNDARRIX_FORGET; kind++)
        CHECK(met_actions[kind] >= runs / 10);
    for (int kind = CUNDARRIX_REPLY; kind <= CUNDARRIX_NOTICE; kind++)
        CHECK(met_pdus[kind] >= runs / 100);
    CHECK(met_answers[CUNDARRIX_OK] >= 10 * runs && met_answers[CUNDARRIX_BUSY] >= runs / 10);
    return 0;
}
