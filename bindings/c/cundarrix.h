/*
 * The command queue and task manager of an iSCSI target (RFC 7143 sections 4.2.2, 4.2.3, 11.5, 11.6; SAM-5), for C. Version 2.
 *
 * One cundarrix_session is one iSCSI session in its Full Feature Phase, with all of its connections. A target has four duties:
 *   - it gives each header that arrives, with a cookie of its own for that request (cundarrix_arrive);
 *   - it starts a command at CUNDARRIX_START, and says when that completes (cundarrix_complete);
 *   - it stops a command at CUNDARRIX_STOP, and says when nothing touches the medium for it any more (cundarrix_stopped);
 *   - at CUNDARRIX_READY it sends what cundarrix_next gives, in that order, and says that it is written (cundarrix_written).
 * Everything else (when a command may start, what an abort covers, which answer has to wait, every StatSN, ExpCmdSN and MaxCmdSN)
 * is the session's. docs/USING.md walks through a target that does this.
 *
 * Actions. What the target is to do is told by the call that made it so: the first `room` of these actions stand in the array
 * `actions` when it returns, told->count of them, and told->waiting more wait for cundarrix_more. They are carried out in their
 * order. While some wait every call that tells actions, but cundarrix_more, answers CUNDARRIX_ACTIONS_WAIT and does nothing; so no
 * action is lost, whatever the room. Where `room` is 0 `actions` may be NULL; `told` may not.
 *
 * Cookies. A cookie is 64 bits of the caller's, most likely a pointer; 0 is as good as any. The session reads nothing into it. Each
 * cookie that was given with a call that answered CUNDARRIX_OK comes back by CUNDARRIX_FORGET exactly once, as long as the session
 * isn't closed, and behind that the session names it no more: there, and nowhere else, the caller frees what it keeps for that
 * request. A call that answers otherwise has kept no cookie. cundarrix_close gives none back.
 *
 * Memory. cundarrix_open takes all that the session ever needs, by malloc and realloc; cundarrix_close gives it back by free. No other call
 * allocates or frees, and only cundarrix_open answers CUNDARRIX_NO_MEMORY. No pointer that is given to a call is kept.
 *
 * Threads. Any thread may make any call; calls on one session are made one at a time, by a lock of the caller's or a thread of its
 * own. What one call told is carried out in the order of the calls. Sessions share nothing. No call blocks. No call may be made
 * from a signal handler, nor in the forked child of a process with threads.
 *
 * What the caller owes, since nothing can test it:
 *   - a cundarrix_session begins as CUNDARRIX_CLOSED, and C never writes nor copies its fields;
 *   - each pointer that isn't NULL points to what its type says, for as many elements as the length beside it, and no two of the
 *     pointers of a call overlap;
 *   - malloc, realloc and free are of one allocator.
 *
 * A call looks at what may refuse it in this order: CUNDARRIX_NULL_POINTER; CUNDARRIX_SHORT_HEADER or CUNDARRIX_SHORT_BUFFER;
 * CUNDARRIX_NOT_OPEN; CUNDARRIX_ACTIONS_WAIT; and then what stands beside it, in the order in which it stands there. A call that
 * answers anything but CUNDARRIX_OK has changed nothing and tells nothing; but behind CUNDARRIX_NOTHING and CUNDARRIX_OVER the
 * connection may be told to be ready again.
 */
#ifndef CUNDARRIX_H
#define CUNDARRIX_H

#include <stdbool.h>
#include <stddef.h>
#include <stdint.h>

#ifdef __cplusplus
extern "C" {
#endif

/* The version of this header. The library tells that it is of the same one by the size of the options: one of another version
   answers CUNDARRIX_BAD_OPTIONS. */
#define CUNDARRIX_VERSION_MAJOR 2
#define CUNDARRIX_VERSION_MINOR 0

/* A session. Opaque: see above what C must not do with it. */
typedef struct cundarrix_session {
    bool open;
    void *at;
} cundarrix_session;

/* How each cundarrix_session begins, and what it is after cundarrix_close. All bytes zero is the same. */
#define CUNDARRIX_CLOSED { false, NULL }

/* The length of a header, and the longest PDU that cundarrix_next gives, without the data that the target adds. */
enum { CUNDARRIX_HEADER = 48, CUNDARRIX_PDU = 96 };

/* What a call answers. */
typedef enum cundarrix_result {
    CUNDARRIX_OK = 0,
    CUNDARRIX_BAD_OPTIONS = 1,        /* open: an option is outside its limits, or of another version; or a CID stands twice */
    CUNDARRIX_NO_MEMORY = 2,          /* open: memory was refused */
    CUNDARRIX_NOT_OPEN = 3,           /* the session isn't open */
    CUNDARRIX_ALREADY_OPEN = 4,       /* open: the session is open */
    CUNDARRIX_SHORT_HEADER = 5,       /* fewer than 48 bytes */
    CUNDARRIX_SHORT_BUFFER = 6,       /* next: fewer than 96 bytes */
    CUNDARRIX_NULL_POINTER = 7,       /* a pointer is NULL; by this header's functions alone */
    CUNDARRIX_ACTIONS_WAIT = 8,       /* actions of an earlier call wait: cundarrix_more first */
    CUNDARRIX_UNKNOWN_CONNECTION = 9, /* arrive, lose: the CID is none of the session's */
    CUNDARRIX_NOT_JOINED = 10,        /* arrive: the connection hasn't joined, or was lost; lose: it was lost already */
    CUNDARRIX_EXHAUSTED = 11,         /* arrive: as many events were taken as the options allow */
    CUNDARRIX_BUSY = 12,              /* arrive: not now; hold the header back until cundarrix_may_take */
    CUNDARRIX_STALE = 13,             /* complete, stopped: no command of this ticket is left to complete or to stop */
    CUNDARRIX_CANNOT_JOIN = 14,       /* join: the connection isn't the session's, has joined, is closed or lost */
    CUNDARRIX_UNFIT = 15,             /* put: the header is that of no PDU that may be put */
    CUNDARRIX_GONE = 16,              /* put: the command isn't in its task set any more */
    CUNDARRIX_CLOSED_CONNECTION = 17, /* put: the connection hasn't joined, is closed or lost */
    CUNDARRIX_FULL = 18,              /* put: as many own PDUs wait on the connection as may */
    CUNDARRIX_NOTHING = 19,           /* next: nothing goes out there now; CUNDARRIX_READY tells when something does */
    CUNDARRIX_BLOCKED = 20,           /* next: too much was handed out there and isn't written; ask again behind written */
    CUNDARRIX_OVER = 21               /* next: nothing goes out there any more */
} cundarrix_result;

/* The options of a session. Each is said; CUNDARRIX_OPTIONS has something for all of them. */
typedef struct cundarrix_options {
    uint64_t events;       /* the most events that the session takes: 1 to 2^48. Of them 64, one for each place of the window and
                              eight for each connection are kept back for commands that complete and connections that are lost */
    uint32_t size;         /* sizeof(cundarrix_options) */
    uint32_t first_cmd_sn; /* the first CmdSN, as the login gave it */
    uint32_t window;       /* the size of the command window: 1 to 1024 */
    uint32_t units;        /* how many logical units there are, numbered from 0: 1 to 256 */
    uint32_t depth;        /* the most commands of a unit's task set: 1 to 1024 */
    uint32_t level;        /* the protocol level: 1, or 2 for the task management queries of RFC 7144 */
    uint32_t own;          /* the most PDUs of the target's own (cundarrix_put) that wait on a connection: 1 to 1024 */
    uint32_t unwritten;    /* the most PDUs of a connection that are handed out and aren't written: 1 to 1024 */
    uint8_t acknowledged;  /* 1: the answer to an abort waits until what went out of its commands, also of one that had completed, is
                              known to have arrived on other connections (by ExpStatSN, or a ping that is answered). 0: until it is
                              written there */
    uint8_t shared;        /* 1: other sessions have the units, too: resets are told, and wait for cundarrix_cleared. 0: they don't */
    uint8_t reserved[6];   /* zeros */
} cundarrix_options;

/* Options to begin with. What most targets set then: first_cmd_sn, window, units, depth, shared. */
#define CUNDARRIX_OPTIONS \
    { (uint64_t)1 << 48, (uint32_t)sizeof(cundarrix_options), 1, 32, 1, 64, 1, 64, 16, 1, 0, { 0, 0, 0, 0, 0, 0 } }

/* What the target is told to do. */
typedef enum cundarrix_kind {
    CUNDARRIX_START = 1, /* the unit may start the command: ticket, unit, attribute, cookie */
    CUNDARRIX_STOP = 2,  /* a command that was told to start is to stop: ticket, cookie, why. Nothing more is put for it. Once
                            nothing touches the medium for it: cundarrix_stopped */
    CUNDARRIX_RESET = 3, /* with `shared`: a CLEAR TASK SET (function 4) or LOGICAL UNIT RESET (5) was executed: unit, function. The
                            target has each other session clear the unit; once nothing of any other session touches the unit's
                            medium, also what was marked or aborted before: cundarrix_cleared */
    CUNDARRIX_READY = 4, /* something may go out on the connection: cid. It isn't told again before cundarrix_next has answered
                            CUNDARRIX_NOTHING or CUNDARRIX_OVER there */
    CUNDARRIX_CLOSE = 5, /* nothing goes out on the connection any more: cid. The target closes its transport; then cundarrix_lose */
    CUNDARRIX_FORGET = 6 /* the request is over, or the PDU that was put: cookie. These stand behind all others of a call */
} cundarrix_kind;

/* Task attributes (RFC 7143 section 11.3.1; untagged counts as simple). */
typedef enum cundarrix_attribute {
    CUNDARRIX_SIMPLE = 1,
    CUNDARRIX_ORDERED = 2,
    CUNDARRIX_HEAD_OF_QUEUE = 3
} cundarrix_attribute;

/* Why a command is to stop. */
typedef enum cundarrix_why {
    CUNDARRIX_ABORTED = 1,    /* by a task management function of its initiator */
    CUNDARRIX_LOGGED_OUT = 2, /* by a Logout */
    CUNDARRIX_LOST = 3,       /* its connection was lost */
    CUNDARRIX_CLEARED = 4     /* by another session (cundarrix_clear). It is answered with TASK ABORTED once it has stopped */
} cundarrix_why;

/* One action. Fields that its kind has no use for are 0. */
typedef struct cundarrix_action {
    uint64_t ticket;   /* of the command, from 1 on; no two commands of a session have the same */
    uint64_t cookie;   /* of the request */
    uint16_t cid;
    uint16_t unit;
    uint8_t kind;      /* a cundarrix_kind */
    uint8_t attribute; /* a cundarrix_attribute */
    uint8_t why;       /* a cundarrix_why */
    uint8_t function;  /* as RFC 7143 section 11.5.1 numbers it */
} cundarrix_action;

/* What a call told. */
typedef struct cundarrix_told {
    uint32_t count;   /* so many actions stand in the array */
    uint32_t waiting; /* so many more wait for cundarrix_more */
} cundarrix_told;

/* The kinds of PDUs that go out. */
typedef enum cundarrix_pdu_kind {
    CUNDARRIX_REPLY = 1, /* the session's answer to the request of the cookie */
    CUNDARRIX_OWN = 2,   /* one that the target put. Of a command (a Data-In, an R2T) the cookie is that of its request */
    CUNDARRIX_PING = 3,  /* a NOP-In that the initiator is to answer; no cookie */
    CUNDARRIX_NOTICE = 4 /* a NOP-In that shows MaxCmdSN, and isn't answered; no cookie */
} cundarrix_pdu_kind;

/* A PDU that goes out. */
typedef struct cundarrix_pdu {
    uint64_t cookie;     /* of the request that it answers or is of, or that it was put with; 0 where there is none */
    uint8_t kind;        /* a cundarrix_pdu_kind */
    uint8_t has_cookie;  /* 1 or 0 */
    uint8_t length;      /* so many bytes of the buffer are the PDU: 48, or 68 or 96 with a data segment of the session's */
    uint8_t reserved[5]; /* zeros */
} cundarrix_pdu;

/* ExpCmdSN and MaxCmdSN (RFC 7143 section 4.2.2.1). */
typedef struct cundarrix_numbers {
    uint32_t exp_cmd_sn;
    uint32_t max_cmd_sn;
} cundarrix_numbers;

/* The library's own symbols. Call the functions below them, which test for NULL and clear `told` first. */
uint32_t iscsi_c_open(const cundarrix_options *options, const uint16_t *cids, size_t count, cundarrix_session *session);
uint32_t iscsi_c_arrive(cundarrix_session *session, uint16_t cid, const uint8_t *header, size_t length, uint64_t cookie,
                        cundarrix_action *actions, size_t room, cundarrix_told *told);
uint32_t iscsi_c_complete(cundarrix_session *session, uint64_t ticket, uint8_t status, cundarrix_action *actions, size_t room,
                          cundarrix_told *told);
uint32_t iscsi_c_stopped(cundarrix_session *session, uint64_t ticket, cundarrix_action *actions, size_t room,
                         cundarrix_told *told);
uint32_t iscsi_c_next(cundarrix_session *session, uint16_t cid, uint8_t *buffer, size_t length, cundarrix_pdu *pdu,
                      cundarrix_action *actions, size_t room, cundarrix_told *told);
uint32_t iscsi_c_put(cundarrix_session *session, uint16_t cid, uint64_t ticket, const uint8_t *header, size_t length,
                     uint64_t cookie, cundarrix_action *actions, size_t room, cundarrix_told *told);
uint32_t iscsi_c_written(cundarrix_session *session, uint16_t cid, cundarrix_action *actions, size_t room,
                         cundarrix_told *told);
uint32_t iscsi_c_heard(cundarrix_session *session, uint16_t cid, const uint8_t *header, size_t length,
                       cundarrix_action *actions, size_t room, cundarrix_told *told);
uint32_t iscsi_c_join(cundarrix_session *session, uint16_t cid, uint32_t stat_sn, cundarrix_action *actions, size_t room,
                      cundarrix_told *told);
uint32_t iscsi_c_lose(cundarrix_session *session, uint16_t cid, cundarrix_action *actions, size_t room, cundarrix_told *told);
uint32_t iscsi_c_clear(cundarrix_session *session, uint16_t unit, cundarrix_action *actions, size_t room,
                       cundarrix_told *told);
uint32_t iscsi_c_cleared(cundarrix_session *session, uint16_t unit, cundarrix_action *actions, size_t room,
                         cundarrix_told *told);
uint32_t iscsi_c_more(cundarrix_session *session, cundarrix_action *actions, size_t room, cundarrix_told *told);
uint32_t iscsi_c_numbers(cundarrix_session *session, cundarrix_numbers *numbers);
bool iscsi_c_may_take(cundarrix_session *session);
bool iscsi_c_is_asked(cundarrix_session *session, uint16_t cid);
bool iscsi_c_may_join(cundarrix_session *session, uint16_t cid);
uint32_t iscsi_c_close(cundarrix_session *session);

/* Clears `told`, and gives where the actions go: the library wants a pointer also where there is no room. NULL where one of the
   two is missing. */
static inline cundarrix_action *cundarrix_place_(cundarrix_action *actions, size_t room, cundarrix_told *told) {
    static cundarrix_action none;
    if (!told)
        return NULL;
    told->count = 0;
    told->waiting = 0;
    return actions || room ? actions : &none;
}

/* Opens a session on a closed cundarrix_session, of which no connection has joined. It has the `count` connections that `cids` names,
   and never others: 1 to 64 of them, none twice. A target names all that it will admit; a CID that closed or was lost doesn't come
   back. In order: CUNDARRIX_ALREADY_OPEN, CUNDARRIX_BAD_OPTIONS, CUNDARRIX_NO_MEMORY. */
static inline cundarrix_result cundarrix_open(cundarrix_session *session, const cundarrix_options *options,
                                              const uint16_t *cids, size_t count) {
    if (!session || !options || !cids)
        return CUNDARRIX_NULL_POINTER;
    return (cundarrix_result)iscsi_c_open(options, cids, count, session);
}

/* A connection's login ended: it is in the Full Feature Phase, and the first PDU that goes out there has this StatSN. Before that nothing
   is taken from it nor given to it. CUNDARRIX_CANNOT_JOIN. */
static inline cundarrix_result cundarrix_join(cundarrix_session *session, uint16_t cid, uint32_t stat_sn,
                                              cundarrix_action *actions, size_t room, cundarrix_told *told) {
    cundarrix_action *place = cundarrix_place_(actions, room, told);
    if (!session || !place)
        return CUNDARRIX_NULL_POINTER;
    return (cundarrix_result)iscsi_c_join(session, cid, stat_sn, place, room, told);
}

/* A request PDU arrived on the connection: its basic header segment, the first 48 of `length` bytes, as it came, with the cookie for it.
   Each request is given, in the order in which its connection brought them; a Data-Out goes to cundarrix_heard. What its header
   acknowledges counts, too. In order: CUNDARRIX_UNKNOWN_CONNECTION, CUNDARRIX_NOT_JOINED, CUNDARRIX_EXHAUSTED, CUNDARRIX_BUSY.
   At CUNDARRIX_BUSY the target holds the header back, gives it to cundarrix_heard, and tries again once cundarrix_may_take says so;
   commands complete and stop, and replies go out meanwhile. Immediate requests lead there, and commands that were told to stop and don't. */
static inline cundarrix_result cundarrix_arrive(cundarrix_session *session, uint16_t cid, const uint8_t *header, size_t length,
                                                uint64_t cookie, cundarrix_action *actions, size_t room,
                                                cundarrix_told *told) {
    cundarrix_action *place = cundarrix_place_(actions, room, told);
    if (!session || !header || !place)
        return CUNDARRIX_NULL_POINTER;
    return (cundarrix_result)iscsi_c_arrive(session, cid, header, length, cookie, place, room, told);
}

/* A header arrived that isn't given to cundarrix_arrive, as that of a Data-Out, or one that is held back: its ExpStatSN, and the tag of
   the ping that it answers, count. Of a connection that isn't open nothing is heard, and a number that says nothing changes
   nothing: CUNDARRIX_OK all the same. */
static inline cundarrix_result cundarrix_heard(cundarrix_session *session, uint16_t cid, const uint8_t *header, size_t length,
                                               cundarrix_action *actions, size_t room, cundarrix_told *told) {
    cundarrix_action *place = cundarrix_place_(actions, room, told);
    if (!session || !header || !place)
        return CUNDARRIX_NULL_POINTER;
    return (cundarrix_result)iscsi_c_heard(session, cid, header, length, place, room, told);
}

/* The unit completed the command with this ticket, with this SCSI status; its data was put before. Where the command was to stop
   meanwhile this says that it has stopped, and the status isn't looked at. CUNDARRIX_STALE: the ticket isn't that of a
   command that was told to start, or that was said already. */
static inline cundarrix_result cundarrix_complete(cundarrix_session *session, uint64_t ticket, uint8_t status,
                                                  cundarrix_action *actions, size_t room, cundarrix_told *told) {
    cundarrix_action *place = cundarrix_place_(actions, room, told);
    if (!session || !place)
        return CUNDARRIX_NULL_POINTER;
    return (cundarrix_result)iscsi_c_complete(session, ticket, status, place, room, told);
}

/* Nothing touches the medium any more for a command that was told to stop. The answer to the abort goes out behind this, and not
   before. CUNDARRIX_STALE: no command with this ticket is left to stop. */
static inline cundarrix_result cundarrix_stopped(cundarrix_session *session, uint64_t ticket, cundarrix_action *actions,
                                                 size_t room, cundarrix_told *told) {
    cundarrix_action *place = cundarrix_place_(actions, room, told);
    if (!session || !place)
        return CUNDARRIX_NULL_POINTER;
    return (cundarrix_result)iscsi_c_stopped(session, ticket, place, room, told);
}

/* Puts a PDU of the target's own behind all that waits on its connection: the first 48 of `length` bytes, whose StatSN, ExpCmdSN and
   MaxCmdSN are filled in as it goes out.
   With the ticket of a command: a Data-In without the S bit, or an R2T. It goes out on the command's connection; `cid` and `cookie`
   aren't looked at, and it goes out with the cookie of the command's request. What waits when the command leaves is dropped.
   With the ticket 0: a Text Response, an Asynchronous Message, or a NOP-In with the task tag ffffffff whose transfer tag is ffffffff or
   below 80000000. It goes out on `cid` with this cookie, which comes back.
   In order: CUNDARRIX_UNFIT, CUNDARRIX_GONE, CUNDARRIX_CLOSED_CONNECTION, CUNDARRIX_FULL. */
static inline cundarrix_result cundarrix_put(cundarrix_session *session, uint16_t cid, uint64_t ticket, const uint8_t *header,
                                             size_t length, uint64_t cookie, cundarrix_action *actions, size_t room,
                                             cundarrix_told *told) {
    cundarrix_action *place = cundarrix_place_(actions, room, told);
    if (!session || !header || !place)
        return CUNDARRIX_NULL_POINTER;
    return (cundarrix_result)iscsi_c_put(session, cid, ticket, header, length, cookie, place, room, told);
}

/* The next PDU that goes out on the connection, with its numbers as they are now: the first pdu->length bytes of the buffer, which has
   `length` of them, 96 at the least. What is handed out has to be written, in this order, or the connection to be lost. The target
   may add to it: the data of a Data-In, of a ping's answer or of a Text Response, sense data, residual counts, ExpDataSN; not the
   numbers at bytes 24 to 35. Otherwise than at CUNDARRIX_OK *pdu is zeros, and the buffer as it was.
   In order: CUNDARRIX_BLOCKED, then CUNDARRIX_NOTHING or CUNDARRIX_OVER. Of a CID that isn't the session's: CUNDARRIX_NOTHING. */
static inline cundarrix_result cundarrix_next(cundarrix_session *session, uint16_t cid, uint8_t *buffer, size_t length,
                                              cundarrix_pdu *pdu, cundarrix_action *actions, size_t room,
                                              cundarrix_told *told) {
    static const cundarrix_pdu none = { 0, 0, 0, 0, { 0, 0, 0, 0, 0 } };
    cundarrix_action *place = cundarrix_place_(actions, room, told);
    if (pdu)
        *pdu = none;
    if (!session || !buffer || !pdu || !place)
        return CUNDARRIX_NULL_POINTER;
    return (cundarrix_result)iscsi_c_next(session, cid, buffer, length, pdu, place, room, told);
}

/* The oldest PDU that was handed out on the connection, and isn't written, has gone into the transport. Where there is none nothing
   changes: CUNDARRIX_OK all the same. */
static inline cundarrix_result cundarrix_written(cundarrix_session *session, uint16_t cid, cundarrix_action *actions,
                                                 size_t room, cundarrix_told *told) {
    cundarrix_action *place = cundarrix_place_(actions, room, told);
    if (!session || !place)
        return CUNDARRIX_NULL_POINTER;
    return (cundarrix_result)iscsi_c_written(session, cid, place, room, told);
}

/* The transport of a connection is gone, or the target gives it up, and no thread writes there any more. Its commands are told to stop,
   what waits there is dropped, and its requests are forgotten as they are over. Each connection that joined is lost once in its life,
   also behind CUNDARRIX_CLOSE. In order: CUNDARRIX_UNKNOWN_CONNECTION, CUNDARRIX_NOT_JOINED (it was lost already). */
static inline cundarrix_result cundarrix_lose(cundarrix_session *session, uint16_t cid, cundarrix_action *actions, size_t room,
                                              cundarrix_told *told) {
    cundarrix_action *place = cundarrix_place_(actions, room, told);
    if (!session || !place)
        return CUNDARRIX_NULL_POINTER;
    return (cundarrix_result)iscsi_c_lose(session, cid, place, room, told);
}

/* Another session reset or cleared the unit: what this session has in its task set there is told to stop, or never starts, and ends
   with TASK ABORTED (40h). A unit that the session doesn't have changes nothing: CUNDARRIX_OK all the same. */
static inline cundarrix_result cundarrix_clear(cundarrix_session *session, uint16_t unit, cundarrix_action *actions,
                                               size_t room, cundarrix_told *told) {
    cundarrix_action *place = cundarrix_place_(actions, room, told);
    if (!session || !place)
        return CUNDARRIX_NULL_POINTER;
    return (cundarrix_result)iscsi_c_clear(session, unit, place, room, told);
}

/* With `shared`: the other sessions have cleared the unit for a CUNDARRIX_RESET of this one, and nothing of them touches its
   medium any more, also what was marked or aborted before. It counts for the oldest reset of the unit that waits; where none does, nothing changes: CUNDARRIX_OK all the same. */
static inline cundarrix_result cundarrix_cleared(cundarrix_session *session, uint16_t unit, cundarrix_action *actions,
                                                 size_t room, cundarrix_told *told) {
    cundarrix_action *place = cundarrix_place_(actions, room, told);
    if (!session || !place)
        return CUNDARRIX_NULL_POINTER;
    return (cundarrix_result)iscsi_c_cleared(session, unit, place, room, told);
}

/* Hands over the next actions that wait; none where none does. It never answers CUNDARRIX_ACTIONS_WAIT. */
static inline cundarrix_result cundarrix_more(cundarrix_session *session, cundarrix_action *actions, size_t room,
                                              cundarrix_told *told) {
    cundarrix_action *place = cundarrix_place_(actions, room, told);
    if (!session || !place)
        return CUNDARRIX_NULL_POINTER;
    return (cundarrix_result)iscsi_c_more(session, place, room, told);
}

/* Writes ExpCmdSN as the last event left it, and the last MaxCmdSN that was shown: for the Login Response of a connection that is about
   to join. Nothing is written where the session isn't open. This and the three below answer also while actions wait. */
static inline cundarrix_result cundarrix_numbers_now(cundarrix_session *session, cundarrix_numbers *numbers) {
    if (!session || !numbers)
        return CUNDARRIX_NULL_POINTER;
    return (cundarrix_result)iscsi_c_numbers(session, numbers);
}

/* Whether one more request may be taken, from any connection; else cundarrix_arrive answers CUNDARRIX_BUSY. */
static inline bool cundarrix_may_take(cundarrix_session *session) {
    return session && iscsi_c_may_take(session);
}

/* Whether a CUNDARRIX_PING went out on the connection, and isn't answered. Meanwhile it may hold up all of the session. How long that is
   borne is the target's to say, and less than its initiators bear themselves: then it loses the connection. */
static inline bool cundarrix_is_asked(cundarrix_session *session, uint16_t cid) {
    return session && iscsi_c_is_asked(session, cid);
}

/* Whether cundarrix_join of the connection would be done. */
static inline bool cundarrix_may_join(cundarrix_session *session, uint16_t cid) {
    return session && iscsi_c_may_join(session, cid);
}

/* Closes the session and frees what it holds. No cookie comes back: a target that loses each connection and waits until all commands
   have stopped has had all of them back before. */
static inline cundarrix_result cundarrix_close(cundarrix_session *session) {
    if (!session)
        return CUNDARRIX_NULL_POINTER;
    return (cundarrix_result)iscsi_c_close(session);
}

#define CUNDARRIX_TEXT_(token) #token
#define CUNDARRIX_VERSION_(major, minor) CUNDARRIX_TEXT_(major) "." CUNDARRIX_TEXT_(minor)

/* The version of this header, as "2.0". */
static inline const char *cundarrix_version(void) {
    return CUNDARRIX_VERSION_(CUNDARRIX_VERSION_MAJOR, CUNDARRIX_VERSION_MINOR);
}

/* A result in words. */
static inline const char *cundarrix_result_text(cundarrix_result result) {
    switch (result) {
    case CUNDARRIX_OK: return "done";
    case CUNDARRIX_BAD_OPTIONS: return "an option is outside its limits, or a CID stands twice";
    case CUNDARRIX_NO_MEMORY: return "memory was refused";
    case CUNDARRIX_NOT_OPEN: return "the session isn't open";
    case CUNDARRIX_ALREADY_OPEN: return "the session is open already";
    case CUNDARRIX_SHORT_HEADER: return "a header has 48 bytes";
    case CUNDARRIX_SHORT_BUFFER: return "a buffer needs 96 bytes";
    case CUNDARRIX_NULL_POINTER: return "a pointer is NULL";
    case CUNDARRIX_ACTIONS_WAIT: return "actions of an earlier call wait";
    case CUNDARRIX_UNKNOWN_CONNECTION: return "the connection is none of the session's";
    case CUNDARRIX_NOT_JOINED: return "the connection hasn't joined, or was lost";
    case CUNDARRIX_EXHAUSTED: return "the session has taken as many events as it may";
    case CUNDARRIX_BUSY: return "no request may be taken now";
    case CUNDARRIX_STALE: return "no command with this ticket is left to complete or to stop";
    case CUNDARRIX_CANNOT_JOIN: return "the connection may not join";
    case CUNDARRIX_UNFIT: return "the PDU isn't one that may be put";
    case CUNDARRIX_GONE: return "the command is in its task set no more";
    case CUNDARRIX_CLOSED_CONNECTION: return "the connection isn't open";
    case CUNDARRIX_FULL: return "as many own PDUs wait as may";
    case CUNDARRIX_NOTHING: return "nothing goes out now";
    case CUNDARRIX_BLOCKED: return "too many PDUs aren't written";
    case CUNDARRIX_OVER: return "nothing goes out any more";
    }
    return "no result of this version";
}

/* The kind of an action in a word. */
static inline const char *cundarrix_action_text(uint8_t kind) {
    switch (kind) {
    case CUNDARRIX_START: return "start";
    case CUNDARRIX_STOP: return "stop";
    case CUNDARRIX_RESET: return "reset";
    case CUNDARRIX_READY: return "ready";
    case CUNDARRIX_CLOSE: return "close";
    case CUNDARRIX_FORGET: return "forget";
    }
    return "unknown";
}

/* The kind of a PDU in a word. */
static inline const char *cundarrix_pdu_text(uint8_t kind) {
    switch (kind) {
    case CUNDARRIX_REPLY: return "reply";
    case CUNDARRIX_OWN: return "own";
    case CUNDARRIX_PING: return "ping";
    case CUNDARRIX_NOTICE: return "notice";
    }
    return "unknown";
}

#ifdef __cplusplus
}
#endif

#endif
