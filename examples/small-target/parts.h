/* What the small target has beside its session, which is in small-target.c: what is kept for requests (requests.c), what commands mean
   (commands.c), PDUs as they stand on the wire (wire.c), and memory, threads and sockets (system.c). */
#ifndef PARTS_H
#define PARTS_H

#include <pthread.h>

#include "cundarrix.h"

enum { UNITS = 2, CIDS = 8, ROOM = 16, SEGMENT = 65536, STAT_SN = 1, LOGIN_LENGTH = 48 + 184 };
enum { PATIENCE = 4 }; /* so many seconds a ping may lie unanswered, or a socket take nothing: fewer than the five that Linux waits for its own */
#define NO_TAG UINT32_MAX
enum { NOP_OUT = 0x00, LOGIN = 0x03, DATA_OUT = 0x05, NOP_IN = 0x20, SCSI_RESPONSE = 0x21, LOGIN_RESPONSE = 0x23, DATA_IN = 0x25, R2T = 0x31 };
enum { READ = 0x28, WRITE = 0x2a };

struct request { /* from its arrival until FORGET; its address is its cookie */
    uint8_t header[CUNDARRIX_HEADER];
    uint8_t *data; /* of a READ, a WRITE or a ping .. */
    uint32_t length, arrived; /* .. so long; so much of a WRITE's has come */
    uint32_t pieces; /* so many Data-Ins and R2Ts were put */
    uint64_t ticket;
    uint16_t unit;
    bool stop;
    struct request *next;
};

/* ---- small-target.c: the session's lock, and what may change under it */

extern pthread_mutex_t lock;
extern pthread_cond_t changed;

/* Puts a Data-In or an R2T of a command once there is room. Whether that was done: nothing is put for a command that is to stop. */
bool put(struct request *request, const uint8_t *header);

/* ---- requests.c, under the lock */

/* Keeps a request, and the data of a ping, for as long as the library may name its cookie. */
struct request *keep(const uint8_t *header, const uint8_t *data);
void forget(struct request *request);
/* Whether any isn't forgotten. */
bool are_left(void);
/* A command's own transfer tag: its R2T has it, and so have the Data-Outs that answer it. */
uint32_t transfer_tag(const struct request *request);
/* A Data-Out goes to the WRITE that waits for it. What is for none is thrown away, as that for one that left. */
void take_data(const uint8_t *header, const uint8_t *data);

/* ---- commands.c, under the lock */

/* How many milliseconds the commands take, in turn: so many numbers. */
void set_delays(unsigned count, char **milliseconds);
/* Carries a command out, as far as it isn't to stop. Gives its status. The lock isn't held while the disk works. */
uint8_t perform(struct request *request);

/* ---- wire.c, without the lock */

uint32_t number(const uint8_t *place);
void put_number(uint8_t *place, uint32_t value);
/* The length of the data segment. */
uint32_t segment(const uint8_t *header);
/* The data segment goes to `data`, which has SEGMENT bytes; an additional header is passed over. */
bool receive_pdu(int from, uint8_t *header, uint8_t *data);
/* Sends what `next` gave, with what is the target's in it: the data of a READ or of a ping, and ExpDataSN. */
bool send_pdu(int to, uint8_t *bytes, const cundarrix_pdu *pdu);
/* A login that goes from the last stage to the Full Feature Phase at once, and the answer to it, with the keys that are fixed. */
bool receive_login(int from, uint8_t *header);
bool send_login(int to, const uint8_t *header, const cundarrix_numbers *numbers);

/* ---- system.c: where one of these fails, the program ends */

void fail(const char *why);
void *allocate(size_t size);
pthread_t begin_thread(void *(*body)(void *), void *argument);
/* A port of 127.0.0.1, 0 for any that is free; and the next connection that comes there. */
int listen_at(uint16_t port);
int accept_next(int listener);
/* These say whether all was sent, or came. A socket that doesn't take all within PATIENCE isn't sent to any more. */
bool send_bytes(int to, const uint8_t *bytes, size_t length);
bool receive(int from, uint8_t *bytes, size_t length);

#endif
