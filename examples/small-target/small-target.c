/* A small iSCSI target over the library, to be read beside docs/USING.md: what it does for its session. It serves one, with up to eight
   connections, and ends with it. It asks nobody who he is, and so it listens on 127.0.0.1 alone.

   A connection has a thread that reads and one that writes, a command that was started has one, and so has the clock. The session has a
   lock, which each of them takes for a call and for what that tells; none holds it while it reads, writes or works on the disk. */
#define _POSIX_C_SOURCE 200809L
#include <stdio.h>
#include <stdlib.h>
#include <sys/socket.h>
#include <unistd.h>

#include "parts.h"

struct connection {
    int socket;
    uint16_t cid;
    bool ready, gone; /* something may go out; the transport is broken, or to be closed */
    unsigned asked;   /* for so many seconds a ping isn't answered */
};

static cundarrix_session session = CUNDARRIX_CLOSED;
pthread_mutex_t lock = PTHREAD_MUTEX_INITIALIZER;
pthread_cond_t changed = PTHREAD_COND_INITIALIZER; /* whatever a thread may wait for */
static struct connection *connections[CIDS]; /* by CID, those that joined */
static unsigned members, working; /* so many connections logged in; so many threads execute a command */

/* Where each call tells its actions, under the lock. */
static cundarrix_action actions[ROOM];
static cundarrix_told told;
#define TELL actions, ROOM, &told

static void *execute(void *argument);

/* One action. It makes no call of the session's, as more of them may wait. */
static void act(const cundarrix_action *action) {
    struct request *request = (struct request *)(uintptr_t)action->cookie;
    switch (action->kind) {
    case CUNDARRIX_START:
        request->ticket = action->ticket;
        request->unit = action->unit;
        working++;
        pthread_detach(begin_thread(execute, request));
        break;
    case CUNDARRIX_STOP:
        request->stop = true;
        break;
    case CUNDARRIX_READY:
        connections[action->cid]->ready = true;
        break;
    case CUNDARRIX_CLOSE:
        shutdown(connections[action->cid]->socket, SHUT_RDWR); /* its reader loses it */
        break;
    case CUNDARRIX_FORGET:
        forget(request);
        break;
    }
}

/* Every call goes through this: all that it told is done before the lock is let go, and who waits looks again. */
static cundarrix_result carry_out(cundarrix_result answer) {
    for (;;) {
        for (uint32_t index = 0; index < told.count; index++)
            act(&actions[index]);
        if (!told.waiting)
            break;
        cundarrix_more(&session, TELL);
    }
    pthread_cond_broadcast(&changed);
    return answer;
}

bool put(struct request *request, const uint8_t *header) {
    cundarrix_result answer = CUNDARRIX_GONE;
    while (!request->stop && (answer = carry_out(cundarrix_put(&session, 0, request->ticket, header, CUNDARRIX_HEADER, 0, TELL))) == CUNDARRIX_FULL)
        pthread_cond_wait(&changed, &lock);
    return answer == CUNDARRIX_OK;
}

/* A command, in a thread of its own, from START until it completes or has stopped. */
static void *execute(void *argument) {
    struct request *request = argument;
    pthread_mutex_lock(&lock);
    uint8_t status = perform(request);
    /* Behind either call the request may be forgotten. */
    if (request->stop)
        carry_out(cundarrix_stopped(&session, request->ticket, TELL));
    else
        carry_out(cundarrix_complete(&session, request->ticket, status, TELL));
    working--;
    pthread_cond_broadcast(&changed);
    pthread_mutex_unlock(&lock);
    return NULL;
}

/* Closes the transport of a connection: its reader loses it. */
static void give_up(struct connection *connection) {
    connection->gone = true;
    shutdown(connection->socket, SHUT_RDWR);
    pthread_cond_broadcast(&changed);
}

/* The thread that has the clock. Who leaves a ping unanswered for so long is given up: what waits for that answer then goes out on the
   other connections, the answers to their own pings too. */
static void *watch(void *argument) {
    for (;; sleep(1)) {
        pthread_mutex_lock(&lock);
        for (uint16_t cid = 0; cid < CIDS; cid++) {
            struct connection *connection = connections[cid];
            if (connection && (connection->asked = cundarrix_is_asked(&session, cid) ? connection->asked + 1 : 0) >= PATIENCE)
                give_up(connection);
        }
        pthread_mutex_unlock(&lock);
    }
    return argument;
}

/* The thread that writes on a connection. It asks for a PDU once the one before it is written, so `next` is never blocked. */
static void *send_all(void *argument) {
    struct connection *connection = argument;
    uint8_t bytes[CUNDARRIX_PDU];
    cundarrix_pdu pdu;
    pthread_mutex_lock(&lock);
    while (!connection->gone) {
        if (!connection->ready) {
            pthread_cond_wait(&changed, &lock);
            continue;
        }
        connection->ready = carry_out(cundarrix_next(&session, connection->cid, bytes, sizeof bytes, &pdu, TELL)) == CUNDARRIX_OK;
        if (!connection->ready)
            continue;
        pthread_mutex_unlock(&lock);
        bool is_sent = send_pdu(connection->socket, bytes, &pdu);
        pthread_mutex_lock(&lock);
        if (is_sent)
            carry_out(cundarrix_written(&session, connection->cid, TELL));
        else
            give_up(connection);
    }
    pthread_mutex_unlock(&lock);
    return NULL;
}

/* Gives a request to the session, and holds it back while that is busy. Whether the connection goes on. */
static bool take_request(struct connection *connection, const uint8_t *header, const uint8_t *data) {
    struct request *request = keep(header, data);
    cundarrix_result answer;
    while ((answer = carry_out(cundarrix_arrive(&session, connection->cid, header, CUNDARRIX_HEADER, (uintptr_t)request, TELL))) == CUNDARRIX_BUSY) {
        carry_out(cundarrix_heard(&session, connection->cid, header, CUNDARRIX_HEADER, TELL));
        while (!cundarrix_may_take(&session) && !connection->gone)
            pthread_cond_wait(&changed, &lock);
        if (connection->gone)
            break;
    }
    if (answer != CUNDARRIX_OK)
        forget(request); /* its cookie isn't kept */
    return answer == CUNDARRIX_OK;
}

/* The thread that reads, until the transport ends. */
static void read_all(struct connection *connection) {
    uint8_t header[CUNDARRIX_HEADER], *data = allocate(SEGMENT);
    bool goes_on = true;
    while (goes_on && receive_pdu(connection->socket, header, data)) {
        pthread_mutex_lock(&lock);
        if ((header[0] & 0x3f) == NOP_OUT && number(header + 16) == NO_TAG)
            connection->asked = 0; /* a ping is answered, and another may go out at once */
        if ((header[0] & 0x3f) == DATA_OUT) {
            carry_out(cundarrix_heard(&session, connection->cid, header, sizeof header, TELL));
            take_data(header, data);
        } else {
            goes_on = take_request(connection, header, data);
        }
        pthread_mutex_unlock(&lock);
    }
    free(data);
}

/* The session opens with its first login: the CIDs are 0 to 7, whichever come. */
static void open_session(uint32_t cmd_sn) {
    static const uint16_t cids[CIDS] = {0, 1, 2, 3, 4, 5, 6, 7};
    cundarrix_options options = CUNDARRIX_OPTIONS;
    options.first_cmd_sn = cmd_sn;
    options.units = UNITS;
    if (cundarrix_open(&session, &options, cids, CIDS) != CUNDARRIX_OK)
        fail("small-target: the session");
}

/* Whether a login came with a CID that may join. It joins before it is answered, so no other one can take its CID. */
static bool log_in(struct connection *connection) {
    uint8_t header[CUNDARRIX_HEADER];
    cundarrix_numbers numbers = {0, 0};
    if (!receive_login(connection->socket, header))
        return false;
    connection->cid = (uint16_t)(header[20] << 8 | header[21]);
    pthread_mutex_lock(&lock);
    if (!session.open)
        open_session(number(header + 24));
    bool may_join = cundarrix_may_join(&session, connection->cid);
    if (may_join) {
        connections[connection->cid] = connection;
        members++;
        cundarrix_numbers_now(&session, &numbers);
        carry_out(cundarrix_join(&session, connection->cid, STAT_SN + 1, TELL));
    }
    pthread_mutex_unlock(&lock);
    connection->gone = !may_join || !send_login(connection->socket, header, &numbers);
    return may_join;
}

/* The last connection that leaves ends the session, once no command works any more: then all requests are forgotten. */
static void leave(void) {
    members--;
    while (!members && working)
        pthread_cond_wait(&changed, &lock);
    if (!members) {
        cundarrix_close(&session);
        puts(are_left() ? "the session is over, and requests are left" : "the session is over");
        exit(are_left());
    }
}

/* A connection, until its transport ends. It is lost once no thread writes there any more. */
static void *serve(void *argument) {
    struct connection *connection = argument;
    if (log_in(connection)) {
        pthread_t sender = begin_thread(send_all, connection);
        read_all(connection);
        pthread_mutex_lock(&lock);
        give_up(connection);
        pthread_mutex_unlock(&lock);
        pthread_join(sender, NULL);
        pthread_mutex_lock(&lock);
        carry_out(cundarrix_lose(&session, connection->cid, TELL));
        connections[connection->cid] = NULL;
        leave();
        pthread_mutex_unlock(&lock);
    }
    close(connection->socket);
    free(connection);
    return NULL;
}

/* Words: the port (3260; 0 for any that is free), and how many milliseconds a command takes (0): of several numbers each in its turn. */
int main(int count, char **words) {
    int listener = listen_at((uint16_t)(count > 1 ? atoi(words[1]) : 3260));
    set_delays(count > 2 ? (unsigned)count - 2 : 0, words + 2);
    pthread_detach(begin_thread(watch, NULL));
    for (;;) {
        struct connection *connection = allocate(sizeof *connection);
        connection->socket = accept_next(listener);
        pthread_detach(begin_thread(serve, connection));
    }
}
