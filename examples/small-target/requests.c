/* What is kept for requests, and the data that comes for them. */
#include <stdlib.h>
#include <string.h>

#include "parts.h"

static struct request *requests; /* all that aren't forgotten */

struct request *keep(const uint8_t *header, const uint8_t *data) {
    struct request *request = allocate(sizeof *request);
    memcpy(request->header, header, sizeof request->header);
    if ((header[0] & 0x3f) == NOP_OUT && segment(header)) {
        request->length = segment(header);
        request->data = memcpy(allocate(request->length), data, request->length);
    }
    request->next = requests;
    return requests = request;
}

void forget(struct request *request) {
    struct request **place = &requests;
    while (*place != request)
        place = &(*place)->next;
    *place = request->next;
    free(request->data);
    free(request);
}

bool are_left(void) {
    return requests != NULL;
}

uint32_t transfer_tag(const struct request *request) {
    return (uint32_t)request->ticket & 0x7fffffff;
}

/* Whether a Data-Out is what comes next for a WRITE that isn't to stop. */
static bool is_for(const uint8_t *header, const struct request *request) {
    return request->data && request->header[32] == WRITE && !request->stop && transfer_tag(request) == number(header + 20)
        && number(request->header + 16) == number(header + 16) && number(header + 40) == request->arrived
        && segment(header) <= request->length - request->arrived;
}

void take_data(const uint8_t *header, const uint8_t *data) {
    struct request *request = requests;
    while (request && !is_for(header, request))
        request = request->next;
    if (!request)
        return;
    memcpy(request->data + request->arrived, data, segment(header));
    request->arrived += segment(header);
    pthread_cond_broadcast(&changed);
}
