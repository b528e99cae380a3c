/* Prints the size and the alignment of each struct of cundarrix.h, and the offset of each of its fields. Bindings of another
   language compare these with their own. What the library takes them for is asserted as this is compiled. */
#include <stddef.h>
#include <stdio.h>

#include "cundarrix.h"

#define SIZE(type, size) _Static_assert(sizeof(type) == (size), #type)
#define OFFSET(type, field, offset) _Static_assert(offsetof(type, field) == (offset), #type "." #field)

SIZE(cundarrix_session, 2 * sizeof(void *));
OFFSET(cundarrix_session, open, 0);
OFFSET(cundarrix_session, at, sizeof(void *));
SIZE(cundarrix_options, 48);
OFFSET(cundarrix_options, events, 0);
OFFSET(cundarrix_options, size, 8);
OFFSET(cundarrix_options, first_cmd_sn, 12);
OFFSET(cundarrix_options, window, 16);
OFFSET(cundarrix_options, units, 20);
OFFSET(cundarrix_options, depth, 24);
OFFSET(cundarrix_options, level, 28);
OFFSET(cundarrix_options, own, 32);
OFFSET(cundarrix_options, unwritten, 36);
OFFSET(cundarrix_options, acknowledged, 40);
OFFSET(cundarrix_options, shared, 41);
OFFSET(cundarrix_options, reserved, 42);
SIZE(cundarrix_action, 24);
OFFSET(cundarrix_action, ticket, 0);
OFFSET(cundarrix_action, cookie, 8);
OFFSET(cundarrix_action, cid, 16);
OFFSET(cundarrix_action, unit, 18);
OFFSET(cundarrix_action, kind, 20);
OFFSET(cundarrix_action, attribute, 21);
OFFSET(cundarrix_action, why, 22);
OFFSET(cundarrix_action, function, 23);
SIZE(cundarrix_told, 8);
OFFSET(cundarrix_told, count, 0);
OFFSET(cundarrix_told, waiting, 4);
SIZE(cundarrix_pdu, 16);
OFFSET(cundarrix_pdu, cookie, 0);
OFFSET(cundarrix_pdu, kind, 8);
OFFSET(cundarrix_pdu, has_cookie, 9);
OFFSET(cundarrix_pdu, length, 10);
OFFSET(cundarrix_pdu, reserved, 11);
SIZE(cundarrix_numbers, 8);
OFFSET(cundarrix_numbers, exp_cmd_sn, 0);
OFFSET(cundarrix_numbers, max_cmd_sn, 4);

#define STRUCT(name) printf(#name " %zu %zu\n", sizeof(cundarrix_##name), _Alignof(cundarrix_##name))
#define FIELD(name, field) printf(#name "." #field " %zu\n", offsetof(cundarrix_##name, field))

static void print_options(void) {
    STRUCT(options);
    FIELD(options, events);
    FIELD(options, size);
    FIELD(options, first_cmd_sn);
    FIELD(options, window);
    FIELD(options, units);
    FIELD(options, depth);
    FIELD(options, level);
    FIELD(options, own);
    FIELD(options, unwritten);
    FIELD(options, acknowledged);
    FIELD(options, shared);
    FIELD(options, reserved);
}

static void print_action(void) {
    STRUCT(action);
    FIELD(action, ticket);
    FIELD(action, cookie);
    FIELD(action, cid);
    FIELD(action, unit);
    FIELD(action, kind);
    FIELD(action, attribute);
    FIELD(action, why);
    FIELD(action, function);
}

int main(void) {
    STRUCT(session);
    FIELD(session, open);
    FIELD(session, at);
    print_options();
    print_action();
    STRUCT(told);
    FIELD(told, count);
    FIELD(told, waiting);
    STRUCT(pdu);
    FIELD(pdu, cookie);
    FIELD(pdu, kind);
    FIELD(pdu, has_cookie);
    FIELD(pdu, length);
    FIELD(pdu, reserved);
    STRUCT(numbers);
    FIELD(numbers, exp_cmd_sn);
    FIELD(numbers, max_cmd_sn);
    return 0;
}
