/*
 * What kajurnat.h says of commands, tried from C: the worked examples, a
 * refusal for each row of the header's order that also meets later rows,
 * requests of other lengths than are built, the builders and the reader, NULL
 * with length 0, soundness and version.
 */
#include "card.h"

#include <inttypes.h>

#define HEADER(type) type, 0x01, 0, 0, ZERO_8, 0, 0, 0, 0

#define NO_LIST NULL, 0
#define LIST(...)                                                              \
    (const uint8_t[]){__VA_ARGS__}, sizeof((const uint8_t[]){__VA_ARGS__})

#define OK KAJURNAT_STATUS_OK, KAJURNAT_Q_OK
#define EINVAL(qualifier) KAJURNAT_STATUS_EINVAL, KAJURNAT_Q_INVALID_##qualifier
#define ENXIO KAJURNAT_STATUS_ENXIO, KAJURNAT_Q_INVALID_COMMAND
#define EEXIST KAJURNAT_STATUS_EEXIST, KAJURNAT_Q_INVALID_COMMAND
#define ENOSPC KAJURNAT_STATUS_ENOSPC, KAJURNAT_Q_INVALID_COMMAND
#define EAGAIN KAJURNAT_STATUS_EAGAIN, KAJURNAT_Q_TRYAGAIN
#define ENOMEM KAJURNAT_STATUS_ENOMEM, KAJURNAT_Q_NORESOURCE

enum {
    LIST_QUERY = KAJURNAT_CMD_LIST_QUERY,
    LIST_USE = KAJURNAT_CMD_LIST_USE,
    CREATE = KAJURNAT_CMD_RESOURCE_OBJ_CREATE,
    MODIFY = KAJURNAT_CMD_RESOURCE_OBJ_MODIFY,
    QUERY = KAJURNAT_CMD_RESOURCE_OBJ_QUERY,
    DESTROY = KAJURNAT_CMD_RESOURCE_OBJ_DESTROY,
    METADATA = KAJURNAT_CMD_DEV_PARTS_METADATA_GET,
    GET = KAJURNAT_CMD_DEV_PARTS_GET,
    SET = KAJURNAT_CMD_DEV_PARTS_SET,
    MODE = KAJURNAT_CMD_DEV_MODE_SET,
    UNKNOWN = 0xffff,
    ROOM = KAJURNAT_REPLY_BYTES_MAX
};

/* A command by its fields, the room for its reply, and what the reply has to
 * be. Of a command with fields to spare these are 0. */
struct row {
    const char *name;
    uint16_t opcode;
    uint64_t number; /* the member, or the mask of list use */
    uint32_t id;
    uint8_t byte; /* kind, type byte or mode */
    const uint8_t *list;
    size_t list_len, room;
    uint16_t status, qualifier;
    size_t written;
    uint16_t group;     /* the group type that is sent, if not as built */
    size_t request_len; /* the length that is sent, if not as built */
};

/* On one card, in this order. */
static const struct row rows[] = {
    {"B1", LIST_QUERY, 0, 0, 0, NO_LIST, ROOM, OK, 16, 0, 0},
    {"B2", CREATE, 0, 0, 0, NO_LIST, ROOM, EINVAL(OPCODE), 8, 0, 0},
    {"B3", UNKNOWN, 0, 0, 0, NO_LIST, ROOM, EINVAL(GROUP), 8, 2, 0},
    {"use", LIST_USE, KAJURNAT_CMD_MASK, 0, 0, NO_LIST, ROOM, OK, 8, 0, 0},
    {"B4", MODE, 0, 0, 0, NO_LIST, ROOM, EINVAL(MEMBER), 8, 0, 0},
    {"B4", MODE, 3, 0, 0, NO_LIST, ROOM, EINVAL(MEMBER), 8, 0, 0},
    {"B4", MODE, 2, 0, 0, NO_LIST, ROOM, OK, 8, 0, 0},
    {"B5", CREATE, 1, GET_ID, 0, NO_LIST, ROOM, OK, 8, 0, 0},
    {"B5", CREATE, 1, GET_ID, 0, NO_LIST, ROOM, EEXIST, 8, 0, 0},
    {"B6", CREATE, 1, SET_ID, 0, NO_LIST, ROOM, ENOSPC, 8, 0, 0},
    {"B6", CREATE, 1, 2, 0, NO_LIST, ROOM, EINVAL(FIELD), 8, 0, 0},
    {"row 8, not live", SET, 1, SET_ID, 0, LIST(1), ROOM, ENXIO, 8, 0, 0},
    {"B6", CREATE, 1, SET_ID, 1, NO_LIST, ROOM, OK, 8, 0, 0},
    {"B7", DESTROY, 1, GET_ID, 0, NO_LIST, ROOM, OK, 8, 0, 0},
    {"destroyed", QUERY, 1, GET_ID, 0, NO_LIST, ROOM, ENXIO, 8, 0, 0},
    {"B7", CREATE, 1, GET_ID, 0, NO_LIST, ROOM, OK, 8, 0, 0},
    {"modify", MODIFY, 1, GET_ID, 0, NO_LIST, ROOM, OK, 8, 0, 0},
    {"query", QUERY, 1, SET_ID, 0, NO_LIST, ROOM, OK, 16, 0, 0},
    {"B8", SET, 1, SET_ID, 0, LIST(DRIVER_FEATURES), ROOM, EAGAIN, 8, 0, 0},
    {"B9", METADATA, 1, GET_ID, 1, NO_LIST, ROOM, OK, 16, 0, 0},
    {"B9", METADATA, 1, GET_ID, 0, NO_LIST, ROOM, OK, 16, 0, 0},
    {"B10", GET, 1, GET_ID, 0, LIST(HEADER(0x05), HEADER(0x03)), ROOM, OK, 49,
     0, 0},

    {"row 1", SET, 0, 0, 0, LIST(1), 7, 0, 0, 0, 2, 0},
    {"row 3", UNKNOWN, 0, 0, 0, NO_LIST, 8, EINVAL(GROUP), 8, 2, 0},
    {"row 4", UNKNOWN, 0, 0, 0, NO_LIST, 8, EINVAL(OPCODE), 8, 0, 0},
    {"row 5", SET, 0, 9, 0, LIST(1), 8, EINVAL(MEMBER), 8, 0, 0},
    {"row 7", SET, 1, 9, 0, LIST(1), 8, EINVAL(FIELD), 8, 0, 0},
    {"row 8, wrong kind", SET, 1, GET_ID, 0, LIST(1), 8, EINVAL(FIELD), 8, 0,
     0},
    {"row 9", SET, 1, SET_ID, 0, LIST(1), 8, EAGAIN, 8, 0, 0},
    {"stop", MODE, 1, 0, KAJURNAT_MODE_STOP, NO_LIST, ROOM, OK, 8, 0, 0},
    {"row 10", SET, 1, SET_ID, 0, LIST(1), 8, EINVAL(FIELD), 8, 0, 0},
    {"row 11", GET, 1, GET_ID, 1, NO_LIST, 8, ENOMEM, 8, 0, 0},

    {"B11", SET, 1, SET_ID, 0, LIST(DRIVER_FEATURES, DRIVER_FEATURES), ROOM,
     EINVAL(FIELD), 8, 0, 0},
    {"list", METADATA, 1, GET_ID, 2, NO_LIST, ROOM, OK, 160, 0, 0},
    {"B12", GET, 1, GET_ID, 1, NO_LIST, 236, ENOMEM, 8, 0, 0},
    {"B12", GET, 1, GET_ID, 1, NO_LIST, 237, OK, 237, 0, 0},
    {"set", SET, 1, SET_ID, 0, LIST(DRIVER_FEATURES), ROOM, OK, 8, 0, 0},
    {"empty", SET, 1, SET_ID, 0, NO_LIST, ROOM, OK, 8, 0, 0},

    {"a byte more", LIST_QUERY, 0, 0, 0, NO_LIST, ROOM, OK, 16, 0, 25},
    {"a byte more", DESTROY, 1, SET_ID, 0, NO_LIST, ROOM, OK, 8, 0, 33},
    {"cut after its kind", CREATE, 1, SET_ID, 1, NO_LIST, ROOM, OK, 8, 0, 41},
    {"cut in its id", QUERY, 1, SET_ID, 0, NO_LIST, ROOM, OK, 16, 0, 29},
    {"no data", CREATE, 1, SET_ID, 0, NO_LIST, ROOM, EEXIST, 8, 0, 24},
    {"a byte with get-all", GET, 1, GET_ID, 1, NO_LIST, ROOM, EINVAL(FIELD), 8,
     0, 41},
    {"half a header", GET, 1, GET_ID, 0, LIST(3, 1), ROOM, EINVAL(FIELD), 8, 0,
     0},
    {"no mode", MODE, 1, 0, KAJURNAT_MODE_STOP, NO_LIST, ROOM, OK, 8, 0, 24},
    {"resumed", SET, 1, SET_ID, 0, NO_LIST, ROOM, EAGAIN, 8, 0, 0},
    {"bits past 63", LIST_USE, 3, 0, 0, NO_LIST, ROOM, EINVAL(FIELD), 8, 0, 33},
    {"no mask", LIST_USE, 3, 0, 0, NO_LIST, ROOM, OK, 8, 0, 24},
    {"blocked", LIST_USE, 3, 0, 0, NO_LIST, ROOM, EINVAL(OPCODE), 8, 0, 0},
};

/* The request of a row; one with an opcode that no builder has is a list query
 * with another opcode. */
static size_t build(const struct row *row, uint8_t *request, size_t room)
{
    switch (row->opcode) {
    case LIST_USE:
        return kajurnat_request_list_use(request, room, row->number);
    case CREATE:
        return kajurnat_request_create(request, room, row->number, row->id,
                                       row->byte);
    case MODIFY:
        return kajurnat_request_modify(request, room, row->number, row->id,
                                       row->byte);
    case QUERY:
        return kajurnat_request_query(request, room, row->number, row->id);
    case DESTROY:
        return kajurnat_request_destroy(request, room, row->number, row->id);
    case METADATA:
        return kajurnat_request_metadata(request, room, row->number, row->id,
                                         row->byte);
    case GET:
        return kajurnat_request_get(request, room, row->number, row->id,
                                    row->byte, row->list, row->list_len);
    case SET:
        return kajurnat_request_set(request, room, row->number, row->id,
                                    row->list, row->list_len);
    case MODE:
        return kajurnat_request_mode(request, room, row->number, row->byte);
    default:
        return kajurnat_request_list_query(request, room);
    }
}

/* The numbers that a reply is read into. */
struct numbers {
    uint16_t status, qualifier, sent_status, sent_qualifier;
};

static uint8_t read_reply(uint16_t opcode, uint8_t what, const uint8_t *reply,
                          size_t reply_len, struct numbers *numbers)
{
    return kajurnat_reply_read(opcode, what, reply, reply_len, &numbers->status,
                               &numbers->qualifier, &numbers->sent_status,
                               &numbers->sent_qualifier);
}

static void try_row(const struct row *row)
{
    uint8_t request[256], reply[ROOM];
    struct numbers read = {0, 0, 0, 0};

    memset(request, 0xff, sizeof request);
    size_t length = build(row, request, sizeof request);
    expect(length != 0 && request[length] == 0xff, row->name);
    put_number(request, 2, row->opcode);
    if (row->group != 0) {
        put_number(request + 2, 2, row->group);
    }
    if (row->request_len != 0) {
        length = row->request_len;
    }
    size_t written = kajurnat_command(card, sizeof card, request, length, reply,
                                      row->room);
    expect(written == row->written, row->name);
    if (written != 0 && row->opcode != UNKNOWN) {
        expect(read_reply(row->opcode, row->byte, reply, written, &read) ==
                       KAJURNAT_REPLY_READ &&
                   read.status == row->status &&
                   read.qualifier == row->qualifier &&
                   read.sent_status == row->status &&
                   read.sent_qualifier == row->qualifier,
               row->name);
    } else if (written != 0) {
        expect(get_number(reply, 2) == row->status &&
                   get_number(reply + 2, 2) == row->qualifier,
               row->name);
    }
}

/* What the builders and the reader refuse, and numbers that are not known. */
static void try_host(void)
{
    static const uint8_t list[KAJURNAT_REQUEST_BYTES_MAX];
    static uint8_t request[2 * KAJURNAT_REQUEST_BYTES_MAX];
    const uint8_t reply[16] = {0xe7, 0x03, 0x08}; /* status 999, qualifier 8 */
    struct numbers read = {1, 2, 3, 4};

    expect(kajurnat_request_create(request, 47, 1, 0, 0) == 0 &&
               kajurnat_request_set(request, sizeof request, 1, 0, list,
                                    4065) == 0 &&
               kajurnat_request_get(request, sizeof request, 1, 0, 0, list,
                                    4057) == 0 &&
               request[0] == 0,
           "a request that is too long is not built");
    expect(kajurnat_request_list_query(NULL, 0) == 0 &&
               kajurnat_request_set(NULL, 0, 1, 0, NULL, 0) == 0,
           "NULL: builders");
    expect(kajurnat_request_set(request, sizeof request, 1, 0, list, 4064) ==
                   KAJURNAT_REQUEST_BYTES_MAX &&
               kajurnat_request_get(request, 40, 1, 0, 1, NULL, 0) == 40,
           "a request of the buffer's length is built");

    expect(read_reply(MODE, 0, NULL, 0, &read) == KAJURNAT_REPLY_REFUSED &&
               read_reply(MODE, 0, reply, 7, &read) == KAJURNAT_REPLY_REFUSED &&
               read_reply(MODE, 0, reply, 9, &read) == KAJURNAT_REPLY_REFUSED &&
               read_reply(UNKNOWN, 0, reply, 8, &read) ==
                   KAJURNAT_REPLY_REFUSED &&
               read.status == 1 && read.qualifier == 2 &&
               read.sent_status == 3 && read.sent_qualifier == 4,
           "a reply of a wrong length is refused");
    expect(read_reply(MODE, 0, reply, 8, &read) == KAJURNAT_REPLY_READ &&
               read.status == KAJURNAT_STATUS_EINVAL &&
               read.qualifier == KAJURNAT_Q_INVALID_COMMAND &&
               read.sent_status == 999 && read.sent_qualifier == 8,
           "numbers that are not known are handled, and shown");
}

/* The calls that only read: refusals in their order, and length 0. */
static void try_loads(void)
{
    const uint16_t status = KAJURNAT_PART_DEVICE_STATUS;
    uint8_t state = 9, number = 9, byte = 9;
    uint16_t held = 9;
    uint32_t generation = 9;

    expect(kajurnat_load(NULL, 0, 9, 0, 0, NULL, 0) == KAJURNAT_NOT_SOUND &&
               kajurnat_load(card, sizeof card, 9, 0, 0, NULL, 0) ==
                   KAJURNAT_NO_SUCH_MEMBER &&
               kajurnat_load(card, sizeof card, 1, 0, 0, NULL, 0) ==
                   KAJURNAT_NO_SUCH_PART &&
               kajurnat_load(card, sizeof card, 1, status, 0, NULL, 0) ==
                   KAJURNAT_WRONG_LENGTH,
           "refusals: load");
    expect(kajurnat_member(NULL, 0, 1, &state, &number, &number, &number,
                           &held) == KAJURNAT_NOT_SOUND &&
               kajurnat_member(card, sizeof card, 0, &state, &number, &number,
                               &number, &held) == KAJURNAT_NO_SUCH_MEMBER,
           "refusals: member");
    expect(kajurnat_configuration(NULL, 0, 1, NULL, 0, &generation) ==
                   KAJURNAT_NOT_SOUND &&
               kajurnat_configuration(card, sizeof card, 1, NULL, 0,
                                      &generation) == KAJURNAT_WRONG_LENGTH,
           "refusals: configuration");
    expect(kajurnat_setup_of(NULL, 0, &byte, 1) == 0 &&
               kajurnat_setup_of(card, sizeof card, NULL, 0) == 0,
           "refusals: setup_of");
    expect(state == 9 && number == 9 && byte == 9 && held == 9 &&
               generation == 9,
           "a refused call writes nothing");
}

/* Row 2 of the order, and length 0 everywhere. */
static void try_lengths(void)
{
    uint8_t request[KAJURNAT_REQUEST_BYTES_MAX + 1] = {0}, reply[8];
    const size_t lengths[] = {0, 23, sizeof request};

    for (size_t i = 0; i < sizeof lengths / sizeof lengths[0]; i++) {
        expect(kajurnat_command(card, sizeof card,
                                lengths[i] == 0 ? NULL : request, lengths[i],
                                reply, sizeof reply) == 8 &&
                   get_number(reply, 4) ==
                       (KAJURNAT_STATUS_EINVAL |
                        (uint32_t)KAJURNAT_Q_INVALID_COMMAND << 16),
               "row 2");
    }
    expect(kajurnat_command(card, sizeof card, request, 24, NULL, 0) == 0 &&
               kajurnat_command(NULL, 0, request, 24, reply, 8) == 0 &&
               kajurnat_command(NULL, 0, NULL, 0, NULL, 0) == 0,
           "NULL: command");
    expect(kajurnat_is_sound(NULL, 0) == 0, "NULL: is_sound");
    expect(kajurnat_reset_card(NULL, 0, 0) == KAJURNAT_NOT_SOUND &&
               kajurnat_hand_back(NULL, 0, 1) == KAJURNAT_NOT_SOUND &&
               kajurnat_wipe(NULL, 0, 1, 0) == KAJURNAT_NOT_SOUND,
           "NULL: resets");
    expect(kajurnat_store(NULL, 0, 1, KAJURNAT_PART_DEVICE_STATUS, 0, NULL,
                          0) == KAJURNAT_NOT_SOUND &&
               kajurnat_store(card, sizeof card, 1, KAJURNAT_PART_DEVICE_STATUS,
                              0, NULL, 0) == KAJURNAT_WRONG_LENGTH,
           "NULL: store");
    try_loads();
    expect(kajurnat_restore_begin(NULL, 0, 1) == KAJURNAT_NOT_SOUND &&
               kajurnat_restore_feed(NULL, 0, 1, NULL, 0) ==
                   KAJURNAT_NOT_SOUND &&
               kajurnat_restore_finish(NULL, 0, 1, 0) == KAJURNAT_NOT_SOUND &&
               kajurnat_restore_drop(NULL, 0, 1) == KAJURNAT_NOT_SOUND,
           "NULL: restore");
    expect(kajurnat_setup(NULL, 0, MEMBERS, queues, sizeof queues, GETS, SETS,
                          features, sizeof features) == KAJURNAT_BAD_SETUP &&
               kajurnat_setup(NULL, 0, 0, NULL, 0, 0, 0, NULL, 0) ==
                   KAJURNAT_BAD_SETUP &&
               kajurnat_setup(card, sizeof card, MEMBERS, NULL, 0, GETS, SETS,
                              features, sizeof features) ==
                   KAJURNAT_BAD_SETUP &&
               kajurnat_setup(card, sizeof card, MEMBERS, queues, sizeof queues,
                              GETS, SETS, NULL, 0) == KAJURNAT_BAD_SETUP &&
               kajurnat_setup_from(NULL, 0, NULL, 0) == KAJURNAT_BAD_SETUP,
           "NULL: setup");
    expect(kajurnat_is_sound(card, sizeof card) == 0,
           "a refused setup leaves no sound card");
}

int main(int count, char **arguments)
{
    take_no_arguments(count, arguments,
                      "tries what kajurnat.h says of commands");
    expect(kajurnat_version() == KAJURNAT_VERSION, "the version");
    expect(kajurnat_card_bytes(MEMBERS) == sizeof card &&
               kajurnat_card_bytes(0) == 0 && kajurnat_card_bytes(17) == 0,
           "the length of a card");
    set_up();
    for (size_t i = 0; i < sizeof rows / sizeof rows[0]; i++) {
        try_row(&rows[i]);
    }
    try_host();
    set_up();
    try_lengths();
    printf("boundary: as kajurnat.h says of commands\n");
    expect(fflush(stdout) == 0, "the output is written");
    return EXIT_SUCCESS;
}
