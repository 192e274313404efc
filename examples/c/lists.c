/*
 * What kajurnat.h says of the functions on lists, tried from C: a list part by
 * part, and, under a packed setup, a full capture and a later list, and a torn
 * capture.
 */
#include "card.h"

enum { MEMBER = 1, CAPTURE = KAJURNAT_CAPTURE_BYTES(QUEUES) };

/* Where parts stand in a capture: device features, driver features, four PCI
 * common fields, and then the device status. */
enum { DRIVER_FEATURES_AT = 32, STATUS_AT = 140, QUEUE_AT = 157 };

/* The parts of a member with one queue. */
enum { PARTS = KAJURNAT_PARTS(QUEUES), QUEUE_PART = 7 };

/* A later list: device status 5. */
static const uint8_t later[] = {0x03, 0x01, 0, 0, ZERO_8, 1, 0, 0, 0, 5};

static uint8_t setup[KAJURNAT_SETUP_BYTES_MAX], full[CAPTURE];
static size_t setup_len;

/* Sends the request that was built, of this length; it has to succeed. */
static size_t send(const uint8_t *request, size_t length, uint8_t *reply)
{
    size_t written = kajurnat_command(card, sizeof card, request, length, reply,
                                      KAJURNAT_REPLY_BYTES_MAX);
    expect(written >= KAJURNAT_REPLY_HEAD_BYTES && get_number(reply, 2) == 0,
           "a command succeeds");
    return written;
}

/* A packed setup, and a full capture of a fresh member. */
static void capture(void)
{
    uint8_t request[KAJURNAT_REQUEST_BYTES_MAX];
    uint8_t reply[KAJURNAT_REPLY_BYTES_MAX];

    set_up();
    setup_len = kajurnat_setup_write(setup, sizeof setup, MEMBERS, queues,
                                     sizeof queues, GETS, SETS, features,
                                     sizeof features);
    send(request,
         kajurnat_request_list_use(request, sizeof request, KAJURNAT_CMD_MASK),
         reply);
    send(request,
         kajurnat_request_create(request, sizeof request, MEMBER, GET_ID,
                                 KAJURNAT_OBJ_GET),
         reply);
    size_t written =
        send(request,
             kajurnat_request_get(request, sizeof request, MEMBER, GET_ID,
                                  KAJURNAT_PARTS_ALL, NULL, 0),
             reply);
    expect(written == KAJURNAT_REPLY_HEAD_BYTES + sizeof full,
           "a capture is of its length");
    memcpy(full, reply + KAJURNAT_REPLY_HEAD_BYTES, sizeof full);
}

/* The parts of a member with one queue, in order. */
static const struct {
    uint16_t type;
    uint64_t selector;
    size_t length;
} table[PARTS] = {
    {KAJURNAT_PART_DEV_FEATURES, 0, 16},
    {KAJURNAT_PART_DRV_FEATURES, 0, 16},
    {KAJURNAT_PART_PCI_COMMON_CFG, KAJURNAT_COMMON_DEVICE_FEATURE_SELECT, 4},
    {KAJURNAT_PART_PCI_COMMON_CFG, KAJURNAT_COMMON_DRIVER_FEATURE_SELECT, 4},
    {KAJURNAT_PART_PCI_COMMON_CFG, KAJURNAT_COMMON_CONFIG_MSIX_VECTOR, 2},
    {KAJURNAT_PART_PCI_COMMON_CFG, KAJURNAT_COMMON_QUEUE_SELECT, 2},
    {KAJURNAT_PART_DEVICE_STATUS, 0, 1},
    {KAJURNAT_PART_VQ_CFG, 0, 32},
    {KAJURNAT_PART_VQ_NOTIFY_CFG, 0, 8},
};

/* A capture, cut after any number of bytes, is walked up to the cut. */
static void try_walk(void)
{
    for (size_t length = 0; length <= sizeof full; length++) {
        struct kajurnat_part part;
        size_t at = 0, next, i;

        for (i = 0; (next = kajurnat_part_at(full, length, at, &part)) != 0;
             i++) {
            expect(part.type == table[i].type && part.flags == (i == 0) &&
                       part.selector == table[i].selector &&
                       part.value_len == table[i].length &&
                       part.value == full + next - part.value_len,
                   "walk: the parts of the table");
            at = next;
        }
        expect((i == PARTS) == (length == sizeof full) && at <= length,
               "walk: up to the cut");
    }
}

/* A list made part by part is the capture it was taken from; a buffer without
 * room for the next part keeps its bytes. */
static void try_put(void)
{
    uint8_t list[CAPTURE + 1], before[sizeof list];
    struct kajurnat_part part;
    size_t at = 0, next, made = 0;

    memset(list, 0xee, sizeof list);
    while ((next = kajurnat_part_at(full, sizeof full, at, &part)) != 0) {
        memcpy(before, list, sizeof list);
        for (size_t room = 0; room < next; room++) {
            expect(kajurnat_part_put(list, room, made, &part) == 0 &&
                       memcmp(list, before, sizeof list) == 0,
                   "put: no room");
        }
        made = kajurnat_part_put(list, sizeof list, made, &part);
        at = next;
    }
    expect(made == CAPTURE && memcmp(list, full, CAPTURE) == 0 &&
               list[CAPTURE] == 0xee,
           "put: the capture");
    part.value_len = SIZE_MAX;
    expect(kajurnat_part_put(list, sizeof list, 0, &part) == 0 &&
               kajurnat_header_put(list, sizeof list, 0, &part) == 0 &&
               kajurnat_part_at(list, 5, 6, &part) == 0 &&
               kajurnat_header_at(list, sizeof list, SIZE_MAX, &part) == 0,
           "put: a length or a place out of range");
}

/* The headers of two parts ask for them, and those of a metadata list are the
 * table's. */
static void try_headers(void)
{
    const struct kajurnat_part asked[] = {
        {.type = KAJURNAT_PART_VQ_NOTIFY_CFG, .selector = 0},
        {.type = KAJURNAT_PART_DEVICE_STATUS},
    };
    uint8_t headers[2 * KAJURNAT_PART_HEADER_BYTES];
    uint8_t request[KAJURNAT_REQUEST_BYTES_MAX];
    uint8_t reply[KAJURNAT_REPLY_BYTES_MAX];
    struct kajurnat_part part;
    size_t at = 0, next;

    for (size_t i = 0; i < 2; i++) {
        at = kajurnat_header_put(headers, sizeof headers, at, &asked[i]);
    }
    expect(at == sizeof headers, "headers: two are put");
    size_t written =
        send(request,
             kajurnat_request_get(request, sizeof request, MEMBER, GET_ID,
                                  KAJURNAT_PARTS_SELECTED, headers, at),
             reply);
    at = KAJURNAT_REPLY_HEAD_BYTES;
    next = kajurnat_part_at(reply, written, at, &part);
    expect(next != 0 && part.type == KAJURNAT_PART_DEVICE_STATUS,
           "headers: the status comes first");
    next = kajurnat_part_at(reply, written, next, &part);
    expect(next == written && part.type == KAJURNAT_PART_VQ_NOTIFY_CFG,
           "headers: then the notify part, and no more");

    written = send(request,
                   kajurnat_request_metadata(request, sizeof request, MEMBER,
                                             GET_ID, KAJURNAT_METADATA_LIST),
                   reply);
    expect(kajurnat_result_number(reply) == PARTS, "headers: their count");
    at = KAJURNAT_METADATA_HEADERS_AT;
    for (size_t i = 0; i < PARTS; i++) {
        at = kajurnat_header_at(reply, written, at, &part);
        expect(at != 0 && part.value == NULL && part.type == table[i].type &&
                   part.selector == table[i].selector &&
                   part.value_len == table[i].length,
               "headers: the metadata list is the table");
    }
    expect(at == written && kajurnat_header_at(reply, written, at, &part) == 0,
           "headers: the list ends");
}

/* The results of the commands that give a number. */
static void try_results(void)
{
    uint8_t request[KAJURNAT_REQUEST_BYTES_MAX];
    uint8_t reply[KAJURNAT_REPLY_BYTES_MAX];

    send(request, kajurnat_request_list_query(request, sizeof request), reply);
    expect(kajurnat_result_mask(reply) == KAJURNAT_CMD_MASK, "results: a mask");
    send(request,
         kajurnat_request_metadata(request, sizeof request, MEMBER, GET_ID,
                                   KAJURNAT_METADATA_SIZE),
         reply);
    expect(kajurnat_result_number(reply) == CAPTURE, "results: a size");
    send(request,
         kajurnat_request_create(request, sizeof request, MEMBER, SET_ID,
                                 KAJURNAT_OBJ_SET),
         reply);
    send(request,
         kajurnat_request_query(request, sizeof request, MEMBER, SET_ID),
         reply);
    expect(kajurnat_result_kind(reply) == KAJURNAT_OBJ_SET, "results: a kind");
}

/* What is found, and the first refusal that applies. */
static void try_find(void)
{
    static const struct {
        uint64_t member;
        size_t setup_less, skip_full, full_less, later_less;
        uint16_t type;
        uint64_t selector;
        uint8_t answer, list;
        uint64_t at, len;
    } rows[] = {
        {MEMBER, 0, 0, 0, 0, KAJURNAT_PART_DEVICE_STATUS, 9,
         KAJURNAT_DIFFERENCE_DONE, KAJURNAT_LIST_LATER, 16, 1},
        {MEMBER, 0, 0, 0, 0, KAJURNAT_PART_DRV_FEATURES, 0,
         KAJURNAT_DIFFERENCE_DONE, KAJURNAT_LIST_FULL, DRIVER_FEATURES_AT + 16,
         16},
        {MEMBER, 1, 0, 1, 1, 0, 0, KAJURNAT_DIFFERENCE_BAD_SETUP, 0, 0, 0},
        {MEMBERS + 1, 0, 0, 1, 1, 0, 0, KAJURNAT_DIFFERENCE_BAD_SETUP, 0, 0, 0},
        {MEMBER, 0, 0, 1, 1, 0, 0, KAJURNAT_DIFFERENCE_BAD_FULL, 0, 0, 0},
        {MEMBER, 0, DRIVER_FEATURES_AT, 0, 1, 0, 0,
         KAJURNAT_DIFFERENCE_BAD_LATER, 0, 0, 0},
        {MEMBER, 0, DRIVER_FEATURES_AT, 0, 0, 0, 0,
         KAJURNAT_DIFFERENCE_LACKS_PART, 0, 0, 0},
        {MEMBER, 0, 0, 0, 0, KAJURNAT_PART_VQ_CFG, QUEUES,
         KAJURNAT_DIFFERENCE_NO_SUCH_PART, 0, 0, 0},
    };

    for (size_t i = 0; i < sizeof rows / sizeof rows[0]; i++) {
        uint8_t list = 9;
        uint64_t at = 9, len = 9;
        uint8_t answer = kajurnat_difference_find(
            setup, setup_len - rows[i].setup_less, rows[i].member,
            full + rows[i].skip_full,
            sizeof full - rows[i].skip_full - rows[i].full_less, later,
            sizeof later - rows[i].later_less, rows[i].type, rows[i].selector,
            &list, &at, &len);
        expect(answer == rows[i].answer && list == rows[i].list &&
                   at == rows[i].at && len == rows[i].len,
               "find: a part, or the first refusal and zeros");
    }
}

/* One list of the two; no refusal writes the buffer. */
static void try_merge(void)
{
    uint8_t merged[CAPTURE + 1], before[sizeof merged];
    uint64_t written = 9;

    memset(merged, 0xee, sizeof merged);
    memcpy(before, merged, sizeof merged);
    expect(kajurnat_difference_merge(setup, setup_len, MEMBER, full,
                                     sizeof full, later, sizeof later, merged,
                                     CAPTURE - 1, &written) ==
                   KAJURNAT_DIFFERENCE_SHORT_BUFFER &&
               written == 0 && memcmp(merged, before, sizeof merged) == 0,
           "merge: no room");
    expect(kajurnat_difference_merge(setup, setup_len, MEMBER, full,
                                     sizeof full, later, sizeof later, merged,
                                     sizeof merged, &written) ==
                   KAJURNAT_DIFFERENCE_DONE &&
               written == CAPTURE && merged[CAPTURE] == 0xee,
           "merge: one list, and the rest of the buffer stays");
    memcpy(before, full, sizeof full);
    before[STATUS_AT + 16] = 5;
    expect(memcmp(merged, before, CAPTURE) == 0,
           "merge: the full capture with the later value");
}

/* A salvaged list and its report. */
struct salvaged {
    uint8_t list[CAPTURE + 1], kept[KAJURNAT_SALVAGE_PARTS_MAX];
    uint32_t dropped[KAJURNAT_DROPPED_CAUSES], left;
};

/* Marks every byte, so that what is written shows. */
static void mark(struct salvaged *s)
{
    memset(s, 0xee, sizeof *s);
}

/* A part for each cause but a copy, a device status, and a capture, torn in its
 * queue, whose own device status is then a copy. */
static void try_salvage(void)
{
    static const uint8_t unknown[] = {0xff, 1, 0, 0, ZERO_8, 0, 0, 0, 0};
    static const uint8_t wrong_length[] = {3, 1, 0, 0, ZERO_8,
                                           2, 0, 0, 0, 1, 1};
    static const uint8_t wrong_value[] = {
        0, 1, 0, 0, ZERO_8, 16, 0, 0, 0, ZERO_8, 1, 2, 3, 4, 5, 6, 7, 8};
    const struct {
        const uint8_t *bytes;
        size_t length;
    } lists[] = {
        {unknown, sizeof unknown},
        {wrong_length, sizeof wrong_length},
        {wrong_value, sizeof wrong_value},
        {later, sizeof later},
        {full, QUEUE_AT + 10},
    };
    uint8_t damaged[2 * CAPTURE];
    size_t damaged_len = 0;
    struct salvaged s;

    for (size_t i = 0; i < sizeof lists / sizeof lists[0]; i++) {
        memcpy(damaged + damaged_len, lists[i].bytes, lists[i].length);
        damaged_len += lists[i].length;
    }
    mark(&s);
    expect(kajurnat_salvage(setup, setup_len, MEMBER, damaged, damaged_len,
                            s.list, sizeof s.list, s.kept, sizeof s.kept,
                            s.dropped, KAJURNAT_DROPPED_CAUSES,
                            &s.left) == CAPTURE &&
               s.list[CAPTURE] == 0xee &&
               kajurnat_kept_bytes(CAPTURE) == PARTS && s.kept[PARTS] == 0xee,
           "salvage: a list, and the rest of the buffers stays");
    for (size_t i = 0; i < PARTS; i++) {
        expect(s.kept[i] == (i < QUEUE_PART), "salvage: kept or filled");
    }
    expect(s.list[STATUS_AT + 16] == 5 && s.left == 10 &&
               s.dropped[KAJURNAT_DROPPED_UNKNOWN] == 1 &&
               s.dropped[KAJURNAT_DROPPED_COPY] == 1 &&
               s.dropped[KAJURNAT_DROPPED_SIZE] == 1 &&
               s.dropped[KAJURNAT_DROPPED_VALUE] == 1,
           "salvage: the report");

    mark(&s);
    expect(kajurnat_salvage(setup, setup_len, MEMBER, NULL, 0, s.list, CAPTURE,
                            s.kept, PARTS, s.dropped, KAJURNAT_DROPPED_CAUSES,
                            &s.left) == CAPTURE &&
               memcmp(s.list, full, CAPTURE) == 0 && s.left == 0,
           "salvage: of nothing, a fresh member");
}

/* Of a member with any queue count, the bytes of kept go by the list. */
static void try_kept(void)
{
    for (size_t count = KAJURNAT_QUEUES_MIN; count <= KAJURNAT_QUEUES_MAX;
         count++) {
        expect(kajurnat_kept_bytes(KAJURNAT_CAPTURE_BYTES(count)) ==
                   KAJURNAT_PARTS(count),
               "salvage: a byte of kept for each part");
    }
    expect(kajurnat_kept_bytes(0) == 0, "salvage: refused, none");
}

/* Refused, it writes nothing. */
static void try_refused_salvage(void)
{
    static const uint8_t long_list[KAJURNAT_SALVAGE_BYTES_MAX + 1];
    static const struct {
        size_t setup_less;
        uint64_t member;
        size_t damaged_len, list_len, kept_len, dropped_len;
    } rows[] = {
        {1, MEMBER, 0, CAPTURE, PARTS, 4},
        {0, 0, 0, CAPTURE, PARTS, 4},
        {0, MEMBER, sizeof long_list, CAPTURE, PARTS, 4},
        {0, MEMBER, 0, CAPTURE - 1, PARTS, 4},
        {0, MEMBER, 0, CAPTURE, PARTS - 1, 4},
        {0, MEMBER, 0, CAPTURE, PARTS, 3},
    };

    for (size_t i = 0; i < sizeof rows / sizeof rows[0]; i++) {
        struct salvaged s, before;
        mark(&s);
        mark(&before);
        expect(kajurnat_salvage(setup, setup_len - rows[i].setup_less,
                                rows[i].member, long_list, rows[i].damaged_len,
                                s.list, rows[i].list_len, s.kept,
                                rows[i].kept_len, s.dropped,
                                rows[i].dropped_len, &s.left) == 0 &&
                   memcmp(&s, &before, sizeof s) == 0,
               "salvage: refused, and nothing written");
    }
}

int main(int count, char **arguments)
{
    take_no_arguments(count, arguments,
                      "tries what kajurnat.h says of the functions on lists");
    capture();
    try_walk();
    try_put();
    try_headers();
    try_results();
    try_find();
    try_merge();
    try_salvage();
    try_kept();
    try_refused_salvage();
    printf("lists: as kajurnat.h says of the functions on lists\n");
    expect(fflush(stdout) == 0, "the output is written");
    return EXIT_SUCCESS;
}
