/*
 * Moves the state of one member device to another card.
 *
 * The source card is set up, its data path stores some parts of member 1, and
 * the member is stopped and captured. The capture comes to the destination card
 * in fragments, as from a slow connection, and is set in member 2 and captured
 * again: the bytes are the same. In the end member 1 of the source is handed
 * back, and wiped once the data path has let go of it: nothing of its parts is
 * left.
 */
#include "common.h"
#include "kajurnat.h"

#include <inttypes.h>
#include <stdbool.h>
#include <stdint.h>
#include <stdio.h>
#include <stdlib.h>
#include <string.h>

/* The setup of both cards. Both members have one queue. */
enum { MEMBERS = 2, QUEUES = 1, GETS = 1, SETS = 1 };

static const uint8_t queues[MEMBERS] = {QUEUES, QUEUES};

static const uint8_t features[KAJURNAT_FEATURES_BYTES] = {
    [4] = 0x01, /* VIRTIO_F_VERSION_1 */
};

/* The ids of the objects that are created for a member. */
enum { GET_ID = 0, SET_ID = 1 };

enum { SOURCE_MEMBER = 1, DESTINATION_MEMBER = 2 };

struct card {
    const char *name;
    uint8_t bytes[KAJURNAT_CARD_BYTES(MEMBERS)];
};

/* A reply, once it is read. */
struct reply {
    uint16_t status, qualifier;
    size_t result_len;
    uint8_t bytes[KAJURNAT_REPLY_BYTES_MAX];
};

/* All parts of a member, each a header and its value. */
struct capture {
    uint8_t bytes[KAJURNAT_CAPTURE_BYTES(QUEUES)];
};

/* A part as the data path stores it. */
struct part {
    uint16_t type;
    uint64_t selector;
    const uint8_t *value;
    size_t length;
};

/* Prints what was done with a member of a card. */
static void report(const struct card *card, uint64_t member, const char *what)
{
    printf("%s: member %" PRIu64 " %s\n", card->name, member, what);
}

static const uint8_t *result_of(const struct reply *reply)
{
    return reply->bytes + KAJURNAT_REPLY_HEAD_BYTES;
}

/* The request that is built next. */
static uint8_t request[KAJURNAT_REQUEST_BYTES_MAX];

/* Sends the request that was built, of this length, and reads its reply. */
static struct reply command(struct card *card, uint16_t opcode, size_t length)
{
    struct reply reply = {0};
    uint16_t sent_status, sent_qualifier;

    expect(length != 0, "the request is built");
    size_t written =
        kajurnat_command(card->bytes, sizeof card->bytes, request, length,
                         reply.bytes, sizeof reply.bytes);
    uint8_t answer = kajurnat_reply_read(opcode, 0, reply.bytes, written,
                                         &reply.status, &reply.qualifier,
                                         &sent_status, &sent_qualifier);
    expect(answer == KAJURNAT_REPLY_READ, "the card answers the command");
    reply.result_len = written - KAJURNAT_REPLY_HEAD_BYTES;
    return reply;
}

/* Sends a request that has to succeed, with this length of its result. */
static struct reply succeed(struct card *card, uint16_t opcode, size_t length,
                            size_t result_len)
{
    struct reply reply = command(card, opcode, length);

    if (reply.status != KAJURNAT_STATUS_OK) {
        fprintf(stderr, "%s: opcode 0x%02x refused: status %u, qualifier %u\n",
                card->name, opcode, reply.status, reply.qualifier);
        exit(EXIT_FAILURE);
    }
    expect(reply.result_len == result_len, "the result is of its length");
    return reply;
}

static void set_up(struct card *card)
{
    expect(sizeof card->bytes == kajurnat_card_bytes(MEMBERS),
           "the buffer is one card long");
    uint8_t answer =
        kajurnat_setup(card->bytes, sizeof card->bytes, MEMBERS, queues,
                       sizeof queues, GETS, SETS, features, sizeof features);
    expect(answer == KAJURNAT_DONE, "the setup is taken");
    printf("%s: a card of %d members, %zu bytes\n", card->name, MEMBERS,
           sizeof card->bytes);
}

/* Puts every command that both sides know in use. */
static void negotiate(struct card *card)
{
    struct reply reply =
        succeed(card, KAJURNAT_CMD_LIST_QUERY,
                kajurnat_request_list_query(request, sizeof request), 8);
    uint64_t used = kajurnat_result_mask(reply.bytes) & KAJURNAT_CMD_MASK;

    expect(used == KAJURNAT_CMD_MASK, "the card supports the ten commands");
    succeed(card, KAJURNAT_CMD_LIST_USE,
            kajurnat_request_list_use(request, sizeof request, used), 0);
    printf("%s: commands in use 0x%" PRIx64 "\n", card->name, used);
}

static void create_object(struct card *card, uint64_t member, uint32_t id,
                          uint8_t kind)
{
    succeed(card, KAJURNAT_CMD_RESOURCE_OBJ_CREATE,
            kajurnat_request_create(request, sizeof request, member, id, kind),
            0);
    report(card, member,
           kind == KAJURNAT_OBJ_GET ? "has a get object" : "has a set object");
}

static void stop(struct card *card, uint64_t member)
{
    succeed(card, KAJURNAT_CMD_DEV_MODE_SET,
            kajurnat_request_mode(request, sizeof request, member,
                                  KAJURNAT_MODE_STOP),
            0);
    report(card, member, "stopped");
}

/* What a driver and the data path leave in a member that is at work. */
static void store_parts(struct card *card, uint64_t member)
{
    static const uint8_t status = 0x0f; /* the driver is ready */
    static const uint8_t vector[2] = {0x02, 0x00};
    static const uint8_t notify[8] = {0x00, 0x00, 0x01, 0x00};
    uint8_t queue[32] = {0};
    const struct part parts[] = {
        {KAJURNAT_PART_DRV_FEATURES, 0, features, sizeof features},
        {KAJURNAT_PART_PCI_COMMON_CFG, 16, vector, sizeof vector},
        {KAJURNAT_PART_DEVICE_STATUS, 0, &status, sizeof status},
        {KAJURNAT_PART_VQ_CFG, 0, queue, sizeof queue},
        {KAJURNAT_PART_VQ_NOTIFY_CFG, 0, notify, sizeof notify},
    };
    const size_t count = sizeof parts / sizeof parts[0];

    put_number(queue, 2, 256);              /* size */
    put_number(queue + 2, 2, 1);            /* interrupt vector */
    put_number(queue + 4, 2, 1);            /* enabled */
    put_number(queue + 8, 8, 0x7f001000u);  /* descriptor area */
    put_number(queue + 16, 8, 0x7f002000u); /* driver area */
    put_number(queue + 24, 8, 0x7f003000u); /* device area */
    for (size_t i = 0; i < count; i++) {
        uint8_t answer = kajurnat_store(card->bytes, sizeof card->bytes, member,
                                        parts[i].type, parts[i].selector,
                                        parts[i].value, parts[i].length);
        expect(answer == KAJURNAT_DONE, "the data path stores a part");
    }
    report(card, member, "works: the data path stored parts of it");
}

/* Captures all parts of a member through its get object. */
static struct capture capture(struct card *card, uint64_t member)
{
    struct capture all;
    struct reply reply =
        succeed(card, KAJURNAT_CMD_DEV_PARTS_GET,
                kajurnat_request_get(request, sizeof request, member, GET_ID,
                                     KAJURNAT_PARTS_ALL, NULL, 0),
                sizeof all.bytes);

    memcpy(all.bytes, result_of(&reply), sizeof all.bytes);
    report(card, member, "captured");
    return all;
}

/* Sets all parts of a member through its set object, with one command. */
static struct reply restore(struct card *card, uint64_t member,
                            const struct capture *all)
{
    return command(card, KAJURNAT_CMD_DEV_PARTS_SET,
                   kajurnat_request_set(request, sizeof request, member, SET_ID,
                                        all->bytes, sizeof all->bytes));
}

/* The same with fragments of a few bytes, as a slow connection hands them over.
 * Ends early if one is refused; returns the last answer. */
static uint32_t restore_slowly(struct card *card, uint64_t member,
                               const struct capture *all)
{
    enum { FRAGMENT = 13 };
    uint32_t answer =
        kajurnat_restore_begin(card->bytes, sizeof card->bytes, member);

    for (size_t at = 0; answer == KAJURNAT_STATUS_OK && at < sizeof all->bytes;
         at += FRAGMENT) {
        size_t left = sizeof all->bytes - at;
        answer = kajurnat_restore_feed(card->bytes, sizeof card->bytes, member,
                                       all->bytes + at,
                                       left < FRAGMENT ? left : FRAGMENT);
    }
    if (answer != KAJURNAT_STATUS_OK) {
        return answer;
    }
    return kajurnat_restore_finish(card->bytes, sizeof card->bytes, member,
                                   SET_ID);
}

static bool is_zero(const uint8_t *bytes, size_t length)
{
    uint8_t any = 0;
    for (size_t i = 0; i < length; i++) {
        any |= bytes[i];
    }
    return any == 0;
}

/*
 * Prints the parts of a capture, a line each, and returns the number of those
 * whose value is not zero, device features aside.
 */
static size_t print_parts(const struct capture *all)
{
    struct kajurnat_part part;
    size_t at = 0, next, nonzero = 0;

    while ((next = kajurnat_part_at(all->bytes, sizeof all->bytes, at,
                                    &part)) != 0) {
        bool zero = is_zero(part.value, part.value_len);
        printf("  part 0x%03x, selector %2" PRIu64 ", length %2zu%s\n",
               part.type, part.selector, part.value_len, zero ? ", zero" : "");
        nonzero += !zero && part.type != KAJURNAT_PART_DEV_FEATURES;
        at = next;
    }
    expect(at == sizeof all->bytes, "the parts are whole");
    return nonzero;
}

/* A card with all commands in use and both objects of one member. */
static void prepare(struct card *card, uint64_t member)
{
    set_up(card);
    negotiate(card);
    create_object(card, member, GET_ID, KAJURNAT_OBJ_GET);
    create_object(card, member, SET_ID, KAJURNAT_OBJ_SET);
}

static struct capture save(struct card *card, uint64_t member)
{
    prepare(card, member);
    store_parts(card, member);
    stop(card, member);
    struct capture saved = capture(card, member);
    expect(print_parts(&saved) != 0, "the capture holds what was stored");
    return saved;
}

static void load(struct card *card, uint64_t member,
                 const struct capture *saved)
{
    prepare(card, member);

    struct reply reply = restore(card, member, saved);
    expect(reply.status == KAJURNAT_STATUS_EAGAIN &&
               reply.qualifier == KAJURNAT_Q_TRYAGAIN,
           "a running member takes no parts");
    uint32_t answer = restore_slowly(card, member, saved);
    expect(KAJURNAT_RESTORE_STATUS(answer) == KAJURNAT_STATUS_EAGAIN &&
               KAJURNAT_RESTORE_QUALIFIER(answer) == KAJURNAT_Q_TRYAGAIN,
           "nor in fragments");
    report(card, member, "is running: restore refused");

    stop(card, member);
    answer = restore_slowly(card, member, saved);
    expect(answer == KAJURNAT_STATUS_OK, "a stopped member takes the parts");
    report(card, member, "restored from fragments");

    struct capture again = capture(card, member);
    expect(memcmp(again.bytes, saved->bytes, sizeof again.bytes) == 0,
           "the second capture has the bytes of the first");
    report(card, member, "has the parts of the source, byte for byte");
}

/* The two halves of a reset. The data path may still store parts of the member
 * between them, and nothing else reaches it. */
static void reset(struct card *card, uint64_t member)
{
    static const uint8_t status = 0x00; /* the data path has let go */

    expect(kajurnat_hand_back(card->bytes, sizeof card->bytes, member) ==
               KAJURNAT_DONE,
           "the member is handed back");
    report(card, member, "handed back");
    struct reply reply =
        command(card, KAJURNAT_CMD_DEV_MODE_SET,
                kajurnat_request_mode(request, sizeof request, member,
                                      KAJURNAT_MODE_RESUME));
    expect(reply.status == KAJURNAT_STATUS_EAGAIN, "it takes no command");
    expect(kajurnat_store(card->bytes, sizeof card->bytes, member,
                          KAJURNAT_PART_DEVICE_STATUS, 0, &status,
                          sizeof status) == KAJURNAT_DONE,
           "the data path stores a last part");
    expect(kajurnat_wipe(card->bytes, sizeof card->bytes, member, 0) ==
               KAJURNAT_DONE,
           "the member is wiped");
    report(card, member, "wiped");

    create_object(card, member, GET_ID, KAJURNAT_OBJ_GET);
    struct capture fresh = capture(card, member);
    expect(print_parts(&fresh) == 0, "every part but device features is zero");
}

int main(int count, char **arguments)
{
    take_no_arguments(count, arguments, "moves a member to another card");

    struct card source = {.name = "source"};
    struct card destination = {.name = "destination"};

    struct capture saved = save(&source, SOURCE_MEMBER);
    load(&destination, DESTINATION_MEMBER, &saved);
    reset(&source, SOURCE_MEMBER);
    expect(fflush(stdout) == 0, "the output is written");
    return EXIT_SUCCESS;
}
