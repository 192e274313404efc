/*
 * The calls that are made often, for scripts/instructions to count: those of
 * the table in docs/PERFORMANCE.md, on a card like the one that is timed. It
 * has sixteen members of four queues, all stopped, with all objects that they
 * may have and queues in use.
 *
 * Prints the name of each row, and makes its calls for each member, twice: the
 * second time between two calls of mark(), which a trace shows.
 */
#include "common.h"
#include "kajurnat.h"

enum {
    MEMBERS = KAJURNAT_MEMBERS_MAX,
    QUEUES = KAJURNAT_QUEUES_MAX,
    GET_ID = 0,
    SET_ID = KAJURNAT_GETS_MAX,
    IDS = KAJURNAT_GETS_MAX + KAJURNAT_SETS_MAX,
    FRAGMENTS = 4
};

struct request {
    size_t length;
    uint8_t bytes[KAJURNAT_REQUEST_BYTES_MAX];
};

/* What is sent for a member, built before anything is counted. */
struct work {
    struct request capture, two, set, resume, stop, destroy, create;
    uint8_t list[KAJURNAT_CAPTURE_BYTES(QUEUES)];
    uint8_t message[KAJURNAT_MSG_SET_CONFIG_BYTES + KAJURNAT_CONFIG_BYTES];
};

static uint8_t card[KAJURNAT_CARD_BYTES(MEMBERS)];
static struct work works[MEMBERS + 1];
static uint8_t reply[KAJURNAT_REPLY_BYTES_MAX];
static uint8_t queue[32] = {0, 1};

static void send(const struct request *request)
{
    size_t written = kajurnat_command(card, sizeof card, request->bytes,
                                      request->length, reply, sizeof reply);
    expect(written >= KAJURNAT_REPLY_HEAD_BYTES && get_number(reply, 2) == 0,
           "the command is done");
}

/* ---- The rows ------------------------------------------------------------ */

static void capture(uint64_t member) { send(&works[member].capture); }

static void two(uint64_t member) { send(&works[member].two); }

static void set(uint64_t member) { send(&works[member].set); }

static void modes(uint64_t member)
{
    send(&works[member].resume);
    send(&works[member].stop);
}

static void destroy_and_create(uint64_t member)
{
    send(&works[member].destroy);
    send(&works[member].create);
}

static void store(uint64_t member)
{
    expect(kajurnat_store(card, sizeof card, member, KAJURNAT_PART_VQ_CFG, 1,
                          queue, sizeof queue) == KAJURNAT_DONE,
           "the queue is stored");
}

/* A message that writes the whole configuration, with its generation. */
static void message(uint64_t member)
{
    uint8_t *bytes = works[member].message;
    size_t written = kajurnat_message(card, sizeof card, bytes,
                                      sizeof works->message, reply, 32);

    expect(written == 32, "the message is applied");
    memcpy(bytes + KAJURNAT_MSG_HEADER_BYTES, reply + 8, 4);
}

static void restore(uint64_t member)
{
    const size_t length = sizeof works->list;
    const size_t piece = (length + FRAGMENTS - 1) / FRAGMENTS;

    expect(kajurnat_restore_begin(card, sizeof card, member) == 0, "begun");
    for (size_t at = 0; at < length; at += piece) {
        size_t fed = length - at < piece ? length - at : piece;
        expect(kajurnat_restore_feed(card, sizeof card, member,
                                     works[member].list + at, fed) == 0,
               "fed");
    }
    expect(kajurnat_restore_finish(card, sizeof card, member, SET_ID) == 0,
           "finished");
}

static void halves(uint64_t member)
{
    expect(kajurnat_hand_back(card, sizeof card, member) == KAJURNAT_DONE &&
               kajurnat_wipe(card, sizeof card, member, 7) == KAJURNAT_DONE,
           "handed back and wiped");
}

static const struct row {
    const char *name;
    void (*make)(uint64_t member);
} rows[] = {
    {"parts get of all parts", capture},
    {"parts get of two parts", two},
    {"parts set of a full capture", set},
    {"mode set, resume and stop", modes},
    {"object destroy and create", destroy_and_create},
    {"card store of a queue", store},
    {"message that writes 12 bytes", message},
    {"restore in 4 fragments: begin, feeds, finish", restore},
    {"hand back and wipe", halves},
};

/* ---- The card -------------------------------------------------------------
 */

#define BUILD(request, builder, ...)                                           \
    ((request)->length = kajurnat_request_##builder(                           \
         (request)->bytes, sizeof(request)->bytes, __VA_ARGS__))

static void fill(uint64_t member)
{
    struct work *work = &works[member];
    uint8_t headers[2 * KAJURNAT_PART_HEADER_BYTES] = {0};

    put_number(headers, 2, KAJURNAT_PART_DEVICE_STATUS);
    put_number(headers + 16, 2, KAJURNAT_PART_VQ_CFG);
    headers[16 + 4] = 1;
    for (uint32_t id = 0; id < IDS; id++) {
        BUILD(&work->create, create, member, id, id >= SET_ID);
        send(&work->create);
    }
    for (uint64_t i = 0; i < QUEUES; i++) {
        expect(kajurnat_store(card, sizeof card, member, KAJURNAT_PART_VQ_CFG,
                              i, queue, sizeof queue) == KAJURNAT_DONE,
               "a queue is stored");
    }
    BUILD(&work->capture, get, member, GET_ID, KAJURNAT_PARTS_ALL, NULL, 0);
    BUILD(&work->two, get, member, GET_ID, KAJURNAT_PARTS_SELECTED, headers,
          sizeof headers);
    BUILD(&work->resume, mode, member, KAJURNAT_MODE_RESUME);
    BUILD(&work->stop, mode, member, KAJURNAT_MODE_STOP);
    BUILD(&work->destroy, destroy, member, GET_ID);
    BUILD(&work->create, create, member, GET_ID, KAJURNAT_OBJ_GET);
    send(&work->stop);
    send(&work->capture);
    memcpy(work->list, reply + KAJURNAT_REPLY_HEAD_BYTES, sizeof work->list);
    BUILD(&work->set, set, member, SET_ID, work->list, sizeof work->list);
    work->message[1] = KAJURNAT_MSG_SET_CONFIG;
    put_number(work->message + 2, 2, member - 1);
    put_number(work->message + 6, 2, sizeof work->message);
    put_number(work->message + 16, 4, KAJURNAT_CONFIG_BYTES);
}

static void fill_card(void)
{
    uint8_t queues[MEMBERS], features[KAJURNAT_FEATURES_BYTES];
    struct request use;

    memset(queues, QUEUES, sizeof queues);
    memset(features, 3, sizeof features);
    memset(queue + 2, 5, sizeof queue - 2);
    expect(kajurnat_setup(card, sizeof card, MEMBERS, queues, sizeof queues,
                          KAJURNAT_GETS_MAX, KAJURNAT_SETS_MAX, features,
                          sizeof features) == KAJURNAT_DONE,
           "the setup is taken");
    BUILD(&use, list_use, KAJURNAT_CMD_MASK);
    send(&use);
    for (uint64_t member = 1; member <= MEMBERS; member++) {
        fill(member);
    }
}

__attribute__((noinline)) static void mark(void)
{
    __asm__ volatile("" : : : "memory");
}

static void make(const struct row *row)
{
    for (uint64_t member = 1; member <= MEMBERS; member++) {
        row->make(member);
    }
}

int main(int count, char **arguments)
{
    take_no_arguments(count, arguments, "makes calls to be counted");
    fill_card();
    for (size_t i = 0; i < sizeof rows / sizeof *rows; i++) {
        puts(rows[i].name);
        make(&rows[i]);
        mark();
        make(&rows[i]);
        mark();
    }
    return EXIT_SUCCESS;
}
