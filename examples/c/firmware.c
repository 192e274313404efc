/*
 * A card's firmware: a main loop that follows the card.
 *
 * Each command comes in the two buffers of an administration queue, one in and
 * one out; the card answers it. Then the registers of the rings, which a data
 * path would work by, are brought up to date by what is loaded of the card,
 * and by nothing else: firmware reads no request and no byte of the card. After
 * every call the registers are held to a capture of the card.
 */
#include "common.h"
#include "kajurnat.h"

enum { MEMBERS = 2, GETS = 2, SETS = 1 };

/* Objects of the host; the last id is for the captures that check. */
enum { GET_ID = 0, SET_ID = 1, CHECK_ID = 2 };

static const uint8_t queues[MEMBERS] = {1, 2};
static const uint8_t features[KAJURNAT_FEATURES_BYTES] = {
    [4] = 0x01, /* VIRTIO_F_VERSION_1 */
};

static uint8_t card[KAJURNAT_CARD_BYTES(MEMBERS)];

/* ---- The data path ------------------------------------------------------ */

/* The registers of a ring. It is worked while `works` is set. */
struct ring {
    bool works;
    uint16_t size, vector;
    uint64_t descriptors, driver, device;
};

struct path {
    uint8_t state, queues, status;
    struct ring ring[KAJURNAT_QUEUES_MAX];
    uint8_t configuration[KAJURNAT_CONFIG_BYTES];
    uint32_t generation;
};

static struct path paths[MEMBERS];

/* The registers of a queue, from the value of its part. */
static struct ring ring_of(const uint8_t *value, bool runs)
{
    return (struct ring){
        .works = runs && get_number(value + 4, 2) != 0,
        .size = (uint16_t)get_number(value, 2),
        .vector = (uint16_t)get_number(value + 2, 2),
        .descriptors = get_number(value + 8, 8),
        .driver = get_number(value + 16, 8),
        .device = get_number(value + 24, 8),
    };
}

static void load(uint64_t member, uint16_t type, uint64_t selector,
                 uint8_t *value, size_t length)
{
    expect(kajurnat_load(card, sizeof card, member, type, selector, value,
                         length) == KAJURNAT_DONE,
           "a part is loaded");
}

/* Brings the data path of a member up to date. A stopped one rests with its
 * registers as they are to be when it is resumed; a marked one lets go. */
static void follow(uint64_t member)
{
    struct path path = {0};
    uint8_t gets, sets, value[32];
    uint16_t held;

    expect(kajurnat_member(card, sizeof card, member, &path.state, &path.queues,
                           &gets, &sets, &held) == KAJURNAT_DONE,
           "a member is told");
    expect(kajurnat_configuration(card, sizeof card, member, path.configuration,
                                  sizeof path.configuration,
                                  &path.generation) == KAJURNAT_DONE,
           "a configuration is told");
    if (path.state != KAJURNAT_MEMBER_MARKED) {
        load(member, KAJURNAT_PART_DEVICE_STATUS, 0, &path.status, 1);
        for (uint8_t queue = 0; queue < path.queues; queue++) {
            load(member, KAJURNAT_PART_VQ_CFG, queue, value, sizeof value);
            path.ring[queue] =
                ring_of(value, path.state == KAJURNAT_MEMBER_RUNNING);
        }
    }
    paths[member - 1] = path;
}

static void follow_all(void)
{
    for (uint64_t member = 1; member <= MEMBERS; member++) {
        follow(member);
    }
}

/* ---- The check: registers against a capture ------------------------------- */

static bool same_ring(const struct ring *a, const struct ring *b)
{
    return a->works == b->works && a->size == b->size &&
           a->vector == b->vector && a->descriptors == b->descriptors &&
           a->driver == b->driver && a->device == b->device;
}

/* The two buffers of a queue entry, and how much of each is used. */
struct entry {
    uint8_t in[KAJURNAT_REQUEST_BYTES_MAX], out[KAJURNAT_REPLY_BYTES_MAX];
    size_t in_len, out_len;
};

/* The card answers what stands in the entry: status and qualifier. */
static uint32_t answer(uint8_t *of, struct entry *entry)
{
    expect(entry->in_len != 0, "the request is built");
    entry->out_len = kajurnat_command(of, sizeof card, entry->in, entry->in_len,
                                      entry->out, sizeof entry->out);
    expect(entry->out_len >= KAJURNAT_REPLY_HEAD_BYTES, "the card answers");
    return (uint32_t)get_number(entry->out, 4);
}

/* What the host last did to each member, by its own account. */
static uint8_t told_state[MEMBERS];

/* Captures a member of a copy of the card, and holds its registers to that. */
static void check(uint64_t member)
{
    static uint8_t copy[sizeof card];
    static struct entry entry;
    const struct path *path = &paths[member - 1];
    const uint32_t try_again =
        KAJURNAT_STATUS_EAGAIN | (uint32_t)KAJURNAT_Q_TRYAGAIN << 16;
    uint8_t seen = 0;

    expect(path->state == told_state[member - 1], "the state");
    memcpy(copy, card, sizeof card);
    entry.in_len =
        kajurnat_request_list_use(entry.in, sizeof entry.in, KAJURNAT_CMD_MASK);
    expect(answer(copy, &entry) == 0, "all commands are in use");
    entry.in_len = kajurnat_request_create(entry.in, sizeof entry.in, member,
                                           CHECK_ID, KAJURNAT_OBJ_GET);
    uint32_t created = answer(copy, &entry);
    if (path->state == KAJURNAT_MEMBER_MARKED) {
        const struct ring none = {0};
        expect(created == try_again, "a marked member refuses the host");
        for (size_t i = 0; i < KAJURNAT_QUEUES_MAX; i++) {
            expect(same_ring(&path->ring[i], &none), "the ring is let go");
        }
        return;
    }
    expect(created == 0, "there is an object to capture through");
    entry.in_len = kajurnat_request_get(entry.in, sizeof entry.in, member,
                                        CHECK_ID, KAJURNAT_PARTS_ALL, NULL, 0);
    expect(answer(copy, &entry) == 0, "the member is captured");
    for (size_t at = KAJURNAT_REPLY_HEAD_BYTES; at < entry.out_len;) {
        const uint8_t *part = entry.out + at;
        const uint8_t *value = part + KAJURNAT_PART_HEADER_BYTES;
        uint64_t type = get_number(part, 2);

        if (type == KAJURNAT_PART_VQ_CFG) {
            struct ring ring =
                ring_of(value, path->state == KAJURNAT_MEMBER_RUNNING);
            expect(same_ring(&path->ring[get_number(part + 4, 2)], &ring),
                   "the registers of a ring");
            seen++;
        } else if (type == KAJURNAT_PART_DEVICE_STATUS) {
            expect(path->status == value[0], "the device status");
        }
        at += KAJURNAT_PART_HEADER_BYTES + get_number(part + 12, 4);
    }
    expect(seen == path->queues, "a ring for each queue");
}

static void check_all(const char *after)
{
    for (uint64_t member = 1; member <= MEMBERS; member++) {
        check(member);
    }
    printf("registers are the card's after: %s\n", after);
}

/* ---- The main loop ------------------------------------------------------ */

/* The entry of the administration queue that is next. The host's side fills
 * `in` with the functions that build requests. */
static struct entry queue_entry;

/* One turn: an entry is answered, and the data paths follow. Which member the
 * command was for is the card's business, so all are followed. */
static void turn(size_t length, uint32_t status, const char *what)
{
    queue_entry.in_len = length;
    expect(answer(card, &queue_entry) == status, what);
    follow_all();
    check_all(what);
}

#define BUILD(builder, ...) \
    kajurnat_request_##builder(queue_entry.in, sizeof queue_entry.in, \
                               __VA_ARGS__)

/* A guest's driver sets a queue up: its registers are stored in the card. */
static void guest_enables(uint64_t member, uint64_t queue, uint64_t base)
{
    uint8_t value[32] = {0}, status = 0x0f;

    put_number(value, 2, 256);
    put_number(value + 4, 2, 1);
    put_number(value + 8, 8, base);
    put_number(value + 16, 8, base + 0x1000);
    put_number(value + 24, 8, base + 0x2000);
    expect(kajurnat_store(card, sizeof card, member, KAJURNAT_PART_VQ_CFG,
                          queue, value, sizeof value) == KAJURNAT_DONE &&
               kajurnat_store(card, sizeof card, member,
                              KAJURNAT_PART_DEVICE_STATUS, 0, &status,
                              1) == KAJURNAT_DONE,
           "the queue is stored");
    follow(member);
    check_all("a guest enables a queue");
}

/* A driver writes the configuration of a member by message. */
static void guest_configures(uint64_t member, uint32_t generation)
{
    uint8_t message[24] = {0, 0x06}, response[32];

    put_number(message + 2, 2, member - 1);
    put_number(message + 6, 2, sizeof message);
    put_number(message + 8, 4, generation);
    put_number(message + 16, 4, 4);
    put_number(message + 20, 4, 0x12345678);
    expect(kajurnat_message(card, sizeof card, message, sizeof message, response,
                            sizeof response) == sizeof message,
           "the message is answered");
    follow(member);
    const struct path *path = &paths[member - 1];
    expect(get_number(path->configuration, 4) == 0x12345678 &&
               path->generation == generation + 1,
           "the configuration is followed");
    check_all("a message writes the configuration");
}

static void set_up(void)
{
    uint8_t packed[KAJURNAT_SETUP_BYTES_MAX];
    uint8_t again[sizeof card];

    expect(kajurnat_setup(card, sizeof card, MEMBERS, queues, sizeof queues,
                          GETS, SETS, features,
                          sizeof features) == KAJURNAT_DONE,
           "the setup is taken");
    size_t length = kajurnat_setup_of(card, sizeof card, packed, sizeof packed);
    expect(length == 20 && kajurnat_setup_from(again, sizeof again, packed,
                                               length) == KAJURNAT_DONE &&
               memcmp(again, card, sizeof card) == 0,
           "the card tells its setup");
    follow_all();
    check_all("setup");
}

/* A member is stopped or resumed by the host. */
static void set_mode(uint64_t member, uint8_t mode, const char *what)
{
    told_state[member - 1] = mode == KAJURNAT_MODE_STOP
                                 ? KAJURNAT_MEMBER_STOPPED
                                 : KAJURNAT_MEMBER_RUNNING;
    turn(BUILD(mode, member, mode), 0, what);
}

/* The guest of member 1 goes to member 2, by the host's commands. */
static void move_guest(void)
{
    static uint8_t capture[KAJURNAT_CAPTURE_BYTES(1)];
    const uint32_t running =
        KAJURNAT_STATUS_EAGAIN | (uint32_t)KAJURNAT_Q_TRYAGAIN << 16;

    turn(BUILD(list_use, KAJURNAT_CMD_MASK), 0, "list use");
    turn(BUILD(create, 1, GET_ID, KAJURNAT_OBJ_GET), 0, "object create, get");
    set_mode(1, KAJURNAT_MODE_STOP, "mode set, stop");
    turn(BUILD(get, 1, GET_ID, KAJURNAT_PARTS_ALL, NULL, 0), 0, "parts get");
    expect(queue_entry.out_len == KAJURNAT_REPLY_HEAD_BYTES + sizeof capture,
           "the capture is full");
    memcpy(capture, queue_entry.out + KAJURNAT_REPLY_HEAD_BYTES,
           sizeof capture);
    turn(BUILD(create, 2, SET_ID, KAJURNAT_OBJ_SET), 0, "object create, set");
    turn(BUILD(set, 2, SET_ID, capture, sizeof capture), running,
         "parts set, refused: the member runs");
    set_mode(2, KAJURNAT_MODE_STOP, "mode set, stop, of the target");
    turn(BUILD(set, 2, SET_ID, capture, sizeof capture), 0, "parts set");
    expect(!paths[1].ring[0].works &&
               paths[1].ring[0].descriptors == paths[0].ring[0].descriptors,
           "the target rests on the guest's rings");
    set_mode(2, KAJURNAT_MODE_RESUME, "mode set, resume, of the target");
    expect(paths[1].ring[0].works, "the target works the guest's rings");
}

/* Member 1 is given to the next guest. */
static void free_member(void)
{
    expect(kajurnat_hand_back(card, sizeof card, 1) == KAJURNAT_DONE,
           "member 1 is handed back");
    told_state[0] = KAJURNAT_MEMBER_MARKED;
    follow(1);
    check_all("hand back");
    expect(kajurnat_wipe(card, sizeof card, 1, 7) == KAJURNAT_DONE,
           "member 1 is wiped");
    told_state[0] = KAJURNAT_MEMBER_RUNNING;
    follow(1);
    expect(paths[0].generation == 7, "the generation starts anew");
    check_all("wipe");
}

int main(int count, char **arguments)
{
    take_no_arguments(count, arguments, "follows a card by loads alone");
    set_up();
    guest_enables(1, 0, 0x10000);
    guest_configures(1, 0);
    move_guest();
    free_member();
    guest_enables(2, 1, 0x90000);
    expect(kajurnat_reset_card(card, sizeof card, 9) == KAJURNAT_DONE,
           "the card is reset");
    told_state[1] = KAJURNAT_MEMBER_RUNNING;
    follow_all();
    check_all("card reset");
    printf("firmware: the registers followed the card\n");
    expect(fflush(stdout) == 0, "the output is written");
    return EXIT_SUCCESS;
}
