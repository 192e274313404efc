/*
 * A stream of calls of every function of kajurnat.h, from a seed. Answers,
 * buffers and cards go into a digest after each call, so that two archives,
 * of two processors, have to agree in all of them to print the same lines.
 *
 *   stream [SEED [CALLS]]
 *
 * A new function is a name in FUNCTIONS and a call of it in one of the kinds at
 * the end.
 */
#include "common.h"
#include "draw.h"
#include "kajurnat.h"
#include "slots.h"

#include <inttypes.h>

/* ---- The functions, and how often each was called ---------------------- */

/* clang-format off */
#define FUNCTIONS(name)      \
    name(version)            \
    name(card_bytes)         \
    name(is_sound)           \
    name(setup)              \
    name(setup_from)         \
    name(setup_write)        \
    name(setup_read)         \
    name(setup_read_v1)      \
    name(command)            \
    name(hand_back)          \
    name(wipe)               \
    name(reset_card)         \
    name(store)              \
    name(load)               \
    name(member)             \
    name(configuration)      \
    name(setup_of)           \
    name(restore_begin)      \
    name(restore_feed)       \
    name(restore_finish)     \
    name(restore_drop)       \
    name(message)            \
    name(request_list_query) \
    name(request_list_use)   \
    name(request_create)     \
    name(request_modify)     \
    name(request_query)      \
    name(request_destroy)    \
    name(request_metadata)   \
    name(request_get)        \
    name(request_set)        \
    name(request_mode)       \
    name(reply_read)         \
    name(difference_find)    \
    name(difference_merge)   \
    name(salvage)
/* clang-format on */

#define NUMBER(name) F_##name,
enum function { FUNCTIONS(NUMBER) FUNCTION_COUNT };

#define NAME(name) "kajurnat_" #name,
static const char *const names[] = {FUNCTIONS(NAME)};

static struct {
    uint64_t calls, done;
} counts[FUNCTION_COUNT];
static uint64_t calls;

static void note(enum function function, uint64_t answer, bool done)
{
    take_number(function);
    take_number(answer);
    calls++;
    counts[function].calls++;
    counts[function].done += done;
}

/* Notes an answer, of which 0 is success. */
static uint32_t answered(enum function function, uint32_t answer)
{
    note(function, answer, answer == 0);
    return answer;
}

/* Notes a length, of which 0 is a refusal. */
static size_t wrote(enum function function, size_t length)
{
    note(function, length, length != 0);
    return length;
}

/* ---- Commands, through the host's half ------------------------------------
 */

/* The mask of list use: mostly all commands. */
static uint64_t draw_mask(void)
{
    uint64_t mask = KAJURNAT_CMD_MASK;

    if (once_in(8)) {
        mask &= draw() | 3;
    }
    return once_in(64) ? mask ^ draw() : mask;
}

/* What the command that was built last asks with. */
static uint8_t asked;

static bool reads_parts(uint16_t opcode)
{
    return opcode == KAJURNAT_CMD_DEV_PARTS_METADATA_GET ||
           opcode == KAJURNAT_CMD_DEV_PARTS_GET;
}

static size_t build_for_object(uint16_t opcode, uint64_t member, size_t room)
{
    uint8_t kind = (uint8_t)below(once_in(32) ? 4 : 2);
    kind = opcode == KAJURNAT_CMD_DEV_PARTS_SET ? KAJURNAT_OBJ_SET : kind;
    kind = reads_parts(opcode) ? KAJURNAT_OBJ_GET : kind;
    uint32_t id = draw_id(kind);

    asked = (uint8_t)below(once_in(32) ? 4 : 2);
    switch (opcode) {
    case KAJURNAT_CMD_RESOURCE_OBJ_CREATE:
        return wrote(F_request_create,
                     kajurnat_request_create(request, room, member, id, kind));
    case KAJURNAT_CMD_RESOURCE_OBJ_MODIFY:
        return wrote(F_request_modify,
                     kajurnat_request_modify(request, room, member, id, kind));
    case KAJURNAT_CMD_RESOURCE_OBJ_QUERY:
        return wrote(F_request_query,
                     kajurnat_request_query(request, room, member, id));
    case KAJURNAT_CMD_RESOURCE_OBJ_DESTROY:
        return wrote(F_request_destroy,
                     kajurnat_request_destroy(request, room, member, id));
    case KAJURNAT_CMD_DEV_PARTS_METADATA_GET:
        asked = asked == 1 ? KAJURNAT_METADATA_LIST : asked;
        return wrote(F_request_metadata, kajurnat_request_metadata(
                                             request, room, member, id, asked));
    case KAJURNAT_CMD_DEV_PARTS_GET:
        draw_parts(&list, false);
        list.length = asked == KAJURNAT_PARTS_ALL ? 0 : list.length;
        return wrote(F_request_get,
                     kajurnat_request_get(request, room, member, id, asked,
                                          list.bytes, list.length));
    default:
        draw_list(&list, member);
        return wrote(F_request_set,
                     kajurnat_request_set(request, room, member, id, list.bytes,
                                          list.length));
    }
}

static size_t build(uint16_t opcode, uint64_t member)
{
    size_t room = draw_room(sizeof request);

    switch (opcode) {
    case KAJURNAT_CMD_LIST_QUERY:
        return wrote(F_request_list_query,
                     kajurnat_request_list_query(request, room));
    case KAJURNAT_CMD_LIST_USE: {
        uint64_t mask = draw_mask();
        return wrote(F_request_list_use,
                     kajurnat_request_list_use(request, room, mask));
    }
    case KAJURNAT_CMD_DEV_MODE_SET: {
        uint8_t mode = (uint8_t)below(once_in(32) ? 256 : 2);
        return wrote(F_request_mode,
                     kajurnat_request_mode(request, room, member, mode));
    }
    default:
        return build_for_object(opcode, member, room);
    }
}

/* Reads the reply, rarely spoiled, and keeps a capture of all parts. */
static void read_reply(uint16_t opcode, uint64_t member, size_t length)
{
    uint16_t told[4] = {0};

    if (opcode == KAJURNAT_CMD_DEV_PARTS_GET && is_member(member) &&
        length == KAJURNAT_REPLY_HEAD_BYTES +
                      KAJURNAT_CAPTURE_BYTES(card->queues[member - 1])) {
        struct list *capture = &card->capture[member - 1];
        capture->length = length - KAJURNAT_REPLY_HEAD_BYTES;
        memcpy(capture->bytes, reply + KAJURNAT_REPLY_HEAD_BYTES,
               capture->length);
    }
    length = spoil(reply, length, sizeof reply);
    answered(F_reply_read,
             kajurnat_reply_read(opcode, asked, reply, length, &told[0],
                                 &told[1], &told[2], &told[3]));
    for (size_t i = 0; i < 4; i++) {
        take_number(told[i]);
    }
}

/* Rarely another opcode, the longest length or one beside it, or any change. */
static size_t spoil_request(size_t length)
{
    if (once_in(32)) {
        request[0] = (uint8_t)below(24);
    }
    if (once_in(128)) {
        return KAJURNAT_REQUEST_BYTES_MAX - 1 + below(3);
    }
    return spoil(request, length, sizeof request);
}

static void send(uint16_t opcode, uint64_t member)
{
    size_t length = build(opcode, member);

    take_bytes(request, length + 8);
    if (length == 0) {
        return;
    }
    length = spoil_request(length);
    size_t room = draw_room(sizeof reply);
    struct lent lent = lend();
    size_t written =
        kajurnat_command(lent.bytes, lent.length, request, length, reply, room);
    note(F_command, written, written != 0 && get_number(reply, 2) == 0);
    take_bytes(lent.bytes, lent.length);
    take_bytes(reply, room);
    read_reply(opcode, member, written);
}

/* ---- The kinds of calls ----------------------------------------------------
 */

static void command(void)
{
    static const uint16_t opcodes[] = {
        KAJURNAT_CMD_RESOURCE_OBJ_CREATE,    KAJURNAT_CMD_RESOURCE_OBJ_CREATE,
        KAJURNAT_CMD_RESOURCE_OBJ_CREATE,    KAJURNAT_CMD_RESOURCE_OBJ_MODIFY,
        KAJURNAT_CMD_RESOURCE_OBJ_QUERY,     KAJURNAT_CMD_RESOURCE_OBJ_DESTROY,
        KAJURNAT_CMD_DEV_PARTS_METADATA_GET, KAJURNAT_CMD_DEV_PARTS_GET,
        KAJURNAT_CMD_DEV_PARTS_GET,          KAJURNAT_CMD_DEV_PARTS_SET,
        KAJURNAT_CMD_DEV_PARTS_SET,          KAJURNAT_CMD_DEV_MODE_SET,
    };

    if (once_in(16)) {
        send(once_in(2) ? KAJURNAT_CMD_LIST_QUERY : KAJURNAT_CMD_LIST_USE, 0);
        return;
    }
    uint16_t opcode = opcodes[below(sizeof opcodes / sizeof *opcodes)];
    send(opcode, draw_member());
}

/* The numbers of a setup; one that is not good may be past its limits. */
static void draw_setup(bool good)
{
    uint64_t past = good ? 0 : 1;

    card->members = 1 + below((once_in(4) ? KAJURNAT_MEMBERS_MAX : 3) + past);
    card->gets = below(KAJURNAT_GETS_MAX + 1 + past);
    card->sets = below(KAJURNAT_SETS_MAX + 1 + past);
    bool alike = once_in(2);
    for (size_t i = 0; i < KAJURNAT_MEMBERS_MAX; i++) {
        card->queues[i] = (uint8_t)(1 + below(KAJURNAT_QUEUES_MAX));
        card->queues[i] = alike && i > 0 ? card->queues[0] : card->queues[i];
        card->capture[i].length = 0;
        card->generation[i] = 0;
    }
    draw_bytes(card->features, sizeof card->features);
}

static void set_up_once(bool good)
{
    draw_setup(good);
    size_t queues_len = (size_t)card->members;
    queues_len =
        queues_len > KAJURNAT_MEMBERS_MAX ? KAJURNAT_MEMBERS_MAX : queues_len;
    size_t length = wrote(F_card_bytes, kajurnat_card_bytes(card->members));
    card->length = length == 0 ? KAJURNAT_CARD_BYTES(1) : length;
    card->packed_len = wrote(
        F_setup_write,
        kajurnat_setup_write(card->packed, sizeof card->packed, card->members,
                             card->queues, queues_len, card->gets, card->sets,
                             card->features, sizeof card->features));
    take_bytes(card->packed, sizeof card->packed);
    if (once_in(2)) {
        answered(F_setup, kajurnat_setup(
                              card->bytes, card->length, card->members,
                              card->queues, queues_len, card->gets, card->sets,
                              card->features, sizeof card->features));
    } else {
        answered(F_setup_from,
                 kajurnat_setup_from(card->bytes, card->length, card->packed,
                                     card->packed_len));
    }
    take_bytes(card->bytes, card->length);
}

static void set_up(void)
{
    if (once_in(4)) {
        set_up_once(false);
    }
    set_up_once(true);
    send(KAJURNAT_CMD_LIST_USE, 0);
}

static void read_setup(void)
{
    uint8_t packed[KAJURNAT_SETUP_BYTES_MAX + 20] = {0};
    uint8_t told[3] = {0}, queues[KAJURNAT_MEMBERS_MAX] = {0};
    uint8_t features[KAJURNAT_FEATURES_BYTES] = {0};

    memcpy(packed, card->packed, card->packed_len);
    size_t length = spoil(packed, card->packed_len, sizeof packed);
    answered(F_setup_read, kajurnat_setup_read(
                               packed, length, &told[0], queues, sizeof queues,
                               &told[1], &told[2], features, sizeof features));
    take_bytes(told, sizeof told);
    take_bytes(queues, sizeof queues);
    take_bytes(features, sizeof features);
    answered(F_setup_read_v1,
             kajurnat_setup_read_v1(packed, length, &told[0], queues,
                                    sizeof queues, &told[1], &told[2], features,
                                    sizeof features));
    take_bytes(told, sizeof told);
    take_bytes(queues, sizeof queues);
    take_bytes(features, sizeof features);
}

static void ask(void)
{
    struct lent lent = lend();
    uint8_t sound = kajurnat_is_sound(lent.bytes, lent.length);

    note(F_is_sound, sound, sound == 1);
    wrote(F_version, kajurnat_version());
}

static void store(void)
{
    uint8_t value[64];
    const struct part *part = draw_part();
    uint64_t member = draw_member();

    draw_value(part, value);
    size_t length = once_in(16) ? below(sizeof value) : part->length;
    uint16_t type = part->type;
    type = once_in(32) ? (uint16_t)draw() : type;
    uint64_t selector = part->selector;
    selector |= once_in(8) ? draw() << 32 : 0;
    struct lent lent = lend();
    answered(F_store, kajurnat_store(lent.bytes, lent.length, member, type,
                                     selector, value, length));
    take_bytes(lent.bytes, lent.length);
}

/* What the card's own firmware reads: a part, a member, its configuration and
 * the setup. */
static void load(void)
{
    uint8_t value[64] = {0}, bytes[KAJURNAT_CONFIG_BYTES + 1] = {0};
    uint8_t told[4] = {0}, packed[KAJURNAT_SETUP_BYTES_MAX] = {0};
    uint16_t held = 0;
    uint32_t generation = 0;
    const struct part *part = draw_part();
    uint64_t member = draw_member();
    size_t length = once_in(16) ? below(sizeof value) : part->length;
    uint16_t type = once_in(32) ? (uint16_t)draw() : part->type;
    struct lent lent = lend();

    answered(F_load, kajurnat_load(lent.bytes, lent.length, member, type,
                                   part->selector, value, length));
    take_bytes(value, sizeof value);
    answered(F_member,
             kajurnat_member(lent.bytes, lent.length, member, &told[0],
                             &told[1], &told[2], &told[3], &held));
    take_bytes(told, sizeof told);
    take_number(held);
    answered(F_configuration,
             kajurnat_configuration(lent.bytes, lent.length, member, bytes,
                                    KAJURNAT_CONFIG_BYTES + once_in(16),
                                    &generation));
    take_bytes(bytes, sizeof bytes);
    take_number(generation);
    wrote(F_setup_of, kajurnat_setup_of(lent.bytes, lent.length, packed,
                                        draw_room(sizeof packed)));
    take_bytes(packed, sizeof packed);
}

static void message(void)
{
    uint8_t bytes[64] = {0};
    bool write = once_in(2);
    uint64_t member = draw_member();
    uint64_t length = below(KAJURNAT_CONFIG_BYTES + 1);
    uint64_t offset = below(KAJURNAT_CONFIG_BYTES + 1 - length + once_in(16));
    size_t size = write ? KAJURNAT_MSG_SET_CONFIG_BYTES + (size_t)length
                        : KAJURNAT_MSG_GET_CONFIG_BYTES;
    uint8_t *fields = bytes + KAJURNAT_MSG_HEADER_BYTES;

    bytes[1] = write ? KAJURNAT_MSG_SET_CONFIG : KAJURNAT_MSG_GET_CONFIG;
    put_number(bytes + 2, 2, member - 1);
    put_number(bytes + 4, 2, draw());
    put_number(bytes + 6, 2, size);
    if (write) {
        put_number(fields, 4,
                   is_member(member) ? card->generation[member - 1] : 0);
        draw_bytes(fields + 12, (size_t)length);
        fields += 4;
    }
    put_number(fields, 4, offset);
    put_number(fields + 4, 4, length);
    size = spoil(bytes, size, sizeof bytes);
    size_t room = draw_room(KAJURNAT_MSG_RESPONSE_BYTES_MAX);
    struct lent lent = lend();
    size_t written =
        wrote(F_message, kajurnat_message(lent.bytes, lent.length, bytes, size,
                                          reply, room));
    take_bytes(lent.bytes, lent.length);
    take_bytes(reply, room);
    if (written != 0 && is_member(member)) {
        card->generation[member - 1] = (uint32_t)get_number(reply + 8, 4);
    }
}

/* A list in fragments that end anywhere; some restores are left open. */
static void restore(void)
{
    uint64_t member = draw_member();
    uint32_t id = draw_id(KAJURNAT_OBJ_SET);
    struct lent lent = lend();

    draw_list(&list, member);
    answered(F_restore_begin,
             kajurnat_restore_begin(lent.bytes, lent.length, member));
    take_bytes(lent.bytes, lent.length);
    for (size_t at = 0, length; at < list.length; at += length) {
        length = below(list.length - at) + 1;
        lent = lend();
        answered(F_restore_feed,
                 kajurnat_restore_feed(lent.bytes, lent.length, member,
                                       list.bytes + at, length));
        take_bytes(lent.bytes, lent.length);
    }
    lent = lend();
    if (once_in(4)) {
        answered(F_restore_drop,
                 kajurnat_restore_drop(lent.bytes, lent.length, member));
    } else {
        answered(F_restore_finish,
                 kajurnat_restore_finish(lent.bytes, lent.length, member, id));
    }
    take_bytes(lent.bytes, lent.length);
}

/* Both halves of a reset, or one of them; rarely the whole card. */
static void reset(void)
{
    uint64_t member = draw_member();
    uint32_t generation = (uint32_t)draw();
    struct lent lent = lend();

    if (once_in(32)) {
        answered(F_reset_card,
                 kajurnat_reset_card(lent.bytes, lent.length, generation));
        take_bytes(lent.bytes, lent.length);
        send(KAJURNAT_CMD_LIST_USE, 0);
        return;
    }
    if (!once_in(4)) {
        answered(F_hand_back,
                 kajurnat_hand_back(lent.bytes, lent.length, member));
        take_bytes(lent.bytes, lent.length);
        command();
    }
    lent = lend();
    answered(F_wipe,
             kajurnat_wipe(lent.bytes, lent.length, member, generation));
    take_bytes(lent.bytes, lent.length);
}

static void difference(void)
{
    uint64_t member = draw_member();
    uint64_t told[2] = {0}, written = 0;
    const struct part *part = draw_part();
    uint8_t which = 0;

    draw_list(&list, member);
    if (is_member(member) && !once_in(8)) {
        list = card->capture[member - 1];
    }
    draw_parts(&later, true);
    answered(F_difference_find,
             kajurnat_difference_find(card->packed, card->packed_len, member,
                                      list.bytes, list.length, later.bytes,
                                      later.length, part->type, part->selector,
                                      &which, &told[0], &told[1]));
    take_number(which);
    take_number(told[0]);
    take_number(told[1]);
    size_t room = draw_room(sizeof reply);
    answered(F_difference_merge,
             kajurnat_difference_merge(card->packed, card->packed_len, member,
                                       list.bytes, list.length, later.bytes,
                                       later.length, reply, room, &written));
    take_bytes(reply, room);
    take_number(written);
}

static void salvage(void)
{
    uint64_t member = draw_member();
    uint8_t kept[KAJURNAT_SALVAGE_PARTS_MAX] = {0};
    uint32_t dropped[KAJURNAT_DROPPED_CAUSES] = {0}, left = 0;

    draw_list(&list, member);
    for (size_t i = 0; i < 8; i++) {
        list.length = spoil(list.bytes, list.length, sizeof list.bytes);
    }
    size_t room = draw_room(sizeof reply);
    wrote(F_salvage,
          kajurnat_salvage(card->packed, card->packed_len, member, list.bytes,
                           list.length, reply, room, kept, sizeof kept, dropped,
                           KAJURNAT_DROPPED_CAUSES, &left));
    take_bytes(reply, room);
    take_bytes(kept, sizeof kept);
    for (size_t i = 0; i < KAJURNAT_DROPPED_CAUSES; i++) {
        take_number(dropped[i]);
    }
    take_number(left);
}

/* How often each kind comes, of all of them together. */
static const struct kind {
    unsigned share;
    void (*make)(void);
} kinds[] = {
    {1, set_up},   {8, read_setup},  {8, ask},      {300, command},
    {60, store},   {40, message},    {50, restore}, {8, reset},
    {30, salvage}, {30, difference}, {30, load},
};

static void make_calls(void)
{
    uint64_t shares = 0;

    for (size_t i = 0; i < sizeof kinds / sizeof *kinds; i++) {
        shares += kinds[i].share;
    }
    card = &slots[below(SLOTS)];
    uint64_t at = below(shares);
    const struct kind *kind = kinds;
    for (; at >= kind->share; kind++) {
        at -= kind->share;
    }
    kind->make();
}

static uint64_t number(const char *text)
{
    char *end;
    uint64_t number = strtoull(text, &end, 10);

    expect(*text >= '0' && *text <= '9' && *end == '\0', "a number");
    return number;
}

int main(int count, char **arguments)
{
    if (count > 3 || (count > 1 && strcmp(arguments[1], "--help") == 0)) {
        printf("usage: %s [SEED [CALLS]]\nprints how often each function was "
               "called, and a digest of all answers, buffers and cards\n",
               arguments[0]);
        return count > 3 ? 2 : EXIT_SUCCESS;
    }
    drawn = count > 1 ? number(arguments[1]) : 1;
    uint64_t wanted = count > 2 ? number(arguments[2]) : 1000000;

    for (size_t i = 0; i < SLOTS; i++) {
        card = &slots[i];
        set_up();
    }
    for (uint64_t tenth = 1; tenth <= 10; tenth++) {
        while (calls < wanted / 10 * tenth) {
            make_calls();
        }
        printf("%10" PRIu64 " calls, digest %016" PRIx64 "\n", calls, digest);
    }
    for (size_t i = 0; i < FUNCTION_COUNT; i++) {
        printf("%-28s %10" PRIu64 " calls, %10" PRIu64 " not refused\n",
               names[i], counts[i].calls, counts[i].done);
    }
    return EXIT_SUCCESS;
}
