/*
 * What kajurnat.h says of the calls besides commands, tried from C: stores and
 * resets, a restore in fragments, messages and packed setups.
 */
#include "card.h"

/* The answer of a call of a restore. */
#define ANSWER(status, qualifier)                                              \
    ((uint32_t)KAJURNAT_STATUS_##status | (uint32_t)KAJURNAT_Q_##qualifier     \
                                              << 16)

/* A restore of member 2 in fragments: each row of its answers, with later rows
 * met too. */
static void try_restore(void)
{
    static const uint8_t list[] = {DRIVER_FEATURES};
    static const uint8_t zeros[KAJURNAT_RESTORE_BYTES_MAX + 1];
    uint8_t before[sizeof card];

    set_up();
    memcpy(before, card, sizeof card);
    expect(
        kajurnat_restore_begin(card, sizeof card, 3) ==
                ANSWER(EINVAL, INVALID_MEMBER) &&
            kajurnat_restore_feed(card, sizeof card, 0, zeros, sizeof zeros) ==
                ANSWER(EINVAL, INVALID_MEMBER) &&
            kajurnat_restore_finish(card, sizeof card, 0, 9) ==
                ANSWER(EINVAL, INVALID_MEMBER) &&
            kajurnat_restore_drop(card, sizeof card, 3) ==
                ANSWER(EINVAL, INVALID_MEMBER),
        "restore: no such member");
    expect(kajurnat_restore_feed(card, sizeof card, 2, zeros, sizeof zeros) ==
                   ANSWER(ENXIO, INVALID_COMMAND) &&
               kajurnat_restore_finish(card, sizeof card, 2, 9) ==
                   ANSWER(ENXIO, INVALID_COMMAND) &&
               kajurnat_restore_drop(card, sizeof card, 2) ==
                   ANSWER(ENXIO, INVALID_COMMAND),
           "restore: nothing begun");
    expect(memcmp(card, before, sizeof card) == 0,
           "restore: a refusal changes nothing");

    expect(kajurnat_restore_begin(card, sizeof card, 2) == ANSWER(OK, OK) &&
               kajurnat_restore_begin(card, sizeof card, 2) ==
                   ANSWER(EEXIST, INVALID_COMMAND) &&
               kajurnat_restore_feed(card, sizeof card, 2, zeros,
                                     KAJURNAT_RESTORE_BYTES_MAX) ==
                   ANSWER(OK, OK) &&
               kajurnat_restore_feed(card, sizeof card, 2, NULL, 0) ==
                   ANSWER(OK, OK) &&
               kajurnat_restore_feed(card, sizeof card, 2, zeros, 1) ==
                   ANSWER(EINVAL, INVALID_COMMAND) &&
               kajurnat_restore_drop(card, sizeof card, 2) ==
                   ANSWER(ENXIO, INVALID_COMMAND),
           "restore: a feed without room ends it");
    expect(kajurnat_restore_begin(card, sizeof card, 2) == ANSWER(OK, OK) &&
               kajurnat_restore_feed(card, sizeof card, 2, list, sizeof list) ==
                   ANSWER(OK, OK) &&
               kajurnat_restore_drop(card, sizeof card, 2) == ANSWER(OK, OK) &&
               kajurnat_restore_begin(card, sizeof card, 2) == ANSWER(OK, OK) &&
               kajurnat_restore_finish(card, sizeof card, 2, SET_ID) ==
                   ANSWER(EINVAL, INVALID_OPCODE) &&
               kajurnat_restore_begin(card, sizeof card, 1) == ANSWER(OK, OK) &&
               kajurnat_hand_back(card, sizeof card, 1) == KAJURNAT_DONE &&
               kajurnat_restore_begin(card, sizeof card, 1) ==
                   ANSWER(EAGAIN, TRYAGAIN) &&
               kajurnat_wipe(card, sizeof card, 1, 0) == KAJURNAT_DONE,
           "restore: drop, a refused finish and a hand back end it");
    expect(memcmp(card, before, sizeof card) == 0,
           "restore: nothing is left of it");

    const uint32_t answer = ANSWER(EAGAIN, TRYAGAIN);
    expect(KAJURNAT_RESTORE_STATUS(answer) == KAJURNAT_STATUS_EAGAIN &&
               KAJURNAT_RESTORE_QUALIFIER(answer) == KAJURNAT_Q_TRYAGAIN,
           "restore: the numbers of an answer");
}

/* The selectors and lengths of the PCI common fields, queue sizes, the two
 * halves of a reset, and the reset of the card. */
static void try_stores(void)
{
    static const struct {
        uint64_t offset;
        size_t length;
    } fields[] = {
        {KAJURNAT_COMMON_DEVICE_FEATURE_SELECT, 4},
        {KAJURNAT_COMMON_DRIVER_FEATURE_SELECT, 4},
        {KAJURNAT_COMMON_CONFIG_MSIX_VECTOR, 2},
        {KAJURNAT_COMMON_QUEUE_SELECT, 2},
    };
    const uint8_t value[4] = {0};

    for (size_t i = 0; i < sizeof fields / sizeof fields[0]; i++) {
        expect(kajurnat_store(card, sizeof card, 2,
                              KAJURNAT_PART_PCI_COMMON_CFG, fields[i].offset,
                              value, fields[i].length) == KAJURNAT_DONE,
               "a PCI common field");
    }

    uint8_t queue[32] = {0};
    put_number(queue, 2, KAJURNAT_QUEUE_SIZE_MAX);
    expect(kajurnat_store(card, sizeof card, 2, KAJURNAT_PART_VQ_CFG, 0, queue,
                          sizeof queue) == KAJURNAT_DONE,
           "the largest queue size");
    put_number(queue, 2, 100);
    expect(kajurnat_store(card, sizeof card, 2, KAJURNAT_PART_VQ_CFG, 0, queue,
                          sizeof queue) == KAJURNAT_BAD_QUEUE_SIZE &&
               kajurnat_store(card, sizeof card, 2, KAJURNAT_PART_VQ_CFG, 0,
                              queue, 31) == KAJURNAT_WRONG_LENGTH,
           "a queue size that no ring has");
    expect(kajurnat_wipe(card, sizeof card, 2, 0) == KAJURNAT_WRONG_MARK &&
               kajurnat_hand_back(card, sizeof card, 2) == KAJURNAT_DONE &&
               kajurnat_hand_back(card, sizeof card, 2) ==
                   KAJURNAT_WRONG_MARK &&
               kajurnat_wipe(card, sizeof card, 2, 0) == KAJURNAT_DONE &&
               kajurnat_hand_back(card, sizeof card, 3) ==
                   KAJURNAT_NO_SUCH_MEMBER &&
               kajurnat_reset_card(card, sizeof card, 0) == KAJURNAT_DONE,
           "the resets");
}

/* A set request for member 2, a get request, and the bus outcome. */
static void try_messages(void)
{
    uint8_t set[] = {0, KAJURNAT_MSG_SET_CONFIG, 1, 0, 0x34, 0x12, 22, 0,
                     7, 0, 0, 0, 3, 0, 0, 0, 2, 0, 0, 0, 0xaa, 0xbb};
    const uint8_t get[] = {0, KAJURNAT_MSG_GET_CONFIG, 1, 0, 0, 0, 16, 0,
                           0, 0, 0, 0, KAJURNAT_CONFIG_BYTES, 0, 0, 0};
    uint8_t reply[KAJURNAT_MSG_RESPONSE_BYTES_MAX];

    expect(kajurnat_hand_back(card, sizeof card, 2) == KAJURNAT_DONE &&
               kajurnat_message(card, sizeof card, get, sizeof get, reply,
                                sizeof reply) == 0 &&
               kajurnat_wipe(card, sizeof card, 2, 7) == KAJURNAT_DONE,
           "message: the generation to start from");
    expect(kajurnat_message(card, sizeof card, set, sizeof set, reply, 21) == 0,
           "message: no room for the response");
    expect(kajurnat_message(card, sizeof card, set, sizeof set, reply,
                            sizeof reply) == 22 &&
               reply[0] == KAJURNAT_MSG_TYPE_RESPONSE &&
               memcmp(reply + 1, set + 1, 7) == 0 && reply[8] == 8 &&
               memcmp(reply + 9, set + 9, 13) == 0,
           "message: a write is applied");
    expect(kajurnat_message(card, sizeof card, set, sizeof set, reply,
                            sizeof reply) == KAJURNAT_MSG_RESPONSE_BYTES &&
               reply[8] == 8 && reply[16] == 0,
           "message: a stale write is not");
    expect(kajurnat_message(card, sizeof card, get, sizeof get, reply,
                            sizeof reply) == sizeof reply &&
               reply[22] == 0 && reply[23] == 0xaa && reply[24] == 0xbb,
           "message: a read");
    expect(kajurnat_message(card, sizeof card, get, sizeof get - 1, reply,
                            sizeof reply) == 0 &&
               kajurnat_message(card, sizeof card, NULL, 0, NULL, 0) == 0 &&
               kajurnat_message(NULL, 0, get, sizeof get, reply,
                                sizeof reply) == 0,
           "message: the bus outcome");
}

/* What a packed setup is read into. */
struct setup {
    uint8_t members, gets, sets, queues[KAJURNAT_MEMBERS_MAX],
        features[KAJURNAT_FEATURES_BYTES];
};

/* A packed setup of each version, written and read back. */
static void try_setups(void)
{
    uint8_t packed[KAJURNAT_SETUP_BYTES_MAX];
    static uint8_t other[KAJURNAT_CARD_BYTES(MEMBERS)];
    const uint8_t differing[MEMBERS] = {1, 3};
    struct setup read = {0};

    size_t length = kajurnat_setup_write(packed, sizeof packed, MEMBERS, queues,
                                         sizeof queues, GETS, SETS, features,
                                         sizeof features);
    expect(length == KAJURNAT_SETUP_BYTES && packed[0] == 0x11 &&
               packed[1] == 0x04 && packed[2] == 0x40,
           "setup: version 1");
    expect(kajurnat_setup_read_v1(packed, length, &read.members, read.queues,
                                  sizeof read.queues, &read.gets, &read.sets,
                                  read.features, sizeof read.features) ==
                   KAJURNAT_SETUP_READ &&
               read.members == MEMBERS && read.queues[1] == QUEUES &&
               read.queues[2] == 0 && read.gets == GETS && read.sets == SETS,
           "setup: read back");
    expect(kajurnat_reset_card(card, sizeof card, 0) == KAJURNAT_DONE &&
               kajurnat_setup_from(other, sizeof other, packed, length) ==
                   KAJURNAT_DONE &&
               memcmp(card, other, sizeof card) == 0,
           "setup: the card of the bytes is that of the numbers");

    expect(kajurnat_setup_write(packed, KAJURNAT_SETUP_BYTES, MEMBERS,
                                differing, sizeof differing, GETS, SETS,
                                features, sizeof features) == 0,
           "setup: no room");
    length = kajurnat_setup_write(packed, sizeof packed, MEMBERS, differing,
                                  sizeof differing, GETS, SETS, features,
                                  sizeof features);
    expect(length == KAJURNAT_SETUP_BYTES + 1 && packed[0] == 0x21 &&
               packed[3] == 0x20,
           "setup: version 2");
    expect(kajurnat_setup_read_v1(packed, 1, &read.members, NULL, 0, &read.gets,
                                  &read.sets, NULL, 0) ==
                   KAJURNAT_SETUP_VERSION_2 &&
               kajurnat_setup_read(packed, length, &read.members, read.queues,
                                   sizeof read.queues, &read.gets, &read.sets,
                                   read.features, sizeof read.features) ==
                   KAJURNAT_SETUP_READ &&
               read.queues[0] == 1 && read.queues[1] == 3,
           "setup: members that differ");
    expect(kajurnat_setup_read(packed, length - 1, &read.members, read.queues,
                               sizeof read.queues, &read.gets, &read.sets,
                               read.features, sizeof read.features) ==
               KAJURNAT_SETUP_REFUSED,
           "setup: refused");
}

int main(int count, char **arguments)
{
    take_no_arguments(count, arguments,
                      "tries what kajurnat.h says of other calls");
    try_restore();
    try_stores();
    try_messages();
    try_setups();
    printf("events: as kajurnat.h says of other calls\n");
    expect(fflush(stdout) == 0, "the output is written");
    return EXIT_SUCCESS;
}
