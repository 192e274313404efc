#include "capabilities.h"

#include <stdbool.h>
#include <string.h>

_Static_assert(sizeof(struct capabilities) == 16, "16 bytes for each card");

enum { MASK_AT = KAJURNAT_REQUEST_HEAD_BYTES, MASK_END = MASK_AT + 8 };

/* The bytes of a field, little-endian; those that did not come are zero. */
static uint64_t field(const uint8_t *request, size_t length, size_t at,
                      size_t bytes)
{
    uint64_t number = 0;
    for (size_t i = 0; i < bytes && at + i < length; i++) {
        number |= (uint64_t)request[at + i] << (8 * i);
    }
    return number;
}

/* Writes as much of a reply as fits. */
static size_t answer(uint8_t *reply, size_t room, uint8_t status,
                     uint8_t qualifier, const uint8_t *result, size_t length)
{
    const uint8_t head[KAJURNAT_REPLY_HEAD_BYTES] = {status, 0, qualifier};
    size_t left = room - sizeof head;
    memcpy(reply, head, sizeof head);
    length = length < left ? length : left;
    memcpy(reply + sizeof head, result, length);
    return sizeof head + length;
}

static size_t capability(struct capabilities *front, uint8_t gets, uint8_t sets,
                         const uint8_t *request, size_t length, uint8_t *reply,
                         size_t room)
{
    const uint8_t all[8] = {1 << CAPABILITIES_DEV_PARTS}, own[2] = {gets, sets};
    uint16_t opcode = (uint16_t)field(request, length, 0, 2);
    uint16_t id = (uint16_t)field(request, length, 24, 2);
    uint8_t limits[2] = {(uint8_t)field(request, length, 32, 1),
                         (uint8_t)field(request, length, 33, 1)};

    if (!(front->in_use >> opcode & 1)) {
        return answer(reply, room, KAJURNAT_STATUS_EINVAL,
                      KAJURNAT_Q_INVALID_OPCODE, all, 0);
    }
    if (opcode == CAPABILITIES_CMD_LIST) {
        return answer(reply, room, 0, 0, all, sizeof all);
    }
    if (id == CAPABILITIES_DEV_PARTS && opcode == CAPABILITIES_CMD_GET) {
        return answer(reply, room, 0, 0, own, sizeof own);
    }
    if (id != CAPABILITIES_DEV_PARTS || limits[0] > gets || limits[1] > sets) {
        return answer(reply, room, KAJURNAT_STATUS_EINVAL,
                      KAJURNAT_Q_INVALID_FIELD, all, 0);
    }
    front->driver_set = 1;
    front->gets = limits[0];
    front->sets = limits[1];
    return answer(reply, room, 0, 0, all, 0);
}

/*
 * The card reads of list use the mask, and whether a byte behind it is not
 * zero; so a request that ends with one byte for all of these is the same to
 * it.
 */
static size_t list_use(struct capabilities *front, uint8_t *card,
                       size_t card_len, const uint8_t *request, size_t length,
                       uint8_t *reply, size_t room)
{
    uint8_t same[MASK_END + 1] = {0};
    uint64_t mask = field(request, length, MASK_AT, 8);
    size_t end = length < MASK_END ? length : MASK_END;
    memcpy(same, request, end);
    for (size_t i = MASK_AT; i < end; i++) {
        same[i] &= (uint8_t)~(CAPABILITIES_CMD_MASK >> (8 * (i - MASK_AT)));
    }
    for (size_t i = MASK_END; i < length; i++) {
        same[MASK_END] |= request[i];
    }
    size_t written = kajurnat_command(card, card_len, same, sizeof same, reply,
                                      room);
    if (written > 0 && reply[0] == KAJURNAT_STATUS_OK) {
        front->in_use = mask & CAPABILITIES_CMD_MASK;
    }
    return written;
}

size_t capabilities_command(struct capabilities *front, uint8_t *card,
                            size_t card_len, const uint8_t *request,
                            size_t request_len, uint8_t *reply,
                            size_t reply_len)
{
    uint64_t opcode = field(request, request_len, 0, 2);
    uint64_t group = field(request, request_len, 2, 2);
    bool framed = request_len >= KAJURNAT_REQUEST_HEAD_BYTES &&
                  request_len <= KAJURNAT_REQUEST_BYTES_MAX;

    if (framed && group == CAPABILITIES_GROUP_SELF &&
        opcode >= CAPABILITIES_CMD_LIST && opcode <= CAPABILITIES_CMD_SET) {
        uint8_t setup[KAJURNAT_SETUP_BYTES_MAX], members, gets, sets;
        uint8_t queues[KAJURNAT_MEMBERS_MAX], features[KAJURNAT_FEATURES_BYTES];
        size_t packed = kajurnat_setup_of(card, card_len, setup, sizeof setup);
        if (reply_len < KAJURNAT_REPLY_HEAD_BYTES ||
            kajurnat_setup_read(setup, packed, &members, queues, sizeof queues,
                                &gets, &sets, features, sizeof features) !=
                KAJURNAT_SETUP_READ) {
            return 0;
        }
        return capability(front, gets, sets, request, request_len, reply,
                          reply_len);
    }
    if (framed && group == KAJURNAT_GROUP_SRIOV &&
        opcode == KAJURNAT_CMD_LIST_USE) {
        return list_use(front, card, card_len, request, request_len, reply,
                        reply_len);
    }
    size_t written = kajurnat_command(card, card_len, request, request_len,
                                      reply, reply_len);
    if (framed && group == KAJURNAT_GROUP_SRIOV && written == 16 &&
        opcode == KAJURNAT_CMD_LIST_QUERY) {
        reply[8] |= CAPABILITIES_CMD_MASK & 0xff;
        reply[9] |= CAPABILITIES_CMD_MASK >> 8;
    }
    return written;
}
