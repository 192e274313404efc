/*
 * The cards of stream.c, and what is drawn for them: members, ids, rooms, lists
 * of parts.
 */
#ifndef SLOTS_H
#define SLOTS_H

#include "common.h"
#include "draw.h"
#include "kajurnat.h"

/* ---- Cards --------------------------------------------------------------- */

struct list {
    size_t length;
    uint8_t bytes[KAJURNAT_REQUEST_BYTES_MAX];
};

/* A card, the numbers of its setup, and what was heard of its members. */
struct slot {
    size_t length;
    uint8_t bytes[KAJURNAT_CARD_BYTES(KAJURNAT_MEMBERS_MAX)];
    uint64_t members, gets, sets;
    uint8_t queues[KAJURNAT_MEMBERS_MAX];
    uint8_t features[KAJURNAT_FEATURES_BYTES];
    uint8_t packed[KAJURNAT_SETUP_BYTES_MAX];
    size_t packed_len;
    uint32_t generation[KAJURNAT_MEMBERS_MAX];
    struct list capture[KAJURNAT_MEMBERS_MAX];
};

enum { SLOTS = 3 };

static struct slot slots[SLOTS], *card = slots;

/* The buffers of a call. */
static uint8_t request[KAJURNAT_REQUEST_BYTES_MAX + 64];
static uint8_t reply[KAJURNAT_REPLY_BYTES_MAX + 64];
static struct list list, later;

/* The card as a call is lent it: rarely a copy with another byte or length. */
struct lent {
    uint8_t *bytes;
    size_t length;
};

static struct lent lend(void)
{
    static uint8_t copy[sizeof card->bytes];
    struct lent lent = {card->bytes, card->length};

    if (!once_in(16)) {
        return lent;
    }
    memcpy(copy, card->bytes, card->length);
    lent.bytes = copy;
    if (once_in(2)) {
        lent.length = change(copy, card->length, sizeof copy);
        return lent;
    }
    /* At the front of a record most bytes have few values that are sound. */
    size_t at = KAJURNAT_CARD_BYTES(below(card->members));
    at += below(32);
    copy[at] = (uint8_t)below(5);
    return lent;
}

static uint64_t draw_member(void)
{
    if (once_in(24)) {
        uint64_t any = draw();
        return any >> below(64);
    }
    return 1 + below(card->members);
}

/* An object's id: mostly a low one, even for a get and odd for a set object, so
 * that many commands find what they name. */
static uint32_t draw_id(uint8_t kind)
{
    if (once_in(8)) {
        return (uint32_t)below(card->gets + card->sets + 1);
    }
    return (uint32_t)(2 * below(2) + (kind & 1));
}

/* A buffer's length: mostly all of it. */
static size_t draw_room(size_t all)
{
    return once_in(16) ? below(all + 1) : all;
}

/* Whether there is such a member, for what is kept of each. */
static bool is_member(uint64_t member)
{
    return member >= 1 && member <= card->members;
}

/* ---- Parts --------------------------------------------------------------- */

static const struct part {
    uint16_t type;
    uint8_t selector, length;
} parts[] = {
    {KAJURNAT_PART_DEV_FEATURES, 0, 16},
    {KAJURNAT_PART_DRV_FEATURES, 0, 16},
    {KAJURNAT_PART_PCI_COMMON_CFG, KAJURNAT_COMMON_DEVICE_FEATURE_SELECT, 4},
    {KAJURNAT_PART_PCI_COMMON_CFG, KAJURNAT_COMMON_DRIVER_FEATURE_SELECT, 4},
    {KAJURNAT_PART_PCI_COMMON_CFG, KAJURNAT_COMMON_CONFIG_MSIX_VECTOR, 2},
    {KAJURNAT_PART_PCI_COMMON_CFG, KAJURNAT_COMMON_QUEUE_SELECT, 2},
    {KAJURNAT_PART_DEVICE_STATUS, 0, 1},
    {KAJURNAT_PART_VQ_CFG, 0, 32},
    {KAJURNAT_PART_VQ_CFG, 1, 32},
    {KAJURNAT_PART_VQ_CFG, 2, 32},
    {KAJURNAT_PART_VQ_CFG, 3, 32},
    {KAJURNAT_PART_VQ_NOTIFY_CFG, 0, 8},
    {KAJURNAT_PART_VQ_NOTIFY_CFG, 1, 8},
    {KAJURNAT_PART_VQ_NOTIFY_CFG, 2, 8},
    {KAJURNAT_PART_VQ_NOTIFY_CFG, 3, 8},
};

static const struct part *draw_part(void)
{
    return &parts[below(sizeof parts / sizeof *parts)];
}

/* A value that the card mostly takes: its features, a size that a ring has. */
static void draw_value(const struct part *part, uint8_t *value)
{
    draw_bytes(value, part->length);
    if (once_in(16)) {
        return;
    }
    if (part->type == KAJURNAT_PART_DEV_FEATURES) {
        memcpy(value, card->features, sizeof card->features);
    }
    if (part->type == KAJURNAT_PART_VQ_CFG) {
        put_number(value, 2, UINT64_C(1) << below(16));
    }
}

static size_t put_header(uint8_t *to, const struct part *part)
{
    bool optional = part->type == KAJURNAT_PART_DEV_FEATURES || once_in(16);

    memset(to, 0, KAJURNAT_PART_HEADER_BYTES);
    put_number(to, 2, part->type);
    to[2] = optional ? KAJURNAT_PART_F_OPTIONAL : 0;
    put_number(to + 4, 8, part->selector);
    put_number(to + 12, 4, part->length);
    return KAJURNAT_PART_HEADER_BYTES;
}

/* Some parts, or headers alone; rarely spoiled. */
static void draw_parts(struct list *to, bool values)
{
    size_t number = below(once_in(16) ? 40 : 5);

    to->length = 0;
    for (size_t i = 0; i < number; i++) {
        const struct part *part = draw_part();
        to->length += put_header(to->bytes + to->length, part);
        if (values) {
            draw_value(part, to->bytes + to->length);
            to->length += part->length;
        }
    }
    to->length = spoil(to->bytes, to->length, sizeof to->bytes);
}

/* Parts to set in a member: drawn, or a capture of it, rarely spoiled. */
static void draw_list(struct list *to, uint64_t member)
{
    if (!is_member(member) || once_in(2)) {
        draw_parts(to, true);
        return;
    }
    *to = card->capture[member - 1];
    to->length = spoil(to->bytes, to->length, sizeof to->bytes);
}

#endif
