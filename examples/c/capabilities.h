/*
 * A front for a card: virtio's capability commands, which the card leaves out
 * and Linux hosts ask for before they use device parts. It takes the two
 * buffers of a command, answers three commands of the owner's own group itself,
 * and hands every other one to kajurnat_command().
 *
 * Opcodes of group type CAPABILITIES_GROUP_SELF, with data and result, as
 * linux/virtio_pci.h numbers and lays them out:
 *
 *   0x07  which capabilities there are   none; a mask, 8: bit 0
 *   0x08  the device's of one            id 2, reserved 6; gets 1, sets 1
 *   0x09  the driver sets its own        id 2, reserved 6, gets 1, sets 1; none
 *
 * Capability 0, device parts, is how many get and set objects there are (000,
 * VIRTIO_DEV_PARTS_CAP): of the device the setup's numbers.
 *
 * The first row that applies answers, and a refusal changes nothing:
 *   (0 bytes written)      the card is not sound, or the reply buffer is under
 *                          8 bytes: as the card does
 *   EINVAL INVALID_COMMAND the request is under 24 or over 4096 bytes: the card
 *                          says so
 *   EINVAL INVALID_OPCODE  not in use (001: "MUST fail any commands not in the
 *                          list")
 *   EINVAL INVALID_FIELD   0x08, 0x09: no such capability; 0x09: a limit over
 *                          the device's (001: "unsupported or invalid field
 *                          within command_specific_data"; 004: the driver
 *                          reports "the desired (same or lower) number")
 *   OK                     done
 * Data may have any length: what is missing reads as zero, what is over is
 * ignored. A reply buffer that is too short for the result gets as much as
 * fits (001: the device discards what would be written outside of it, and "MUST
 * NOT fail a command solely because the buffers provided are shorter").
 *
 * In group type 1, bits 7 to 9 are added to the mask of list query, and taken
 * out of that of list use before the card sees it. Only what list use was
 * given, and the card took, is in use.
 */
#ifndef CAPABILITIES_H
#define CAPABILITIES_H

#include "kajurnat.h"

enum {
    CAPABILITIES_CMD_LIST = 0x07,
    CAPABILITIES_CMD_GET = 0x08,
    CAPABILITIES_CMD_SET = 0x09,
    CAPABILITIES_GROUP_SELF = 0,
    CAPABILITIES_DEV_PARTS = 0
};

#define CAPABILITIES_CMD_MASK UINT64_C(0x380)

/*
 * What the front keeps for one card. All zero is fresh: make it so with
 * kajurnat_setup() and kajurnat_reset_card(). Any bytes are taken.
 */
struct capabilities {
    uint64_t in_use;    /* of bits 7 to 9 */
    uint8_t driver_set; /* 1 once the driver has set device parts */
    uint8_t gets;       /* what it has set */
    uint8_t sets;
    uint8_t reserved[5];
};

/* Takes and returns what kajurnat_command() does. */
size_t capabilities_command(struct capabilities *front, uint8_t *card,
                            size_t card_len, const uint8_t *request,
                            size_t request_len, uint8_t *reply,
                            size_t reply_len);

#endif
