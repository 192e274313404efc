/*
 * Kajurnat: the control plane of a virtio card with up to sixteen member
 * devices. Group administration commands, resource objects, device parts, and
 * the configuration of the members by message.
 *
 * Link libkajurnat.a. The library has no state of its own: a card is a buffer
 * that the caller lends for the time of a call. It has both halves: the card's,
 * which carries out commands, and the host's, which builds the requests and
 * reads the replies.
 *
 * Proved of every call, whatever its arguments:
 *   - It returns, touches no byte outside the buffers that it is lent, and
 *     keeps no pointer.
 *   - The answer, the bytes written and the card afterwards are those that
 *     the specification gives. A refusal leaves the card as it was, but for
 *     four calls: kajurnat_setup() and kajurnat_setup_from() fill a refused
 *     buffer with zeros, and kajurnat_restore_finish(), and
 *     kajurnat_restore_feed() with more than there is room for, end a holding
 *     place that is open.
 *   - A sound card stays sound.
 *   - A capture of all parts of a member can be set in a stopped member with
 *     the same queue count of a card of the same setup, and a capture there
 *     gives the same bytes.
 *   - A setup that is packed is read back as it was.
 *   - Once a member is wiped, or the card is reset, no reply and no byte of the
 *     card depends on the commands, messages, stores and restores that named it
 *     before.
 *   - A list of parts that is restored in fragments is set as one parts set
 *     would set it, with the same answer and the same card, however it was
 *     cut.
 *   - The list that is made of a full capture and a later list sets a member as
 *     the full capture and then the later list do.
 *   - A list that is salvaged passes as a list to set, and a whole list comes
 *     back with the same values.
 *   - A sound card takes a built request as the command and the fields that it
 *     was built from, if the command is in use, its member is one of the card's
 *     and not marked, the fields are inside the setup's numbers, and headers
 *     that are asked for are whole (none is over 4,096 bytes: such a request is
 *     not built). Whatever it answers to a built request is read as it was
 *     meant.
 *
 * The caller is trusted for this:
 *   - Each pointer is valid for the length beside it, or for one number where
 *     there is none: for reads where it is const, for reads and writes where it
 *     is not. With length 0 any pointer will do, NULL too; nothing is read or
 *     written through it.
 *   - The buffers of a call, and the numbers that it writes, do not overlap.
 *   - Until the call returns, nothing else writes to its buffers, and nothing
 *     else reads those that it writes. There is no lock inside: one call at a
 *     time for each card. Calls on different cards may run at once.
 *   - Only these functions write to a card. It may be copied, moved and kept
 *     in a file as it is, for a library of the same KAJURNAT_VERSION.
 *
 * Bytes that are not a sound card are refused by every call on a card but
 * kajurnat_setup() and kajurnat_setup_from(). Trusted too are the compiler that
 * made the archive, the linker, the three C functions that the archive calls,
 * that the stack is deep enough, and the machine.
 *
 * What the archive needs, and what it does not; scripts/archive reads it off
 * the machine code:
 *   - x86-64 with SSE2, the System V calling convention. Position independent.
 *     Of the archives for other processors aarch64 needs ARMv8-A with Advanced
 *     SIMD, riscv64 needs RV64GC and the ABI lp64d; both little-endian.
 *   - memcpy, memmove and memset, and no other symbol. It exports symbols that
 *     start with kajurnat_, and no other.
 *   - At most KAJURNAT_STACK_BYTES of stack below the caller's, on any path;
 *     memcpy, memmove and memset take theirs below that.
 *   - No heap, thread, system call, writable data or unwind table.
 *   - It uses the SSE registers and the red zone, the 128 bytes below the stack
 *     pointer, so it is not for interrupt handlers or kernels; the archive
 *     x86_64-kernel uses neither. On aarch64 it uses vector registers, but not
 *     x18, and loads and stores that are not aligned; on riscv64 none of these.
 */
#ifndef KAJURNAT_H
#define KAJURNAT_H

/*
 * The processors that there is an archive for, a line each; size_t has 64 bits
 * on all of them. A program that takes only constants and inline functions from
 * this header, and links nothing, defines KAJURNAT_ANY_PROCESSOR before it.
 */
#if defined(KAJURNAT_ANY_PROCESSOR)
#elif defined(__x86_64__) && !defined(__ILP32__)
#elif defined(__aarch64__) && !defined(__ILP32__) && !defined(__AARCH64EB__)
#elif defined(__riscv) && __riscv_xlen == 64
#else
#error "kajurnat.h: there is no archive for this processor"
#endif

#include <stddef.h>
#include <stdint.h>

#ifdef __cplusplus
extern "C" {
#endif

/*
 * The version of the library, by semantic versioning: as long as the first
 * number is 0, the second is raised where a program has to be changed, and the
 * third where none has. CHANGELOG.md says what changed. The pkg-config file and
 * the Rust bindings have the same number.
 */
#define KAJURNAT_VERSION_MAJOR 0
#define KAJURNAT_VERSION_MINOR 14
#define KAJURNAT_VERSION_PATCH 0
#define KAJURNAT_VERSION_STRING "0.14.0"

/*
 * What the bytes of a card mean: raised whenever that changes, whatever the
 * library's version above is. A card is for the library whose
 * kajurnat_version() is the one it was made with.
 */
#define KAJURNAT_VERSION 5

/* The stack that a call takes at most, memcpy, memmove and memset aside. */
#if defined(__riscv)
#define KAJURNAT_STACK_BYTES 2816
#else
#define KAJURNAT_STACK_BYTES 2560
#endif

/* ---- Setup and answers ------------------------------------------------ */

/* The limits of a setup. Members are numbered from 1, queues from 0. */
enum {
    KAJURNAT_MEMBERS_MIN = 1,
    KAJURNAT_MEMBERS_MAX = 16,
    KAJURNAT_QUEUES_MIN = 1, /* queue count of a member; they may differ */
    KAJURNAT_QUEUES_MAX = 4,
    KAJURNAT_GETS_MAX = 8, /* get objects of each member; 0 is allowed */
    KAJURNAT_SETS_MAX = 8, /* set objects of each member; 0 is allowed */
    KAJURNAT_FEATURES_BYTES = 16,
    KAJURNAT_SETUP_BYTES = 19,    /* packed, if all queue counts are equal */
    KAJURNAT_SETUP_BYTES_MAX = 23 /* else 19 and members / 4 rounded up */
};

/*
 * The exact length of a card with 1 to 16 members, as a constant for array
 * sizes. kajurnat_card_bytes() gives the same number at run time.
 */
#define KAJURNAT_CARD_BYTES(members) \
    ((size_t)27 + (size_t)1266 * (size_t)(members))

/* The answers of setup, hand back, wipe, reset, store and the loads. */
enum {
    KAJURNAT_DONE = 0,
    KAJURNAT_NO_SUCH_MEMBER = 1,
    KAJURNAT_NO_SUCH_PART = 2, /* to a store, device features count so */
    KAJURNAT_WRONG_LENGTH = 3,
    KAJURNAT_BAD_SETUP = 4,
    KAJURNAT_BAD_QUEUE_SIZE = 5, /* a size that no ring has; see Parts */
    KAJURNAT_WRONG_MARK = 6,     /* hand back, marked; or wipe, not marked */
    KAJURNAT_NOT_SOUND = 9       /* the buffer is not a sound card; no status */
};

/*
 * A setup may be kept as bytes that outlive a release, packed most significant
 * bit first:
 *
 *   version 4 bits, members - 1 in 4, queues - 1 in 2, gets in 4, sets in 4,
 *   six zero bits, then the 16 bytes of features
 *
 * This is version 1, in which all members have one queue count. Version 2 has
 * zero in place of queues - 1, and behind the 24 bits 2 bits for each member,
 * from member 1, its queue count less one, and zero bits to a whole byte.
 */

/* The answers of the readers of packed setups. */
enum {
    KAJURNAT_SETUP_READ = 0,
    KAJURNAT_SETUP_VERSION_2 = 1, /* kajurnat_setup_read_v1() alone */
    KAJURNAT_SETUP_REFUSED = 2
};

/* ---- Requests and replies --------------------------------------------- */

/*
 * A host builds requests and reads replies with the functions at the end; it
 * needs to know of results, parts and their headers alone. This is how the
 * bytes are laid out.
 *
 * A request is a head of 24 bytes and the data of its command. All numbers
 * are little-endian.
 *
 *    0  opcode       2
 *    2  group type   2  KAJURNAT_GROUP_SRIOV
 *    4  reserved    12  not read
 *   16  member       8  not read by the two list commands
 *   24  data
 *
 * A reply is a head of 8 bytes and, if the command succeeds, its result.
 *
 *    0  status       2
 *    2  qualifier    2
 *    4  zero         4
 *    8  result
 */
enum {
    KAJURNAT_REQUEST_HEAD_BYTES = 24,
    KAJURNAT_REQUEST_BYTES_MAX = 4096,
    KAJURNAT_REPLY_HEAD_BYTES = 8,
    KAJURNAT_GROUP_SRIOV = 1
};

/* How many parts a member with this queue count has. */
#define KAJURNAT_PARTS(queues) ((size_t)7 + (size_t)2 * (size_t)(queues))

/* The length of a capture of all parts, without the head of the reply. */
#define KAJURNAT_CAPTURE_BYTES(queues) \
    ((size_t)157 + (size_t)72 * (size_t)(queues))

/* The longest reply: a capture of all parts with four queues, 453 bytes. */
#define KAJURNAT_REPLY_BYTES_MAX \
    (KAJURNAT_REPLY_HEAD_BYTES + KAJURNAT_CAPTURE_BYTES(KAJURNAT_QUEUES_MAX))

/*
 * Opcodes, with the length of the fixed fields of the data, what follows them,
 * and the length of the result.
 *
 * Data may have any length. Bytes of the fixed fields that are missing read as
 * zero, each for itself: an id of which one byte came has three zero bytes
 * more. So without data mode set resumes, and list use blocks every command
 * until kajurnat_reset_card(). Bytes past the fixed fields are
 *   - bits of opcodes from 64 on, in list use: zero, or the mask is refused;
 *   - a list of headers or of parts, in parts get and parts set;
 *   - ignored, in every other command.
 */
enum {
    KAJURNAT_CMD_LIST_QUERY = 0x00,             /*  0; mask of opcodes, 8 */
    KAJURNAT_CMD_LIST_USE = 0x01,               /*  8, mask of opcodes; 0 */
    KAJURNAT_CMD_RESOURCE_OBJ_CREATE = 0x0a,    /* 24; 0 */
    KAJURNAT_CMD_RESOURCE_OBJ_MODIFY = 0x0b,    /* 24; 0 */
    KAJURNAT_CMD_RESOURCE_OBJ_QUERY = 0x0c,     /* 16; 8 */
    KAJURNAT_CMD_RESOURCE_OBJ_DESTROY = 0x0d,   /*  8; 0 */
    KAJURNAT_CMD_DEV_PARTS_METADATA_GET = 0x0e, /* 16; 8 (+ 16 a part) */
    KAJURNAT_CMD_DEV_PARTS_GET = 0x0f,          /* 16, headers; parts */
    KAJURNAT_CMD_DEV_PARTS_SET = 0x10,          /*  8, parts; 0 */
    KAJURNAT_CMD_DEV_MODE_SET = 0x11            /*  1; 0 */
};

/* The mask of these ten opcodes: bit n stands for opcode n. */
#define KAJURNAT_CMD_MASK UINT64_C(0x3FC03)

/* Statuses, the numbers of errno on Linux, each with its qualifier. */
enum {
    KAJURNAT_STATUS_OK = 0,      /* Q_OK */
    KAJURNAT_STATUS_ENXIO = 6,   /* Q_INVALID_COMMAND: the id is not live */
    KAJURNAT_STATUS_EAGAIN = 11, /* Q_TRYAGAIN: parts set, member running; or
                                    the member is marked */
    KAJURNAT_STATUS_ENOMEM = 12, /* Q_NORESOURCE: reply buffer too short */
    KAJURNAT_STATUS_EEXIST = 17, /* Q_INVALID_COMMAND: create, the id is live */
    KAJURNAT_STATUS_EINVAL = 22, /* Q_INVALID_..: the qualifier says what */
    KAJURNAT_STATUS_ENOSPC = 28  /* Q_INVALID_COMMAND: no room for an object */
};

/* Qualifiers, each with its statuses. */
enum {
    KAJURNAT_Q_OK = 0,              /* OK */
    KAJURNAT_Q_INVALID_COMMAND = 1, /* EINVAL, ENXIO, EEXIST, ENOSPC */
    KAJURNAT_Q_INVALID_OPCODE = 2,  /* EINVAL */
    KAJURNAT_Q_INVALID_FIELD = 3,   /* EINVAL: a field or a list */
    KAJURNAT_Q_INVALID_GROUP = 4,   /* EINVAL */
    KAJURNAT_Q_INVALID_MEMBER = 5,  /* EINVAL */
    KAJURNAT_Q_NORESOURCE = 6,      /* ENOMEM */
    KAJURNAT_Q_TRYAGAIN = 7         /* EAGAIN */
};

/*
 * The order of refusals. The first row that applies answers, and the card
 * stays as it was; if none applies, the command succeeds. The rows have the
 * numbers of the specification's steps; there is no row 6.
 *
 *    1  (0 bytes written)       the card is not sound, or the reply buffer is
 *                               under 8 bytes
 *    2  EINVAL INVALID_COMMAND  the request is under 24 or over 4096 bytes
 *    3  EINVAL INVALID_GROUP    the group type is not KAJURNAT_GROUP_SRIOV
 *    4  EINVAL INVALID_OPCODE   the opcode is not supported, or not in use
 *    5  EINVAL INVALID_MEMBER   0x0a to 0x11: there is no such member
 *       EAGAIN TRYAGAIN         0x0a to 0x11: the member is marked, see
 *                               kajurnat_hand_back()
 *    7  EINVAL INVALID_FIELD    a mask bit that is not supported, an object
 *                               type other than KAJURNAT_OBJ_DEV_PARTS, an id
 *                               of gets + sets or more, flags that are not
 *                               zero, a kind, a metadata or a get byte out of
 *                               range, one of the mode bits 1 to 7, a byte
 *                               past the fixed fields with
 *                               KAJURNAT_PARTS_ALL
 *    8  EEXIST INVALID_COMMAND  create: the id is live
 *       ENXIO  INVALID_COMMAND  0x0b to 0x10: the id is not live
 *       ENOSPC INVALID_COMMAND  create, modify: there would be more than gets
 *                               get objects or more than sets set objects
 *       EINVAL INVALID_FIELD    metadata, parts get: not a get object; parts
 *                               set: not a set object
 *    9  EAGAIN TRYAGAIN         parts set: the member runs
 *   10  EINVAL INVALID_FIELD    parts get, parts set: a bad list (see Parts)
 *   11  ENOMEM NORESOURCE       the reply buffer is too short for the result
 */

/* ---- Objects ---------------------------------------------------------- */

/*
 * The data of opcodes 0x0a to 0x10 starts with an object header.
 *
 *    0  type         2  KAJURNAT_OBJ_DEV_PARTS
 *    2  reserved     2
 *    4  id           4  below gets + sets of the setup
 *
 * What follows at byte 8:
 *    create, modify  flags 8 (zero), kind 1, reserved 7
 *    query           flags 8 (zero); the result is kind 1, zero 7
 *    metadata        what is asked 1, reserved 7
 *    parts get       which parts 1, reserved 7, headers of those selected
 *    parts set       parts
 */
enum { KAJURNAT_OBJ_HEADER_BYTES = 8, KAJURNAT_OBJ_DEV_PARTS = 0 };

/* Kinds of object. */
enum { KAJURNAT_OBJ_GET = 0, KAJURNAT_OBJ_SET = 1 };

/* What metadata is asked: the size or count as a number in 4 bytes and 4 zero
 * bytes, or the count so and then the header of each part. */
enum {
    KAJURNAT_METADATA_SIZE = 0,
    KAJURNAT_METADATA_COUNT = 1,
    KAJURNAT_METADATA_LIST = 2
};

/* Which parts to get. */
enum { KAJURNAT_PARTS_SELECTED = 0, KAJURNAT_PARTS_ALL = 1 };

/* The data byte of mode set. */
enum { KAJURNAT_MODE_RESUME = 0, KAJURNAT_MODE_STOP = 1 };

/* ---- Parts ------------------------------------------------------------ */

/*
 * A part is a header and its value.
 *
 *    0  type         2
 *    2  flags        1  KAJURNAT_PART_F_OPTIONAL for device features, else 0
 *    3  reserved     1
 *    4  selector     8
 *   12  length       4  of the value
 *   16  value
 */
enum { KAJURNAT_PART_HEADER_BYTES = 16, KAJURNAT_PART_F_OPTIONAL = 1 };

/* Part types, with the selector and the length of the value. */
enum {
    KAJURNAT_PART_DEV_FEATURES = 0x100,   /* none; 16 */
    KAJURNAT_PART_DRV_FEATURES = 0x101,   /* none; 16 */
    KAJURNAT_PART_PCI_COMMON_CFG = 0x102, /* offset of a field; 4 or 2 */
    KAJURNAT_PART_DEVICE_STATUS = 0x103,  /* none; 1 */
    KAJURNAT_PART_VQ_CFG = 0x104,         /* queue index; 32 */
    KAJURNAT_PART_VQ_NOTIFY_CFG = 0x105   /* queue index; 8 */
};

/*
 * The selectors of KAJURNAT_PART_PCI_COMMON_CFG: offsets in virtio's common
 * configuration structure, with the length of the field. Linux has
 * guest_feature_select for the second and msix_config for the third.
 */
enum {
    KAJURNAT_COMMON_DEVICE_FEATURE_SELECT = 0, /* 4 */
    KAJURNAT_COMMON_DRIVER_FEATURE_SELECT = 8, /* 4 */
    KAJURNAT_COMMON_CONFIG_MSIX_VECTOR = 16,   /* 2 */
    KAJURNAT_COMMON_QUEUE_SELECT = 22          /* 2 */
};

/*
 * Values. Features are two numbers of 8 bytes, feature bit 0 being bit 0 of
 * the first.
 *
 * KAJURNAT_PART_VQ_CFG              KAJURNAT_PART_VQ_NOTIFY_CFG
 *    0  queue size          2         0  notify offset          2
 *    2  MSI-X vector        2         2  notify config data     2
 *    4  enabled             2         4  reserved               4
 *    6  reserved            2
 *    8  descriptor area     8
 *   16  driver area         8
 *   24  device area         8
 *
 * A value is kept and given back whole, its reserved bytes too. Rings are split
 * rings: a queue size is a power of two up to KAJURNAT_QUEUE_SIZE_MAX, or 0
 * while the enabled field is 0. No list and no store sets another, and a sound
 * card holds none.
 *
 * A list of parts is taken whole or not at all. It is bad if
 *   - a header or a value runs past its end, also a header that is asked for;
 *   - it has a part that the member does not have. Parts set skips such a part
 *     if it has KAJURNAT_PART_F_OPTIONAL and a type below 0x600;
 *   - a value to set is not of the part's length;
 *   - a queue to set has a size that no ring has;
 *   - device features to set differ from the member's, which never change;
 *   - it has a part of the member twice.
 * Of a header that is asked for only type and selector are read.
 */
enum { KAJURNAT_QUEUE_SIZE_MAX = 32768 };

/* ---- Functions -------------------------------------------------------- */

/*
 * KAJURNAT_VERSION of the library that is linked, the version of a card's
 * bytes.
 */
uint32_t kajurnat_version(void);

/*
 * The exact length of a card with this many members; 0 if members is not 1
 * to 16.
 */
size_t kajurnat_card_bytes(uint64_t members);

/*
 * Whether the buffer is a sound card: 1 if it is, else 0.
 */
uint8_t kajurnat_is_sound(const uint8_t *card, size_t card_len);

/*
 * Makes the buffer a fresh card: the two list commands are in use; every
 * member runs, is not marked, has no object and no open holding place, all its
 * parts are zero but the device features, and so are its configuration and
 * generation. What the buffer held before does not matter.
 *
 * queues has a queue count for each member, from member 1.
 *
 * Returns KAJURNAT_DONE. Returns KAJURNAT_BAD_SETUP, and every byte of the
 * buffer is zero, if a number is outside its limits, queues_len is not members,
 * features_len is not KAJURNAT_FEATURES_BYTES, or card_len is not
 * kajurnat_card_bytes(members).
 */
uint8_t kajurnat_setup(uint8_t *card, size_t card_len, uint64_t members,
                       const uint8_t *queues, size_t queues_len, uint64_t gets,
                       uint64_t sets, const uint8_t *features,
                       size_t features_len);

/*
 * The same from a packed setup of either version. Returns KAJURNAT_BAD_SETUP,
 * and every byte of the buffer is zero, if the readers refuse the setup or
 * card_len is not kajurnat_card_bytes() of its members.
 */
uint8_t kajurnat_setup_from(uint8_t *card, size_t card_len,
                            const uint8_t *setup, size_t setup_len);

/*
 * Packs a setup at the start of the buffer and returns its length: version 1 if
 * all queue counts are equal, else version 2. The bytes of the buffer past it
 * keep their values.
 *
 * Returns 0, with nothing written, if kajurnat_setup() would refuse the
 * numbers, queues or features, or the buffer is too short.
 * KAJURNAT_SETUP_BYTES_MAX is always enough.
 */
size_t kajurnat_setup_write(uint8_t *setup, size_t setup_len, uint64_t members,
                            const uint8_t *queues, size_t queues_len,
                            uint64_t gets, uint64_t sets,
                            const uint8_t *features, size_t features_len);

/*
 * Reads a packed setup of either version. queues has room for
 * KAJURNAT_MEMBERS_MAX queue counts; those past the last member are 0.
 *
 * Returns KAJURNAT_SETUP_READ. Returns KAJURNAT_SETUP_REFUSED, with nothing
 * written, if the bytes are no setup, queues_len is not KAJURNAT_MEMBERS_MAX,
 * or features_len is not KAJURNAT_FEATURES_BYTES.
 */
uint8_t kajurnat_setup_read(const uint8_t *setup, size_t setup_len,
                            uint8_t *members, uint8_t *queues,
                            size_t queues_len, uint8_t *gets, uint8_t *sets,
                            uint8_t *features, size_t features_len);

/*
 * The same for version 1 alone. Returns KAJURNAT_SETUP_VERSION_2, with nothing
 * written and before all else, if the first four bits are those of version 2.
 */
uint8_t kajurnat_setup_read_v1(const uint8_t *setup, size_t setup_len,
                               uint8_t *members, uint8_t *queues,
                               size_t queues_len, uint8_t *gets, uint8_t *sets,
                               uint8_t *features, size_t features_len);

/*
 * Carries out one command and returns the number of reply bytes written: 8
 * for a refusal, 8 and the result on success. The bytes of the reply buffer
 * past these keep their values. KAJURNAT_REPLY_BYTES_MAX is always enough; a
 * buffer that is too short for the result refuses the command.
 *
 * Returns 0, with nothing written and the card as it was, if the card is not
 * sound or reply_len is under 8.
 */
size_t kajurnat_command(uint8_t *card, size_t card_len, const uint8_t *request,
                        size_t request_len, uint8_t *reply, size_t reply_len);

/*
 * The reset of a member has two halves, so that the data path has time to let
 * go of its guest. The first: the objects and the holding place of the member
 * are ended, and it is stopped and marked. Its parts, configuration and
 * generation stay. While it is marked every command and every restore for it
 * is refused with EAGAIN and TRYAGAIN (a command that is not in use as ever),
 * and a message gets the bus outcome; kajurnat_store() still works.
 *
 * Returns KAJURNAT_DONE, or the first that applies of KAJURNAT_NOT_SOUND,
 * KAJURNAT_NO_SUCH_MEMBER and KAJURNAT_WRONG_MARK: it is marked.
 */
uint8_t kajurnat_hand_back(uint8_t *card, size_t card_len, uint64_t member);

/*
 * The second half: makes a member that is marked fresh, as after setup, with
 * its queue count, and changes nothing else. The mark is gone. The
 * configuration starts from the generation given, so that the count does not
 * tell of the former guest.
 *
 * Returns KAJURNAT_DONE, or the first that applies of KAJURNAT_NOT_SOUND,
 * KAJURNAT_NO_SUCH_MEMBER and KAJURNAT_WRONG_MARK: it is not marked.
 */
uint8_t kajurnat_wipe(uint8_t *card, size_t card_len, uint64_t member,
                      uint32_t generation);

/*
 * Makes the whole card fresh, as after setup, marked members too; the setup
 * stays. The configuration of every member starts from the generation given.
 *
 * Returns KAJURNAT_DONE or KAJURNAT_NOT_SOUND.
 */
uint8_t kajurnat_reset_card(uint8_t *card, size_t card_len,
                            uint32_t generation);

/*
 * Sets one part of one member, running, stopped or marked, for the data path.
 * selector is the eight selector bytes of a part header as a little-endian
 * number: of an offset the low 4 bytes are read, of a queue index the low 2,
 * and for other parts none.
 *
 * Returns KAJURNAT_DONE, or the first that applies of KAJURNAT_NOT_SOUND,
 * KAJURNAT_NO_SUCH_MEMBER, KAJURNAT_NO_SUCH_PART, KAJURNAT_WRONG_LENGTH and
 * KAJURNAT_BAD_QUEUE_SIZE.
 */
uint8_t kajurnat_store(uint8_t *card, size_t card_len, uint64_t member,
                       uint16_t part_type, uint64_t selector,
                       const uint8_t *value, size_t value_len);

/* ---- What the card's own firmware reads -------------------------------- */

/*
 * These four only read, for the side of the card that has the data path: the
 * card is lent as it stands, and no host reaches them. They answer as
 * kajurnat_store() does, the first that applies; refused, nothing is written.
 * A host's commands read a member through an object, and a marked member
 * refuses them; these read any member, running, stopped or marked.
 *
 * Proved, beside what holds of every call: after a store, a load gives the
 * value stored; after parts set, the list's value or the value before; after a
 * wipe, the value of a fresh member. Once a member is wiped, or the card is
 * reset, none of the four tells of the former guest.
 */

/* The state of a member. */
enum {
    KAJURNAT_MEMBER_RUNNING = 0,
    KAJURNAT_MEMBER_STOPPED = 1,
    KAJURNAT_MEMBER_MARKED = 2 /* handed back and not yet wiped */
};

enum { KAJURNAT_CONFIG_BYTES = 12 };

/*
 * Copies one part of one member into a buffer of the part's length. part_type
 * and selector are as in kajurnat_store(). Device features, which no store
 * sets, are loaded as any part.
 *
 * Returns KAJURNAT_DONE, or the first that applies of KAJURNAT_NOT_SOUND,
 * KAJURNAT_NO_SUCH_MEMBER, KAJURNAT_NO_SUCH_PART and KAJURNAT_WRONG_LENGTH.
 */
uint8_t kajurnat_load(const uint8_t *card, size_t card_len, uint64_t member,
                      uint16_t part_type, uint64_t selector, uint8_t *value,
                      size_t value_len);

/*
 * Tells of a member its state, its queue count, how many get and set objects
 * are live, and what its holding place holds: 0 if it is not open, else 1 more
 * than the bytes fed.
 *
 * Returns KAJURNAT_DONE, or the first that applies of KAJURNAT_NOT_SOUND and
 * KAJURNAT_NO_SUCH_MEMBER.
 */
uint8_t kajurnat_member(const uint8_t *card, size_t card_len, uint64_t member,
                        uint8_t *state, uint8_t *queues, uint8_t *gets,
                        uint8_t *sets, uint16_t *held);

/*
 * Copies the configuration of a member, KAJURNAT_CONFIG_BYTES, and its
 * generation.
 *
 * Returns KAJURNAT_DONE, or the first that applies of KAJURNAT_NOT_SOUND,
 * KAJURNAT_NO_SUCH_MEMBER and KAJURNAT_WRONG_LENGTH: bytes_len is another.
 */
uint8_t kajurnat_configuration(const uint8_t *card, size_t card_len,
                               uint64_t member, uint8_t *bytes,
                               size_t bytes_len, uint32_t *generation);

/*
 * Writes the setup of a card, packed as kajurnat_setup_write() packs it, to the
 * front of a buffer, and returns its length; the rest of the buffer keeps its
 * bytes. KAJURNAT_SETUP_BYTES_MAX is always enough. A card that is set up from
 * these bytes has the same setup.
 *
 * Returns 0, with nothing written, if the card is not sound or setup_len is
 * too short.
 */
size_t kajurnat_setup_of(const uint8_t *card, size_t card_len, uint8_t *setup,
                         size_t setup_len);

/* ---- Restore in fragments --------------------------------------------- */

/*
 * A list of parts may come in fragments that end anywhere. Each member has a
 * holding place for them, which is open from begin until finish or drop. Only
 * these four functions, kajurnat_hand_back(), kajurnat_wipe() and
 * kajurnat_reset_card() touch it; commands and stores go on meanwhile, for the
 * same member too.
 *
 * Each function returns a status and, in the upper 16 bits, its qualifier, or
 * KAJURNAT_NOT_SOUND, which is no status. The first row that applies answers.
 *
 *   KAJURNAT_NOT_SOUND      the buffer is not a sound card
 *   EINVAL INVALID_MEMBER   there is no such member
 *   EAGAIN TRYAGAIN         the member is marked
 *   EEXIST INVALID_COMMAND  begin: the holding place is open
 *   ENXIO  INVALID_COMMAND  feed, finish, drop: it is not open
 *   EINVAL INVALID_COMMAND  feed: over KAJURNAT_RESTORE_BYTES_MAX in all
 *   as parts set            finish
 *   OK                      done
 */
enum { KAJURNAT_RESTORE_BYTES_MAX = 1024 };

/* Status and qualifier of an answer that is not KAJURNAT_NOT_SOUND. */
#define KAJURNAT_RESTORE_STATUS(answer) ((uint16_t)((answer) & 0xffffu))
#define KAJURNAT_RESTORE_QUALIFIER(answer) ((uint16_t)((answer) >> 16))

/*
 * Opens the holding place of a member, which then holds no bytes. It needs
 * neither an object nor a stopped member.
 */
uint32_t kajurnat_restore_begin(uint8_t *card, size_t card_len,
                                uint64_t member);

/*
 * Adds a fragment, of any length, behind the bytes that are held. If they would
 * be over KAJURNAT_RESTORE_BYTES_MAX in all, the holding place and its bytes
 * are gone.
 */
uint32_t kajurnat_restore_feed(uint8_t *card, size_t card_len, uint64_t member,
                               const uint8_t *fragment, size_t fragment_len);

/*
 * Does what parts set of the bytes that are held would do now, through the set
 * object of this id: the same checks, the same answer from row 4 of the order
 * of refusals on, the same card. Whatever that answer is, the holding place and
 * its bytes are then gone.
 */
uint32_t kajurnat_restore_finish(uint8_t *card, size_t card_len,
                                 uint64_t member, uint32_t id);

/*
 * Ends the holding place; its bytes are gone.
 */
uint32_t kajurnat_restore_drop(uint8_t *card, size_t card_len,
                               uint64_t member);

/* ---- Configuration by message ------------------------------------------ */

/*
 * For a bus without PCI: each member has KAJURNAT_CONFIG_BYTES of configuration
 * and a generation that tells of their changes, read and written by virtio-msg
 * requests in its strict profile. Device number d speaks for member d + 1. They
 * are no parts; a message does not look at mode, objects and list in use. All
 * numbers are little-endian.
 *
 * Each message starts with a header.
 *
 *    0  type         1  a request 0, a response KAJURNAT_MSG_TYPE_RESPONSE; of
 *                       a request bits 2 to 7 are not read
 *    1  msg_id       1  KAJURNAT_MSG_GET_CONFIG or .._SET_CONFIG
 *    2  dev_num      2  0 to members - 1
 *    4  token        2  copied to the response
 *    6  msg_size     2  of the whole message
 *
 * What follows at byte 8:
 *    get request     offset 4, length 4
 *    set request     generation 4, offset 4, length 4, data
 *    responses       generation 4, offset 4, length 4, data
 *
 * A response has the generation after the message and the offset that was
 * asked. Length 0 without data is the response where nothing is read or
 * written: if offset + length is over KAJURNAT_CONFIG_BYTES, the generation of
 * a set request is not the member's, or length 0 is asked. A set request that
 * is applied moves the generation by one, from 4294967295 to 0, and its data
 * comes back.
 */
enum {
    KAJURNAT_MSG_HEADER_BYTES = 8,
    KAJURNAT_MSG_GET_CONFIG_BYTES = 16, /* the request */
    KAJURNAT_MSG_SET_CONFIG_BYTES = 20, /* the request, and as many as length */
    KAJURNAT_MSG_RESPONSE_BYTES = 20,   /* and as many as length */
    KAJURNAT_MSG_RESPONSE_BYTES_MAX = 32
};

/* Bits of the type. */
enum { KAJURNAT_MSG_TYPE_RESPONSE = 1, KAJURNAT_MSG_TYPE_BUS = 2 };

/* Message ids. */
enum { KAJURNAT_MSG_GET_CONFIG = 0x05, KAJURNAT_MSG_SET_CONFIG = 0x06 };

/*
 * Hears one message and returns the number of response bytes written. The bytes
 * of the reply buffer past these keep their values.
 * KAJURNAT_MSG_RESPONSE_BYTES_MAX is always enough.
 *
 * Returns 0, the bus outcome, with nothing written and the card as it was, if
 *   - the message is not one whole request of the two kinds: message_len and
 *     msg_size are both 16 in a get request, and both 20 + length in a set
 *     request;
 *   - dev_num is not below members, or its member is marked;
 *   - the card is not sound;
 *   - the reply buffer is too short for the response to this message.
 */
size_t kajurnat_message(uint8_t *card, size_t card_len, const uint8_t *message,
                        size_t message_len, uint8_t *reply, size_t reply_len);

/* ---- Functions of the host's half ------------------------------------- */

/*
 * The builders, one for each command. Each writes the request at the start of
 * the buffer and returns its length; the bytes of the buffer past it keep their
 * values. It returns 0, with nothing written, if the request is over
 * KAJURNAT_REQUEST_BYTES_MAX or too long for the buffer, and only then.
 *
 * Fields and lists go in as they are given, and every byte that is no field is
 * zero. A sound card takes the request as that command with those fields, if
 *   - the command is in use, and its member is not marked;
 *   - the fields are inside the setup's numbers: member, id, kind and type
 *     byte, mode, supported bits of a mask;
 *   - a list of headers has whole headers, and none with KAJURNAT_PARTS_ALL.
 * It refuses others. No request without a list is over 48 bytes.
 */

/* Asks for the mask of the supported commands. */
size_t kajurnat_request_list_query(uint8_t *request, size_t request_len);

/* Puts the commands of the mask in use, and no others. */
size_t kajurnat_request_list_use(uint8_t *request, size_t request_len,
                                 uint64_t mask);

/* Creates an object; kind is KAJURNAT_OBJ_GET or KAJURNAT_OBJ_SET. */
size_t kajurnat_request_create(uint8_t *request, size_t request_len,
                               uint64_t member, uint32_t id, uint8_t kind);

/* Gives an object another kind. */
size_t kajurnat_request_modify(uint8_t *request, size_t request_len,
                               uint64_t member, uint32_t id, uint8_t kind);

/* Asks for the kind of an object. */
size_t kajurnat_request_query(uint8_t *request, size_t request_len,
                              uint64_t member, uint32_t id);

/* Ends an object. */
size_t kajurnat_request_destroy(uint8_t *request, size_t request_len,
                                uint64_t member, uint32_t id);

/* Asks about all parts; what is one of KAJURNAT_METADATA_.. */
size_t kajurnat_request_metadata(uint8_t *request, size_t request_len,
                                 uint64_t member, uint32_t id, uint8_t what);

/* Asks for the parts of the headers with KAJURNAT_PARTS_SELECTED, or, without
 * headers, for all parts with KAJURNAT_PARTS_ALL. */
size_t kajurnat_request_get(uint8_t *request, size_t request_len,
                            uint64_t member, uint32_t id, uint8_t which,
                            const uint8_t *headers, size_t headers_len);

/* Sets the parts of the list. */
size_t kajurnat_request_set(uint8_t *request, size_t request_len,
                            uint64_t member, uint32_t id, const uint8_t *list,
                            size_t list_len);

/* Stops or resumes a member; mode is KAJURNAT_MODE_STOP or .._RESUME. */
size_t kajurnat_request_mode(uint8_t *request, size_t request_len,
                             uint64_t member, uint8_t mode);

/*
 * Reads a reply as the answer to the command of this opcode. what is the byte
 * that a metadata command asked with; it is not read for other opcodes.
 *
 * Returns KAJURNAT_REPLY_READ and writes the four numbers. The result is the
 * reply from byte KAJURNAT_REPLY_HEAD_BYTES on. status and qualifier are the
 * ones to act on: one of KAJURNAT_STATUS_.. and one of KAJURNAT_Q_.. Numbers
 * that are none of these are handled as KAJURNAT_STATUS_EINVAL and
 * KAJURNAT_Q_INVALID_COMMAND; sent_status and sent_qualifier are what the reply
 * has.
 *
 * Returns KAJURNAT_REPLY_REFUSED, with nothing written, if the opcode is none
 * of the ten, or the reply is under 8 bytes or of the wrong length for its
 * command and status. A refusal has exactly 8 bytes, a success 8 and its
 * result: of a metadata list as many headers as its count says, of parts get
 * whole parts up to the end.
 */
enum { KAJURNAT_REPLY_READ = 0, KAJURNAT_REPLY_REFUSED = 1 };

uint8_t kajurnat_reply_read(uint16_t opcode, uint8_t what, const uint8_t *reply,
                            size_t reply_len, uint16_t *status,
                            uint16_t *qualifier, uint16_t *sent_status,
                            uint16_t *sent_qualifier);

/* ---- A full capture and a later list ------------------------------------ */

/*
 * A host keeps a full capture of a member and later a list of what changed.
 * These two functions work on the pair under a packed setup of either version;
 * the member's queue count says which parts there are. A value is that of the
 * later list, or of the full capture where the later list has none.
 *
 * They answer KAJURNAT_DIFFERENCE_DONE or the first refusal that applies, in
 * this order. A list is bad as parts set has it (see Parts), against the device
 * features of the setup; it may have any length.
 */
enum {
    KAJURNAT_DIFFERENCE_DONE = 0,
    KAJURNAT_DIFFERENCE_BAD_SETUP = 1, /* or no such member */
    KAJURNAT_DIFFERENCE_BAD_FULL = 2,
    KAJURNAT_DIFFERENCE_BAD_LATER = 3,
    KAJURNAT_DIFFERENCE_LACKS_PART = 4,   /* the full capture, any one */
    KAJURNAT_DIFFERENCE_NO_SUCH_PART = 5, /* find alone */
    KAJURNAT_DIFFERENCE_SHORT_BUFFER = 6  /* merge alone */
};

/* The list that holds a value. */
enum { KAJURNAT_LIST_FULL = 0, KAJURNAT_LIST_LATER = 1 };

/*
 * Looks up one part; part_type and selector are as in kajurnat_store(). The
 * value has *len bytes from byte *at of the list that *list says, one of
 * KAJURNAT_LIST_..; it is not copied. Refused, the three numbers are 0.
 */
uint8_t kajurnat_difference_find(const uint8_t *setup, size_t setup_len,
                                 uint64_t member, const uint8_t *full,
                                 size_t full_len, const uint8_t *later,
                                 size_t later_len, uint16_t part_type,
                                 uint64_t selector, uint8_t *list, uint64_t *at,
                                 uint64_t *len);

/*
 * Makes one list of the pair at the start of the buffer: each part of the
 * member once, in the order and with the headers of a capture. *written is its
 * length, KAJURNAT_CAPTURE_BYTES() of the member's queue count. The bytes of
 * the buffer past it keep their values. Refused, nothing is written to it, and
 * *written is 0.
 */
uint8_t kajurnat_difference_merge(const uint8_t *setup, size_t setup_len,
                                  uint64_t member, const uint8_t *full,
                                  size_t full_len, const uint8_t *later,
                                  size_t later_len, uint8_t *merged,
                                  size_t merged_len, uint64_t *written);

/* ---- Salvage of a torn capture ------------------------------------------ */

/*
 * Of a damaged list of parts, makes one that parts set takes: each part of the
 * member once, in the order and with the headers of a capture. The first copy
 * of a part that parts set would take is kept; a part without one is filled
 * with its fresh value. It stops at the first header or value that runs past
 * the end.
 *
 * kept has a byte for each part of the member, KAJURNAT_PARTS() of its queue
 * count, in order: 1 kept, 0 filled. dropped has the number of parts dropped
 * for each cause, the first that applies in the order below. *left is the
 * number of bytes left over, from the start of the header that it stopped at.
 *
 * Returns the length of the list, KAJURNAT_CAPTURE_BYTES() of the member's
 * queue count; kajurnat_kept_bytes() of it is the number of bytes written to
 * kept. What the buffers hold past these bytes and counts stays. Returns 0,
 * with nothing written, nor to *left, if damaged_len is over
 * KAJURNAT_SALVAGE_BYTES_MAX, the packed setup is bad or has no such member, or
 * one of the three buffers is too short; dropped_len counts numbers, not bytes,
 * and has to be KAJURNAT_DROPPED_CAUSES or more.
 */
enum {
    KAJURNAT_SALVAGE_BYTES_MAX = 4064,
    KAJURNAT_SALVAGE_PARTS_MAX = 15 /* always enough for kept */
};

/* The causes, as indices of dropped. */
enum {
    KAJURNAT_DROPPED_UNKNOWN = 0, /* the member has no such part */
    KAJURNAT_DROPPED_COPY = 1,    /* a copy of it is kept */
    KAJURNAT_DROPPED_SIZE = 2,    /* not of the part's length */
    KAJURNAT_DROPPED_VALUE = 3,   /* a queue size, or device features */
    KAJURNAT_DROPPED_CAUSES = 4
};

size_t kajurnat_salvage(const uint8_t *setup, size_t setup_len, uint64_t member,
                        const uint8_t *damaged, size_t damaged_len,
                        uint8_t *list, size_t list_len, uint8_t *kept,
                        size_t kept_len, uint32_t *dropped, size_t dropped_len,
                        uint32_t *left);

/*
 * How many bytes of kept a salvage wrote that returned this length: one for
 * each part of the list, and none where it refused.
 */
static inline size_t kajurnat_kept_bytes(size_t list_len)
{
    const size_t without = KAJURNAT_CAPTURE_BYTES(0);
    const size_t each = KAJURNAT_CAPTURE_BYTES(1) - without;

    return list_len < without ? 0 : KAJURNAT_PARTS((list_len - without) / each);
}

/* ---- Results, and lists of parts, without counting bytes ----------------- */

/*
 * The functions from here on are C in this header: they are tested, and not
 * proved.
 */

/* A part: the fields of its header, and its value. Of a list of headers alone,
 * as parts get asks with and a metadata list ends in, the value is NULL. */
struct kajurnat_part {
    uint16_t type; /* one of KAJURNAT_PART_.. */
    uint8_t flags; /* KAJURNAT_PART_F_OPTIONAL, or 0 */
    uint64_t selector;
    const uint8_t *value; /* in the list, not copied */
    size_t value_len;
};

/* Little-endian numbers of up to 8 bytes. */
static inline uint64_t kajurnat_le(const uint8_t *bytes, size_t len)
{
    uint64_t number = 0;

    while (len > 0) {
        len--;
        number = (number << 8) | bytes[len];
    }
    return number;
}

static inline void kajurnat_put_le(uint8_t *bytes, size_t len, uint64_t number)
{
    size_t i;

    for (i = 0; i < len; i++) {
        bytes[i] = (uint8_t)(number >> (8 * i));
    }
}

/*
 * The result in a reply that kajurnat_reply_read() has read, with status
 * KAJURNAT_STATUS_OK: the mask of list query, the kind of an object query, and
 * the number of a metadata command, which is a size, or a count also before the
 * headers of a metadata list. These start at byte KAJURNAT_METADATA_HEADERS_AT,
 * and the parts of a parts get at KAJURNAT_REPLY_HEAD_BYTES.
 */
enum { KAJURNAT_METADATA_HEADERS_AT = KAJURNAT_REPLY_HEAD_BYTES + 8 };

static inline uint64_t kajurnat_result_mask(const uint8_t *reply)
{
    return kajurnat_le(reply + KAJURNAT_REPLY_HEAD_BYTES, 8);
}

static inline uint8_t kajurnat_result_kind(const uint8_t *reply)
{
    return reply[KAJURNAT_REPLY_HEAD_BYTES];
}

static inline uint32_t kajurnat_result_number(const uint8_t *reply)
{
    return (uint32_t)kajurnat_le(reply + KAJURNAT_REPLY_HEAD_BYTES, 4);
}

/*
 * The header at byte at of a list: fills *part, with value NULL and the length
 * that the header says, and returns where the next one starts; 0, with nothing
 * written, where no whole header is there. So it walks a list of headers.
 */
static inline size_t kajurnat_header_at(const uint8_t *list, size_t list_len,
                                        size_t at, struct kajurnat_part *part)
{
    const uint8_t *header;

    if (at > list_len || list_len - at < KAJURNAT_PART_HEADER_BYTES) {
        return 0;
    }
    header = list + at;
    part->type = (uint16_t)kajurnat_le(header, 2);
    part->flags = header[2];
    part->selector = kajurnat_le(header + 4, 8);
    part->value = NULL;
    part->value_len = (size_t)kajurnat_le(header + 12, 4);
    return at + KAJURNAT_PART_HEADER_BYTES;
}

/*
 * The part at byte at of a list: fills *part and returns where the next part
 * starts; 0, with nothing written, where no whole part is there: at the list's
 * end, or where a header or a value runs past it. So it walks a list:
 *
 *   for (at = 0; (next = kajurnat_part_at(list, len, at, &part)) != 0;
 *        at = next)
 *       ..
 *   if (at != len)
 *       the list is cut
 */
static inline size_t kajurnat_part_at(const uint8_t *list, size_t list_len,
                                      size_t at, struct kajurnat_part *part)
{
    struct kajurnat_part found;
    size_t value_at = kajurnat_header_at(list, list_len, at, &found);

    if (value_at == 0 || list_len - value_at < found.value_len) {
        return 0;
    }
    found.value = list + value_at;
    *part = found;
    return value_at + found.value_len;
}

/*
 * Puts the header of a part, with its length of the value, at byte at of a
 * list, and returns where the next one goes; 0, with nothing written, if the
 * list has no room for it or the length has no 32 bits. The value is not read.
 */
static inline size_t kajurnat_header_put(uint8_t *list, size_t list_len,
                                         size_t at,
                                         const struct kajurnat_part *part)
{
    uint8_t *header;

    if (at > list_len || list_len - at < KAJURNAT_PART_HEADER_BYTES ||
        part->value_len > UINT32_MAX) {
        return 0;
    }
    header = list + at;
    kajurnat_put_le(header, 2, part->type);
    header[2] = part->flags;
    header[3] = 0;
    kajurnat_put_le(header + 4, 8, part->selector);
    kajurnat_put_le(header + 12, 4, part->value_len);
    return at + KAJURNAT_PART_HEADER_BYTES;
}

/*
 * Puts a part, header and value, at byte at of a list, and returns where the
 * next part goes, which is the length of the list so far; 0, with nothing
 * written, if the list has no room for it. The value lies outside the list.
 */
static inline size_t kajurnat_part_put(uint8_t *list, size_t list_len,
                                       size_t at,
                                       const struct kajurnat_part *part)
{
    size_t value_at, i;

    if (at > list_len || list_len - at < KAJURNAT_PART_HEADER_BYTES ||
        list_len - at - KAJURNAT_PART_HEADER_BYTES < part->value_len) {
        return 0;
    }
    value_at = kajurnat_header_put(list, list_len, at, part);
    if (value_at == 0) {
        return 0;
    }
    for (i = 0; i < part->value_len; i++) {
        list[value_at + i] = part->value[i];
    }
    return value_at + part->value_len;
}

#ifdef __cplusplus
}
#endif

#endif
