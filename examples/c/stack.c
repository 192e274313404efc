/*
 * The stack that calls of the library take.
 *
 * Linked into a program with --wrap for each function below, it stands between
 * the program and the library: it fills the stack below with a pattern, makes
 * the call, and looks how far down the pattern is gone. At the end it reports
 * the deepest call, and ends with 1 if that is over KAJURNAT_STACK_BYTES.
 */
#include "kajurnat.h"

#include <stddef.h>
#include <stdint.h>
#include <stdio.h>
#include <stdlib.h>
#include <unistd.h>

#define PATTERN UINT64_C(0xa5c3965ae17b2d48)

enum { WORDS = 1024 };

static size_t calls, deepest;
static const char *deepest_name = "none";

/* The words that were filled last, and the stack pointer above them. */
static volatile uint64_t *filled;
static uintptr_t top;

/* Fills the words below the stack pointer of its caller. */
__attribute__((noinline)) static void fill(void)
{
    uint64_t words[WORDS];

    filled = words;
    top = (uintptr_t)__builtin_dwarf_cfa();
    /* The compiler is not to know that the words are read once they are gone.
     */
    __asm__ volatile("" : "+m"(filled) : : "memory");
    for (size_t i = 0; i < WORDS; i++) {
        filled[i] = PATTERN;
    }
}

/* The bytes from there down to the lowest word that changed since. */
__attribute__((noinline)) static size_t depth(void)
{
    size_t i = 0;

    while (i < WORDS && filled[i] == PATTERN) {
        i++;
    }
    return top - (uintptr_t)&filled[i];
}

static void record(const char *name, size_t bytes)
{
    calls++;
    if (bytes > deepest) {
        deepest = bytes;
        deepest_name = name;
    }
}

#define MEASURED(type, name, parameters, arguments)                            \
    type __real_##name parameters;                                             \
    type __wrap_##name parameters;                                             \
    type __wrap_##name parameters                                              \
    {                                                                          \
        fill();                                                                \
        type result = __real_##name arguments;                                 \
        size_t bytes = depth();                                                \
        record(#name, bytes);                                                  \
        return result;                                                         \
    }

MEASURED(size_t, kajurnat_card_bytes, (uint64_t members), (members))
MEASURED(uint8_t, kajurnat_setup,
         (uint8_t * card, size_t card_len, uint64_t members,
          const uint8_t *queues, size_t queues_len, uint64_t gets,
          uint64_t sets, const uint8_t *features, size_t features_len),
         (card, card_len, members, queues, queues_len, gets, sets, features,
          features_len))
MEASURED(uint8_t, kajurnat_setup_from,
         (uint8_t * card, size_t card_len, const uint8_t *setup,
          size_t setup_len),
         (card, card_len, setup, setup_len))
MEASURED(size_t, kajurnat_setup_write,
         (uint8_t * setup, size_t setup_len, uint64_t members,
          const uint8_t *queues, size_t queues_len, uint64_t gets,
          uint64_t sets, const uint8_t *features, size_t features_len),
         (setup, setup_len, members, queues, queues_len, gets, sets, features,
          features_len))
MEASURED(uint8_t, kajurnat_setup_read,
         (const uint8_t *setup, size_t setup_len, uint8_t *members,
          uint8_t *queues, size_t queues_len, uint8_t *gets, uint8_t *sets,
          uint8_t *features, size_t features_len),
         (setup, setup_len, members, queues, queues_len, gets, sets, features,
          features_len))
MEASURED(uint8_t, kajurnat_setup_read_v1,
         (const uint8_t *setup, size_t setup_len, uint8_t *members,
          uint8_t *queues, size_t queues_len, uint8_t *gets, uint8_t *sets,
          uint8_t *features, size_t features_len),
         (setup, setup_len, members, queues, queues_len, gets, sets, features,
          features_len))
MEASURED(size_t, kajurnat_command,
         (uint8_t * card, size_t card_len, const uint8_t *request,
          size_t request_len, uint8_t *reply, size_t reply_len),
         (card, card_len, request, request_len, reply, reply_len))
MEASURED(size_t, kajurnat_message,
         (uint8_t * card, size_t card_len, const uint8_t *message,
          size_t message_len, uint8_t *reply, size_t reply_len),
         (card, card_len, message, message_len, reply, reply_len))
MEASURED(uint8_t, kajurnat_hand_back,
         (uint8_t * card, size_t card_len, uint64_t member),
         (card, card_len, member))
MEASURED(uint8_t, kajurnat_wipe,
         (uint8_t * card, size_t card_len, uint64_t member,
          uint32_t generation),
         (card, card_len, member, generation))
MEASURED(uint8_t, kajurnat_reset_card,
         (uint8_t * card, size_t card_len, uint32_t generation),
         (card, card_len, generation))
MEASURED(uint8_t, kajurnat_is_sound, (const uint8_t *card, size_t card_len),
         (card, card_len))
MEASURED(uint8_t, kajurnat_store,
         (uint8_t * card, size_t card_len, uint64_t member, uint16_t part_type,
          uint64_t selector, const uint8_t *value, size_t value_len),
         (card, card_len, member, part_type, selector, value, value_len))

MEASURED(uint8_t, kajurnat_load,
         (const uint8_t *card, size_t card_len, uint64_t member,
          uint16_t part_type, uint64_t selector, uint8_t *value,
          size_t value_len),
         (card, card_len, member, part_type, selector, value, value_len))
MEASURED(uint8_t, kajurnat_member,
         (const uint8_t *card, size_t card_len, uint64_t member, uint8_t *state,
          uint8_t *queues, uint8_t *gets, uint8_t *sets, uint16_t *held),
         (card, card_len, member, state, queues, gets, sets, held))
MEASURED(uint8_t, kajurnat_configuration,
         (const uint8_t *card, size_t card_len, uint64_t member, uint8_t *to,
          size_t to_len, uint32_t *generation),
         (card, card_len, member, to, to_len, generation))
MEASURED(size_t, kajurnat_setup_of,
         (const uint8_t *card, size_t card_len, uint8_t *setup,
          size_t setup_len),
         (card, card_len, setup, setup_len))

MEASURED(uint32_t, kajurnat_restore_begin,
         (uint8_t * card, size_t card_len, uint64_t member),
         (card, card_len, member))
MEASURED(uint32_t, kajurnat_restore_feed,
         (uint8_t * card, size_t card_len, uint64_t member,
          const uint8_t *fragment, size_t fragment_len),
         (card, card_len, member, fragment, fragment_len))
MEASURED(uint32_t, kajurnat_restore_finish,
         (uint8_t * card, size_t card_len, uint64_t member, uint32_t id),
         (card, card_len, member, id))
MEASURED(uint32_t, kajurnat_restore_drop,
         (uint8_t * card, size_t card_len, uint64_t member),
         (card, card_len, member))

MEASURED(size_t, kajurnat_request_list_query,
         (uint8_t * request, size_t request_len), (request, request_len))
MEASURED(size_t, kajurnat_request_list_use,
         (uint8_t * request, size_t request_len, uint64_t mask),
         (request, request_len, mask))
MEASURED(size_t, kajurnat_request_create,
         (uint8_t * request, size_t request_len, uint64_t member, uint32_t id,
          uint8_t kind),
         (request, request_len, member, id, kind))
MEASURED(size_t, kajurnat_request_modify,
         (uint8_t * request, size_t request_len, uint64_t member, uint32_t id,
          uint8_t kind),
         (request, request_len, member, id, kind))
MEASURED(size_t, kajurnat_request_query,
         (uint8_t * request, size_t request_len, uint64_t member, uint32_t id),
         (request, request_len, member, id))
MEASURED(size_t, kajurnat_request_destroy,
         (uint8_t * request, size_t request_len, uint64_t member, uint32_t id),
         (request, request_len, member, id))
MEASURED(size_t, kajurnat_request_metadata,
         (uint8_t * request, size_t request_len, uint64_t member, uint32_t id,
          uint8_t what),
         (request, request_len, member, id, what))
MEASURED(size_t, kajurnat_request_get,
         (uint8_t * request, size_t request_len, uint64_t member, uint32_t id,
          uint8_t which, const uint8_t *headers, size_t headers_len),
         (request, request_len, member, id, which, headers, headers_len))
MEASURED(size_t, kajurnat_request_set,
         (uint8_t * request, size_t request_len, uint64_t member, uint32_t id,
          const uint8_t *list, size_t list_len),
         (request, request_len, member, id, list, list_len))
MEASURED(size_t, kajurnat_request_mode,
         (uint8_t * request, size_t request_len, uint64_t member, uint8_t mode),
         (request, request_len, member, mode))
MEASURED(uint8_t, kajurnat_reply_read,
         (uint16_t opcode, uint8_t what, const uint8_t *reply, size_t reply_len,
          uint16_t *status, uint16_t *qualifier, uint16_t *sent_status,
          uint16_t *sent_qualifier),
         (opcode, what, reply, reply_len, status, qualifier, sent_status,
          sent_qualifier))
MEASURED(uint8_t, kajurnat_difference_find,
         (const uint8_t *setup, size_t setup_len, uint64_t member,
          const uint8_t *full, size_t full_len, const uint8_t *later,
          size_t later_len, uint16_t part_type, uint64_t selector,
          uint8_t *list, uint64_t *at, uint64_t *len),
         (setup, setup_len, member, full, full_len, later, later_len, part_type,
          selector, list, at, len))
MEASURED(uint8_t, kajurnat_difference_merge,
         (const uint8_t *setup, size_t setup_len, uint64_t member,
          const uint8_t *full, size_t full_len, const uint8_t *later,
          size_t later_len, uint8_t *merged, size_t merged_len,
          uint64_t *written),
         (setup, setup_len, member, full, full_len, later, later_len, merged,
          merged_len, written))
MEASURED(size_t, kajurnat_salvage,
         (const uint8_t *setup, size_t setup_len, uint64_t member,
          const uint8_t *damaged, size_t damaged_len, uint8_t *list,
          size_t list_len, uint8_t *kept, size_t kept_len, uint32_t *dropped,
          size_t dropped_len, uint32_t *left),
         (setup, setup_len, member, damaged, damaged_len, list, list_len, kept,
          kept_len, dropped, dropped_len, left))

/* A call of a known depth is measured as such, or nothing is. */
__attribute__((noinline)) static void take_a_kilobyte(void)
{
    uint64_t words[128];
    volatile uint64_t *word = words;

    __asm__ volatile("" : "+r"(word) : : "memory");
    word[0] = 0;
}

__attribute__((constructor)) static void check_measure(void)
{
    fill();
    size_t nothing = depth();
    fill();
    take_a_kilobyte();
    size_t kilobyte = depth();
    if (nothing > 64 || kilobyte < 1024 || kilobyte > 1024 + 64) {
        fprintf(stderr, "stack: cannot be measured here\n");
        exit(EXIT_FAILURE);
    }
}

__attribute__((destructor)) static void report(void)
{
    fprintf(stderr, "stack: %zu bytes at most in %zu calls, in %s\n", deepest,
            calls, deepest_name);
    if (deepest > KAJURNAT_STACK_BYTES) {
        _exit(EXIT_FAILURE);
    }
}
