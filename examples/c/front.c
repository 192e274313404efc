/*
 * The capability commands of capabilities.c on random requests, against rules
 * written apart: what the owner answers is a table here, and what the card
 * answers comes from a second card, which hears the same commands with bits 7
 * to 9 taken out by hand. After every call the replies, both cards and what
 * the front keeps are compared.
 */
#include "capabilities.h"
#include "common.h"

enum { CARDS = 60, CALLS = 4000, GUARD = 0x5c };

static uint64_t seed = 35;

static uint32_t draw(uint32_t below)
{
    seed = seed * 6364136223846793005u + 1442695040888963407u;
    return (uint32_t)(seed >> 33) % below;
}

static uint8_t card[KAJURNAT_CARD_BYTES(16)], twin[sizeof card];
static size_t card_bytes;
static unsigned gets, sets;
static struct capabilities front;

/* The rules' own memory. */
static bool in_use[3], driver_set;
static unsigned driver_gets, driver_sets;

/* What the calls have shown, so that none is left untried. */
enum { LISTED, GOT, SET, NOT_IN_USE, UNKNOWN, OVER, CUT, USED, UNUSED, PASSED,
       OUTCOMES };
static const char *const outcomes[OUTCOMES] = {
    "lists of capabilities", "limits read",
    "limits set",            "commands not in use",
    "unknown capabilities",  "limits over the device's",
    "replies cut",           "lists put in use",
    "lists refused",         "commands to the card"};
static unsigned seen[OUTCOMES];

/* ---- The rules ----------------------------------------------------------- */

/* The owner's reply to opcode 7, 8 or 9, whole, as hexadecimal digits. */
static void owner_rule(uint8_t opcode, const uint8_t data[10], char *text)
{
    unsigned id = data[0] + 256u * data[1];
    bool over = data[8] > gets || data[9] > sets;
    if (!in_use[opcode - 7]) {
        seen[NOT_IN_USE]++;
        strcpy(text, "1600020000000000");
    } else if (opcode == 7) {
        seen[LISTED]++;
        strcpy(text, "00000000000000000100000000000000");
    } else if (id != 0 || (opcode == 9 && over)) {
        seen[id != 0 ? UNKNOWN : OVER]++;
        strcpy(text, "1600030000000000");
    } else if (opcode == 8) {
        seen[GOT]++;
        sprintf(text, "0000000000000000%02x%02x", gets, sets);
    } else {
        seen[SET]++;
        strcpy(text, "0000000000000000");
        driver_set = true;
        driver_gets = data[8];
        driver_sets = data[9];
    }
}

static size_t owner(const uint8_t *request, size_t length, uint8_t *reply,
                    size_t room)
{
    uint8_t data[10] = {0};
    char text[40];
    size_t written = 0;
    if (room < 8) {
        return 0;
    }
    memcpy(data, request + 24, length - 24 < 10 ? length - 24 : 10);
    owner_rule(request[0], data, text);
    for (; text[2 * written] != 0 && written < room; written++) {
        unsigned byte;
        sscanf(text + 2 * written, "%2x", &byte);
        reply[written] = (uint8_t)byte;
    }
    seen[CUT] += text[2 * written] != 0;
    return written;
}

/* The twin's reply, with the bits of group 1 taken out and put in by hand. */
static size_t rules(const uint8_t *request, size_t length, uint8_t *reply,
                    size_t room)
{
    static uint8_t copy[8192];
    bool framed = length >= 24 && length <= 4096;
    unsigned opcode = framed ? request[0] + 256u * request[1] : 99;
    unsigned group = framed ? request[2] + 256u * request[3] : 99;
    bool asked[3] = {length > 24 && request[24] & 0x80,
                     length > 25 && request[25] & 0x01,
                     length > 25 && request[25] & 0x02};

    if (group == 0 && opcode >= 7 && opcode <= 9) {
        return owner(request, length, reply, room);
    }
    memcpy(copy, request, length);
    if (group == 1 && opcode == 1) {
        copy[24] &= 0x7f;
        copy[25] &= 0xfc;
    }
    size_t written = kajurnat_command(twin, card_bytes, copy, length, reply,
                                      room);
    if (group == 1 && opcode == 0 && written == 16) {
        reply[8] |= 0x80;
        reply[9] |= 0x03;
    }
    if (group == 1 && opcode == 1 && written == 8) {
        seen[reply[0] == 0 ? USED : UNUSED]++;
        if (reply[0] == 0) {
            memcpy(in_use, asked, sizeof in_use);
        }
    }
    seen[PASSED]++;
    return written;
}

/* ---- The calls ------------------------------------------------------------ */

static size_t draw_request(uint8_t *request)
{
    static const uint8_t opcodes[] = {0, 1, 1, 7, 8, 8, 9, 9, 9, 10, 15, 17};
    static const size_t lengths[] = {24, 25, 26, 31, 32, 33, 34, 34, 40, 48};
    size_t length = draw(8) ? lengths[draw(10)] : draw(8) ? draw(60)
                                                          : 4090 + draw(12);
    for (size_t i = 0; i < length; i++) {
        request[i] = draw(3) ? 0 : (uint8_t)draw(256);
    }
    uint8_t head[4] = {opcodes[draw(12)], draw(20) == 0, 0, draw(20) == 0};
    bool self = head[0] >= 7 && head[0] <= 9;
    head[2] = (uint8_t)(draw(8) ? !self : draw(4));
    memcpy(request, head, length < 4 ? length : 4);
    if (head[0] == 1 && draw(8)) { /* a mask that the card may take */
        for (size_t i = 24; i < length; i++) {
            uint64_t mask = KAJURNAT_CMD_MASK | CAPABILITIES_CMD_MASK;
            request[i] = (uint8_t)(i < 32 ? mask >> (8 * (i - 24)) : 0);
            request[i] &= draw(4) ? 0xff : (uint8_t)draw(256);
        }
        if (draw(4) && length > 24) {
            request[24] |= 3; /* else no list command is left */
        }
    }
    if (self && draw(4)) { /* a capability that there is, limits near it */
        for (size_t i = 24; i < length && i < 26; i++) {
            request[i] = 0;
        }
        for (size_t i = 32; i < length && i < 34; i++) {
            request[i] = (uint8_t)draw(i == 32 ? gets + 2 : sets + 2);
        }
    }
    return length;
}

/* The front's buffers have no byte to spare, so that the sanitizers see it. */
static size_t by_front(const uint8_t *request, size_t length, uint8_t *reply,
                       size_t room)
{
    uint8_t *asked = malloc(length + 1), *answered = malloc(room + 1);
    expect(asked != NULL && answered != NULL, "memory");
    memcpy(asked + 1, request, length);
    memcpy(answered + 1, reply, room);
    size_t written = capabilities_command(&front, card, card_bytes, asked + 1,
                                          length, answered + 1, room);
    memcpy(reply, answered + 1, room);
    free(asked);
    free(answered);
    return written;
}

static void call(void)
{
    static uint8_t request[8192], reply[512], expected[512];
    size_t length = draw_request(request), room = draw(4) ? 460 : draw(24);
    memset(reply, GUARD, sizeof reply);
    memset(expected, GUARD, sizeof expected);

    size_t should = rules(request, length, expected, room);
    size_t written = by_front(request, length, reply, room);
    expect(written == should, "as many bytes as the rules have");
    expect(memcmp(reply, expected, sizeof reply) == 0, "the reply, and the "
                                                       "buffer past it");
    expect(memcmp(card, twin, card_bytes) == 0, "the card");
    expect(front.in_use == (in_use[0] * 0x80u + in_use[1] * 0x100u +
                            in_use[2] * 0x200u),
           "the commands in use");
    expect(front.driver_set == driver_set && front.gets == driver_gets &&
               front.sets == driver_sets,
           "what the driver has set");
}

static void fresh_card(void)
{
    uint8_t counts[16], features[KAJURNAT_FEATURES_BYTES] = {0};
    unsigned members = 1 + draw(16);
    gets = draw(9);
    sets = draw(9);
    card_bytes = KAJURNAT_CARD_BYTES(members);
    for (unsigned i = 0; i < members; i++) {
        counts[i] = (uint8_t)(1 + draw(4));
    }
    expect(kajurnat_setup(card, card_bytes, members, counts, members, gets,
                          sets, features, sizeof features) == KAJURNAT_DONE,
           "the setup is taken");
    memcpy(twin, card, sizeof card);
    memset(&front, 0, sizeof front);
    memset(in_use, 0, sizeof in_use);
    driver_set = false;
    driver_gets = driver_sets = 0;
}

/* Whatever the card and the front's own bytes are, nothing is written. */
static void unsound(void)
{
    static uint8_t request[8192], reply[64];
    for (unsigned i = 0; i < 1000; i++) {
        size_t length = draw_request(request);
        uint8_t *bytes = (uint8_t *)&front;
        for (size_t k = 0; k < sizeof front; k++) {
            bytes[k] = (uint8_t)draw(256);
        }
        card[draw(2)] ^= 0xff;
        if (kajurnat_is_sound(card, card_bytes) == 0) {
            expect(by_front(request, length, reply, sizeof reply) == 0,
                   "an unsound card gives no reply");
        }
    }
}

int main(int count, char **arguments)
{
    take_no_arguments(count, arguments,
                      "tries the capability commands on random requests");
    for (unsigned i = 0; i < CARDS; i++) {
        fresh_card();
        for (unsigned k = 0; k < CALLS; k++) {
            if (draw(100) == 0) { /* else list use may block itself for ever */
                fresh_card();
            }
            call();
        }
    }
    unsound();
    printf("capability commands: %u calls as the rules have it:", CARDS * CALLS);
    for (size_t i = 0; i < OUTCOMES; i++) {
        expect(seen[i] > 0, outcomes[i]);
        printf("%s %u %s", i == 0 ? "" : ",", seen[i], outcomes[i]);
    }
    puts("");
    return EXIT_SUCCESS;
}
