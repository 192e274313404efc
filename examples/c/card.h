/* The card that boundary.c, events.c and lists.c try their calls on. */
#ifndef CARD_H
#define CARD_H

#include "common.h"
#include "kajurnat.h"

enum { MEMBERS = 2, QUEUES = 1, GETS = 1, SETS = 1 };

enum { GET_ID = 0, SET_ID = 1 };

#define ZERO_8 0, 0, 0, 0, 0, 0, 0, 0
#define ZERO_16 ZERO_8, ZERO_8

/* A part: driver features, all zero. */
#define DRIVER_FEATURES 0x01, 0x01, 0, 0, ZERO_8, 16, 0, 0, 0, ZERO_16

static uint8_t card[KAJURNAT_CARD_BYTES(MEMBERS)];
static const uint8_t features[KAJURNAT_FEATURES_BYTES];
static const uint8_t queues[MEMBERS] = {QUEUES, QUEUES};

/* A fresh card. */
static void set_up(void)
{
    expect(kajurnat_setup(card, sizeof card, MEMBERS, queues, sizeof queues,
                          GETS, SETS, features,
                          sizeof features) == KAJURNAT_DONE,
           "the setup is taken");
    expect(kajurnat_is_sound(card, sizeof card) == 1, "the card is sound");
}

#endif
