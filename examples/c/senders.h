/*
 * What the hosts of four venues share: the lists that arrive, and the turns.
 */
#ifndef SENDERS_H
#define SENDERS_H

#include "common.h"
#include "legging.h"

/* A venue's messages, and how many of their bytes have arrived. */
struct sender {
    struct bytes list;
    size_t sent;
};

static uint8_t layer[LEGGING_LAYER_BYTES];
static uint8_t report[LEGGING_MOST_BYTES];

static inline bool has_more(const struct sender *sender)
{
    return sender->sent < sender->list.length;
}

/* A venue's next messages arrive, while there are some and its wait has room. */
static inline void deliver(uint32_t venue, struct sender *sender)
{
    while (has_more(sender)) {
        size_t length = length_at(sender->list, sender->sent);
        uint8_t number = legging_arrive(layer, sizeof layer, venue, sender->list.at + sender->sent, length);
        if (number == LEGGING_NO_PLACE && length <= LEGGING_MOST_MESSAGE)
            return;
        if (number != LEGGING_DONE)
            fprintf(stderr, PROGRAM ": venue %" PRIu32 ": a message of %zu bytes is passed over: number %u\n", venue,
                    length, (unsigned)number);
        sender->sent += length;
    }
}

static inline void deliver_all(struct sender senders[LEGGING_VENUES])
{
    for (uint32_t venue = 0; venue < LEGGING_VENUES; venue++)
        deliver(venue, &senders[venue]);
}

/* A turn, its records printed after the number of the venue served: what it returned. */
static inline uint32_t take_turn(bool hex)
{
    uint32_t turned = legging_turn(layer, sizeof layer, report, sizeof report);
    char prefix[8];
    snprintf(prefix, sizeof prefix, "%u: ", (unsigned)LEGGING_TURN_VENUE(turned));
    print_records(bytes_at(report, sizeof report), prefix, hex);
    return turned;
}

/* Arrivals and turns until nothing waits: the last turn's number. */
static inline uint8_t serve_all(struct sender senders[LEGGING_VENUES], bool hex)
{
    for (;;) {
        deliver_all(senders);
        uint32_t turned = take_turn(hex);
        if (LEGGING_TURN_VENUE(turned) == LEGGING_NONE)
            return LEGGING_TURN_NUMBER(turned);
    }
}

/* The lists of the four venues, by their files, which were `given`. */
static inline void read_lists(struct sender senders[LEGGING_VENUES], const char *const files[LEGGING_VENUES],
                              unsigned given)
{
    unsigned inputs = 0;
    if (given < LEGGING_VENUES)
        wrong_usage("expected four lists", "too few were given");
    for (unsigned venue = 0; venue < LEGGING_VENUES; venue++)
        inputs += is_input(files[venue]);
    if (inputs > 1)
        wrong_usage("standard input can be one list only", "-");
    for (unsigned venue = 0; venue < LEGGING_VENUES; venue++) {
        senders[venue].list = read_file(files[venue]);
        senders[venue].sent = 0;
    }
}

static inline void free_lists(struct sender senders[LEGGING_VENUES])
{
    for (unsigned venue = 0; venue < LEGGING_VENUES; venue++)
        free(senders[venue].list.at);
}

#endif
