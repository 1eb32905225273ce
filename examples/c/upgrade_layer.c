/*
 * An upgrade of four venues behind one line in C: at noon the messages that wait and the
 * venue served last are carried too. Prints a line for each record, after the number of
 * its venue.
 *
 *     upgrade_layer --write noon.layer m0.bin m1.bin m2.bin m3.bin
 *     upgrade_layer --read noon.layer a0.bin a1.bin a2.bin a3.bin
 *
 * What is carried is one file of these bytes, numbers little-endian:
 *
 *     the venue served last u8, and of each venue in turn
 *       the length of its set u16, the set as legging_write_set writes it
 *       how many messages wait for it u8, and of each the length u8 and the bytes
 */
#define _POSIX_C_SOURCE 200809L
#include "legging.h"

#define PROGRAM "upgrade_layer"
#include "checked_file.h"
#include "senders.h"

static const char USAGE[] =
    "usage: upgrade_layer [--hex] [--read FILE [--unchecked]] [--write FILE] LIST LIST LIST LIST\n"
    "\n"
    "Each LIST is a file of messages, for the venues 0 to 3 in turn; one of them may be -\n"
    "for standard input. They arrive at four fresh venues or, with --read, at the four that\n"
    "FILE carries. Turns are taken while a wait is full and, without --write, until nothing\n"
    "waits. Prints a line for each record: its venue, a colon, its kind and its fields in\n"
    "table order. With --write the four venues, the messages that wait and the venue served\n"
    "last are written to FILE.\n"
    "\n"
    "FILE is written whole or not at all: to FILE.new, which is synced and renamed. Its\n"
    "length and SHA-256 are written to FILE.sha256. A FILE that differs from them is refused,\n"
    "and so is one without them.\n"
    "\n"
    "  --unchecked  read FILE without asking for FILE.sha256\n"
    "  --hex        print each record's bytes in hexadecimal\n"
    "  --help       this text\n"
    "\n"
    "The exit status is 0 when all was done, 3 when what was carried was refused or a turn\n"
    "was ended by 9 or 10, 1 when a file was not read or written, 2 for a wrong command\n"
    "line.\n";

struct options {
    const char *from;
    const char *to;
    const char *lists[LEGGING_VENUES];
    unsigned given;
    bool unchecked;
    bool hex;
};

/* What is carried, and how much of it was written or read. */
struct carried {
    struct bytes all;
    size_t at;
};

/* No file has more. */
#define MOST_CARRIED \
    (1u + LEGGING_VENUES * (2u + LEGGING_SET_BYTES + 1u + LEGGING_MOST_WAITING * LEGGING_PLACE_BYTES))

/* Tells why what was carried is refused, and ends the program. */
static void refuse(uint32_t venue, const char *what, unsigned number)
{
    fflush(stdout);
    fprintf(stderr, PROGRAM ": venue %" PRIu32 ": %s: number %u\n", venue, what, number);
    exit(REFUSED);
}

static uint8_t *lane_of(uint32_t venue)
{
    return layer + venue * LEGGING_LANE_BYTES;
}

/* Writing ---------------------------------------------------------------------- */

static void put(struct carried *carried, const uint8_t *bytes, size_t length)
{
    memcpy(carried->all.at + carried->at, bytes, length);
    carried->at += length;
}

static void put_set(struct carried *carried, uint32_t venue)
{
    uint8_t set[LEGGING_SET_BYTES];
    uint8_t written[LEGGING_NUMBER_BYTES];
    const uint8_t *lane = lane_of(venue);
    uint32_t done = number_at(lane + LEGGING_LANE_DONE_AT, 4);
    uint8_t answer = legging_write_set(lane, LEGGING_VENUE_BYTES, done, set, sizeof set, written, sizeof written);
    if (answer != LEGGING_DONE)
        refuse(venue, "the set was not written", answer);
    put(carried, written, 2); /* a set is shorter than 65,536 bytes */
    put(carried, set, number_at(written, 2));
}

static void put_wait(struct carried *carried, uint32_t venue)
{
    const uint8_t *waiting = lane_of(venue) + LEGGING_LANE_WAITING_AT;
    put(carried, waiting, 1);
    for (size_t i = 0; i < *waiting; i++) {
        const uint8_t *place = lane_of(venue) + LEGGING_LANE_PLACES_AT + i * LEGGING_PLACE_BYTES;
        put(carried, place, 1 + (size_t)place[0]);
    }
}

static void carry(const char *file)
{
    static uint8_t memory[MOST_CARRIED];
    struct carried carried = {{memory, sizeof memory}, 0};
    put(&carried, layer + LEGGING_SERVED_AT, 1);
    for (uint32_t venue = 0; venue < LEGGING_VENUES; venue++) {
        put_set(&carried, venue);
        put_wait(&carried, venue);
    }
    write_checked(file, bytes_at(memory, carried.at));
}

/* Reading ---------------------------------------------------------------------- */

/* The next bytes; the program ends where there are fewer. */
static const uint8_t *taken(struct carried *carried, size_t length)
{
    if (length > carried->all.length - carried->at) {
        fprintf(stderr, PROGRAM ": what was carried ends at byte %zu, within a venue\n", carried->all.length);
        exit(REFUSED);
    }
    carried->at += length;
    return carried->all.at + carried->at - length;
}

/* A venue and its count of messages done, from its set. */
static void take_set(struct carried *carried, uint32_t venue)
{
    size_t length = number_at(taken(carried, 2), 2);
    const uint8_t *set = taken(carried, length);
    uint8_t *lane = lane_of(venue);
    uint8_t answer = legging_read_set(set, length, lane, LEGGING_VENUE_BYTES, lane + LEGGING_LANE_DONE_AT,
                                      LEGGING_NUMBER_BYTES);
    if (answer != LEGGING_DONE)
        refuse(venue, "the set was not read", answer);
}

/* The messages that waited for a venue arrive once more. */
static void take_wait(struct carried *carried, uint32_t venue)
{
    size_t waiting = *taken(carried, 1);
    for (size_t i = 0; i < waiting; i++) {
        size_t length = *taken(carried, 1);
        uint8_t answer = legging_arrive(layer, sizeof layer, venue, taken(carried, length), length);
        if (answer != LEGGING_DONE)
            refuse(venue, "a message that waited did not arrive", answer);
    }
}

static void resume(const char *file, bool unchecked)
{
    struct carried carried = {read_checked(file, unchecked), 0};
    uint8_t served = *taken(&carried, 1);
    if (served >= LEGGING_VENUES)
        refuse(served, "no venue was served last by this number", LEGGING_NO_VENUE);
    for (uint32_t venue = 0; venue < LEGGING_VENUES; venue++) {
        take_set(&carried, venue);
        take_wait(&carried, venue);
    }
    layer[LEGGING_SERVED_AT] = served;
    if (carried.at != carried.all.length) {
        fprintf(stderr, PROGRAM ": %s has bytes after the last venue, from %zu on\n", file, carried.at);
        exit(REFUSED);
    }
    free(carried.all.at);
}

/* The program ------------------------------------------------------------------ */

/* The lists arrive; a turn is taken only where a wait is full. */
static uint8_t arrive_all(struct sender senders[LEGGING_VENUES], bool hex)
{
    for (;;) {
        bool more = false;
        deliver_all(senders);
        for (unsigned venue = 0; venue < LEGGING_VENUES; venue++)
            more = more || has_more(&senders[venue]);
        if (!more)
            return LEGGING_DONE;
        uint32_t turned = take_turn(hex);
        if (LEGGING_TURN_VENUE(turned) == LEGGING_NONE)
            return LEGGING_TURN_NUMBER(turned);
    }
}

static struct options options_of(int count, char **words)
{
    struct options options = {NULL, NULL, {NULL, NULL, NULL, NULL}, 0, false, false};
    for (int i = 1; i < count; i++) {
        const char *word = words[i];
        bool reads = strcmp(word, "--read") == 0;
        if (strcmp(word, "--help") == 0) {
            fputs(USAGE, stdout);
            exit(0);
        } else if (strcmp(word, "--hex") == 0) {
            options.hex = true;
        } else if (strcmp(word, "--unchecked") == 0) {
            options.unchecked = true;
        } else if (reads || strcmp(word, "--write") == 0) {
            if (++i == count)
                wrong_usage("expected a file after", word);
            *(reads ? &options.from : &options.to) = words[i];
        } else if (strncmp(word, "--", 2) == 0) {
            wrong_usage("option not known", word);
        } else if (options.given == LEGGING_VENUES) {
            wrong_usage("one argument too many", word);
        } else {
            options.lists[options.given++] = word;
        }
    }
    if (options.from != NULL && is_input(options.from))
        wrong_usage("expected a file that is no standard input after", "--read");
    if (options.unchecked && options.from == NULL)
        wrong_usage("only with --read", "--unchecked");
    return options;
}

int main(int count, char **words)
{
    struct options options = options_of(count, words);
    struct sender senders[LEGGING_VENUES];
    read_lists(senders, options.lists, options.given);
    legging_layer_fresh(layer, sizeof layer);
    if (options.from != NULL)
        resume(options.from, options.unchecked);
    uint8_t number = options.to == NULL ? serve_all(senders, options.hex) : arrive_all(senders, options.hex);
    free_lists(senders);
    if (number != LEGGING_DONE)
        return ended(REFUSED);
    if (options.to != NULL)
        carry(options.to);
    return ended(0);
}
