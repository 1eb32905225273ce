/*
 * The displayed books after each message, in C: reads a file of messages, takes each upon
 * a venue held here, and prints what each book then shows.
 *
 *     books [MESSAGES]
 */
#include "legging.h"

#define PROGRAM "books"
#include "common.h"

static uint8_t venue[LEGGING_VENUE_BYTES];
static uint8_t report[LEGGING_MOST_BYTES];

static void print_shown(size_t place, uint32_t quantity, uint32_t price, const char *whose, uint32_t id)
{
    printf("  series %zu %s %" PRIu32 " at %" PRIu32 ", %s %" PRIu32 "\n", place / 2,
           place % 2 == 0 ? "buy" : "sell", quantity, price, whose, id);
}

/* One side of one book, 2 * series + side: what each regular order shows, and the legging
 * order at the price displayed, in whole increments: below its own to buy, above to sell. */
static void print_side(size_t place, uint32_t increment)
{
    for (size_t i = 0; i < LEGGING_REGULAR_PLACES; i++) {
        const uint8_t *order = venue + LEGGING_REGULAR_AT + i * LEGGING_REGULAR_BYTES;
        const uint8_t *shown = venue + LEGGING_SHOWN_AT + i * LEGGING_SHOWN_BYTES;
        if (number_at(order, 4) != 0 && 2u * order[4] + order[5] == place)
            print_shown(place, number_at(shown + 4, 4), number_at(order + 6, 4), "order", number_at(order, 4));
    }
    const uint8_t *order = venue + LEGGING_LEGGING_AT + place * LEGGING_LEGGING_BYTES;
    uint32_t price = number_at(order + 4, 4) + (place % 2 == 0 ? 0 : increment - 1);
    if (number_at(order, 4) != 0)
        print_shown(place, number_at(order + 8, 4), price / increment * increment, "legging order of",
                    number_at(order, 4));
}

int main(int count, char **words)
{
    if (count > 1 && strcmp(words[1], "--help") == 0)
        return puts("usage: books [MESSAGES]\n\nPrints what each book shows after each message of a file, or of\n"
                    "standard input: the message's number, and a line for each order shown.") < 0;
    if (count > 2)
        wrong_usage("one argument too many", words[2]);
    struct bytes messages = read_file(count > 1 ? words[1] : NULL);
    uint32_t done = legging_fresh(venue, sizeof venue); /* 0 */
    for (size_t at = 0; at < messages.length; at += length_at(messages, at)) {
        uint8_t settings[LEGGING_SETTINGS_BYTES];
        uint8_t number = legging_message(venue, sizeof venue, done, messages.at + at, length_at(messages, at),
                                         report, sizeof report);
        printf("message %" PRIu32 ": number %u\n", ++done, (unsigned)number);
        legging_settings(venue, sizeof venue, done, settings, sizeof settings);
        for (size_t place = 0; place < LEGGING_LEGGING_PLACES; place++)
            print_side(place, settings[place / 2]);
    }
    free(messages.at);
    return ended(0);
}
