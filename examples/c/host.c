/*
 * A host of the legging order engine in C: does a message list, by one run, message
 * by message or over two lines, and prints a line for each record and the number at
 * the end.
 *
 *     host [--each | --resting | --settings NUMBER | --spare FILE] [--hex] [--room BYTES]
 *          [FILE]
 */
#include "legging.h"

#define PROGRAM "host"
#include "common.h"

enum { ENDED_EARLY = 3 }; /* exit status: the list's end was not reached */

static const char USAGE[] =
    "usage: host [--each | --resting | --settings NUMBER | --spare FILE] [--hex]\n"
    "            [--room BYTES] [FILE]\n"
    "\n"
    "Does the message list in FILE, or on standard input where FILE is left out or -,\n"
    "from a fresh venue. Prints a line for each record, its kind and its fields in\n"
    "table order, and last the number that ended it.\n"
    "\n"
    "  --each        message by message, upon a venue held here; otherwise by one run\n"
    "  --resting     message by message, and then the orders that rest: of each regular one\n"
    "                what is left and what of that is shown, of each complex one its legs\n"
    "                with their ratios and the units open; of each series the messages that\n"
    "                generated its last 20 legging orders, and the last id that a limited\n"
    "                sweep looked at\n"
    "  --settings NUMBER\n"
    "                message by message, and then the increments of the eight series and\n"
    "                the percentage that held at this message\n"
    "  --spare FILE  the list comes over two lines, each message after its number: this\n"
    "                is the spare one, and the FILE at the end the main one\n"
    "  --hex         print each record's bytes in hexadecimal\n"
    "  --room BYTES  report memory of this length; otherwise it is always enough\n"
    "  --help        this text\n"
    "\n"
    "The exit status is 0 when the whole list was done, 3 when it ended early\n"
    "(number 1, 10 or 19 to 21), 1 when the input was not read or memory not had, 2 for\n"
    "a wrong command line.\n";

struct options {
    const char *file;
    const char *spare;
    bool each;
    bool hex;
    bool has_room;
    size_t room;
    bool tells;
    uint32_t told_at;
    bool lists;
};

/* Command line ----------------------------------------------------------------- */

static unsigned long long number_of(const char *word, unsigned long long most, const char *what)
{
    char *end = NULL;
    errno = 0;
    unsigned long long value = strtoull(word, &end, 10);
    if (word[0] < '0' || word[0] > '9' || *end != '\0' || errno != 0 || value > most)
        wrong_usage(what, word);
    return value;
}

static size_t room_of(const char *word)
{
    return (size_t)number_of(word, PTRDIFF_MAX, "expected a number of bytes after --room, found");
}

static uint32_t message_number_of(const char *word)
{
    return (uint32_t)number_of(word, UINT32_MAX, "expected a message number after --settings, found");
}

static struct options options_of(int count, char **words)
{
    struct options options = {NULL, NULL, false, false, false, 0, false, 0, false};
    for (int i = 1; i < count; i++) {
        const char *word = words[i];
        if (strcmp(word, "--help") == 0) {
            fputs(USAGE, stdout);
            exit(0);
        } else if (strcmp(word, "--each") == 0) {
            options.each = true;
        } else if (strcmp(word, "--spare") == 0) {
            if (++i == count)
                wrong_usage("expected a file after", word);
            options.spare = words[i];
        } else if (strcmp(word, "--hex") == 0) {
            options.hex = true;
        } else if (strcmp(word, "--room") == 0) {
            if (++i == count)
                wrong_usage("expected a number of bytes after", word);
            options.has_room = true;
            options.room = room_of(words[i]);
        } else if (strcmp(word, "--resting") == 0) {
            options.each = true;
            options.lists = true;
        } else if (strcmp(word, "--settings") == 0) {
            if (++i == count)
                wrong_usage("expected a message number after", word);
            options.each = true;
            options.tells = true;
            options.told_at = message_number_of(words[i]);
        } else if (strncmp(word, "--", 2) == 0) {
            wrong_usage("option not known", word);
        } else if (options.file != NULL) {
            wrong_usage("one argument too many", word);
        } else {
            options.file = word;
        }
    }
    if (options.spare != NULL && options.each)
        wrong_usage("not with --each, --resting or --settings", "--spare");
    if (options.spare != NULL && is_input(options.spare) && is_input(options.file))
        wrong_usage("standard input cannot be both lines", "--spare -");
    return options;
}

/* The calls -------------------------------------------------------------------- */

/* By one call: the run of the messages, or with a spare line the feed of both. It
 * starts from a fresh venue, so where the memory was too short it is made again with
 * more. */
static uint8_t run(struct options options, struct bytes messages, struct bytes spare)
{
    struct bytes report = {NULL, options.has_room ? options.room : 65536};
    uint8_t number = LEGGING_DONE;
    for (;;) {
        report.at = resized(report.at, report.length);
        if (options.spare != NULL)
            number = legging_feed(messages.at, messages.length, spare.at, spare.length,
                                  report.at, report.length);
        else
            number = legging_run(messages.at, messages.length, report.at, report.length);
        bool is_short = number == LEGGING_NO_ROOM && report.length <= PTRDIFF_MAX / 2;
        if (options.has_room || !is_short)
            break;
        report.length *= 2;
    }
    print_records(report, "", options.hex);
    free(report.at);
    return number;
}

/* What held at a message: the increments of the eight series, then the percentage. */
static void print_settings(const uint8_t *venue, uint32_t number)
{
    uint8_t settings[LEGGING_SETTINGS_BYTES];
    if (legging_settings(venue, LEGGING_VENUE_BYTES, number, settings, sizeof settings) != LEGGING_DONE) {
        puts("the settings of an unsound venue are not told");
        return;
    }
    printf("settings at message %" PRIu32 ": increments", number);
    for (size_t series = 0; series < LEGGING_SERIES_PLACES; series++)
        printf(" %u", (unsigned)settings[series]);
    printf(", percent %u\n", (unsigned)settings[8]);
}

/* The regular orders that rest: what is left of each, and what of that is shown. */
static void print_resting(const uint8_t *venue)
{
    for (size_t place = 0; place < LEGGING_REGULAR_PLACES; place++) {
        const uint8_t *order = venue + LEGGING_REGULAR_AT + place * LEGGING_REGULAR_BYTES;
        const uint8_t *shown = venue + LEGGING_SHOWN_AT + place * LEGGING_SHOWN_BYTES;
        uint32_t quantity = number_at(order + 10, 4);
        if (quantity == 0)
            return;
        printf("order %" PRIu32 ": %s %" PRIu32 " series %u at %" PRIu32 ", shows %" PRIu32 "\n",
               number_at(order, 4), order[5] == 0 ? "buy" : "sell", quantity, (unsigned)order[4],
               number_at(order + 6, 4), number_at(shown + 4, 4));
    }
}

/* A leg of a complex order: its side, its ratio and its series. */
static void print_leg(const uint8_t *leg, uint8_t ratio)
{
    printf(" %s %u series %u,", leg[1] == 0 ? "buy" : "sell", (unsigned)ratio, (unsigned)leg[0]);
}

/* The complex orders that rest: the legs of a unit, its highest net, and the units open. */
static void print_resting_complex(const uint8_t *venue)
{
    for (size_t place = 0; place < LEGGING_COMPLEX_PLACES; place++) {
        const uint8_t *order = venue + LEGGING_COMPLEX_AT + place * LEGGING_COMPLEX_BYTES;
        const uint8_t *ratios = venue + LEGGING_RATIOS_AT + place * LEGGING_RATIOS_BYTES;
        uint32_t quantity = number_at(order + 13, 4);
        if (quantity == 0)
            return;
        printf("complex %" PRIu32 ":", number_at(order, 4));
        print_leg(order + 4, ratios[0]);
        print_leg(order + 6, ratios[1]);
        printf(" net %" PRId32 ", %" PRIu32 " units\n", (int32_t)number_at(order + 9, 4), quantity);
    }
}

/* The messages that generated last in each series, and how far limited sweeps went. */
static void print_traffic(const uint8_t *venue)
{
    for (size_t series = 0; series < LEGGING_GENERATIONS_PLACES; series++) {
        const uint8_t *row = venue + LEGGING_GENERATIONS_AT + series * LEGGING_GENERATIONS_BYTES;
        if (number_at(row + LEGGING_GENERATIONS_BYTES - 4, 4) == 0)
            continue;
        printf("series %zu: generated by messages", series);
        for (size_t kept = 0; kept < LEGGING_GENERATIONS_KEPT; kept++) {
            uint32_t number = number_at(row + kept * 4, 4);
            if (number != 0)
                printf(" %" PRIu32, number);
        }
        putchar('\n');
    }
    uint32_t reached = number_at(venue + LEGGING_REACHED_AT, 4);
    if (reached != 0)
        printf("limited sweeps went up to id %" PRIu32 "\n", reached);
}

/* The same list by one-message calls: the venue is held here, and each message is
 * told how many went before it. */
static uint8_t run_each(struct options options, struct bytes messages)
{
    uint8_t venue[LEGGING_VENUE_BYTES];
    uint8_t number = legging_fresh(venue, sizeof venue);
    struct bytes report = {NULL, options.has_room ? options.room : LEGGING_MOST_BYTES};
    uint32_t before = 0;
    size_t at = 0;
    report.at = resized(report.at, report.length);
    while (at < messages.length) {
        const uint8_t *message = messages.at + at;
        number = legging_message(venue, sizeof venue, before, message, messages.length - at,
                                 report.at, report.length);
        print_records(report, "", options.hex);
        if (number == LEGGING_TORN || number == LEGGING_UNSOUND || number == LEGGING_NO_ROOM)
            break;
        number = LEGGING_DONE; /* a message refused with 2 to 8 or 11 to 14 is passed over */
        before += 1;
        at += number_at(message, 2);
    }
    if (options.lists) {
        print_resting(venue);
        print_resting_complex(venue);
        print_traffic(venue);
    }
    if (options.tells)
        print_settings(venue, options.told_at);
    free(report.at);
    return number;
}

static const char *meaning(uint8_t number)
{
    switch (number) {
    case LEGGING_DONE:
        return "the whole list was done";
    case LEGGING_TORN:
        return "a torn message ended the list";
    case LEGGING_UNSOUND:
        return "the venue is unsound";
    case LEGGING_NO_ROOM:
        return "the report memory is full, or the message numbers are used up";
    case LEGGING_DIFFERS:
        return "the lines differ in the next message";
    case LEGGING_LOST:
        return "the next message is lost from both lines";
    case LEGGING_BAD_LINE:
        return "a line is torn, does not rise, or has a length below 4 or number 0";
    default:
        return "not a number that ends a list";
    }
}

int main(int count, char **words)
{
    struct options options = options_of(count, words);
    struct bytes messages = read_file(options.file);
    struct bytes spare = {NULL, 0};
    if (options.spare != NULL)
        spare = read_file(options.spare);
    uint8_t number = options.each ? run_each(options, messages) : run(options, messages, spare);
    printf("number %u: %s\n", (unsigned)number, meaning(number));
    free(messages.at);
    free(spare.at);
    return ended(number == LEGGING_DONE ? 0 : ENDED_EARLY);
}
