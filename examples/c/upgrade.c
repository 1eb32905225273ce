/*
 * An upgrade in C: the messages of the morning are done one by one and the venue is
 * written as a set; the engine that comes after reads the set and goes on. Prints a line
 * for each record.
 *
 *     upgrade --write noon.set morning.bin
 *     upgrade --read noon.set afternoon.bin
 */
#define _POSIX_C_SOURCE 200809L
#include "legging.h"

#define PROGRAM "upgrade"
#include "checked_file.h"

static const char USAGE[] =
    "usage: upgrade [--hex] [--read SET [--unchecked]] [--write SET] [MESSAGES]\n"
    "\n"
    "Does the messages one by one, upon a fresh venue or, with --read, upon the venue that\n"
    "the file SET carries, and prints a line for each record: its kind, then its fields in\n"
    "table order. With --write the venue left and its message number are written to the\n"
    "file SET. Both may be given. MESSAGES is a file; left out or -, standard input is read.\n"
    "\n"
    "SET is written whole or not at all: to SET.new, which is synced and renamed. Its length\n"
    "and SHA-256 are written to SET.sha256. A SET that differs from them is refused, and so\n"
    "is one without them.\n"
    "\n"
    "  --unchecked  read SET without asking for SET.sha256\n"
    "  --hex        print each record's bytes in hexadecimal\n"
    "  --help       this text\n"
    "\n"
    "The exit status is 0 when all was done, 3 when a set was refused or a message was\n"
    "ended by 9 or 10, 1 when a file was not read or written, 2 for a wrong command line.\n";

struct options {
    const char *from;
    const char *to;
    const char *messages;
    bool unchecked;
    bool hex;
};

static uint8_t venue[LEGGING_VENUE_BYTES];
static uint8_t report[LEGGING_MOST_BYTES];
static uint8_t set[LEGGING_SET_BYTES];

/* Tells a number that is not 0 and ends the program. */
static void refuse(const char *what, uint8_t number)
{
    fflush(stdout);
    fprintf(stderr, PROGRAM ": %s: number %u\n", what, (unsigned)number);
    exit(REFUSED);
}

/* The venue of a set, and how many messages were done upon it. */
static uint32_t resume(const char *file, bool unchecked)
{
    struct bytes held = read_checked(file, unchecked);
    uint8_t number[LEGGING_NUMBER_BYTES];
    uint8_t answer = legging_read_set(held.at, held.length, venue, sizeof venue, number, sizeof number);
    free(held.at);
    if (answer != LEGGING_DONE)
        refuse("the set was not read", answer);
    return number_at(number, sizeof number);
}

/* Writes the set of the venue to a file, without the zeros after it. */
static void carry(const char *file, uint32_t done)
{
    uint8_t written[LEGGING_NUMBER_BYTES];
    uint8_t answer = legging_write_set(venue, sizeof venue, done, set, sizeof set, written, sizeof written);
    if (answer != LEGGING_DONE)
        refuse("the set was not written", answer);
    write_checked(file, bytes_at(set, number_at(written, sizeof written)));
}

/* Does the messages, `done` having gone before: how many have then. */
static uint32_t serve(struct bytes messages, uint32_t done, bool hex)
{
    for (size_t at = 0; at < messages.length; at += length_at(messages, at)) {
        uint8_t answer = legging_message(venue, sizeof venue, done, messages.at + at,
                                         length_at(messages, at), report, sizeof report);
        if (answer == LEGGING_UNSOUND || answer == LEGGING_NO_ROOM)
            refuse("the message was not done", answer);
        print_records(bytes_at(report, sizeof report), "", hex);
        done++;
    }
    return done;
}

static struct options options_of(int count, char **words)
{
    struct options options = {NULL, NULL, NULL, false, false};
    for (int i = 1; i < count; i++) {
        const char *word = words[i];
        bool reads = strcmp(word, "--read") == 0;
        if (strcmp(word, "--help") == 0) {
            fputs(USAGE, stdout);
            exit(0);
        } else if (strcmp(word, "--hex") == 0) {
            options.hex = true;
        } else if (strcmp(word, "--unchecked") == 0) {
            options.unchecked = true;
        } else if (reads || strcmp(word, "--write") == 0) {
            if (++i == count)
                wrong_usage("expected a file after", word);
            *(reads ? &options.from : &options.to) = words[i];
        } else if (strncmp(word, "--", 2) == 0) {
            wrong_usage("option not known", word);
        } else if (options.messages != NULL) {
            wrong_usage("one argument too many", word);
        } else {
            options.messages = word;
        }
    }
    if (options.from != NULL && is_input(options.from) && is_input(options.messages))
        wrong_usage("standard input can be one file only", "-");
    if (options.unchecked && options.from == NULL)
        wrong_usage("only with --read", "--unchecked");
    return options;
}

int main(int count, char **words)
{
    struct options options = options_of(count, words);
    uint32_t done = 0;
    if (options.from != NULL)
        done = resume(options.from, options.unchecked);
    else
        legging_fresh(venue, sizeof venue);
    struct bytes messages = read_file(options.messages);
    done = serve(messages, done, options.hex);
    free(messages.at);
    if (options.to != NULL)
        carry(options.to, done);
    return ended(0);
}
