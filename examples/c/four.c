/*
 * Four venues behind one line in C: each venue's messages arrive while its wait has
 * room, and turns are taken until all are done. Prints a line for each record, after
 * the number of its venue.
 *
 *     four [--hex] LIST LIST LIST LIST
 */
#include "legging.h"

#define PROGRAM "four"
#include "senders.h"

enum { ENDED_EARLY = 3 }; /* exit status: a turn was ended by 9 or 10 */

static const char USAGE[] =
    "usage: four [--hex] LIST LIST LIST LIST\n"
    "\n"
    "Each LIST is a file of messages, for the venues 0 to 3 in turn; one of them may be\n"
    "- for standard input. Messages arrive while their venue's wait has room, and then a\n"
    "turn is taken, until all are done. Prints a line for each record: its venue, a\n"
    "colon, its kind and its fields in table order. A message over 32 bytes cannot wait:\n"
    "it is told and passed over.\n"
    "\n"
    "  --hex   print each record's bytes in hexadecimal\n"
    "  --help  this text\n"
    "\n"
    "The exit status is 0 when all turns were done, 3 when one was ended by 9 or 10, 1\n"
    "when an input was not read, 2 for a wrong command line.\n";

int main(int count, char **words)
{
    const char *files[LEGGING_VENUES];
    unsigned given = 0;
    bool hex = false;
    for (int i = 1; i < count; i++) {
        const char *word = words[i];
        if (strcmp(word, "--help") == 0) {
            fputs(USAGE, stdout);
            return 0;
        } else if (strcmp(word, "--hex") == 0) {
            hex = true;
        } else if (strncmp(word, "--", 2) == 0) {
            wrong_usage("option not known", word);
        } else if (given == LEGGING_VENUES) {
            wrong_usage("one argument too many", word);
        } else {
            files[given++] = word;
        }
    }
    struct sender senders[LEGGING_VENUES];
    read_lists(senders, files, given);
    legging_layer_fresh(layer, sizeof layer);
    uint8_t number = serve_all(senders, hex);
    free_lists(senders);
    return ended(number == LEGGING_DONE ? 0 : ENDED_EARLY);
}
