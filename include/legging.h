/*
 * The legging order engine, for hosts in C and C++.
 *
 * `bin/install PREFIX` installs this header and two archives: liblegging.a, and for the
 * calls of four venues behind one line liblegging_layer.a. A host links them so:
 *
 *     cc host.c $(pkg-config --cflags --libs legging)
 *     cc four.c $(pkg-config --cflags --libs legging_layer)
 *
 * Without an installation a host links target/staticlib/libc_api.a, and for four venues
 * target/staticlib/libdispatch.a: copies of out/libc_api_c.a and out/libdispatch_c.a, which
 * `rt lib` writes in the folders crates/c_api_c and crates/dispatch_c. Both archives are
 * for x86-64 Linux, and may be linked together. They call memcpy, memmove and memset of
 * the C library and nothing else.
 *
 * MEMORY
 *   All memory is the host's. A call keeps no pointer after it returns, allocates
 *   nothing, reads and writes no file, and needs less than 32 KiB of stack;
 *   legging_read_set and a call upon four venues need less than 48 KiB.
 *   - `messages` (or `message`) and the lines `main` and `spare` are only read. Bytes
 *     past their lengths are not.
 *   - `venue` is read and written by legging_message: unless the message was accepted,
 *     it holds after the call what it held before. legging_settings and
 *     legging_write_set only read it. legging_fresh and legging_read_set only write it,
 *     and what it held before is lost: a legging_read_set that refuses its set writes a
 *     fresh venue. Both leave it as it was where `venue_length` is wrong.
 *   - `layer` is read and written; legging_layer_fresh only writes it.
 *   - `report` is written from its first byte to its last, whatever the call
 *     ends with: the records done, then zeros. What it held before is not read.
 *   - `settings`, the set that legging_write_set writes, `written` and `number` are
 *     written so too: what is told, then zeros. The set that legging_read_set reads is
 *     only read.
 *   - A pointer with the length 0 may be NULL; otherwise it points to as many
 *     bytes as its length says, no more than PTRDIFF_MAX of them, at any alignment.
 *   - Memory that a call writes overlaps no other memory of the same call, and
 *     no other thread reads or writes it meanwhile.
 *   - Memory that a call only reads is not written meanwhile, by another thread or
 *     another program that shares it: a call reads some bytes twice, so one that
 *     changed between would be tested as one value and used as another.
 *   - The archive itself is code and at most 128 bytes of read-only constants:
 *     no table, and no data that is written.
 *
 * THREADS
 *   There is no state outside the memory lent: no global or static variable. Any
 *   number of calls may run at once, each upon memory of its own; they may share
 *   messages and lines, and any other memory that they all only read.
 *
 * PROVED AND TESTED
 *   Proved, whatever the bytes lent are, for every call: the number returned and every
 *   byte written are those of the definitions of the rules, which this header tells in
 *   words. Proved besides: a venue or a layer that a call wrote is sound, equal states of
 *   a venue are equal bytes, the fixed memories below (LEGGING_MOST_BYTES,
 *   LEGGING_SET_BYTES) are enough, and a set that was written reads back. The proofs speak
 *   of the calls as they are written, not of the machine code that a compiler makes of them.
 *   Tested only, on the archives as built: the stack that a call needs, the read-only
 *   constants of an archive and the functions that it calls, NULL with the length 0,
 *   memory at any alignment, and calls on several threads at once.
 *   Neither: memory that overlaps or that another thread writes, and a pointer to fewer
 *   bytes than its length says. A host has to see to these.
 *
 * BYTES
 *   Numbers are little-endian, without padding. A message or record is its length
 *   (u16, of the whole), its kind (u16), and its fields:
 *
 *     messages   1 order      id u32, series u8, side u8, price u32, quantity u32           18 bytes
 *                2 complex    id u32, series u8, side u8, series u8, side u8, class u8,
 *                             limit i32, quantity u32                                       21
 *                3 cancel     id u32                                                         8
 *                4 away       series u8, bid u32, offer u32                                 13
 *                5 status     series u8, status u8                                           6
 *                6 sweep                                                                     4
 *                7 increment  series u8, increment u8 (1, 5 or 10), edition u32             10
 *                8 percent    percent u8 (0 to 50), edition u32                              9
 *                9 reserve    as 1, and after it shown quantity u32 (1 to the quantity)     22
 *               10 ratio      as 2, and after it two ratios u8 (1 to 3, not the same), of
 *                             the first leg and of the second                               23
 *               11 limited    the most orders to look at u8 (1 to 32)                        5
 *     records   64 answer     message number u32, refusal u8, place mask u16, count u8      12
 *               65 trade      series u8, taker's side u8, price u32, quantity u32,
 *                             taker id u32, maker id u32                                    22
 *               66 pair       complex id u32, net i32, quantity u32                         16
 *               67 generated  complex id u32, series u8, side u8, price u32,
 *                             displayed u32, quantity u32                                   22
 *               68 removed    complex id u32, series u8, side u8, cause u8                  11
 *               70 cross      taker id u32, maker id u32, taker's net i32, quantity u32     20
 *               71 cancelled  id u32, quantity u32                                          12
 *               72 looked     count u8                                                       5
 *     of a set  80 first      message number u32, last id u32                               12
 *               81 first      of a short set, the same                                      12
 *                7, 8         as the message, and after it message number u32           14, 13
 *               82 legging    parent's id u32, series u8, side u8, price u32, quantity u32  18
 *               83 generated  series u8, message number u32                                  9
 *               84 reached    id u32                                                         8
 *
 *   The records end at the first zero length, or at the end of the report memory.
 *   Each message done has one answer, and after it what it did.
 *   Legging orders that go together are told by rising place, 2 * series + side.
 *   So the messages and the length of the report memory fix every byte of it.
 *
 *   A line of a feed is messages, each after its number (u32, not counted in the
 *   message's length). Numbers count from 1 and rise; a line may lack some.
 *
 * SETTINGS
 *   The increment of each series and the percentage of the band are edition 0 at
 *   first: 5 in series 0 to 5, 10 in 6 and 7, and 5 percent. Kinds 7 and 8 set them
 *   from their own message on; an increment only while its series is closed and has
 *   no resting order or leg. Editions rise over both kinds. The venue keeps up to 32,
 *   each with the number of its message, so it tells what held at any message.
 *
 * RESERVE
 *   An order of kind 9 shows a part of it; one of kind 1 shows all. Best prices, sizes,
 *   clear prices and the quantities of legging orders count what is shown, and complex
 *   orders take no other. An order that arrives meets, at each price from the best on,
 *   first all that is shown, by id, then, in trades of its own, all reserve by id, then
 *   the legging order; it takes with all of its quantity. Once a message's trades are
 *   done, before legging orders are tested, each order shows again the lesser of its
 *   shown quantity and what is left of it, and it keeps its turn. Record 71 tells all
 *   that is left, shown or not.
 *
 * RATIOS
 *   An order of kind 2 is of one contract of each leg; one of kind 10 of as many as the
 *   leg's ratio. That is a unit: its limit, from -600,000 to 600,000, is the highest net
 *   of a unit, every net weighs each leg by its ratio, and all its quantities but those of
 *   record 65 are units. It crosses only with an order of the same ratio in each series
 *   and the other side, and legs in by whole units of what is shown at both best prices;
 *   where these cannot fill one, it trades no more. It has no legging orders. It shares
 *   the 32 places. So the contracts of each leg are ratio times the units of record 66.
 *
 *   Causes of record 68: 1 its displayed price is worse than the best regular one, 2 the
 *   other leg cannot be had, 3 its parent crossed or paired, 4 was cancelled, 5 is out of
 *   band, 6 a series is not open, 7 another took its place, 8 a complex order reached it,
 *   10 one of kind 10 did where the sizes that it reached cannot fill a unit.
 *
 * CEILING
 *   Of each series at most 20 legging orders are generated in any 256 consecutive
 *   messages, refused ones counted. One that takes another's place counts; at the ceiling
 *   the other stays. The venue keeps the message numbers of each series' last 20.
 *
 * LIMITED SWEEPS
 *   Kind 11 is a sweep of so many resting complex orders: of those after the last id that
 *   a kind 11 looked at, round by id. It generates for these, in the same order. Record
 *   72, right after its 64, tells how many: the lesser of the number asked for and of the
 *   orders resting when it starts. One that is gone by its turn was looked at too.
 *
 * SETS
 *   A set carries a venue and its message number over an upgrade: legging_write_set of
 *   the old engine writes it, legging_read_set of the new one reads it, and the calls
 *   that follow write the records that they would have written without. Its records:
 *     - 80, with the number of the last message done and the last id accepted;
 *     - of each series in turn 5 and 4, status and away prices;
 *     - the editions by rising edition, as 7 or 8;
 *     - the resting orders of both books by rising id, as 9, 2 or 10, with what is left of
 *       them, and in 9 what shows of it;
 *     - the legging orders by rising place, as 82;
 *     - of each series in turn its last 20 generations, oldest first, as 83;
 *     - the last id that a kind 11 looked at, if there is one, as 84.
 *   Zeros follow it. For the reader a zero length, one last zero byte or the end of the
 *   memory ends it. It also reads a short set: begun by 81, with 1 for 9, and without 7, 8,
 *   83 and 84. That means edition 0, all size shown, none generated and no id looked at.
 *
 * NUMBERS
 *   Each call returns one of these, and fails in no other way.
 */
#ifndef LEGGING_H
#define LEGGING_H

#include <stddef.h>
#include <stdint.h>

/* The version of this header and of the archives: the one that the file VERSION tells. */
#define LEGGING_VERSION_MAJOR 0
#define LEGGING_VERSION_MINOR 1
#define LEGGING_VERSION_PATCH 0
#define LEGGING_VERSION       "0.1.0"

#define LEGGING_DONE          0u /* accepted; of a run: the whole list was done */
#define LEGGING_TORN          1u /* 1 to 3 bytes left (of one message: 0 to 3), or a length below 4 or above what is left */
#define LEGGING_UNKNOWN_KIND  2u /* kind not 1 to 11 */
#define LEGGING_WRONG_LENGTH  3u /* length not its kind's */
#define LEGGING_OUT_OF_RANGE  4u /* a field outside its range, a shown quantity above the quantity, both legs in one series, or a price off the increment in force */
#define LEGGING_ID_NOT_ABOVE  5u /* id not above the last accepted */
#define LEGGING_CLOSED        6u /* a series of the order is closed */
#define LEGGING_BOOK_FULL     7u /* 128 regular or 32 complex orders rest already */
#define LEGGING_NO_SUCH_ORDER 8u /* no resting order has the id */
#define LEGGING_UNSOUND       9u /* the venue or the layer given or the venue of a set is not sound, or the message's number is not above that of every edition and generation kept */
#define LEGGING_NO_ROOM      10u /* the next message's records do not fit, or its number would pass 4,294,967,295 */
#define LEGGING_EDITION_NOT_ABOVE 11u /* the edition is not above the last, of either kind */
#define LEGGING_SERIES_IN_USE     12u /* an increment of a series that is not closed, or has a resting order or leg */
#define LEGGING_EDITIONS_FULL     13u /* 32 editions are held already */
#define LEGGING_EQUAL_RATIOS      14u /* the two ratios are equal */
#define LEGGING_SHORT_MEMORY 15u /* the memory lent for a set is shorter than it */
#define LEGGING_BAD_SET      16u /* a record of a set is torn, missing, out of order, one too many, or of a kind or length that the set has not */
#define LEGGING_NO_PLACE     17u /* the venue's wait holds 8 messages, or the message is over 32 bytes */
#define LEGGING_NO_VENUE     18u /* venue number above 3 */
#define LEGGING_DIFFERS      19u /* both lines have the next number, but their bytes differ */
#define LEGGING_LOST         20u /* neither line has the next number, though a later one stands on either */
#define LEGGING_BAD_LINE     21u /* a line is torn, does not rise, or has a length below 4 or number 0 */

#define LEGGING_VENUE_BYTES 4656u /* a venue held by a host */
#define LEGGING_MOST_BYTES 10433u /* no message upon a sound venue writes more */
#define LEGGING_SETTINGS_BYTES 9u /* eight increments and the percentage */
#define LEGGING_SET_BYTES   5900u /* no set has more */
#define LEGGING_NUMBER_BYTES   4u /* a u32 that a call upon a set tells */

/*
 * The tables of a venue: ..._AT is where in a venue's bytes a table begins, ..._PLACES how
 * many rows it has, ..._BYTES the length of a row. legging_message below tells the fields
 * of a row, in their order. So the regular order at place 3 begins at
 * LEGGING_REGULAR_AT + 3 * LEGGING_REGULAR_BYTES, and what it shows stands in row 3 of
 * LEGGING_SHOWN_AT.
 */
#define LEGGING_REGULAR_AT            0u /* regular orders */
#define LEGGING_REGULAR_PLACES      128u
#define LEGGING_REGULAR_BYTES        14u
#define LEGGING_COMPLEX_AT         1792u /* complex orders */
#define LEGGING_COMPLEX_PLACES       32u
#define LEGGING_COMPLEX_BYTES        17u
#define LEGGING_LEGGING_AT         2336u /* legging orders, at place 2 * series + side */
#define LEGGING_LEGGING_PLACES       16u
#define LEGGING_LEGGING_BYTES        12u
#define LEGGING_SERIES_AT          2528u /* status and away prices of each series */
#define LEGGING_SERIES_PLACES         8u
#define LEGGING_SERIES_BYTES          9u
#define LEGGING_LAST_ID_AT         2600u /* the last id accepted u32 */
#define LEGGING_EDITIONS_AT        2604u /* editions of the settings */
#define LEGGING_EDITIONS_PLACES      32u
#define LEGGING_EDITIONS_BYTES       10u
#define LEGGING_SHOWN_AT           2924u /* reserve and display of each regular order */
#define LEGGING_SHOWN_PLACES        128u
#define LEGGING_SHOWN_BYTES           8u
#define LEGGING_RATIOS_AT          3948u /* ratios of each complex order */
#define LEGGING_RATIOS_PLACES        32u
#define LEGGING_RATIOS_BYTES          2u
#define LEGGING_GENERATIONS_AT     4012u /* message numbers u32 of each series' last generations */
#define LEGGING_GENERATIONS_PLACES    8u
#define LEGGING_GENERATIONS_BYTES    80u
#define LEGGING_GENERATIONS_KEPT     20u /* numbers in such a row */
#define LEGGING_REACHED_AT         4652u /* the last id that a kind 11 looked at u32 */

#define LEGGING_VENUES       4u /* behind one line */
#define LEGGING_MOST_WAITING 8u /* messages that wait for a venue */
#define LEGGING_MOST_MESSAGE 32u /* bytes of a message that waits */

/* The parts of a lane, and of a layer, which is its lanes and one byte. */
#define LEGGING_LANE_DONE_AT    LEGGING_VENUE_BYTES         /* messages done u32; the venue stands before it */
#define LEGGING_LANE_WAITING_AT (LEGGING_LANE_DONE_AT + 4u) /* messages waiting u8 */
#define LEGGING_LANE_PLACES_AT  (LEGGING_LANE_WAITING_AT + 1u) /* the places of the wait */
#define LEGGING_PLACE_BYTES     (1u + LEGGING_MOST_MESSAGE) /* a place: length u8, then the message */
#define LEGGING_LANE_BYTES      (LEGGING_LANE_PLACES_AT + LEGGING_MOST_WAITING * LEGGING_PLACE_BYTES)
#define LEGGING_SERVED_AT       (LEGGING_VENUES * LEGGING_LANE_BYTES) /* the venue served last u8 */
#define LEGGING_LAYER_BYTES     (LEGGING_SERVED_AT + 1u) /* four venues held by a host */

#ifdef __cplusplus
extern "C" {
#endif

/*
 * Runs a message list from a fresh venue: no orders, all series open, no away
 * prices.
 *
 * Messages are taken one by one. One that is refused with 2 to 8 or 11 to 14 is
 * answered and passed over. Returns
 *   LEGGING_DONE     all messages were done, the refused ones included;
 *   LEGGING_TORN     1 to 3 bytes were left, or a length below 4 or above what was
 *                    left: all messages before were done, this one was answered,
 *                    and nothing after it was read;
 *   LEGGING_NO_ROOM  the run ended before the first message whose records do not
 *                    fit into the rest of `report`, or whose number would pass
 *                    4,294,967,295; nothing of that message was written. Where it was
 *                    the memory, run the whole list again with more.
 */
uint8_t legging_run(const uint8_t *messages, size_t messages_length,
                    uint8_t *report, size_t report_length);

/*
 * Runs the messages that come over a main and a spare line, from a fresh venue.
 *
 * Both lines carry one list. The message of each number from 1 on is taken from `main`,
 * or from `spare` where `main` lacks it, and done as in legging_run; it is not copied.
 * So lines of one list that do not both lack a message give what legging_run gives of
 * that list. Returns
 *   LEGGING_DONE      neither line has more: all messages were done, the refused ones
 *                     included;
 *   LEGGING_NO_ROOM   as in legging_run;
 *   LEGGING_DIFFERS   both lines have the next number, but not the same bytes;
 *   LEGGING_LOST      neither line has the next number, though a later one stands on
 *                     either. With both of these all messages before were done, and
 *                     nothing after;
 *   LEGGING_BAD_LINE  a line ends within a number or a message, has a number that is 0
 *                     or not above the one before it, or a length below 4, zeros at its
 *                     end too. Both lines are looked at whole before a message is
 *                     taken: nothing was done, `report` is all zeros.
 * LEGGING_DIFFERS and LEGGING_LOST come before LEGGING_NO_ROOM of the same message.
 * LEGGING_TORN is not returned, since every message taken is whole.
 */
uint8_t legging_feed(const uint8_t *main, size_t main_length,
                     const uint8_t *spare, size_t spare_length,
                     uint8_t *report, size_t report_length);

/*
 * Writes a fresh venue, a host's first: no orders, all series open, no away prices.
 *
 * `venue` is LEGGING_VENUE_BYTES bytes; what it held before is not read. Returns
 *   LEGGING_DONE     `venue` is the fresh venue;
 *   LEGGING_UNSOUND  `venue_length` is not LEGGING_VENUE_BYTES: `venue` as it was.
 *
 * Bytes that are all zero are a sound venue too, but with all series closed: upon
 * it orders are refused with LEGGING_CLOSED until messages open their series. A
 * host that began with zeros either calls this, or opens the series as before.
 */
uint8_t legging_fresh(uint8_t *venue, size_t venue_length);

/*
 * Takes one message upon a venue that the host holds; `before` messages went
 * before it, and its own number is one more.
 *
 * `venue` is LEGGING_VENUE_BYTES bytes: first those that legging_fresh writes, then
 * hand over what the last call left there. They are, without padding:
 *
 *     128 regular orders   id u32, series u8, side u8, price u32, quantity u32
 *      32 complex orders   id u32, series u8, side u8, series u8, side u8, class u8,
 *                          limit i32, quantity u32
 *      16 legging orders   parent's id u32, price u32, quantity u32; at 2 * series + side
 *       8 series           status u8, away bid u32, away offer u32
 *         last id u32
 *      32 editions         edition u32, message number u32, figure u8, value u8; figure 0 to 7
 *                          is the increment of that series, 8 the percentage
 *     128 regular orders   once more, in the same places: reserve u32, display u32. The
 *                          quantity is what is left, the reserve the part of it that is not
 *                          shown, the display the part that is: the shown quantity, or what
 *                          is left where that is less. Of kind 1 the reserve is 0 and the
 *                          display the quantity
 *      32 complex orders   once more, in the same places: two ratios u8, of kind 2 both 1
 *       8 series           once more: the message numbers u32 of the last 20 legging orders
 *                          generated in it, oldest first, with zeros before the first
 *         last id looked at by a kind 11 u32
 *
 * Held places come first, in rising id or edition; free places are zero. Equal states
 * are equal bytes, which is proved, sound or not: no byte of a venue is left unread. So a
 * venue may be copied, kept and compared as bytes.
 *
 * Only the first message of `message` is read. Returns
 *   LEGGING_DONE     accepted: `venue` is the venue that follows, `report` the
 *                    message's answer and records;
 *   1 to 8, 11 to 14 refused: `venue` as it was, `report` the answer;
 *   LEGGING_UNSOUND  `venue_length` is not LEGGING_VENUE_BYTES, the bytes are no sound
 *                    venue, or the message's number is not above that of every
 *                    edition and generation kept: `venue` as it was, `report` all
 *                    zeros. A venue that a call wrote is always sound;
 *   LEGGING_NO_ROOM  the records do not fit, or `before` is 4,294,967,295: `venue` as
 *                    it was, `report` all zeros. LEGGING_MOST_BYTES are always enough.
 */
uint8_t legging_message(uint8_t *venue, size_t venue_length, uint32_t before,
                        const uint8_t *message, size_t message_length,
                        uint8_t *report, size_t report_length);

/*
 * Tells the settings of a venue that held at message `number`, any number, 0 too: of
 * each the last that a message numbered no higher has entered.
 *
 * Returns
 *   LEGGING_DONE     `settings` is the increments of series 0 to 7, the percentage,
 *                    and zeros after these LEGGING_SETTINGS_BYTES bytes;
 *   LEGGING_UNSOUND  `venue_length` is not LEGGING_VENUE_BYTES, the bytes are no sound
 *                    venue, or `settings_length` is below LEGGING_SETTINGS_BYTES:
 *                    `settings` all zeros.
 */
uint8_t legging_settings(const uint8_t *venue, size_t venue_length, uint32_t number,
                         uint8_t *settings, size_t settings_length);

/*
 * Writes the set of a venue; `number` messages were done upon it, so the last one's number
 * is that. 9 comes before 15.
 *
 * `written` is LEGGING_NUMBER_BYTES bytes. Returns
 *   LEGGING_DONE          `set` is the set, and zeros after it; `written` is its length,
 *                         little-endian;
 *   LEGGING_UNSOUND       `venue_length` is not LEGGING_VENUE_BYTES or `written_length` not
 *                         LEGGING_NUMBER_BYTES, the bytes are no sound venue, or the number
 *                         of an edition's or a generation's message is above `number`;
 *   LEGGING_SHORT_MEMORY  `set_length` is less than the set's length. LEGGING_SET_BYTES are
 *                         always enough.
 * Unless LEGGING_DONE is returned, `set` and `written` are all zeros.
 */
uint8_t legging_write_set(const uint8_t *venue, size_t venue_length, uint32_t number,
                          uint8_t *set, size_t set_length,
                          uint8_t *written, size_t written_length);

/*
 * Reads a set, whole or short. The next message upon its venue is one of legging_message
 * with the number told as `before`. 16 comes before 9, but for the lengths of `venue` and
 * `number`, which are looked at first.
 *
 * `number` is LEGGING_NUMBER_BYTES bytes. Returns
 *   LEGGING_DONE      `venue` is the venue of the set, `number` that of its last message,
 *                     little-endian;
 *   LEGGING_UNSOUND   `venue_length` is not LEGGING_VENUE_BYTES (then `venue` is as it was),
 *                     `number_length` is not LEGGING_NUMBER_BYTES, the venue of the set is
 *                     not sound, or a message number in it is above its own;
 *   LEGGING_BAD_SET   a record is torn, missing, out of order, one too many, or of a kind or
 *                     length that the set has not.
 * Unless LEGGING_DONE is returned, `number` is all zeros and, but for a wrong `venue_length`,
 * `venue` is the fresh venue: what it held before is lost, also where `number_length` alone
 * is wrong. So read a set into memory that holds no venue that is still needed.
 */
uint8_t legging_read_set(const uint8_t *set, size_t set_length,
                         uint8_t *venue, size_t venue_length,
                         uint8_t *number, size_t number_length);

/*
 * FOUR VENUES BEHIND ONE LINE
 *
 * A layer is four venues, each with up to 8 waiting messages of at most 32 bytes:
 * legging_arrive puts a message at the end of a venue's wait, and legging_turn does the
 * message at the head of one. Turns go round, from the venue after the one served last
 * to the next that has a message waiting. So while no turn is ended by LEGGING_UNSOUND
 * or LEGGING_NO_ROOM, the message at the head of each wait is done by the fourth turn,
 * whatever arrives; a venue's messages keep their order; and a venue's records are those
 * of legging_message upon it alone.
 *
 * `layer` is LEGGING_LAYER_BYTES bytes: first those that legging_layer_fresh writes, then
 * hand over what the last call left. They are, without padding, four lanes of
 * LEGGING_LANE_BYTES and the number of the venue served last u8; and of each lane
 *
 *       the venue, as legging_message has it
 *       messages done u32
 *       messages waiting u8
 *     8 places             length u8, 32 bytes; those in use come first, the head in front
 *
 * A place that is free, and what stands in a place after its message, is not read. A call
 * tests all four venues; a layer that a call wrote is always sound.
 */

/*
 * Writes a layer of four fresh venues with nothing waiting; the first turn looks at venue
 * 0 first. What `layer` held before is not read. Returns
 *   LEGGING_DONE     `layer` is the fresh layer;
 *   LEGGING_UNSOUND  `layer_length` is not LEGGING_LAYER_BYTES: `layer` as it was.
 */
uint8_t legging_layer_fresh(uint8_t *layer, size_t layer_length);

/*
 * Puts a message at the end of a venue's wait. Any bytes may wait, none too: what they
 * are is told at their turn. Returns
 *   LEGGING_DONE      the message waits;
 *   LEGGING_UNSOUND   `layer_length` is not LEGGING_LAYER_BYTES, or the layer is not sound: a
 *                     venue is not, the number of its next message is not above that of
 *                     every edition and generation it keeps, more than 8 messages wait, one
 *                     that waits is over 32 bytes, or the venue served last is above 3;
 *   LEGGING_NO_VENUE  `venue` is above 3;
 *   LEGGING_NO_PLACE  8 messages wait for it already, or `message_length` is above 32.
 * Unless LEGGING_DONE is returned, `layer` is as it was.
 */
uint8_t legging_arrive(uint8_t *layer, size_t layer_length, uint32_t venue,
                       const uint8_t *message, size_t message_length);

/*
 * Does the message at the head of the next venue's wait, as legging_message would with
 * the venue's own messages gone before. Returns the number, and 256 times the venue
 * served: LEGGING_TURN_NUMBER and LEGGING_TURN_VENUE take them apart.
 *   LEGGING_DONE,         with a venue: its message was accepted, or refused as the number
 *   1 to 8, 11 to 14      says. It waits no more, and `report` is its answer and records;
 *   LEGGING_DONE          with LEGGING_NONE: nothing waits;
 *   LEGGING_UNSOUND       with LEGGING_NONE: as of legging_arrive;
 *   LEGGING_NO_ROOM       with LEGGING_NONE: the records do not fit, or the venue's message
 *                         numbers are used up. The same message is tried again by the next
 *                         turn, and the others wait. LEGGING_MOST_BYTES are always enough.
 * With LEGGING_NONE `layer` is as it was, and `report` all zeros.
 */
uint32_t legging_turn(uint8_t *layer, size_t layer_length, uint8_t *report, size_t report_length);

#define LEGGING_NONE 4u /* the venue served by a turn that served none */
#define LEGGING_TURN_NUMBER(turned) ((uint8_t)((turned)&0xFFu))
#define LEGGING_TURN_VENUE(turned)  ((uint8_t)((turned) >> 8))

#ifdef __cplusplus
}
#endif

#endif
