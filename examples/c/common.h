/*
 * What the hosts in C share: reading files, printing records. PROGRAM is the name
 * under which they tell what went wrong. All of it is C11 and C++11.
 */
#ifndef COMMON_H
#define COMMON_H

#include <errno.h>
#include <inttypes.h>
#include <stdbool.h>
#include <stdint.h>
#include <stdio.h>
#include <stdlib.h>
#include <string.h>

struct bytes {
    uint8_t *at;
    size_t length;
};

static inline struct bytes bytes_at(uint8_t *at, size_t length)
{
    struct bytes bytes = {at, length};
    return bytes;
}

static inline void wrong_usage(const char *what, const char *word)
{
    fprintf(stderr, PROGRAM ": %s: %s\ntry: " PROGRAM " --help\n", what, word);
    exit(2);
}

/* Tells what was not done with a file, by errno, and ends the program. */
static inline void file_failed(const char *file, const char *what)
{
    fflush(stdout);
    fprintf(stderr, PROGRAM ": %s was not %s: %s\n", file, what, strerror(errno));
    exit(1);
}

/* Whether a file stands for standard input. */
static inline bool is_input(const char *file)
{
    return file == NULL || strcmp(file, "-") == 0;
}

/* Memory ----------------------------------------------------------------------- */

/* Memory of another length; of none, NULL. */
static inline uint8_t *resized(uint8_t *memory, size_t length)
{
    if (length == 0) {
        free(memory);
        return NULL;
    }
    uint8_t *moved = (uint8_t *)realloc(memory, length);
    if (moved == NULL) {
        fprintf(stderr, PROGRAM ": no memory of %zu bytes\n", length);
        exit(1);
    }
    return moved;
}

static inline struct bytes read_all(FILE *from, const char *name)
{
    struct bytes read = {NULL, 0};
    size_t room = 0;
    size_t count = 0;
    do {
        if (read.length == room) {
            room = room == 0 ? 65536 : 2 * room;
            read.at = resized(read.at, room);
        }
        count = fread(read.at + read.length, 1, room - read.length, from);
        read.length += count;
    } while (count > 0);
    if (ferror(from))
        file_failed(name, "read");
    return read;
}

/* All of a file, or of standard input where it is left out or -. */
static inline struct bytes read_file(const char *file)
{
    if (is_input(file))
        return read_all(stdin, "standard input");
    FILE *opened = fopen(file, "rb");
    if (opened == NULL)
        file_failed(file, "opened");
    struct bytes read = read_all(opened, file);
    fclose(opened);
    return read;
}

/* Messages and records --------------------------------------------------------- */

static inline uint32_t number_at(const uint8_t *at, size_t width)
{
    uint32_t value = 0;
    for (size_t i = 0; i < width; i++)
        value |= (uint32_t)at[i] << (8 * i);
    return value;
}

/* The length of the message at a position; of all that is left where that is no whole
 * message. */
static inline size_t length_at(struct bytes messages, size_t at)
{
    size_t left = messages.length - at;
    size_t length = left < 4 ? left : number_at(messages.at + at, 2);
    return length < 4 || length > left ? left : length;
}

/* The fields of a record kind: b u8, h u16, w u32, i i32. */
static inline const char *fields_of(unsigned kind)
{
    switch (kind) {
    case 64:
        return "wbhb";
    case 65:
        return "bbwwww";
    case 66:
        return "wiw";
    case 67:
        return "wbbwww";
    case 68:
        return "wbbb";
    case 70:
        return "wwiw";
    case 71:
        return "ww";
    case 72:
        return "b";
    default:
        return "";
    }
}

static inline void print_fields(const uint8_t *record)
{
    unsigned kind = number_at(record + 2, 2);
    const uint8_t *at = record + 4;
    printf("%u", kind);
    for (const char *field = fields_of(kind); *field != '\0'; field++) {
        size_t width = *field == 'b' ? 1 : *field == 'h' ? 2 : 4;
        uint32_t value = number_at(at, width);
        if (*field == 'i' && value > INT32_MAX)
            printf(" -%" PRIu32, UINT32_MAX - value + 1);
        else
            printf(" %" PRIu32, value);
        at += width;
    }
    putchar('\n');
}

static inline void print_bytes(const uint8_t *record, size_t length)
{
    for (size_t i = 0; i < length; i++)
        printf(i == 0 ? "%02x" : " %02x", record[i]);
    putchar('\n');
}

/* Prints each record after a prefix. They end at the first zero length, or at the end
 * of the memory. */
static inline void print_records(struct bytes report, const char *prefix, bool hex)
{
    size_t at = 0;
    while (report.length - at >= 4) {
        const uint8_t *record = report.at + at;
        size_t length = number_at(record, 2);
        if (length == 0)
            return;
        fputs(prefix, stdout);
        if (hex)
            print_bytes(record, length);
        else
            print_fields(record);
        at += length;
    }
}

/* The end of a program: its exit status, or 1 where the output was not written. */
static inline int ended(int status)
{
    if (fflush(stdout) == 0)
        return status;
    fprintf(stderr, PROGRAM ": the output was not written: %s\n", strerror(errno));
    return 1;
}

#endif
