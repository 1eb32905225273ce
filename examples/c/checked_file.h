/*
 * A file that carries a day over an upgrade, with its length and checksum beside it.
 *
 * FILE is first written to FILE.new, and its checksum to FILE.sha256.new. Both are synced,
 * then each is renamed, FILE first, and their folder is synced. So a crash at any moment
 * leaves the old FILE or the new one, whole; a FILE.new that it left is written over by
 * the next writing. FILE.sha256 is
 *
 *     # 316 bytes
 *     2c26b46b68ffc68ff99b453c1d30413413422d706483bfa0f98a5e886266e7ae  noon.set
 *
 * which `sha256sum -c` checks too: it passes the first line over. `venue set --output` and
 * `venue resume` write and ask for the same.
 */
#ifndef CHECKED_FILE_H
#define CHECKED_FILE_H

#include "sha256.h"

#include <fcntl.h>
#include <sys/stat.h>
#include <unistd.h>

enum { REFUSED = 3 }; /* exit status: what was carried was refused */

/* A file's name with an ending; the caller frees it. */
static inline char *name_with(const char *file, const char *ending)
{
    size_t length = strlen(file) + strlen(ending) + 1;
    char *name = (char *)resized(NULL, length);
    snprintf(name, length, "%s%s", file, ending);
    return name;
}

/* The name without its folders. */
static inline const char *last_part(const char *file)
{
    const char *slash = strrchr(file, '/');
    return slash == NULL ? file : slash + 1;
}

/* Writing ---------------------------------------------------------------------- */

/* Removes a file that was not written whole, and tells why. */
static inline void give_up(const char *file)
{
    int why = errno;
    unlink(file);
    errno = why;
    file_failed(file, "written");
}

static inline void write_synced(const char *file, struct bytes data)
{
    int opened = open(file, O_WRONLY | O_CREAT | O_TRUNC, 0666);
    if (opened < 0)
        file_failed(file, "written");
    size_t at = 0;
    while (at < data.length) {
        ssize_t count = write(opened, data.at + at, data.length - at);
        if (count < 0 && errno != EINTR)
            give_up(file);
        at += count < 0 ? 0 : (size_t)count;
    }
    if (fsync(opened) != 0 || close(opened) != 0)
        give_up(file);
}

/* Makes a renaming last: syncs the folder of a file. */
static inline void sync_folder(const char *file)
{
    char *folder = name_with(file, "");
    size_t length = (size_t)(last_part(file) - file);
    folder[length] = '\0';
    int opened = open(length == 0 ? "." : folder, O_RDONLY);
    if (opened < 0 || fsync(opened) != 0 || close(opened) != 0)
        file_failed(length == 0 ? "." : folder, "synced");
    free(folder);
}

/* Puts the new file in the old one's place. */
static inline void put_in_place(const char *written, const char *file)
{
    if (rename(written, file) != 0)
        file_failed(file, "written");
    sync_folder(file);
}

/* The two lines of FILE.sha256; the caller frees them. */
static inline struct bytes checksum_of(const char *file, struct bytes data)
{
    char digits[SHA256_DIGITS + 1];
    sha256(data, digits);
    size_t room = strlen(file) + sizeof digits + 64;
    char *lines = (char *)resized(NULL, room);
    int length = snprintf(lines, room, "# %zu bytes\n%s  %s\n", data.length, digits, last_part(file));
    return bytes_at((uint8_t *)lines, (size_t)length);
}

/* Writes a file and its checksum, or ends the program and leaves the old ones. */
static inline void write_checked(const char *file, struct bytes data)
{
    struct stat old;
    if (lstat(file, &old) == 0 && !S_ISREG(old.st_mode)) {
        fprintf(stderr, PROGRAM ": %s was not written: it is there, and no regular file\n", file);
        exit(1);
    }
    char *new_file = name_with(file, ".new");
    char *sums = name_with(file, ".sha256");
    char *new_sums = name_with(sums, ".new");
    struct bytes lines = checksum_of(file, data);
    write_synced(new_file, data);
    write_synced(new_sums, lines);
    put_in_place(new_file, file);
    put_in_place(new_sums, sums);
    free(lines.at);
    free(new_sums);
    free(sums);
    free(new_file);
}

/* Reading ---------------------------------------------------------------------- */

/* What of a file is not as these lines tell; NULL where all is. */
static inline const char *difference(struct bytes lines, struct bytes data)
{
    char found[SHA256_DIGITS + 1];
    char digits[SHA256_DIGITS + 1];
    size_t length = 0;
    uint8_t *text = resized(NULL, lines.length + 1);
    memcpy(text, lines.at, lines.length);
    text[lines.length] = '\0';
    /* Without the first line it is what `sha256sum` writes: then the checksum alone is asked. */
    bool told = sscanf((const char *)text, "# %zu bytes %64[0-9a-f]", &length, digits) == 2;
    bool told_sum = told || sscanf((const char *)text, "%64[0-9a-f]", digits) == 1;
    free(text);
    if (!told_sum || strlen(digits) != SHA256_DIGITS)
        return "no checksum stands there";
    if (told && length != data.length)
        return "its length is another one";
    sha256(data, found);
    return strcmp(found, digits) == 0 ? NULL : "its checksum is another one";
}

/* Whether a file is there and tells these bytes. */
static inline bool is_told_by(const char *sums, struct bytes data)
{
    if (access(sums, R_OK) != 0)
        return false;
    struct bytes lines = read_file(sums);
    bool tells = difference(lines, data) == NULL;
    free(lines.at);
    return tells;
}

/* Ends the program: a file is not the one that was written. */
static inline void refuse_file(const char *file, const char *sums, const char *what, struct bytes data)
{
    char *left = name_with(sums, ".new");
    fprintf(stderr, PROGRAM ": %s is not what %s tells: %s\n", file, sums, what);
    if (is_told_by(left, data))
        fprintf(stderr, PROGRAM ": %s tells it: the writing was cut off before its last step, to rename that file to %s\n",
                left, sums);
    else
        fprintf(stderr, PROGRAM ": --unchecked takes it as it is\n");
    free(left);
    exit(REFUSED);
}

/* The bytes of a file that write_checked wrote, or `unchecked` of any; the caller frees
 * them. */
static inline struct bytes read_checked(const char *file, bool unchecked)
{
    struct bytes data = read_file(file);
    if (unchecked)
        return data;
    if (is_input(file)) {
        fputs(PROGRAM ": standard input has no checksum beside it\n" PROGRAM ": --unchecked takes it as it is\n", stderr);
        exit(REFUSED);
    }
    char *sums = name_with(file, ".sha256");
    if (access(sums, F_OK) != 0)
        refuse_file(file, sums, "that file is missing", data);
    struct bytes lines = read_file(sums);
    const char *what = difference(lines, data);
    if (what != NULL)
        refuse_file(file, sums, what, data);
    free(lines.at);
    free(sums);
    return data;
}

#endif
