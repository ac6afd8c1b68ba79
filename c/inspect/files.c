/* Reading files whole, up to a limit. */
#include "files.h"

#include "text.h"

#include <errno.h>
#include <stdbool.h>
#include <stdio.h>
#include <stdlib.h>
#include <string.h>

/* Doubled until the file fits: most messages are small. */
enum { FIRST_ROOM = 1 << 16 };

static void grow(struct file *file, size_t *room)
{
    uint8_t *bytes = need_memory(2 * *room);
    memcpy(bytes, file->bytes, file->length);
    free(file->bytes);
    file->bytes = bytes;
    *room *= 2;
}

static void read_up_to(FILE *stream, struct file *file, size_t most)
{
    size_t room = FIRST_ROOM;
    size_t got;
    file->bytes = need_memory(room);
    do {
        if (file->length == room) {
            grow(file, &room);
        }
        size_t want = room < most ? room : most;
        got = fread(file->bytes + file->length, 1, want - file->length, stream);
        file->length += got;
    } while (got > 0 && file->length < most);
    if (ferror(stream)) {
        file->error = strerror(errno);
    }
}

/* Errors are told in words that do not outlive the next call of strerror: the
 * caller shows them at once. */
struct file read_file(const char *name, size_t limit)
{
    static bool standard_input_is_read;
    struct file file = {NULL, 0, NULL};
    bool is_standard = strcmp(name, "-") == 0;
    if (is_standard && standard_input_is_read) {
        file.error = "standard input was read already";
        return file;
    }
    standard_input_is_read = standard_input_is_read || is_standard;
    FILE *stream = is_standard ? stdin : fopen(name, "rb");
    if (stream == NULL) {
        file.error = strerror(errno);
        return file;
    }
    read_up_to(stream, &file, limit + 1);
    if (!is_standard) {
        fclose(stream);
    }
    return file;
}

void free_file(struct file *file)
{
    free(file->bytes);
    *file = (struct file){NULL, 0, NULL};
}
