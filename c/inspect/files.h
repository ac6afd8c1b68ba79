/* Reading files whole, up to a limit. */
#ifndef INSPECT_FILES_H
#define INSPECT_FILES_H

#include <stddef.h>
#include <stdint.h>

struct file {
    uint8_t *bytes;    /* never null once read */
    size_t length;
    const char *error; /* why it cannot be read, or null */
};

/* At most limit + 1 bytes are read: so a file over the limit is seen to be one,
 * however long it is. The name - is standard input, which can be read once. */
struct file read_file(const char *name, size_t limit);

void free_file(struct file *file);

#endif
