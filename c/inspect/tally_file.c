/* A tally in a file. It is locked while it is read and changed, and it is changed in
 * place: so it keeps its owner, mode and links, those who wait for its lock wait for
 * the right file, and nothing is left beside it. */
#define _POSIX_C_SOURCE 200809L
#include "tally_file.h"

#include <errno.h>
#include <fcntl.h>
#include <stdlib.h>
#include <string.h>
#include <sys/stat.h>
#include <unistd.h>

/* How often a tally that is not there, or not any more, is looked for again. */
enum { MOST_TRIES = 100 };

/* Both say what stands against it, and answer false. */
static bool tell_error(struct text *error)
{
    append(error, "%s", strerror(errno));
    return false;
}

static bool tell_refusal(struct text *error, uint32_t answer, uint32_t number)
{
    append_refusal(error, answer, number);
    return false;
}

/* Waits while another has it. The lock goes with closing, or with the inspector. */
static bool lock_file(int descriptor, short kind)
{
    struct flock whole = {.l_type = kind, .l_whence = SEEK_SET};
    int outcome;
    do {
        outcome = fcntl(descriptor, F_SETLKW, &whole);
    } while (outcome < 0 && errno == EINTR);
    return outcome == 0;
}

/* A descriptor, or -1 and errno. Opening does not wait, also not for somebody who
 * writes into a pipe. */
static int open_locked(const char *name, int way, short kind)
{
    int descriptor = open(name, way | O_CLOEXEC | O_NONBLOCK);
    if (descriptor < 0 || lock_file(descriptor, kind)) {
        return descriptor;
    }
    int error = errno;
    close(descriptor);
    errno = error;
    return -1;
}

static bool read_bytes(int descriptor, struct tally *tally, struct text *error)
{
    struct stat facts;
    if (fstat(descriptor, &facts) != 0) {
        return tell_error(error);
    }
    if (!S_ISREG(facts.st_mode) || facts.st_size != TRACKSADDLE_TALLY) {
        return tell_refusal(error, NO_TALLY, 0);
    }
    ssize_t got = pread(descriptor, tally->bytes, sizeof tally->bytes, 0);
    if (got < 0) {
        return tell_error(error);
    }
    return got == TRACKSADDLE_TALLY || tell_refusal(error, NO_TALLY, 0);
}

/* All bytes by one call: they lie in one page, so that a killed inspector leaves the
 * old ones or the new ones. If the system takes a part, the old ones come back. */
static bool write_bytes(int descriptor, const struct tally *old,
                        const struct tally *tally, struct text *error)
{
    ssize_t taken = pwrite(descriptor, tally->bytes, sizeof tally->bytes, 0);
    if (taken < 0) {
        return tell_error(error);
    }
    if (taken == TRACKSADDLE_TALLY) {
        return true;
    }
    append(error, "only %d of %d bytes could be written", (int)taken,
           TRACKSADDLE_TALLY);
    if (pwrite(descriptor, old->bytes, (size_t)taken, 0) != taken) {
        append(error, ", and the old ones could not be put back");
    }
    return false;
}

/* The mode of a new file. The mask can be asked for by setting it alone. */
static mode_t usual_mode(void)
{
    mode_t mask = umask(0);
    umask(mask);
    return 0666 & ~mask;
}

static bool fill_new_file(int descriptor, struct text *error)
{
    struct tally tally = begin_tally();
    return write_bytes(descriptor, &tally, &tally, error) &&
           (fchmod(descriptor, usual_mode()) == 0 || tell_error(error));
}

static char *name_beside(const char *name)
{
    struct text beside = {NULL, 0, 0};
    append_bytes(&beside, name, strlen(name));
    append_bytes(&beside, ".XXXXXX", sizeof ".XXXXXX");
    return beside.bytes;
}

/* The bytes go into a new file beside, and then it gets the name: so nobody sees,
 * and a killed inspector leaves, no tally that is half made. If there is one by then,
 * another inspector was faster, which is as good. */
static bool make_tally_file(const char *name, struct text *error)
{
    char *beside = name_beside(name);
    int descriptor = mkstemp(beside);
    bool is_made = descriptor >= 0 || tell_error(error);
    if (is_made) {
        is_made = fill_new_file(descriptor, error) &&
                  (link(beside, name) == 0 || errno == EEXIST || tell_error(error));
        close(descriptor);
        unlink(beside);
    }
    free(beside);
    return is_made;
}

/* Whether the name stands for another file by now, or for none. */
static bool is_moved_away(int descriptor, const char *name)
{
    struct stat locked, named;
    if (stat(name, &named) != 0) {
        return errno == ENOENT;
    }
    return fstat(descriptor, &locked) == 0 &&
           (locked.st_dev != named.st_dev || locked.st_ino != named.st_ino);
}

/* The tally that has the name while it is locked, or -1. It may have been moved away
 * while this inspector waited: whoever moves one and then reads it by its new name
 * has read all that was added to it. */
static int open_to_add(const char *name, struct text *error)
{
    for (int tries = 0; tries < MOST_TRIES; tries++) {
        int descriptor = open_locked(name, O_RDWR, F_WRLCK);
        if (descriptor >= 0 && !is_moved_away(descriptor, name)) {
            return descriptor;
        }
        if (descriptor >= 0) {
            close(descriptor);
        } else if (errno != ENOENT || name[0] == '\0') {
            tell_error(error);
            return -1;
        } else if (!make_tally_file(name, error)) {
            return -1;
        }
    }
    append(error, "it is made, and it is not there: a link must lead to a file");
    return -1;
}

bool take_tally_file(const char *name, struct text *error)
{
    struct tally tally;
    int descriptor = open_to_add(name, error);
    if (descriptor < 0) {
        return false;
    }
    bool is_tally = read_bytes(descriptor, &tally, error);
    close(descriptor);
    return is_tally;
}

static bool add_locked(int descriptor, uint32_t number, struct text *error)
{
    struct tally old;
    if (!read_bytes(descriptor, &old, error)) {
        return false;
    }
    struct tally tally = old;
    uint32_t answer = add_verdict(&tally, number);
    if (answer != ADDED) {
        return tell_refusal(error, answer, number);
    }
    return write_bytes(descriptor, &old, &tally, error);
}

bool add_to_tally_file(const char *name, uint32_t number, struct text *error)
{
    int descriptor = open_to_add(name, error);
    if (descriptor < 0) {
        return false;
    }
    bool is_added = add_locked(descriptor, number, error);
    bool is_closed = close(descriptor) == 0;
    return is_added && (is_closed || tell_error(error));
}

bool read_tally_file(const char *name, struct tally *tally, struct text *error)
{
    int descriptor = open_locked(name, O_RDONLY, F_RDLCK);
    if (descriptor < 0) {
        return tell_error(error);
    }
    bool is_read = read_bytes(descriptor, tally, error);
    close(descriptor);
    return is_read;
}
