/* Writes files for the inspector's tests: messages spoilt at random, and noise.
 *
 *   spoil MESSAGE COUNT SEED FOLDER
 *
 * COUNT files, NAME.edi counted from 0, go into the folder. Most are the message
 * with segments left out, doubled, moved or with bytes changed; every eighth is
 * noise of bytes. The same arguments give the same files. */
#include <stdint.h>
#include <stdio.h>
#include <stdlib.h>
#include <string.h>

enum { MOST_BYTES = 1 << 16, MOST_SEGMENTS = 256, LONGEST_NOISE = 300 };

static uint64_t state;

/* xorshift64*. */
static unsigned below(unsigned bound)
{
    state ^= state >> 12;
    state ^= state << 25;
    state ^= state >> 27;
    return (unsigned)(state * 2685821657736338717u >> 33) % bound;
}

struct piece {
    const char *bytes;
    size_t length;
};

static struct piece pieces[MOST_SEGMENTS];
static size_t piece_count;

/* The test messages have no released '. */
static void cut_into_segments(const char *bytes, size_t length)
{
    size_t start = 0;
    piece_count = 0;
    for (size_t at = 0; at < length && piece_count < MOST_SEGMENTS - 1; at++) {
        if (bytes[at] == '\'') {
            pieces[piece_count++] = (struct piece){bytes + start, at + 1 - start};
            start = at + 1;
        }
    }
}

static void leave_out(size_t at)
{
    memmove(pieces + at, pieces + at + 1, (piece_count - at - 1) * sizeof pieces[0]);
    piece_count--;
}

static void put_in(size_t at, struct piece piece)
{
    memmove(pieces + at + 1, pieces + at, (piece_count - at) * sizeof pieces[0]);
    pieces[at] = piece;
    piece_count++;
}

/* UNH stays first and UNT last, so that most files come far. */
static void spoil_segments(void)
{
    size_t inner = piece_count - 2;
    size_t from = 1 + below((unsigned)inner);
    size_t to = 1 + below((unsigned)inner);
    struct piece piece = pieces[from];
    switch (below(3)) {
    case 0: leave_out(from); break;
    case 1: put_in(to, piece); break;
    default:
        leave_out(from);
        put_in(to < piece_count - 1 ? to : 1, piece);
        break;
    }
}

/* All but UNT, and then a UNT that counts right; the reference is 1. */
static size_t write_message(char *out)
{
    size_t length = 0;
    for (size_t i = 0; i + 1 < piece_count; i++) {
        memcpy(out + length, pieces[i].bytes, pieces[i].length);
        length += pieces[i].length;
    }
    return length + (size_t)sprintf(out + length, "UNT+%zu+1'", piece_count);
}

static void change_byte(char *out, size_t length)
{
    static const char likely[] = "+:'?-.,0159AZaz \n\r\t\xfc\x9f\x80\xff";
    char byte = below(4) == 0 ? (char)below(256) : likely[below(sizeof likely)];
    out[below((unsigned)length)] = byte;
}

static size_t write_noise(char *out)
{
    static const char alphabet[] = "+:'?UNHT1";
    size_t length = below(LONGEST_NOISE);
    int is_wild = below(2) == 0;
    for (size_t i = 0; i < length; i++) {
        out[i] = is_wild ? (char)below(256) : alphabet[below(sizeof alphabet - 1)];
    }
    return length;
}

static size_t make_file(char *out, const char *message, size_t length)
{
    if (below(8) == 0) {
        return write_noise(out);
    }
    cut_into_segments(message, length);
    for (unsigned times = below(4); times > 0 && piece_count > 3; times--) {
        spoil_segments();
    }
    size_t written = write_message(out);
    if (below(3) == 0) {
        change_byte(out, written);
    }
    return below(16) == 0 ? below((unsigned)written) : written;
}

static void write_file(const char *folder, int number, const char *bytes, size_t length)
{
    char name[1024];
    snprintf(name, sizeof name, "%s/%d.edi", folder, number);
    FILE *file = fopen(name, "wb");
    if (file == NULL || fwrite(bytes, 1, length, file) != length || fclose(file) != 0) {
        perror(name);
        exit(2);
    }
}

int main(int argc, char **argv)
{
    static char message[MOST_BYTES];
    static char out[2 * MOST_BYTES];
    FILE *file = argc == 5 ? fopen(argv[1], "rb") : NULL;
    if (file == NULL) {
        fputs("usage: spoil MESSAGE COUNT SEED FOLDER\n", stderr);
        return 2;
    }
    size_t length = fread(message, 1, sizeof message, file);
    fclose(file);
    state = strtoull(argv[3], NULL, 10) * 0x9E3779B97F4A7C15u + 1;
    for (int i = 0; i < atoi(argv[2]); i++) {
        write_file(argv[4], i, out, make_file(out, message, length));
    }
    return 0;
}
