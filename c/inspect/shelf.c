/* The guide book to judge by. */
#include "shelf.h"

#include "../first_book.h"
#include "../tracksaddle.h"
#include "output.h"

#include <string.h>

enum { MOST_NAMES_BYTES = 1 << 24 };

/* NAME.names for NAME.bin, and for a name that does not end so. */
static char *names_file(const char *book)
{
    size_t length = strlen(book);
    bool is_bin = length >= 4 && strcmp(book + length - 4, ".bin") == 0;
    struct text name = {NULL, 0, 0};
    append_bytes(&name, book, is_bin ? length - 4 : length);
    append_bytes(&name, ".names", sizeof ".names");
    return name.bytes;
}

/* A book without names is good too. */
static void add_names(struct shelf *shelf, const char *book)
{
    struct text name = {names_file(book), 0, 0};
    struct file file = read_file(name.bytes, MOST_NAMES_BYTES);
    if (file.error == NULL) {
        shelf->guide.names = read_names((const char *)file.bytes, file.length);
    }
    free_file(&file);
    free_text(&name);
}

static bool read_book(struct shelf *shelf, const char *name)
{
    shelf->file = read_file(name, MOST_BOOK_BYTES);
    if (shelf->file.error != NULL) {
        complain("%s: %s", name, shelf->file.error);
        return false;
    }
    shelf->guide.bytes = shelf->file.bytes;
    shelf->guide.length = shelf->file.length;
    return true;
}

static void take_first_book(struct shelf *shelf)
{
    shelf->guide.bytes = first_book;
    shelf->guide.length = first_book_length;
    shelf->guide.names = read_names(first_book_names, first_book_names_length);
}

bool take_guide(struct shelf *shelf, const char *name)
{
    *shelf = (struct shelf){.guide = {.bytes = NULL}};
    if (name == NULL) {
        take_first_book(shelf);
    } else if (!read_book(shelf, name)) {
        return false;
    }
    if (tracksaddle_check_book(shelf->guide.bytes, shelf->guide.length) != 0) {
        complain("%s: not a guide book, or a malformed one (1); a text is compiled by "
                 "books/compile_book.py",
                 name == NULL ? "the book inside" : name);
        return false;
    }
    if (name != NULL) {
        add_names(shelf, name);
    }
    return true;
}

void free_shelf(struct shelf *shelf)
{
    free_names(&shelf->guide.names);
    free_file(&shelf->file);
}
