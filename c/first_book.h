/* The first guide book, for programs that carry it inside. books/write_c.py writes
 * its bytes and names into first_book.c. */
#ifndef FIRST_BOOK_H
#define FIRST_BOOK_H

#include <stddef.h>
#include <stdint.h>

/* The compiled book, as tracksaddle_judge takes it. */
extern const uint8_t first_book[];
extern const size_t first_book_length;

/* Its printed names and words, as books/compile_book.py --names writes them, UTF-8. */
extern const char first_book_names[];
extern const size_t first_book_names_length;

#endif
