/* Program `sound` in C, unproved: what its speed is measured against.

     reader            a book on standard input: prints `sound` or `refused N at P`
     reader repeat     the same, read 10,000 times: prints how often it was sound */
#include <stdio.h>
#include <string.h>
#include <unistd.h>

#include "reading.h"

enum { ROOM = 25041, NEED = 22 };

int main(int words, char **word) {
    static uint8_t book[ROOM];
    size_t length = 0;
    for (ssize_t got; length < ROOM && (got = read(0, book + length, ROOM - length)) > 0;) length += got;
    if (words > 1 && strcmp(word[1], "repeat") == 0) {
        int sound = 0;
        for (int left = 10000; left > 0; left--) {
            if (length > NEED) book[NEED] = left; /* no answer depends on it; no compiler can take all readings for one */
            sound += read_book(book, length).number == 0;
        }
        printf("%d\n", sound);
        return 0;
    }
    struct reading r = read_book(book, length);
    if (r.number == 0) puts("sound");
    else printf("refused %d at %d\n", r.number, r.place);
    return 0;
}
