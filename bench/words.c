// Splits a file into words and counts them: the floor that the scanner is measured against.
//
//     cc -O2 -o words words.c && ./words FILE

#include <fcntl.h>
#include <stdio.h>
#include <unistd.h>

static unsigned char piece[65536];

int main(int argc, char **argv) {
    int file = argc == 2 ? open(argv[1], O_RDONLY) : -1;
    if (file < 0) {
        fprintf(stderr, "usage: words FILE\n");
        return 6;
    }
    unsigned long words = 0;
    int is_inside = 0;
    ssize_t n;
    while ((n = read(file, piece, sizeof piece)) > 0) {
        for (ssize_t i = 0; i < n; ++i) {
            unsigned char b = piece[i];
            int is_part = b != ' ' && b != '\t' && b != '\r' && b != '\n';
            words += (unsigned long)(is_part && !is_inside);
            is_inside = is_part;
        }
    }
    printf("%lu words\n", words);
    return n < 0 ? 3 : 0;
}
