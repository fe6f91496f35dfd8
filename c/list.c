// list [FILE]: prints the listing of a roll file, or of standard input, as `debits` does: nothing if the listing does not fit
// into 65,536 bytes. Ends with status 1 if the file cannot be read or the listing cannot be written.
#include "debits.h"

#include <stdio.h>

// One byte more than a roll file may have, so that a longer file is known by its length.
static uint8_t file[65537];
static uint8_t out[65536];

int main(int argc, char **argv)
{
    const char *name = argc > 1 ? argv[1] : "standard input";
    FILE *in = argc > 1 ? fopen(name, "rb") : stdin;
    if (in == NULL) {
        perror(name);
        return 1;
    }
    size_t file_len = fread(file, 1, sizeof file, in);
    if (ferror(in)) {
        perror(name);
        return 1;
    }
    int64_t length = debits_list(file, file_len, out, sizeof out);
    size_t count = length > 0 ? (size_t)length : 0;
    if (fwrite(out, 1, count, stdout) != count || fflush(stdout) != 0) {
        perror("standard output");
        return 1;
    }
    return 0;
}
