// frame FILE..: checks which bytes `debits_list` writes. Each file is listed into outputs of several lengths, every byte of
// which is marked before the call, as are the bytes around it. Where the listing fits it is the same each time, and the bytes
// behind it stay; where it does not, the answer is -15 and the whole output is zero. No byte around the output changes, and
// none of the file. Ends with status 0 only if all of this holds.
#include "debits.h"

#include <stdio.h>
#include <string.h>

#define FILE_MOST 65537
#define OUT_MOST 65536
#define AROUND 64
#define MARK 0xAA
#define TOO_LONG (-15)

static uint8_t file[FILE_MOST];
static uint8_t file_before[FILE_MOST];
static uint8_t memory[AROUND + OUT_MOST + AROUND];
static uint8_t *const out = memory + AROUND;
static uint8_t listing[OUT_MOST];

// Whether the bytes are all the same as this one.
static int all_are(const uint8_t *bytes, size_t count, uint8_t byte)
{
    for (size_t i = 0; i < count; i++) {
        if (bytes[i] != byte) {
            return 0;
        }
    }
    return 1;
}

// Marks the memory and lists the file into an output of this length.
static int64_t list_into(size_t file_len, size_t out_len)
{
    memset(memory, MARK, sizeof memory);
    return debits_list(file, file_len, out, out_len);
}

// Whether the bytes around an output of this length, and those of the file, are as they were.
static int around_stays(size_t out_len)
{
    return all_are(memory, AROUND, MARK) && all_are(out + out_len, sizeof memory - AROUND - out_len, MARK)
        && memcmp(file, file_before, sizeof file) == 0;
}

// Whether an output of this length holds the listing of this length, and the bytes behind it stay.
static int is_listed(size_t file_len, size_t out_len, size_t length)
{
    return list_into(file_len, out_len) == (int64_t)length && memcmp(out, listing, length) == 0
        && all_are(out + length, out_len - length, MARK) && around_stays(out_len);
}

// Whether an output of this length is too short, and is zero.
static int is_refused(size_t file_len, size_t out_len)
{
    return list_into(file_len, out_len) == TOO_LONG && all_are(out, out_len, 0) && around_stays(out_len);
}

// Whether all holds of the file that was read.
static int check(size_t file_len)
{
    int64_t answer = list_into(file_len, OUT_MOST);
    if (answer == TOO_LONG) {
        return is_refused(file_len, OUT_MOST) && is_refused(file_len, 0);
    }
    if (answer < 0 || answer > OUT_MOST) {
        return 0;
    }
    size_t length = (size_t)answer;
    memcpy(listing, out, length);
    // (where the length is 0, the one less is above the most and is passed over)
    const size_t lengths[] = {0, 1, length / 2, length - 1, length, length + 1, length + 1000, OUT_MOST};
    for (size_t i = 0; i < sizeof lengths / sizeof lengths[0]; i++) {
        size_t out_len = lengths[i];
        if (out_len <= OUT_MOST
            && !(out_len < length ? is_refused(file_len, out_len) : is_listed(file_len, out_len, length))) {
            fprintf(stderr, "an output of %zu bytes: ", out_len);
            return 0;
        }
    }
    return 1;
}

// Reads the file with this name into memory; what is behind it there is marked. Tells whether that went well.
static int read_file(const char *name, size_t *file_len)
{
    FILE *in = fopen(name, "rb");
    if (in == NULL) {
        return 0;
    }
    memset(file, MARK, sizeof file);
    *file_len = fread(file, 1, sizeof file, in);
    int is_read = !ferror(in);
    fclose(in);
    memcpy(file_before, file, sizeof file);
    return is_read;
}

int main(int argc, char **argv)
{
    int status = 0;
    for (int i = 1; i < argc; i++) {
        size_t file_len = 0;
        if (!read_file(argv[i], &file_len)) {
            perror(argv[i]);
            status = 1;
        } else if (!check(file_len)) {
            fprintf(stderr, "%s: not as it should be\n", argv[i]);
            status = 1;
        }
    }
    return status;
}
