/* The six calls of an append and nothing else: journal append FILE COUNT BYTES prints the nanoseconds that so many
 * records take, the file made anew before. journal make FILE LENGTH BYTES fills a file with records up to a length. */
#include <fcntl.h>
#include <stdio.h>
#include <stdlib.h>
#include <string.h>
#include <time.h>
#include <unistd.h>

static const unsigned char open_gate = 1, closed_gate = 0;

static int put(int file, const void *bytes, size_t count, off_t at) {
    return pwrite(file, bytes, count, at) == (ssize_t)count ? 0 : -1;
}

static void spell(unsigned char field[4], size_t length) {
    for (int i = 0; i < 4; i++) field[i] = length >> (24 - 8 * i);
}

static int append(int file, off_t end, const unsigned char *record, size_t length) {
    unsigned char field[4];
    spell(field, length);
    if (put(file, field, 4, end + 1) || put(file, record, length, end + 5)) return -1;
    if (put(file, &closed_gate, 1, end + 5 + length) || fdatasync(file)) return -1;
    return put(file, &open_gate, 1, end) || fdatasync(file) ? -1 : 0;
}

static int make(const char *path, size_t limit, size_t length) {
    FILE *out = fopen(path, "wb");
    unsigned char *record = calloc(1, length + 5);
    size_t end = 16;
    if (!out || !record || fwrite("LWDESK-JOURNAL-1", 1, 16, out) != 16) return 1;
    record[0] = open_gate;
    spell(record + 1, length);
    for (; end + length + 6 <= limit; end += length + 5)
        if (fwrite(record, 1, length + 5, out) != length + 5) return 1;
    return fputc(0, out) == EOF || fclose(out);
}

int main(int argc, char **argv) {
    if (argc != 5) return 2;
    size_t count = strtoul(argv[3], 0, 10), length = strtoul(argv[4], 0, 10);
    if (!strcmp(argv[1], "make")) return make(argv[2], count, length);
    int file = open(argv[2], O_RDWR | O_CREAT | O_TRUNC, 0600);
    unsigned char *record = calloc(1, length + 1);
    struct timespec start, stop;
    if (file < 0 || !record || put(file, "LWDESK-JOURNAL-1", 17, 0) || fdatasync(file)) return 1;
    clock_gettime(CLOCK_MONOTONIC, &start);
    for (size_t i = 0; i < count; i++)
        if (append(file, 16 + i * (length + 5), record, length)) return 1;
    clock_gettime(CLOCK_MONOTONIC, &stop);
    printf("%lld\n", (stop.tv_sec - start.tv_sec) * 1000000000LL + stop.tv_nsec - start.tv_nsec);
    return 0;
}
