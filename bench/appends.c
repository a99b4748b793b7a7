/* The writes and syncs of appends of records, made by hand: prints the microseconds for each record. They are 1,000 of 500 bytes,
   unless RECORDS and SIZE are defined otherwise. */
#include <fcntl.h>
#include <stdio.h>
#include <stdlib.h>
#include <string.h>
#include <time.h>
#include <unistd.h>

#ifndef RECORDS
#define RECORDS 1000
#endif
#ifndef SIZE
#define SIZE 500
#endif

static int file;

static void write_at(off_t at, const void *bytes, size_t count)
{
    if (pwrite(file, bytes, count, at) != (ssize_t)count) {
        perror("pwrite");
        exit(1);
    }
}

static void sync_file(void)
{
    if (fsync(file) != 0) {
        perror("fsync");
        exit(1);
    }
}

int main(void)
{
    unsigned char header[17] = "RODINJ1\n\1", body[SIZE], size[4] = {SIZE & 255, SIZE >> 8, 0, 0}, shut = 0, open_gate = 1;
    struct timespec from, to;
    off_t gate = 16;

    memset(body, 'x', sizeof body);
    file = open("bench.file", O_RDWR | O_CREAT | O_TRUNC, 0666);
    if (file < 0) {
        perror("open");
        return 1;
    }
    write_at(0, header, sizeof header);
    sync_file();
    clock_gettime(CLOCK_MONOTONIC, &from);
    for (int record = 0; record < RECORDS; record++) {
        write_at(gate + 1, size, sizeof size);
        write_at(gate + 5, body, sizeof body);
        write_at(gate + 5 + SIZE, &shut, 1);
        sync_file();
        write_at(gate, &open_gate, 1);
        sync_file();
        gate += 5 + SIZE;
    }
    clock_gettime(CLOCK_MONOTONIC, &to);
    printf("%.1f\n", ((to.tv_sec - from.tv_sec) * 1e9 + (to.tv_nsec - from.tv_nsec)) / 1e3 / RECORDS);
    return 0;
}
