/* Runs the lines of standard input over the store in a file, and prints their replies:
   script FILE [SLOTS LOG_PAGES]. With sizes, the file is made a store first. */
#include "rss.h"
#include <fcntl.h>
#include <stdio.h>
#include <stdlib.h>
#include <sys/file.h>
#include <sys/mman.h>
#include <unistd.h>

static rss_store store;
static rss_text text;
static rss_step step;

/* Has the file do the steps of a call, prints what the call wrote, and hands on how it ended. */
static uint32_t told(int file, uint32_t status)
{
    while (rss_next_step(&store, &step)) {
        off_t place = step.at * RSS_PAGE_BYTES;
        if (step.kind == RSS_WRITE ? pwrite(file, step.page, RSS_PAGE_BYTES, place) != RSS_PAGE_BYTES
            : step.kind == RSS_SYNC ? fdatasync(file) < 0 : ftruncate(file, place) < 0)
            return RSS_DEVICE_FAULT;
    }
    fwrite(text.bytes, 1, text.length, stdout);
    return status;
}

/* Opens the store in a file, whose bytes are read where they are mapped. */
static uint32_t open_in(int file)
{
    off_t size = lseek(file, 0, SEEK_END);
    void *bytes = mmap(NULL, size + 1, PROT_READ, MAP_PRIVATE, file, 0);
    uint32_t status = RSS_DEVICE_FAULT;
    if (bytes != MAP_FAILED)
        status = rss_open(&store, bytes, size, &text);
    munmap(bytes, size + 1);
    return status;
}

int main(int argc, char **argv)
{
    bool make = argc == 4;
    int file = open(argv[1], make ? O_RDWR | O_CREAT : O_RDWR, 0666);
    char *line = NULL;
    size_t room = 0;
    ssize_t length;
    if (file < 0 || flock(file, LOCK_EX | LOCK_NB) < 0)
        return RSS_DEVICE_FAULT;
    uint32_t status = make ? rss_format(&store, atoi(argv[2]), atoi(argv[3])) : open_in(file);
    status = told(file, status);
    while (status == RSS_OK && (length = getline(&line, &room, stdin)) > 0) {
        if (line[length - 1] == '\n')
            length--;
        status = told(file, rss_run_line(&store, line, length, &text));
    }
    rss_close(&store);
    free(line);
    return status;
}
