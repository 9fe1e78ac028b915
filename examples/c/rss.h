/* A store in memory, and what a file is to do to keep it: the calls of librss_c.a.
   crates/rss_c/README.md says how to build it, and what its caller owes it. */
#ifndef RSS_H
#define RSS_H

#include <stdbool.h>
#include <stddef.h>
#include <stdint.h>

enum { RSS_PAGE_BYTES = 4096 };

/* How a call ended: the exit status of the program (docs/SCRIPT.md), or a number above these. */
enum {
    RSS_OK = 0,
    RSS_WRITE_FAULT = 3,    /* the text failed, as one without room for a line does */
    RSS_DEVICE_FAULT = 4,   /* the store's device failed, or a step is gone that wasn't taken */
    RSS_NOT_A_STORE = 5,    /* the bytes are found to be no store; the text tells the place */
    RSS_NO_MEMORY = 6,
    RSS_TOO_LONG = 7,       /* 2^32 - 2 calls were made since the opening */
    RSS_WRONG_SIZE = 8,     /* no store has so many slots and log pages */
    RSS_DAMAGED = 10,       /* the log or a line shows that they are none; the text ends with the place */
    RSS_NOT_OPEN = 20,      /* no store is open in the handle */
    RSS_ALREADY_OPEN = 21,  /* a store is open in the handle already */
    RSS_STOPPED = 22,       /* an earlier line ended with a status other than 0 */
    RSS_NO_LINE = 23        /* a generated script has no such line */
};

/* The handle of a store. It begins as {0}, and only the calls below change it. */
typedef struct {
    void *at;
    bool is_open;
} rss_store;

/* The line that a call wrote, with its end. It begins as {0}, and each call empties it first. */
typedef struct {
    size_t length;
    char bytes[8192];
    uint64_t faults;
} rss_text;

/* What a file is to do next. A store that was opened, or a line that was run, is in the file once the
   file has done all steps up to then, in their order. A stop before that leaves a store too, but for
   one within the steps of a format. If one fails, close the store and open it anew from the file. */
enum {
    RSS_WRITE = 1,  /* write the page at the place `at`, counted in pages */
    RSS_SYNC = 2,   /* bring to the disk what was written, and the size */
    RSS_RESIZE = 3  /* become `at` pages long */
};

typedef struct {
    uint32_t kind;
    uint64_t at;
    unsigned char page[RSS_PAGE_BYTES];
} rss_step;

/* What is counted of a store. */
typedef struct {
    uint64_t pages;    /* how many pages it has in memory, as its file has */
    uint64_t room;     /* how many slots may be needed, by the rule of room (docs/STORE.md) */
    uint64_t log_free; /* how many bytes the log has room for */
    uint32_t calls;    /* how many calls were made since the opening */
    uint32_t slots;    /* how many slots it has for pages */
} rss_counts;

/* Makes an empty store and opens it. Its first steps make it in a file, whatever that held. */
uint32_t rss_format(rss_store *store, uint32_t slots, uint32_t log_pages);

/* Opens the store of these bytes, those of its whole file. If they are no store, the text says where. */
uint32_t rss_open(rss_store *store, const unsigned char *bytes, size_t length, rss_text *text);

/* Runs a line of a script, without its end. The text is its reply, which may be empty. */
uint32_t rss_run_line(rss_store *store, const char *line, size_t length, rss_text *text);

/* Whether a store is open that answers lines. */
bool rss_is_up(rss_store *store);

/* Takes the next step that the file is to do, and answers whether there was one. */
bool rss_next_step(rss_store *store, rss_step *step);

/* Reads the page at a place, and answers whether there is one. */
bool rss_page(rss_store *store, uint64_t at, unsigned char page[RSS_PAGE_BYTES]);

/* Counts what there is of the store that is open, and answers whether one is. */
bool rss_count(rss_store *store, rss_counts *counts);

/* How many levels of nodes the image of this name has; 0 if none is defined or no store is open. */
uint8_t rss_levels(rss_store *store, const char *name, size_t length);

/* How many lines the script has that `rss gen NUMBER EMPLOYEES` writes; 0 if there is none. */
uint64_t rss_generated_lines(uint32_t employees);

/* Writes its line `at`, counted from 0, without its end. */
uint32_t rss_generated_line(uint64_t number, uint32_t employees, uint64_t at, rss_text *text);

/* Closes the store that is open, if one is. What no `end` has committed is dropped. */
void rss_close(rss_store *store);

#endif
