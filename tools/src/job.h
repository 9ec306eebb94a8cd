/* What a card says: how a program is run, and the memory that it starts from. */
#ifndef JOB_H
#define JOB_H

#include <stdbool.h>
#include <stdint.h>

enum {
    MAX_DIGITS = 16,        /* of a schedule */
    CARD_MAX_MEMORY = 16384, /* bytes */
    CARD_MAX_STEPS = 16384
};

struct job {
    uint32_t cores;
    uint32_t memory_bytes;
    uint32_t entry;
    uint32_t sr;
    uint64_t steps;
    char schedule[MAX_DIGITS + 1];
    uint8_t *memory; /* memory_bytes of them, from address 0 */
};

/* What a tool lets its user choose. */
struct limits {
    uint32_t max_memory; /* also what holds if nothing is chosen */
    uint64_t max_steps;
    uint64_t usual_steps;
    const char *hint; /* for a program that needs more memory */
};

/* The options that the tools share. */
struct options {
    struct limits limits;
    const char *file;
    struct job job; /* without its memory */
    bool has_steps;
    bool has_entry;
    bool has_at;
    const char *other; /* one that was given, but for --steps */
    uint32_t at;       /* where a flat binary begins */
};

/* Numbers of an option; they end with a message if the text is none or outside the limits. */
uint64_t decimal(const char *option, const char *text, uint64_t low, uint64_t high);
uint32_t hexadecimal(const char *option, const char *text);

/* The options before anything is read. */
struct options usual_options(struct limits limits);

/* The name is this option's; then a value must stand after it. */
bool is_option(const char *name, const char *option, const char *value);

/* Takes one of the shared options, if it is one. */
bool take_option(struct options *options, const char *name, const char *value);

/* Takes the name of the file. */
void take_file(struct options *options, const char *name);

/* What can be said once all options are there. */
void settle(struct options *options);

#endif
