/* A program's bytes, from an ELF file or a flat binary. */
#ifndef PROGRAM_H
#define PROGRAM_H

#include <stddef.h>

#include "job.h"

struct file {
    const char *name;
    uint8_t *bytes;
    size_t length;
};

/* The whole file. */
struct file read_file(const char *name);

bool is_elf(const struct file *file);
bool is_card(const struct file *file);

/* A word as memory holds it, high byte first. */
uint32_t word_at(const uint8_t *bytes);

/* So many items of that size, all 0. */
void *zeros(size_t count, size_t size);

/* Puts the program into the job's new memory, and its entry into the job, if the options name none. */
void load_program(struct options *options, const struct file *file);

#endif
