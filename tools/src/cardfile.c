#include "cardfile.h"

#include <inttypes.h>
#include <stdlib.h>
#include <string.h>

#include "stop.h"

enum { LINE_BYTES = 32 }; /* more than the longest good line has, with an end */

/* A place in a text of lines. */
struct reader {
    const struct file *file;
    size_t at;
    uint32_t line;
};

/* The next line's value, which stands after its key and `=`. It lasts until the next call. */
static const char *value_of(struct reader *reader, const char *key)
{
    static char text[LINE_BYTES];
    const struct file *file = reader->file;
    const uint8_t *start = file->bytes + reader->at;
    const uint8_t *end = memchr(start, '\n', file->length - reader->at);
    size_t key_bytes = strlen(key), bytes = end == NULL ? 0 : (size_t)(end - start);
    reader->line++;
    if (end == NULL || bytes >= LINE_BYTES || bytes <= key_bytes || memcmp(start, key, key_bytes) != 0 || start[key_bytes] != '=')
        stop("%s: line %" PRIu32 " is not %s=", file->name, reader->line, key);
    memcpy(text, start + key_bytes + 1, bytes - key_bytes - 1);
    text[bytes - key_bytes - 1] = '\0';
    reader->at += bytes + 1;
    return text;
}

static void see_end(const struct reader *reader)
{
    if (reader->at != reader->file->length)
        stop("%s: line %" PRIu32 " is left over", reader->file->name, reader->line + 1);
}

static void read_words(struct reader *reader, struct job *job)
{
    uint32_t words = (uint32_t)decimal("words", value_of(reader, "words"), 0, job->memory_bytes / 4);
    for (uint32_t i = 0; i < words; i++) {
        uint32_t word = hexadecimal("w", value_of(reader, "w"));
        for (uint32_t byte = 0; byte < 4; byte++)
            job->memory[4 * i + byte] = (uint8_t)(word >> (24 - 8 * byte));
    }
}

struct job job_of_card(const struct file *file)
{
    struct options options = usual_options((struct limits){.max_memory = CARD_MAX_MEMORY, .max_steps = CARD_MAX_STEPS});
    struct reader reader = {.file = file};
    take_file(&options, file->name);
    take_option(&options, "--cores", value_of(&reader, "cores"));
    take_option(&options, "--memory", value_of(&reader, "memory"));
    take_option(&options, "--entry", value_of(&reader, "entry"));
    take_option(&options, "--sr", value_of(&reader, "sr"));
    take_option(&options, "--steps", value_of(&reader, "steps"));
    take_option(&options, "--schedule", value_of(&reader, "schedule"));
    settle(&options);
    options.job.memory = zeros(options.job.memory_bytes, 1);
    read_words(&reader, &options.job);
    see_end(&reader);
    return options.job;
}

void read_vectors(const struct file *file, uint32_t vectors[OR1K_VECTORS])
{
    static const char *const keys[OR1K_VECTORS] = {"bus", "align", "illegal", "range", "syscall", "trap", "interrupt"};
    struct reader reader = {.file = file};
    for (int i = 0; i < OR1K_VECTORS; i++)
        vectors[i] = hexadecimal(keys[i], value_of(&reader, keys[i]));
    see_end(&reader);
}
