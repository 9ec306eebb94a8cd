/* Writes the run card of a program: tools/card --help. */
#include <inttypes.h>
#include <stdio.h>
#include <stdlib.h>
#include <string.h>

#include "program.h"
#include "stop.h"

const char *const tool = "card";

static struct options read_arguments(char **arguments)
{
    struct options options = usual_options((struct limits){
        .max_memory = CARD_MAX_MEMORY,
        .max_steps = CARD_MAX_STEPS,
        .usual_steps = CARD_MAX_STEPS,
        .hint = "; tools/trace runs larger programs",
    });
    for (; *arguments != NULL; arguments++) {
        if (strncmp(*arguments, "--", 2) != 0)
            take_file(&options, *arguments);
        else if (take_option(&options, arguments[0], arguments[1]))
            arguments++;
        else
            stop("%s: there is no such option; --help tells more", *arguments);
    }
    settle(&options);
    return options;
}

/* Up to the last word that is not 0: the rest of memory is 0 without being said. */
static uint32_t words_used(const struct job *job)
{
    uint32_t words = job->memory_bytes / 4;
    while (words > 0 && word_at(job->memory + 4 * (words - 1)) == 0)
        words--;
    return words;
}

static void write_card(const struct job *job)
{
    uint32_t words = words_used(job);
    printf("cores=%" PRIu32 "\nmemory=%" PRIu32 "\n", job->cores, job->memory_bytes);
    printf("entry=%08" PRIx32 "\nsr=%08" PRIx32 "\n", job->entry, job->sr);
    printf("steps=%" PRIu64 "\nschedule=%s\nwords=%" PRIu32 "\n", job->steps, job->schedule, words);
    for (uint32_t i = 0; i < words; i++)
        printf("w=%08" PRIx32 "\n", word_at(job->memory + 4 * i));
}

int main(int argc, char **argv)
{
    (void)argc;
    struct options options = read_arguments(argv + 1);
    struct file file = read_file(options.file);
    load_program(&options, &file);
    write_card(&options.job);
    see_written();
    return 0;
}
