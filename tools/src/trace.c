/* Runs a card or a program entry by entry, and says what happened: tools/trace --help. */
#include <errno.h>
#include <inttypes.h>
#include <stdio.h>
#include <stdlib.h>
#include <string.h>

#include "cardfile.h"
#include "kinds.h"
#include "or1k.h"
#include "stop.h"

const char *const tool = "trace";

enum {
    MAX_RANGES = 16,
    MAX_BEFORE = 1000,
    KEPT = MAX_BEFORE + 1,
    USUAL_SHOWN = 8,
    USUAL_STEPS = 10000000,
    STEPS_BETWEEN_SIGNS = 1 << 24, /* of life, in a long run */
    WORDS_IN_LINE = 8
};

#define MAX_STEPS UINT64_C(999999999999)

static const char *const causes[OR1K_VECTORS] = {"bus", "alignment", "illegal", "range", "syscall", "trap", "interrupt"};

/* A part of memory to print, from and up to, rounded to words. */
struct range {
    uint32_t from;
    uint32_t to;
};

/* What is asked for. */
struct request {
    struct options options;
    uint64_t exceptions; /* how many are shown */
    uint64_t before;     /* how many steps before each of them */
    uint64_t often;      /* how many addresses */
    struct range ranges[MAX_RANGES];
    int range_count;
};

/* An instruction as an entry finds it. */
struct fetch {
    uint64_t step;
    uint32_t core;
    uint32_t pc;
    uint32_t delay;
    bool is_inside; /* memory has a word there */
    uint32_t word;
};

/* A run and what has been seen of it. */
struct trace {
    struct job job;
    uint32_t vectors[OR1K_VECTORS];
    uint32_t states[OR1K_MAX_CORES * OR1K_STATE_WORDS];
    struct request request;
    struct fetch last[KEPT]; /* the instructions of the last steps, that of step n at n % KEPT */
    uint64_t printed;        /* the last step of them that was printed */
    uint64_t step;
    uint64_t executed;
    uint64_t raised;
    uint64_t by_cause[OR1K_VECTORS];
    uint64_t *times; /* of each memory word: how often it was fetched, and what it was the last time */
    uint32_t *words;
};

static struct range range_of(const char *option, const char *text)
{
    char from[16];
    size_t digits = strcspn(text, "-");
    if (digits == 0 || digits >= sizeof from || text[digits] != '-' || text[digits + 1] == '\0')
        stop("%s %s: is no range FROM-TO of addresses", option, text);
    memcpy(from, text, digits);
    from[digits] = '\0';
    struct range range = {.from = hexadecimal(option, from) & ~UINT32_C(3), .to = hexadecimal(option, text + digits + 1)};
    if (range.from >= range.to)
        stop("%s %s: has nothing in it", option, text);
    return range;
}

static void take_range(struct request *request, const char *option, const char *text)
{
    if (request->range_count == MAX_RANGES)
        stop("%s: there are more than %d ranges", option, MAX_RANGES);
    request->ranges[request->range_count++] = range_of(option, text);
}

static void take_argument(struct request *request, const char *name, const char *value)
{
    if (is_option(name, "--exceptions", value))
        request->exceptions = decimal(name, value, 0, MAX_STEPS);
    else if (is_option(name, "--before", value))
        request->before = decimal(name, value, 0, MAX_BEFORE);
    else if (is_option(name, "--often", value))
        request->often = decimal(name, value, 0, MAX_STEPS);
    else if (is_option(name, "--dump", value))
        take_range(request, name, value);
    else if (!take_option(&request->options, name, value))
        stop("%s: there is no such option; --help tells more", name);
}

static struct request read_arguments(char **arguments)
{
    struct request request = {
        .options = usual_options((struct limits){.max_memory = OR1K_MAX_MEMORY, .max_steps = MAX_STEPS, .usual_steps = USUAL_STEPS, .hint = ""}),
        .exceptions = USUAL_SHOWN,
        .often = USUAL_SHOWN,
    };
    for (; *arguments != NULL; arguments++) {
        if (strncmp(*arguments, "--", 2) == 0) {
            take_argument(&request, arguments[0], arguments[1]);
            arguments++;
        } else
            take_file(&request.options, *arguments);
    }
    settle(&request.options);
    return request;
}

static struct job job_of(struct request *request)
{
    struct file file = read_file(request->options.file);
    if (!is_card(&file)) {
        load_program(&request->options, &file);
        return request->options.job;
    }
    if (request->options.other != NULL)
        stop("%s is for a program: the card %s says that itself", request->options.other, file.name);
    struct job job = job_of_card(&file);
    if (request->options.has_steps)
        job.steps = request->options.job.steps;
    return job;
}

static bool is_there(const char *name)
{
    FILE *stream = fopen(name, "rb");
    if (stream == NULL)
        return errno != ENOENT;
    fclose(stream);
    return true;
}

/* The file named vectors where the tool is started, as the runner takes it, or the papers' list. */
static void choose_vectors(uint32_t vectors[OR1K_VECTORS])
{
    static const uint32_t usual[OR1K_VECTORS] = OR1K_DEFAULT_VECTORS;
    if (is_there("vectors")) {
        struct file file = read_file("vectors");
        read_vectors(&file, vectors);
    } else
        memcpy(vectors, usual, sizeof usual);
}

static struct trace *begin(struct request request)
{
    struct trace *trace = zeros(1, sizeof *trace);
    trace->job = job_of(&request);
    trace->request = request;
    choose_vectors(trace->vectors);
    for (uint32_t core = 0; core < trace->job.cores; core++) {
        uint32_t *state = trace->states + core * OR1K_STATE_WORDS;
        or1k_reset(state, trace->job.entry);
        state[OR1K_SR] = trace->job.sr;
    }
    trace->times = zeros(trace->job.memory_bytes / 4, sizeof *trace->times);
    trace->words = zeros(trace->job.memory_bytes / 4, sizeof *trace->words);
    return trace;
}

static struct fetch fetch_of(const struct trace *trace, uint32_t core)
{
    const uint32_t *state = trace->states + core * OR1K_STATE_WORDS;
    struct fetch fetch = {.step = trace->step, .core = core, .pc = state[OR1K_PC], .delay = state[OR1K_DELAY]};
    fetch.is_inside = fetch.pc < trace->job.memory_bytes;
    if (fetch.is_inside)
        fetch.word = word_at(trace->job.memory + fetch.pc);
    return fetch;
}

static void print_place(const char *what, const struct fetch *fetch)
{
    printf("%s step=%" PRIu64 " core=%" PRIu32 " pc=%08" PRIx32 " delay=%" PRIu32, what, fetch->step, fetch->core, fetch->pc, fetch->delay);
}

static void print_instruction(const struct fetch *fetch)
{
    if (fetch->is_inside)
        printf(" word=%08" PRIx32 " %s\n", fetch->word, mnemonic(or1k_decode(fetch->word)));
    else
        printf(" word=none\n");
}

/* The cause whose vector the core has gone to: no two are equal. */
static int cause_of(const struct trace *trace, uint32_t pc)
{
    for (int cause = 0; cause < OR1K_VECTORS; cause++)
        if (trace->vectors[cause] == pc)
            return cause;
    stop("step %" PRIu64 ": no vector is %08" PRIx32, trace->step, pc);
}

/* The steps before this one that are asked for and were not printed before. */
static void print_before(struct trace *trace)
{
    uint64_t count = trace->step - 1 - trace->printed;
    if (count > trace->request.before)
        count = trace->request.before;
    for (uint64_t step = trace->step - count; step < trace->step; step++) {
        const struct fetch *fetch = &trace->last[step % KEPT];
        if (fetch->step != step)
            continue; /* a halted core's */
        print_place("before", fetch);
        print_instruction(fetch);
    }
    trace->printed = trace->step;
}

static void see_exception(struct trace *trace, const struct fetch *fetch)
{
    const uint32_t *state = trace->states + fetch->core * OR1K_STATE_WORDS;
    int cause = cause_of(trace, state[OR1K_PC]);
    trace->by_cause[cause]++;
    if (trace->raised++ >= trace->request.exceptions)
        return;
    print_before(trace);
    print_place("exception", fetch);
    printf(" cause=%s epcr=%08" PRIx32 " eear=%08" PRIx32, causes[cause], state[OR1K_EPCR], state[OR1K_EEAR]);
    printf(" r1=%08" PRIx32 " r9=%08" PRIx32, state[1], state[9]);
    print_instruction(fetch);
}

static void see_halt(const struct fetch *fetch)
{
    print_place("halted", fetch);
    print_instruction(fetch);
}

/* One entry of the schedule. All lines are low, so that a running core inside memory fetches. Neither a card nor a program has linked cores, so that no
 * core halts but the entry's. */
static void run_entry(struct trace *trace, uint8_t core)
{
    const uint32_t *state = trace->states + core * OR1K_STATE_WORDS;
    const uint32_t levels[1] = {0};
    if (state[OR1K_MODE] != OR1K_RUNNING)
        return;
    struct fetch fetch = fetch_of(trace, core);
    trace->last[trace->step % KEPT] = fetch;
    uint64_t answer = or1k_plain_run(trace->job.memory, trace->job.memory_bytes, trace->states, trace->job.cores * OR1K_STATE_WORDS, &core, 1, levels, 1,
                                     OR1K_NO_LIMIT, trace->vectors, OR1K_VECTORS);
    if (or1k_refusal(answer) != OR1K_ACCEPTED)
        stop("refused=%" PRIu32, or1k_refusal(answer));
    trace->executed += or1k_executed(answer);
    if (fetch.is_inside) {
        trace->times[fetch.pc / 4]++;
        trace->words[fetch.pc / 4] = fetch.word;
    }
    if (or1k_raised(answer) != 0)
        see_exception(trace, &fetch);
    if (state[OR1K_MODE] != OR1K_RUNNING)
        see_halt(&fetch);
}

static bool is_running(const struct trace *trace)
{
    for (uint32_t core = 0; core < trace->job.cores; core++)
        if (trace->states[core * OR1K_STATE_WORDS + OR1K_MODE] == OR1K_RUNNING)
            return true;
    return false;
}

/* Up to the last step, or until no core runs any more. */
static void run_all(struct trace *trace)
{
    const char *digits = trace->job.schedule;
    size_t count = strlen(digits);
    while (trace->step < trace->job.steps && is_running(trace)) {
        uint8_t core = (uint8_t)(digits[trace->step % count] - '0');
        trace->step++;
        run_entry(trace, core);
        if (trace->step % STEPS_BETWEEN_SIGNS == 0)
            fprintf(stderr, "%s: %" PRIu64 " steps\n", tool, trace->step);
    }
}

static void print_running(const struct trace *trace)
{
    for (uint32_t core = 0; core < trace->job.cores; core++) {
        struct fetch next = fetch_of(trace, core);
        if (trace->states[core * OR1K_STATE_WORDS + OR1K_MODE] != OR1K_RUNNING)
            continue;
        print_place("running", &next);
        print_instruction(&next);
    }
}

/* The word that was fetched most often, of those not yet printed; the lowest of equals. */
static uint32_t most_often(const struct trace *trace)
{
    uint32_t best = 0;
    for (uint32_t i = 1; i < trace->job.memory_bytes / 4; i++)
        if (trace->times[i] > trace->times[best])
            best = i;
    return best;
}

static void print_often(struct trace *trace)
{
    for (uint64_t i = 0; i < trace->request.often; i++) {
        uint32_t best = most_often(trace);
        if (trace->times[best] == 0)
            return;
        struct fetch fetch = {.pc = 4 * best, .is_inside = true, .word = trace->words[best]};
        printf("often times=%" PRIu64 " pc=%08" PRIx32, trace->times[best], fetch.pc);
        print_instruction(&fetch);
        trace->times[best] = 0;
    }
}

static void print_range(const struct trace *trace, struct range range)
{
    for (uint32_t at = range.from; at < range.to; at += 4) {
        uint32_t place = (at - range.from) / 4 % WORDS_IN_LINE;
        if (place == 0)
            printf("memory %08" PRIx32, at);
        printf(" %08" PRIx32, word_at(trace->job.memory + at));
        if (place == WORDS_IN_LINE - 1 || at + 4 >= range.to)
            printf("\n");
    }
}

static void print_ranges(const struct trace *trace)
{
    for (int i = 0; i < trace->request.range_count; i++)
        print_range(trace, trace->request.ranges[i]);
}

/* Before the run, which may be long. */
static void see_ranges(const struct trace *trace)
{
    for (int i = 0; i < trace->request.range_count; i++)
        if (trace->request.ranges[i].to > trace->job.memory_bytes)
            stop("--dump %08" PRIx32 "-%08" PRIx32 ": memory ends at %08" PRIx32, trace->request.ranges[i].from, trace->request.ranges[i].to, trace->job.memory_bytes);
}

static void print_causes(const struct trace *trace)
{
    if (trace->raised == 0)
        return;
    printf("causes");
    for (int cause = 0; cause < OR1K_VECTORS; cause++)
        if (trace->by_cause[cause] != 0)
            printf(" %s=%" PRIu64, causes[cause], trace->by_cause[cause]);
    printf("\n");
}

/* The counts and the states, as the runner prints them. */
static void print_result(const struct trace *trace)
{
    printf("executed=%" PRIu64 "\nraised=%" PRIu64 "\n", trace->executed, trace->raised);
    for (uint32_t core = 0; core < trace->job.cores; core++) {
        const uint32_t *state = trace->states + core * OR1K_STATE_WORDS;
        printf("core=%" PRIu32 " mode=%" PRIu32 " pc=%08" PRIx32, core, state[OR1K_MODE], state[OR1K_PC]);
        printf(" delay=%" PRIu32 " sr=%08" PRIx32 "\n", state[OR1K_DELAY], state[OR1K_SR]);
        for (int i = 0; i < OR1K_REGISTERS; i++)
            if (state[i] != 0)
                printf("r%d=%08" PRIx32 "\n", i, state[i]);
    }
    printf("end\n");
}

int main(int argc, char **argv)
{
    (void)argc;
    struct trace *trace = begin(read_arguments(argv + 1));
    see_ranges(trace);
    run_all(trace);
    print_running(trace);
    print_causes(trace);
    print_often(trace);
    print_ranges(trace);
    print_result(trace);
    see_written();
    return 0;
}
