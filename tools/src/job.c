#include "job.h"

#include <inttypes.h>
#include <stdlib.h>
#include <string.h>

#include "or1k.h"
#include "stop.h"

enum { DECIMAL_DIGITS = 12, HEXADECIMAL_DIGITS = 8 };

uint64_t decimal(const char *option, const char *text, uint64_t low, uint64_t high)
{
    size_t digits = strspn(text, "0123456789");
    if (digits == 0 || digits > DECIMAL_DIGITS || text[digits] != '\0')
        stop("%s %s: is no decimal number of up to %d digits", option, text, DECIMAL_DIGITS);
    uint64_t number = strtoull(text, NULL, 10);
    if (number < low || number > high)
        stop("%s %s: is not from %" PRIu64 " to %" PRIu64, option, text, low, high);
    return number;
}

uint32_t hexadecimal(const char *option, const char *text)
{
    const char *start = strncmp(text, "0x", 2) == 0 ? text + 2 : text;
    size_t digits = strspn(start, "0123456789abcdefABCDEF");
    if (digits == 0 || digits > HEXADECIMAL_DIGITS || start[digits] != '\0')
        stop("%s %s: is no hexadecimal number of up to %d digits", option, text, HEXADECIMAL_DIGITS);
    return (uint32_t)strtoul(start, NULL, 16);
}

static uint32_t multiple_of_4(const char *option, const char *text, uint32_t number)
{
    if (number % 4 != 0)
        stop("%s %s: is no multiple of 4", option, text);
    return number;
}

static uint32_t status(const char *option, const char *text)
{
    const uint32_t allowed = OR1K_SR_SM | OR1K_SR_TEE | OR1K_SR_IEE | OR1K_SR_F | OR1K_SR_CY | OR1K_SR_OV | OR1K_SR_OVE | OR1K_SR_DSX | OR1K_SR_FO;
    uint32_t sr = hexadecimal(option, text);
    if ((sr & ~allowed) != 0 || (sr & OR1K_SR_FO) == 0)
        stop("%s %s: SR has bit 15 and no bits but those of %08" PRIx32, option, text, allowed);
    return sr;
}

static void take_schedule(struct job *job, const char *option, const char *text)
{
    size_t digits = strlen(text);
    if (digits == 0 || digits > MAX_DIGITS || strspn(text, "0123") != digits)
        stop("%s %s: is not 1 to %d digits from 0 to 3", option, text, MAX_DIGITS);
    memcpy(job->schedule, text, digits + 1);
}

struct options usual_options(struct limits limits)
{
    return (struct options){
        .limits = limits,
        .job = {.cores = 1, .memory_bytes = limits.max_memory, .sr = OR1K_SR_RESET, .steps = limits.usual_steps},
    };
}

bool is_option(const char *name, const char *option, const char *value)
{
    if (strcmp(name, option) != 0)
        return false;
    if (value == NULL)
        stop("%s needs a value", name);
    return true;
}

bool take_option(struct options *options, const char *name, const char *value)
{
    struct job *job = &options->job;
    if (is_option(name, "--steps", value)) {
        job->steps = decimal(name, value, 0, options->limits.max_steps);
        options->has_steps = true;
        return true;
    }
    if (is_option(name, "--cores", value))
        job->cores = (uint32_t)decimal(name, value, 1, OR1K_MAX_CORES);
    else if (is_option(name, "--memory", value))
        job->memory_bytes = multiple_of_4(name, value, (uint32_t)decimal(name, value, OR1K_MIN_MEMORY, options->limits.max_memory));
    else if (is_option(name, "--schedule", value))
        take_schedule(job, name, value);
    else if (is_option(name, "--entry", value)) {
        job->entry = multiple_of_4(name, value, hexadecimal(name, value));
        options->has_entry = true;
    } else if (is_option(name, "--at", value)) {
        options->at = hexadecimal(name, value);
        options->has_at = true;
    } else if (is_option(name, "--sr", value))
        job->sr = status(name, value);
    else
        return false;
    options->other = name;
    return true;
}

void take_file(struct options *options, const char *name)
{
    if (options->file != NULL)
        stop("two files are named, %s and %s", options->file, name);
    options->file = name;
}

void settle(struct options *options)
{
    struct job *job = &options->job;
    if (options->file == NULL)
        stop("no file is named; --help tells more");
    if (job->schedule[0] == '\0')
        for (uint32_t core = 0; core < job->cores; core++)
            job->schedule[core] = (char)('0' + core);
    for (const char *digit = job->schedule; *digit != '\0'; digit++)
        if ((uint32_t)(*digit - '0') >= job->cores)
            stop("--schedule %s: there is no core %c with --cores %" PRIu32, job->schedule, *digit, job->cores);
}
