#include "program.h"

#include <errno.h>
#include <inttypes.h>
#include <stdio.h>
#include <stdlib.h>
#include <string.h>

#include "stop.h"

enum {
    MAX_FILE = 1 << 26, /* bytes; more than any program for this board */

    /* The ELF header of a 32-bit file, and where its fields stand. */
    HEADER_BYTES = 52,
    CLASS = 4,
    ENCODING = 5,
    TYPE = 16,
    MACHINE = 18,
    ENTRY = 24,
    SEGMENTS_AT = 28,
    SEGMENT_BYTES = 42,
    SEGMENT_COUNT = 44,
    CLASS_32 = 1,
    BIG_ENDIAN_CODE = 2,
    RELOCATABLE = 1,
    EXECUTABLE = 2,
    OPENRISC = 92,

    /* A segment's header. */
    SEGMENT_HEADER_BYTES = 32,
    LOADED = 1
};

/* A segment that is loaded: file bytes at the physical address; at run time it takes up memory from the virtual one on. */
struct segment {
    uint32_t offset;
    uint32_t virtual_address;
    uint32_t physical_address;
    uint32_t file_bytes;
    uint32_t memory_bytes;
};

static uint8_t *grown(uint8_t *bytes, size_t capacity)
{
    uint8_t *more = realloc(bytes, capacity);
    if (more == NULL)
        stop("there is no memory left");
    return more;
}

struct file read_file(const char *name)
{
    FILE *stream = fopen(name, "rb");
    if (stream == NULL)
        stop("%s: could not be read: %s", name, strerror(errno));
    struct file file = {.name = name};
    for (size_t capacity = 1 << 16;; capacity *= 2) {
        file.bytes = grown(file.bytes, capacity);
        file.length += fread(file.bytes + file.length, 1, capacity - file.length, stream);
        if (file.length < capacity)
            break;
        if (capacity >= MAX_FILE)
            stop("%s: has %d bytes or more", name, MAX_FILE);
    }
    if (ferror(stream))
        stop("%s: could not be read: %s", name, strerror(errno));
    fclose(stream);
    return file;
}

bool is_elf(const struct file *file)
{
    return file->length >= 4 && memcmp(file->bytes, "\177ELF", 4) == 0;
}

bool is_card(const struct file *file)
{
    return file->length >= 6 && memcmp(file->bytes, "cores=", 6) == 0;
}

static uint32_t half_at(const uint8_t *bytes)
{
    return (uint32_t)bytes[0] << 8 | bytes[1];
}

uint32_t word_at(const uint8_t *bytes)
{
    return half_at(bytes) << 16 | half_at(bytes + 2);
}

void *zeros(size_t count, size_t size)
{
    void *all = calloc(count, size);
    if (all == NULL)
        stop("there is no memory left");
    return all;
}

/* A linked program for the board, and nothing else. */
static void see_header(const struct file *file)
{
    const uint8_t *header = file->bytes;
    if (file->length < HEADER_BYTES)
        stop("%s: is cut short: an ELF header has %d bytes", file->name, HEADER_BYTES);
    bool is_big = header[ENCODING] == BIG_ENDIAN_CODE;
    uint32_t machine = is_big ? half_at(header + MACHINE) : (uint32_t)header[MACHINE + 1] << 8 | header[MACHINE];
    if (header[CLASS] != CLASS_32 || !is_big || machine != OPENRISC)
        stop("%s: is no program for this board: it is %s-bit, %s-endian, for machine %" PRIu32 ", and not 32-bit, big-endian, for machine %d, OpenRISC",
             file->name, header[CLASS] == CLASS_32 ? "32" : "64", is_big ? "big" : "little", machine, OPENRISC);
    uint32_t type = half_at(header + TYPE);
    if (type == RELOCATABLE)
        stop("%s: is an object file: link it first", file->name);
    if (type != EXECUTABLE)
        stop("%s: is not linked to fixed addresses (ELF type %" PRIu32 ", not %d)", file->name, type, EXECUTABLE);
}

/* Where the segments' headers begin. */
static const uint8_t *segment_headers(const struct file *file)
{
    const uint8_t *header = file->bytes;
    uint64_t at = word_at(header + SEGMENTS_AT), count = half_at(header + SEGMENT_COUNT);
    if (count == 0)
        stop("%s: has no segments", file->name);
    if (half_at(header + SEGMENT_BYTES) != SEGMENT_HEADER_BYTES || at + SEGMENT_HEADER_BYTES * count > file->length)
        stop("%s: is cut short: its segments' headers are not there", file->name);
    return header + at;
}

static struct segment segment_of(const uint8_t *header)
{
    return (struct segment){
        .offset = word_at(header + 4),
        .virtual_address = word_at(header + 8),
        .physical_address = word_at(header + 12),
        .file_bytes = word_at(header + 16),
        .memory_bytes = word_at(header + 20),
    };
}

/* The bytes from address on lie in memory. */
static void see_inside(const struct options *options, const char *name, const char *what, uint32_t address, uint64_t bytes)
{
    uint32_t memory_bytes = options->job.memory_bytes;
    if (address + bytes > memory_bytes)
        stop("%s: %s of %" PRIu64 " bytes at %08" PRIx32 " does not lie in memory, which ends at %08" PRIx32 " (--memory takes up to %" PRIu32 "%s)",
             name, what, bytes, address, memory_bytes, options->limits.max_memory, options->limits.hint);
}

/* Puts a segment into memory; loaded says which bytes of it a segment has put there. */
static void load_segment(const struct options *options, const struct file *file, const struct segment *segment, uint8_t *loaded)
{
    if (segment->file_bytes > segment->memory_bytes || (uint64_t)segment->offset + segment->file_bytes > file->length)
        stop("%s: is cut short: the segment at %08" PRIx32 " is not there whole", file->name, segment->virtual_address);
    see_inside(options, file->name, "a segment", segment->virtual_address, segment->memory_bytes);
    see_inside(options, file->name, "a segment's load image", segment->physical_address, segment->file_bytes);
    if (segment->file_bytes == 0)
        return;
    if (memchr(loaded + segment->physical_address, 1, segment->file_bytes) != NULL)
        stop("%s: two segments lie over one another at %08" PRIx32, file->name, segment->physical_address);
    memset(loaded + segment->physical_address, 1, segment->file_bytes);
    memcpy(options->job.memory + segment->physical_address, file->bytes + segment->offset, segment->file_bytes);
}

/* The file's own entry is an instruction that it has. */
static uint32_t entry_of(const struct options *options, const struct file *file, const uint8_t *loaded)
{
    uint32_t entry = word_at(file->bytes + ENTRY);
    if (entry % 4 != 0)
        stop("%s: its entry %08" PRIx32 " is no multiple of 4", file->name, entry);
    if (entry >= options->job.memory_bytes || !loaded[entry])
        stop("%s: its entry %08" PRIx32 " lies in no segment; --entry names another", file->name, entry);
    return entry;
}

static void load_elf(struct options *options, const struct file *file)
{
    see_header(file);
    if (options->has_at)
        stop("--at is for a flat binary, and %s is an ELF file, which says itself where it is loaded", file->name);
    const uint8_t *header = segment_headers(file);
    uint32_t count = half_at(file->bytes + SEGMENT_COUNT);
    uint8_t *loaded = zeros(options->job.memory_bytes, 1);
    for (uint32_t i = 0; i < count; i++, header += SEGMENT_HEADER_BYTES) {
        struct segment segment = segment_of(header);
        if (word_at(header) == LOADED && segment.memory_bytes > 0)
            load_segment(options, file, &segment, loaded);
    }
    if (!options->has_entry)
        options->job.entry = entry_of(options, file, loaded);
    free(loaded);
}

static void load_flat(struct options *options, const struct file *file)
{
    uint32_t at = options->at, entry = options->job.entry;
    if (is_card(file))
        stop("%s: is a card already", file->name);
    if (!options->has_entry || !options->has_at)
        stop("%s: is no ELF file; a flat binary needs --at and --entry, since it does not say where it lies and starts", file->name);
    if (file->length == 0)
        stop("%s: is empty", file->name);
    see_inside(options, file->name, "a flat binary", at, file->length);
    if (entry < at || entry - at >= file->length)
        stop("%s: the entry %08" PRIx32 " is not in the %zu bytes at %08" PRIx32, file->name, entry, file->length, at);
    memcpy(options->job.memory + at, file->bytes, file->length);
}

void load_program(struct options *options, const struct file *file)
{
    options->job.memory = zeros(options->job.memory_bytes, 1);
    if (is_elf(file))
        load_elf(options, file);
    else
        load_flat(options, file);
}
