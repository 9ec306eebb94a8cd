/* Decodes words (eight hexadecimal digits) and encodes entries (sixteen), one line for each argument. */
#include <inttypes.h>
#include <stdio.h>
#include <stdlib.h>
#include <string.h>

#include "or1k.h"

enum { WORD_DIGITS = 8, ENTRY_DIGITS = 16 };

static void print_answer(const char *key, uint64_t answer)
{
    if (answer == OR1K_NO_WORD)
        printf(" refused=8\n");
    else
        printf(" %s=%08" PRIx64 "\n", key, answer);
}

static void print_word(uint32_t word)
{
    uint64_t entry = or1k_decode(word);
    printf("word=%08" PRIx32 " entry=%016" PRIx64, word, entry);
    print_answer("encoded", or1k_encode(entry));
}

static void print_entry(uint64_t entry)
{
    printf("entry=%016" PRIx64, entry);
    print_answer("word", or1k_encode(entry));
}

int main(int argc, char **argv)
{
    for (int i = 1; i < argc; i++) {
        const char *text = argv[i];
        size_t digits = strlen(text);
        if (strspn(text, "0123456789abcdefABCDEF") != digits || (digits != WORD_DIGITS && digits != ENTRY_DIGITS)) {
            fprintf(stderr, "words: '%s' is neither a word of 8 nor an entry of 16 hexadecimal digits\n", text);
            return 2;
        }
        uint64_t number = strtoull(text, NULL, 16);
        if (digits == WORD_DIGITS)
            print_word((uint32_t)number);
        else
            print_entry(number);
    }
    return 0;
}
