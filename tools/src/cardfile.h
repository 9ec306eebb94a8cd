/* A card and a file of vectors as the runner has accepted them: what they say is read, and their limits are not tested again. */
#ifndef CARDFILE_H
#define CARDFILE_H

#include "or1k.h"
#include "program.h"

/* The card's job, with its memory. */
struct job job_of_card(const struct file *file);

/* The list in the file, in the order of the causes. */
void read_vectors(const struct file *file, uint32_t vectors[OR1K_VECTORS]);

#endif
