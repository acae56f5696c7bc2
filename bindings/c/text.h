/* The text of a run, as the program `perfrec` prints it (docs/FORMATS.md). */
#ifndef TEXT_H
#define TEXT_H

#include <stdio.h>
#include "perf_event_data.h"

#ifdef __cplusplus
extern "C" {
#endif

/* What is to be printed of a stream. */
struct command {
    uint32_t order;
    uint64_t limit; /* at most so many frames */
    int with_attr;  /* whether an attribute is in front of the frames */
};

/* The byte order of this name, little, big or native. Returns 0 for another word. */
int read_order(const char *word, uint32_t *order);

/* The command of these words, little|big|native LIMIT [attr]. Returns 0 for other words. */
int read_command(int count, char **words, struct command *command);

/* The configuration of a command, which for `attr` is that of the attribute in front; `taken` is how many
 * bytes that has. Returns why it is refused, or PED_ACCEPTED. */
uint32_t read_config(const struct command *command, const uint8_t *bytes, size_t len,
                     struct ped_config *config, size_t *taken);

/* Prints the text of a run, and returns the status of `perfrec`. */
int print_run(FILE *out, const struct command *command, const uint8_t *bytes, size_t len);

/* Prints what the line of a frame has after its number: type, misc and size, and its record or why it is
 * refused. The frame begins at `bytes`. */
void print_answer(FILE *out, uint32_t order, const uint8_t *bytes, const struct ped_frame *frame);

/* All bytes of a file, to be freed; NULL if it cannot be read. */
uint8_t *read_file(FILE *file, size_t *len);

#ifdef __cplusplus
}
#endif
#endif
