/* Prints how many frames a stream on standard input has, how many of them were refused, and a checksum
 * of the others, as the program `perf_count` of the library does, with the same arguments and statuses:
 * from flat frames alone. */
#include <linux/perf_event.h>
#include <stdlib.h>
#include <string.h>
#include "text.h"

static const char usage[] =
    "usage: perf_count little|big|native [attr] < STREAM\n"
    "Prints how many frames there are, how many of them were refused, and a checksum of the others.\n"
    "With attr the stream begins with an attribute, as examples/perf-data-to-stream.sh writes it.\n"
    "Status: 0 if no frame was refused, 1 if one was or on an error, 2 for other arguments.\n";

/* How many frames are read at a time. */
enum { FRAMES = 64 };

struct counts {
    uint64_t records, refused, checksum;
};

/* The sum of the first numbers of a record. */
static uint64_t sum_of(const struct ped_frame *f, int count)
{
    uint64_t sum = 0;
    int i;
    for (i = 0; i < count; i++) {
        sum += f->numbers.all[i];
    }
    return sum;
}

/* What a sample adds; what it does not have is 0. */
static uint64_t sum_of_sample(uint32_t order, const uint8_t *bytes, const struct ped_frame *f)
{
    struct ped_span chain = f->spans.sample.callchain;
    uint64_t sum = f->numbers.sample.ip + f->pid + f->tid + f->time + f->numbers.sample.period;
    size_t i;
    for (i = 0; i < ped_count(chain); i++) {
        sum += ped_number(order, bytes, chain, i);
    }
    return sum + f->spans.sample.raw.len;
}

/* What a record adds to the checksum besides its type and its size. */
static uint64_t sum_of_record(uint32_t order, const uint8_t *bytes, const struct ped_frame *f)
{
    switch (f->read) {
    case PERF_RECORD_MMAP: return sum_of(f, 5) + f->spans.mmap.filename.len;
    case PERF_RECORD_MMAP2: return sum_of(f, 5) + f->spans.mmap2.filename.len;
    case PERF_RECORD_COMM: return sum_of(f, 2) + f->spans.comm.comm.len;
    case PERF_RECORD_EXIT:
    case PERF_RECORD_FORK: return sum_of(f, 5);
    case PERF_RECORD_LOST: return sum_of(f, 2);
    case PERF_RECORD_LOST_SAMPLES: return sum_of(f, 1);
    case PERF_RECORD_SAMPLE: return sum_of_sample(order, bytes, f);
    default: return 0;
    }
}

/* Counts some frames, the first of which begins at `bytes`. */
static void count_some(struct counts *counts, uint32_t order, const uint8_t *bytes, size_t len,
                       const struct ped_frame *frames, size_t count)
{
    size_t i, taken;
    for (i = 0; i < count; i++) {
        const struct ped_frame *f = &frames[i];
        if (f->refusal == PED_ACCEPTED) {
            counts->checksum += f->type + (uint64_t)f->size + sum_of_record(order, bytes, f);
        } else {
            counts->refused++;
        }
        taken = ped_frame_length(f, len);
        bytes += taken;
        len -= taken;
    }
    counts->records += count;
}

/* Counts all frames, and returns how they ended. */
static uint32_t count_frames(struct counts *counts, const struct ped_config *config,
                             const uint8_t *bytes, size_t len)
{
    struct ped_frame frames[FRAMES];
    struct ped_ended ended = {0, 0, PED_LIMIT};
    while (ended.how == PED_LIMIT) {
        ended = ped_read_many(config, bytes, len, frames, FRAMES);
        count_some(counts, config->order, bytes, len, frames, ended.count);
        bytes += ended.taken;
        len -= ended.taken;
    }
    return ended.how;
}

/* Prints the counts of a stream, and returns the status. */
static int print_counts(FILE *out, const struct command *command, const uint8_t *bytes, size_t len)
{
    struct ped_config config;
    struct counts counts = {0, 0, 0};
    size_t taken;
    uint32_t end;
    if (read_config(command, bytes, len, &config, &taken) != PED_ACCEPTED) {
        return 1;
    }
    end = count_frames(&counts, &config, bytes + taken, len - taken);
    fprintf(out, "%llu %llu %llu\n", (unsigned long long)counts.records,
            (unsigned long long)counts.refused, (unsigned long long)counts.checksum);
    return counts.refused > 0 || end != PED_DONE;
}

/* The command of these words, little|big|native [attr]. Returns 0 for other words. */
static int read_words(int count, char **words, struct command *command)
{
    command->limit = UINT64_MAX;
    command->with_attr = count == 2 && strcmp(words[1], "attr") == 0;
    return (count == 1 || command->with_attr) && read_order(words[0], &command->order);
}

/* Prints the usage, on standard output for `--help` alone, and returns the status. */
static int print_usage(int count, char **words)
{
    int is_asked = count == 1 && strcmp(words[0], "--help") == 0;
    fputs(usage, is_asked ? stdout : stderr);
    return !is_asked ? 2 : fflush(stdout) != 0;
}

int main(int count, char **words)
{
    struct command command;
    size_t len;
    uint8_t *bytes;
    int status;
    if (!read_words(count - 1, words + 1, &command)) {
        return print_usage(count - 1, words + 1);
    }
    bytes = read_file(stdin, &len);
    if (bytes == NULL || ferror(stdin)) {
        return 1;
    }
    status = print_counts(stdout, &command, bytes, len);
    free(bytes);
    return fflush(stdout) == 0 ? status : 1;
}
