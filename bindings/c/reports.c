/* Prints the tasks or the samples of a stream, as the programs `perf_tasks` and `perf_samples` of the
 * library do, from flat frames alone: reports tasks|samples < STREAM. Of names it prints plain ASCII; a
 * backslash and each other byte become \x and two digits. */
#include <linux/perf_event.h>
#include <stdlib.h>
#include "text.h"

enum { READ = 1, WRITE = 2, EXECUTE = 4, SHARED = 1 };

typedef unsigned long long number;

/* The kernel's marks in a call chain, before addresses of the kernel and of the program. */
static const uint64_t context_kernel = (uint64_t)-128, context_user = (uint64_t)-512;

static void print_name(const uint8_t *bytes, struct ped_span span)
{
    uint32_t i;
    for (i = 0; i < span.len; i++) {
        uint8_t byte = bytes[span.at + i];
        printf(byte < ' ' || byte > '~' || byte == '\\' ? "\\x%02x" : "%c", byte);
    }
    putchar('\n');
}

static void print_digits(const uint8_t *bytes, struct ped_span span)
{
    uint32_t i;
    for (i = 0; i < span.len; i++) {
        printf("%02x", bytes[span.at + i]);
    }
}

static void print_mmap(const uint8_t *bytes, const struct ped_frame *f)
{
    printf("mmap %u %u", (unsigned)f->numbers.mmap.pid, (unsigned)f->numbers.mmap.tid);
    printf(" 0x%llx 0x%llx 0x%llx ", (number)f->numbers.mmap.addr, (number)f->numbers.mmap.len,
           (number)f->numbers.mmap.pgoff);
    print_name(bytes, f->spans.mmap.filename);
}

static void print_mmap2(const uint8_t *bytes, const struct ped_frame *f)
{
    uint64_t prot = f->numbers.mmap2.prot;
    printf("mmap2 %u %u", (unsigned)f->numbers.mmap2.pid, (unsigned)f->numbers.mmap2.tid);
    printf(" 0x%llx 0x%llx 0x%llx ", (number)f->numbers.mmap2.addr, (number)f->numbers.mmap2.len,
           (number)f->numbers.mmap2.pgoff);
    if (f->misc & PERF_RECORD_MISC_MMAP_BUILD_ID) {
        print_digits(bytes, f->spans.mmap2.build_id);
    } else {
        printf("0x%x:0x%x %llu %llu", (unsigned)f->numbers.mmap2.maj, (unsigned)f->numbers.mmap2.min,
               (number)f->numbers.mmap2.ino, (number)f->numbers.mmap2.ino_generation);
    }
    printf(" %c%c%c%c ", prot & READ ? 'r' : '-', prot & WRITE ? 'w' : '-', prot & EXECUTE ? 'x' : '-',
           f->numbers.mmap2.flags & SHARED ? 's' : 'p');
    print_name(bytes, f->spans.mmap2.filename);
}

static void print_namespaces(uint32_t order, const uint8_t *bytes, const struct ped_frame *f)
{
    struct ped_span entries = f->spans.namespaces.namespaces;
    size_t i;
    printf("namespaces %u %u", (unsigned)f->numbers.namespaces.pid,
           (unsigned)f->numbers.namespaces.tid);
    for (i = 0; i + 1 < ped_count(entries); i += 2) {
        printf("%c%llu:0x%llx", i == 0 ? ' ' : ',', (number)ped_number(order, bytes, entries, i),
               (number)ped_number(order, bytes, entries, i + 1));
    }
    putchar('\n');
}

static void print_task(uint32_t order, const uint8_t *bytes, const struct ped_frame *f)
{
    switch (f->read) {
    case PERF_RECORD_MMAP: print_mmap(bytes, f); break;
    case PERF_RECORD_MMAP2: print_mmap2(bytes, f); break;
    case PERF_RECORD_NAMESPACES: print_namespaces(order, bytes, f); break;
    case PERF_RECORD_COMM:
        printf("comm %u %u ", (unsigned)f->numbers.comm.pid, (unsigned)f->numbers.comm.tid);
        print_name(bytes, f->spans.comm.comm);
        break;
    case PERF_RECORD_FORK:
    case PERF_RECORD_EXIT:
        printf("%s %u %u %u %u\n", f->read == PERF_RECORD_FORK ? "fork" : "exit",
               (unsigned)f->numbers.task.pid, (unsigned)f->numbers.task.tid,
               (unsigned)f->numbers.task.ppid, (unsigned)f->numbers.task.ptid);
        break;
    default: break;
    }
}

/* A number that may be absent. */
static void print_if(int present, const char *form, uint64_t value)
{
    if (present) {
        printf(form, (number)value);
    } else {
        putchar('-');
    }
}

static void print_chain(uint32_t order, const uint8_t *bytes, struct ped_span chain)
{
    size_t i;
    for (i = 0; i < ped_count(chain); i++) {
        uint64_t entry = ped_number(order, bytes, chain, i);
        if (entry == context_kernel) {
            printf(" kernel");
        } else if (entry == context_user) {
            printf(" user");
        } else {
            printf(" 0x%llx", (number)entry);
        }
    }
    putchar('\n');
}

static void print_sample(uint32_t order, const uint8_t *bytes, const struct ped_frame *f)
{
    if (f->read != PERF_RECORD_SAMPLE) {
        return;
    }
    print_if((f->present & PERF_SAMPLE_TIME) != 0, "%llu", f->time);
    putchar(' ');
    print_if((f->present & PERF_SAMPLE_CPU) != 0, "%llu", f->cpu);
    putchar(' ');
    print_if((f->present & PERF_SAMPLE_TID) != 0, "%llu", f->pid);
    putchar('/');
    print_if((f->present & PERF_SAMPLE_TID) != 0, "%llu", f->tid);
    putchar(' ');
    print_if((f->present & PERF_SAMPLE_PERIOD) != 0, "%llu", f->numbers.sample.period);
    putchar(' ');
    print_if((f->present & PERF_SAMPLE_ADDR) != 0, "0x%llx", f->numbers.sample.addr);
    putchar(' ');
    print_if((f->present & PERF_SAMPLE_IP) != 0, "0x%llx", f->numbers.sample.ip);
    putchar(':');
    print_chain(order, bytes, f->spans.sample.callchain);
}

/* Returns 0, or 1 if a frame was refused or the last header is cut. */
static int print_report(const struct ped_config *config, const uint8_t *bytes, size_t len, int samples)
{
    struct ped_frame frame;
    int status = 0;
    uint32_t end;
    while ((end = ped_read(config, bytes, len, &frame)) == PED_LIMIT) {
        size_t taken = ped_frame_length(&frame, len);
        if (frame.refusal != PED_ACCEPTED) {
            status = 1;
        } else if (samples) {
            print_sample(config->order, bytes, &frame);
        } else {
            print_task(config->order, bytes, &frame);
        }
        bytes += taken;
        len -= taken;
    }
    return end == PED_DONE ? status : 1;
}

int main(int count, char **words)
{
    struct ped_config config;
    size_t len, taken;
    uint8_t *bytes;
    int status;
    if (count != 2 || (strcmp(words[1], "tasks") != 0 && strcmp(words[1], "samples") != 0)) {
        fputs("usage: reports tasks|samples < STREAM\n", stderr);
        return 2;
    }
    bytes = read_file(stdin, &len);
    if (bytes == NULL || ped_read_attr(bytes, len, PED_LITTLE, &config, &taken) != PED_ACCEPTED) {
        return 2;
    }
    status = print_report(&config, bytes + taken, len - taken, words[1][0] == 's');
    free(bytes);
    return fflush(stdout) == 0 ? status : 3;
}
