/* Reads the ring of an event of this process while it runs, user space only: page faults, forks, names
 * and mappings that it makes itself. Status 0 only if each of them is seen or counted as lost, and a
 * frame wrapped round the end of the ring; 77 if the kernel forbids it here, or if the library has no
 * flat frames of samples and all else is seen. */
#define _GNU_SOURCE
#include <linux/perf_event.h>
#include <stdio.h>
#include <stdlib.h>
#include <sys/ioctl.h>
#include <sys/mman.h>
#include <sys/prctl.h>
#include <sys/syscall.h>
#include <sys/wait.h>
#include <unistd.h>
#include "perf_event_data.h"

enum { PAGES = 8, ROUNDS = 200, TOUCHED = 16, SKIPPED = 77 };

static const char name[] = "live-reader";

/* What was done, or seen of it. */
struct work {
    size_t pages, forks, names, mappings;
};

struct ring {
    int event;
    size_t page_size, size; /* in bytes; the size is that of the data */
    struct perf_event_mmap_page *control;
    const uint8_t *data;
    uint64_t id, tail;
    struct ped_config config;
    uint8_t copy[65536]; /* of a frame that wraps */
};

struct seen {
    struct work work;
    size_t frames, wrapped, refused, others;
    uint64_t lost;
};

static struct perf_event_attr attribute(void)
{
    struct perf_event_attr attr;
    memset(&attr, 0, sizeof attr);
    attr.type = PERF_TYPE_SOFTWARE;
    attr.config = PERF_COUNT_SW_PAGE_FAULTS;
    attr.size = sizeof attr;
    attr.sample_period = 1;
    attr.disabled = 1;
    attr.exclude_kernel = 1;
    attr.exclude_hv = 1;
    attr.exclude_callchain_kernel = 1;
    attr.mmap = 1;
    attr.mmap2 = 1;
    attr.comm = 1;
    attr.task = 1;
    attr.sample_id_all = 1;
    attr.sample_type = PERF_SAMPLE_IDENTIFIER | PERF_SAMPLE_IP | PERF_SAMPLE_TID | PERF_SAMPLE_TIME
                       | PERF_SAMPLE_ADDR | PERF_SAMPLE_CPU | PERF_SAMPLE_PERIOD
                       | PERF_SAMPLE_CALLCHAIN | PERF_SAMPLE_READ;
    attr.read_format = PERF_FORMAT_GROUP | PERF_FORMAT_ID;
    return attr;
}

/* Opens the event and maps its ring. Returns 0 if the kernel forbids it, with a message. */
static int open_ring(struct ring *ring)
{
    struct perf_event_attr attr = attribute();
    ring->page_size = (size_t)sysconf(_SC_PAGESIZE);
    ring->size = PAGES * ring->page_size;
    ring->config = ped_config_of(&attr);
    ring->event = (int)syscall(SYS_perf_event_open, &attr, 0, -1, -1, 0ul);
    if (ring->event < 0) {
        perror("live: perf_event_open");
        return 0;
    }
    ring->control = mmap(NULL, ring->size + ring->page_size, PROT_READ | PROT_WRITE, MAP_SHARED,
                         ring->event, 0);
    if (ring->control == MAP_FAILED) {
        perror("live: mmap of the ring");
        return 0;
    }
    ring->data = (const uint8_t *)ring->control + ring->page_size;
    return ioctl(ring->event, PERF_EVENT_IOC_ID, &ring->id) == 0
           && ioctl(ring->event, PERF_EVENT_IOC_ENABLE, 0) == 0;
}

/* Reads the next frame, of `unread` bytes that are there. Returns where its spans count from, or NULL. */
static const uint8_t *read_next(struct ring *ring, size_t unread, struct ped_frame *frame, size_t *wrapped)
{
    size_t at = ring->tail % ring->size, first = ring->size - at;
    struct ped_split_end end;
    first = unread < first ? unread : first;
    end = ped_read_split(&ring->config, ring->data + at, first, ring->data, unread - first, ring->copy,
                         sizeof ring->copy, frame);
    *wrapped += end.at;
    if (end.how != PED_LIMIT) {
        return NULL;
    }
    return end.at == 1 ? ring->copy : ring->data + at;
}

static int is_text(const uint8_t *bytes, struct ped_span span, const char *text)
{
    return span.len == strlen(text) && memcmp(bytes + span.at, text, span.len) == 0;
}

/* Counts a sample: its fields are those of the event, and its address is in a page of `pages`. */
static void see_sample(struct seen *seen, const struct ring *ring, const uint8_t *bytes,
                       const struct ped_frame *f, uint64_t pages)
{
    struct ped_span values = f->spans.sample.values;
    if (f->pid != (uint32_t)getpid() || ped_count(values) != 2 || f->numbers.sample.count != 1
        || ped_number(PED_LITTLE, bytes, values, 1) != ring->id || f->numbers.sample.period != 1) {
        seen->others++;
    }
    if (f->numbers.sample.addr - pages < TOUCHED * ring->page_size) {
        seen->work.pages++;
    }
}

static void see_frame(struct seen *seen, const struct ring *ring, const uint8_t *bytes,
                      const struct ped_frame *f, uint64_t pages)
{
    seen->frames++;
    if (f->refusal != PED_ACCEPTED) {
        fprintf(stderr, "live: type %u refused: %s\n", f->type, ped_message(f));
        seen->refused++;
        return;
    }
    seen->others += f->id != ring->id;
    switch (f->read) {
    case PERF_RECORD_SAMPLE: see_sample(seen, ring, bytes, f, pages); break;
    case PERF_RECORD_FORK: seen->work.forks += f->numbers.task.ppid == (uint64_t)getpid(); break;
    case PERF_RECORD_COMM: seen->work.names += is_text(bytes, f->spans.comm.comm, name); break;
    case PERF_RECORD_MMAP2:
        seen->work.mappings += is_text(bytes, f->spans.mmap2.filename, "//anon");
        break;
    case PERF_RECORD_LOST: seen->lost += f->numbers.lost.lost; break;
    default: break;
    }
}

/* Reads all frames that the kernel has written so far. */
static void read_ring(struct ring *ring, struct seen *seen, uint64_t pages)
{
    uint64_t head = __atomic_load_n(&ring->control->data_head, __ATOMIC_ACQUIRE);
    while (ring->tail < head) {
        struct ped_frame frame;
        size_t unread = (size_t)(head - ring->tail);
        const uint8_t *bytes = read_next(ring, unread, &frame, &seen->wrapped);
        if (bytes == NULL) {
            seen->others++;
            break;
        }
        see_frame(seen, ring, bytes, &frame, pages);
        ring->tail += ped_frame_length(&frame, unread);
    }
    __atomic_store_n(&ring->control->data_tail, ring->tail, __ATOMIC_RELEASE);
}

/* Forks a child that ends at once, and takes the name of this test. */
static void fork_and_rename(struct work *done)
{
    pid_t child = fork();
    if (child == 0) {
        _exit(0);
    }
    if (child > 0) {
        waitpid(child, NULL, 0);
        done->forks++;
    }
    prctl(PR_SET_NAME, name);
    done->names++;
}

/* Touches new pages, maps one that may be executed, and reads what was written of that. */
static void work_once(struct ring *ring, struct work *done, struct seen *seen, int round)
{
    size_t len = TOUCHED * ring->page_size, at;
    char *pages = mmap(NULL, len, PROT_READ | PROT_WRITE, MAP_PRIVATE | MAP_ANONYMOUS, -1, 0);
    void *code;
    if (pages == MAP_FAILED) {
        exit(1);
    }
    for (at = 0; at < len; at += ring->page_size) {
        ((volatile char *)pages)[at] = 1;
        done->pages++;
    }
    if (round % 50 == 0) {
        fork_and_rename(done);
    }
    code = mmap(NULL, ring->page_size, PROT_READ | PROT_EXEC, MAP_PRIVATE | MAP_ANONYMOUS, -1, 0);
    done->mappings += code != MAP_FAILED;
    read_ring(ring, seen, (uint64_t)(uintptr_t)pages);
    munmap(pages, len);
}

/* How many are missing: done, and not seen. */
static size_t missing(size_t done, size_t seen)
{
    return done > seen ? done - seen : 0;
}

static int report(const struct work *done, const struct seen *seen)
{
    const struct work *work = &seen->work;
    size_t rest = missing(done->forks, work->forks) + missing(done->names, work->names)
                  + missing(done->mappings, work->mappings);
    printf("live: %zu frames, %zu wrapped, %zu refused, %llu lost; "
           "pages %zu of %zu, forks %zu of %zu, names %zu of %zu, mappings %zu of %zu\n",
           seen->frames, seen->wrapped, seen->refused, (unsigned long long)seen->lost,
           work->pages, done->pages, work->forks, done->forks, work->names, done->names,
           work->mappings, done->mappings);
    if (seen->refused > 0 || seen->others > 0 || seen->wrapped == 0) {
        return 1;
    }
    return rest + missing(done->pages, work->pages) <= seen->lost ? 0 : 1;
}

int main(void)
{
    static struct ring ring;
    struct work done = {0, 0, 0, 0};
    struct seen seen;
    int round;
    memset(&seen, 0, sizeof seen);
    if (!open_ring(&ring)) {
        return SKIPPED;
    }
    for (round = 0; round < ROUNDS; round++) {
        work_once(&ring, &done, &seen, round);
    }
    return report(&done, &seen);
}
