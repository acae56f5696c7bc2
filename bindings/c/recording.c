/* Reads files of `perf record` by perf_event_data_recording.h: recording FILE .. . Each is opened in both orders:
 * mapped, where it cannot be mapped, read in small pieces that are interrupted, and from memory; each request
 * for memory is refused in turn; and copies are cut at many lengths, and have each of their first 2,048 bytes set
 * to 0 and to 255. What is given is each time what the calls of perf_event_data.h give, and all memory is given
 * back (build it with sanitizers besides).
 *
 * recording --lines file|time FILE prints what `perf_data dump --order file|time FILE` prints, and recording
 * --lines events FILE what `perf_data events FILE` does; FILE may be -. */
#include <errno.h>
#include <stdio.h>
#include <stdlib.h>
#include <string.h>
#include <sys/mman.h>
#include <unistd.h>
#include "text.h"

enum { CHANGED = 2048, ALL_CUTS = 4096, STEP = 997, PIECE = 4001 };

static void fail(const char *what)
{
    fprintf(stderr, "recording: %s\n", what);
    exit(1);
}

static void check(int is_so, const char *what)
{
    if (!is_so) {
        fail(what);
    }
}

/* ---- what the header asks of the system, which may be refused */

/* How many requests for memory are granted, what is held, and how files are read. */
static struct {
    size_t granted, requests, held, mapped, reads;
    int may_map, is_interrupted, fails_at;
} the_system;

static void reset_system(void)
{
    check(the_system.held == 0 && the_system.mapped == 0, "memory is not given back");
    memset(&the_system, 0, sizeof the_system);
    the_system.granted = (size_t)-1;
    the_system.may_map = 1;
}

static int is_granted(void)
{
    errno = ENOMEM;
    return the_system.requests++ < the_system.granted;
}

static void *try_calloc(size_t count, size_t size)
{
    void *memory = is_granted() ? calloc(count, size) : NULL;
    the_system.held += memory != NULL;
    return memory;
}

static void *try_realloc(void *old, size_t size)
{
    void *memory = is_granted() ? realloc(old, size) : NULL;
    the_system.held += memory != NULL && old == NULL;
    return memory;
}

static void count_free(void *memory)
{
    the_system.held -= memory != NULL;
    free(memory);
}

static void *try_mmap(void *at, size_t len, int protection, int flags, int file, off_t from)
{
    void *memory = the_system.may_map ? mmap(at, len, protection, flags, file, from) : MAP_FAILED;
    the_system.mapped += memory != MAP_FAILED;
    return memory;
}

static int count_munmap(void *memory, size_t len)
{
    the_system.mapped--;
    return munmap(memory, len);
}

/* Every other call is interrupted, if calls are, and gives a piece; that of `fails_at`, from 1, fails. */
static ssize_t try_read(int file, void *to, size_t len)
{
    the_system.reads++;
    if (the_system.fails_at > 0 && the_system.reads == (size_t)the_system.fails_at) {
        errno = EIO;
        return -1;
    }
    if (the_system.is_interrupted && the_system.reads % 2 == 1) {
        errno = EINTR;
        return -1;
    }
    return read(file, to, the_system.is_interrupted && len > PIECE ? (size_t)PIECE : len);
}

#define calloc try_calloc
#define realloc try_realloc
#define free count_free
#define mmap try_mmap
#define munmap count_munmap
#define read(file, to, len) try_read(file, to, len)
#include "perf_event_data_recording.h"
#undef calloc
#undef realloc
#undef free
#undef mmap
#undef munmap
#undef read

/* ---- what the calls give */

/* A file by the calls alone. */
struct expected {
    const uint8_t *bytes;
    size_t len, count;
    uint32_t refusal, end;
    struct ped_file file;
    struct ped_event *events;
    struct ped_part *parts;
    struct ped_id *ids;
    struct ped_name *names;
    struct ped_entry *entries;
    struct ped_frame *frames;
};

/* Zeros for so many elements: at least one. */
static void *room(size_t count, size_t size)
{
    void *memory = calloc(count + (count == 0), size);
    check(memory != NULL, "out of memory");
    return memory;
}

static void expect_frames(struct expected *it, int by_time)
{
    uint64_t at = 0;
    it->entries = (struct ped_entry *)room(it->len / 8 + 1, sizeof *it->entries);
    while ((it->end = ped_file_next(&it->file, it->bytes, it->len, it->events, it->file.events, it->ids,
                                    it->file.ids, &at, &it->entries[it->count])) == PED_LIMIT) {
        it->count++;
    }
    if (by_time) {
        ped_file_sort(it->entries, it->count);
    }
    it->frames = (struct ped_frame *)room(it->count, sizeof *it->frames);
    check(ped_file_read(&it->file, it->bytes, it->len, it->events, it->file.events, it->entries, it->count,
                        it->frames, it->count) == it->count, "the calls read another number of frames");
}

static struct expected expect(const uint8_t *bytes, size_t len, int by_time)
{
    struct expected it;
    size_t parts;
    memset(&it, 0, sizeof it);
    it.bytes = bytes;
    it.len = len;
    it.refusal = ped_file_open(bytes, len, &it.file);
    if (it.refusal != PED_FILE_READ) {
        return it;
    }
    parts = PED_FILE_PARTS(it.file.events);
    it.events = (struct ped_event *)room(it.file.events, sizeof *it.events);
    it.parts = (struct ped_part *)room(parts, sizeof *it.parts);
    it.ids = (struct ped_id *)room(it.file.ids, sizeof *it.ids);
    it.names = (struct ped_name *)room(it.file.events, sizeof *it.names);
    it.refusal = ped_file_events(bytes, len, it.events, it.file.events, it.parts, parts, it.ids, it.file.ids);
    if (it.refusal == PED_FILE_READ) {
        it.refusal = ped_file_names(bytes, len, it.events, it.file.events, it.ids, it.file.ids, it.names,
                                    it.file.events);
    }
    if (it.refusal == PED_FILE_READ) {
        expect_frames(&it, by_time);
    }
    return it;
}

static void drop_expected(struct expected *it)
{
    free(it->events);
    free(it->parts);
    free(it->ids);
    free(it->names);
    free(it->entries);
    free(it->frames);
}

/* ---- comparing */

/* The byte of a header at a place of the lowest byte first. */
static unsigned header_byte(const struct ped_recording *recording, int place, int width)
{
    return recording->frame_bytes[recording->file.order == PED_BIG ? width - 1 - place : place];
}

/* A frame without an event has its header, and else nothing but why it is refused, or the span of its body. */
static void check_no_event(const struct ped_recording *recording)
{
    const struct ped_frame *frame = recording->frame;
    struct ped_frame plain;
    unsigned span = frame->refusal == PED_ACCEPTED ? frame->size - 8u : 0;
    memset(&plain, 0, sizeof plain);
    plain.type = frame->type;
    plain.misc = frame->misc;
    plain.size = frame->size;
    plain.refusal = frame->refusal;
    plain.reason = frame->size < 8 ? PED_SMALL_HEADER : PED_NO_REASON;
    plain.spans.unknown.data.at = frame->refusal == PED_ACCEPTED ? 8 : 0;
    plain.spans.unknown.data.len = span;
    check(memcmp(&plain, frame, sizeof plain) == 0, "a frame without an event has more than its header");
    check((frame->type & 255) == header_byte(recording, 0, 4), "another type");
    check((frame->refusal == PED_INVALID_RECORD) == (frame->size < 8), "another refusal of a small size");
    check(recording->entry->owner == PED_OWNER_PERF || frame->refusal != PED_ACCEPTED, "no event, and accepted");
    if (frame->refusal == PED_ACCEPTED) {
        const struct ped_config config = {PED_VERSION, recording->file.order, 0, 0, 0, 0, 0, 0};
        check(ped_read(&config, recording->frame_bytes, frame->size, &plain) == PED_LIMIT
                  && memcmp(&plain, frame, sizeof plain) == 0, "a frame without an event is not that of the calls");
    }
}

static void check_frame(const struct ped_recording *recording, const struct expected *it, size_t index)
{
    const struct ped_entry *entry = recording->entry, *other = &it->entries[index];
    check(entry->time == other->time && entry->at == other->at && entry->number == other->number
              && entry->owner == other->owner, "another entry");
    check(recording->frame_bytes == recording->bytes + entry->at, "another place");
    if (entry->owner == PED_OWNER_EVENT) {
        check(recording->event == recording->events + entry->number, "another event");
        check(memcmp(recording->frame, &it->frames[index], sizeof *it->frames) == 0, "another frame");
    } else {
        check(recording->event == NULL, "an event of a frame without one");
        check_no_event(recording);
    }
}

/* Compares an event's name in different room. */
static void check_name(const struct ped_recording *recording, const struct ped_event *event)
{
    size_t most = PED_NAME_ROOM(*event), i;
    char *name = (char *)room(most, 1), *text = (char *)room(most + 1, 1);
    size_t len = ped_event_name(event, recording->bytes, recording->len, name, most);
    for (i = 0; i <= most + 1; i += i < 16 ? 1 : 61) {
        size_t fits = i == 0 ? 0 : len < i - 1 ? len : i - 1;
        memset(text, '~', most + 1);
        check(ped_recording_name(recording, event, text, i) == text, "another text");
        check(memcmp(text, name, fits) == 0 && (i == 0 ? text[0] == '~' : text[fits] == '\0'), "another name");
    }
    check(strcmp(ped_recording_name(recording, NULL, text, most), "") == 0, "a name of no event");
    free(name);
    free(text);
}

/* Compares a recording that was opened with what is expected, and closes it. */
static void check_opened(struct ped_recording *recording, uint32_t refusal, const struct expected *it)
{
    size_t i;
    check(refusal == it->refusal && recording->refusal == refusal, "another refusal");
    check(strcmp(ped_recording_message(recording), ped_file_message(refusal)) == 0, "another message");
    check(recording->count == it->count && (refusal != PED_FILE_READ || recording->end == it->end), "another end");
    for (i = 0; ped_recording_next(recording) != NULL; i++) {
        check_frame(recording, it, i);
    }
    check(i == it->count && recording->event == NULL && recording->frame == NULL, "another number of frames");
    for (i = it->count; i > 0; i -= i < 50 ? 1 : 50) {
        recording->next = i - 1;
        check(ped_recording_next(recording) == recording->frame && recording->next == i, "no frame of a number");
        check_frame(recording, it, i - 1);
    }
    for (i = 0; refusal == PED_FILE_READ && i < it->file.events; i++) {
        check_name(recording, &recording->events[i]);
    }
    check(ped_recording_close(recording) == refusal && ped_recording_close(recording) == refusal, "another close");
    check(ped_recording_next(recording) == NULL, "a frame of a closed file");
}

/* ---- ways to open */

enum way { MAPPED, NOT_MAPPED, INTERRUPTED, STANDARD_INPUT, IN_MEMORY, WAYS };

static uint32_t open_by(enum way way, const char *path, const struct expected *it, int by_time,
                        struct ped_recording *recording)
{
    enum ped_recording_order order = by_time ? PED_IN_TIME_ORDER : PED_IN_FILE_ORDER;
    the_system.may_map = way == MAPPED;
    the_system.is_interrupted = way == INTERRUPTED;
    if (way == IN_MEMORY) {
        return ped_recording_of(it->bytes, it->len, order, recording);
    }
    if (way == STANDARD_INPUT) {
        check(freopen(path, "rb", stdin) != NULL, "no standard input");
        path = "-";
    }
    return ped_recording_open(path, order, recording);
}

/* Opens a file with so few requests granted that one is refused. */
static void check_refused_memory(enum way way, const char *path, const struct expected *it, int by_time)
{
    struct ped_recording recording;
    uint32_t refusal = PED_FILE_NO_MEMORY;
    size_t granted;
    for (granted = 0; refusal == PED_FILE_NO_MEMORY; granted++) {
        reset_system();
        the_system.granted = granted;
        refusal = open_by(way, path, it, by_time, &recording);
        if (refusal == PED_FILE_NO_MEMORY) {
            check(the_system.held == 0 && the_system.mapped == 0, "memory is held after a refusal");
            check(strcmp(ped_recording_message(&recording), "out of memory") == 0, "another message of memory");
            check(ped_recording_next(&recording) == NULL, "a frame without memory");
            check(ped_recording_close(&recording) == PED_FILE_NO_MEMORY, "another close without memory");
        }
    }
    check(granted > 6 || it->refusal != PED_FILE_READ, "a request is not refused");
    check_opened(&recording, refusal, it);
}

/* A file that fails to be read after so many calls. */
static void check_failing_read(const char *path, int fails_at)
{
    struct ped_recording recording;
    reset_system();
    the_system.may_map = 0;
    the_system.is_interrupted = fails_at > 1;
    the_system.fails_at = fails_at;
    check(ped_recording_open(path, PED_IN_FILE_ORDER, &recording) == PED_FILE_NOT_OPENED, "a failing file opens");
    check(recording.error == EIO && the_system.held == 0, "another error of a failing file");
    check(strcmp(ped_recording_message(&recording), strerror(EIO)) == 0, "another message of a failing file");
    check(ped_recording_close(&recording) == PED_FILE_NOT_OPENED, "another close of a failing file");
}

/* A path that is no file of perf. */
static void check_path(const char *path, uint32_t refusal, int error)
{
    struct ped_recording recording;
    reset_system();
    check(ped_recording_open(path, PED_IN_TIME_ORDER, &recording) == refusal, "a path is not refused");
    check(recording.error == error && recording.count == 0 && recording.bytes == NULL, "another error of a path");
    check(strcmp(ped_recording_message(&recording), error ? strerror(error) : ped_file_message(refusal)) == 0,
          "another message of a path");
}

/* ---- damaged copies */

/* Reads bytes that were changed, in memory that ends where they do. */
static void read_changed(const uint8_t *bytes, size_t len, size_t changed, uint8_t value)
{
    uint8_t *copy = (uint8_t *)room(len, 1);
    struct ped_recording recording;
    struct expected it;
    int by_time = (int)(changed + len) % 2;
    memcpy(copy, bytes, len);
    if (changed < len) {
        copy[changed] = value;
    }
    reset_system();
    it = expect(copy, len, by_time);
    check_opened(&recording, open_by(IN_MEMORY, NULL, &it, by_time, &recording), &it);
    drop_expected(&it);
    free(copy);
}

static void check_changes(const uint8_t *bytes, size_t len)
{
    size_t i;
    for (i = 0; i < len; i += i < ALL_CUTS ? 1 : STEP) {
        read_changed(bytes, i, i, 0);
    }
    for (i = 0; i < CHANGED && i < len; i++) {
        read_changed(bytes, len, i, 0);
        read_changed(bytes, len, i, 255);
    }
}

/* ---- programs */

static void check_file(const char *path)
{
    FILE *input = fopen(path, "rb");
    size_t len = 0;
    uint8_t *bytes = input == NULL ? NULL : read_file(input, &len);
    int by_time, way;
    check(bytes != NULL, "no such file");
    fclose(input);
    for (by_time = 0; by_time < 2; by_time++) {
        struct expected it = expect(bytes, len, by_time);
        for (way = 0; way < WAYS; way++) {
            struct ped_recording recording;
            reset_system();
            check_opened(&recording, open_by((enum way)way, path, &it, by_time, &recording), &it);
            check_refused_memory((enum way)way, path, &it, by_time);
        }
        drop_expected(&it);
    }
    check_failing_read(path, 1);
    check_failing_read(path, 3);
    check_changes(bytes, len);
    free(bytes);
}

/* Prints the line of the frame that was given last. */
static void print_line(const struct ped_recording *recording)
{
    const struct ped_entry *entry = recording->entry;
    printf("%zu %llu ", recording->next - 1, (unsigned long long)entry->at);
    if (entry->owner == PED_OWNER_PERF) {
        printf("-");
    } else {
        printf("%llu", (unsigned long long)entry->number);
    }
    print_answer(stdout, recording->file.order, recording->frame_bytes, recording->frame);
}

static void print_events(const struct ped_recording *recording)
{
    char name[256];
    size_t i;
    for (i = 0; i < recording->file.events; i++) {
        const struct ped_event *event = &recording->events[i];
        printf("%zu %s type=%u config=0x%llx sample_type=0x%llx ids=%llu\n", i,
               ped_recording_name(recording, event, name, sizeof name), event->type,
               (unsigned long long)event->event, (unsigned long long)event->config.sample_type,
               (unsigned long long)event->ids);
    }
}

static int print_lines(const char *which, const char *path)
{
    enum ped_recording_order order = strcmp(which, "time") == 0 ? PED_IN_TIME_ORDER : PED_IN_FILE_ORDER;
    struct ped_recording recording;
    if (ped_recording_open(path, order, &recording) != PED_FILE_READ) {
        fprintf(stderr, "%s\n", ped_recording_message(&recording));
        return 2;
    }
    if (strcmp(which, "events") == 0) {
        print_events(&recording);
    } else {
        while (ped_recording_next(&recording) != NULL) {
            print_line(&recording);
        }
    }
    ped_recording_close(&recording);
    return 0;
}

int main(int count, char **words)
{
    int i;
    reset_system();
    if (count == 4 && strcmp(words[1], "--lines") == 0) {
        return print_lines(words[2], words[3]);
    }
    check_path("/nonexistent", PED_FILE_NOT_OPENED, ENOENT);
    check_path("/", PED_FILE_NOT_OPENED, EISDIR);
    check_path("/dev/null", PED_FILE_NOT_PERF_DATA, 0);
    for (i = 1; i < count; i++) {
        check_file(words[i]);
    }
    reset_system();
    printf("recording: %d files\n", count - 1);
    return 0;
}
