/* Reads streams, each with an attribute at its front, where a wrong access ends the process: guard
 * STREAM.. . Each is cut at many lengths, with a page that may not be touched right after the bytes,
 * or right before them, and right after the frame that is written; then several frames are read at
 * once, and each frame in two pieces, such pages after each of them; then on a stack of 16 kB between
 * such pages; then by four threads at once. What is read of whole frames must be the same each time.
 */
#define _GNU_SOURCE
#include <pthread.h>
#include <stdlib.h>
#include <sys/mman.h>
#include <ucontext.h>
#include <unistd.h>
#include "text.h"

enum { STACK = 16384, THREADS = 4, ALL_CUTS = 600, STEP = 97 };

/* A stream after its attribute, and the flat frames that are expected of it. */
struct stream {
    struct ped_config config;
    const uint8_t *bytes;
    size_t len, count;
    struct ped_frame *frames;
};

static void fail(const char *what)
{
    fprintf(stderr, "guard: %s\n", what);
    exit(1);
}

/* Pages for `len` bytes, between two that may not be touched. */
static uint8_t *guarded(size_t len, size_t *size)
{
    size_t page = (size_t)sysconf(_SC_PAGESIZE);
    uint8_t *all;
    *size = (len + page - 1) / page * page;
    all = mmap(NULL, *size + 2 * page, PROT_NONE, MAP_PRIVATE | MAP_ANONYMOUS, -1, 0);
    if (all == MAP_FAILED || mprotect(all + page, *size, PROT_READ | PROT_WRITE) != 0) {
        fail("no pages");
    }
    return all + page;
}

/* Frames that end where a forbidden page begins. */
static struct ped_frame *guarded_frames(size_t count)
{
    size_t size, len = count * sizeof(struct ped_frame);
    uint8_t *pages = guarded(len, &size);
    return (struct ped_frame *)(void *)(pages + size - len);
}

/* Whether each span of a frame is inside the `len` bytes that it takes. */
static int spans_are_inside(const struct ped_frame *frame, size_t len)
{
    int i;
    for (i = 0; i < 8; i++) {
        struct ped_span span = frame->spans.all[i];
        if (span.at > len || span.len > len - span.at) {
            return 0;
        }
    }
    return 1;
}

/* Whether reading `len` bytes of the stream at another place gives the expected frames, as far as they
 * are whole, then a cut frame, and the end that belongs to it. */
static int is_as_expected(const struct stream *stream, const uint8_t *bytes, size_t len,
                          struct ped_frame *frame)
{
    size_t index = 0, needed;
    uint32_t end;
    while ((end = ped_read(&stream->config, bytes, len, frame)) == PED_LIMIT) {
        size_t taken = ped_frame_length(frame, len);
        needed = ped_needed(stream->config.order, bytes, len);
        if (needed > len) {
            return frame->refusal == PED_EOF;
        }
        if (index >= stream->count || !spans_are_inside(frame, taken)
            || memcmp(frame, &stream->frames[index], sizeof *frame) != 0) {
            return 0;
        }
        bytes += taken;
        len -= taken;
        index++;
    }
    return len < 8 && end == (len == 0 ? PED_DONE : PED_CUT_HEADER);
}

static void read_expected(struct stream *stream)
{
    const uint8_t *bytes = stream->bytes;
    size_t len = stream->len, capacity = len / 8 + 1;
    stream->count = 0;
    stream->frames = calloc(capacity, sizeof(struct ped_frame));
    if (stream->frames == NULL) {
        fail("no memory");
    }
    while (ped_read(&stream->config, bytes, len, &stream->frames[stream->count]) == PED_LIMIT) {
        size_t taken = ped_frame_length(&stream->frames[stream->count++], len);
        bytes += taken;
        len -= taken;
    }
}

static void read_cut(const struct stream *stream, uint8_t *pages, size_t size, size_t len,
                     struct ped_frame *frame)
{
    uint8_t *at_end = pages + size - len;
    memcpy(at_end, stream->bytes, len);
    if (!is_as_expected(stream, at_end, len, frame)) {
        fail("other frames before a forbidden page");
    }
    memcpy(pages, stream->bytes, len);
    if (!is_as_expected(stream, pages, len, frame)) {
        fail("other frames after a forbidden page");
    }
}

/* Reads the stream cut at each of its first lengths, and at some of the others. Returns how many. */
static size_t read_all_cuts(const struct stream *stream)
{
    size_t size, len, cuts = 0;
    uint8_t *pages = guarded(stream->len, &size);
    struct ped_frame *frame = guarded_frames(1);
    for (len = 0; len <= stream->len; len += len < ALL_CUTS ? 1 : STEP) {
        read_cut(stream, pages, size, len, frame);
        cuts++;
    }
    read_cut(stream, pages, size, stream->len, frame);
    return cuts + 1;
}

/* ---- the attribute */

/* Reads the attribute of `taken` bytes, cut at each length, before and after a forbidden page. */
static void read_attribute_cuts(const uint8_t *bytes, size_t taken, const struct ped_config *config)
{
    struct ped_config cut_config;
    size_t size, len, cut_taken;
    uint8_t *pages = guarded(taken, &size);
    for (len = 0; len <= taken; len++) {
        uint32_t expected = len < taken ? PED_EOF : PED_ACCEPTED;
        uint8_t *at_end = pages + size - len;
        memcpy(at_end, bytes, len);
        if (ped_read_attr(at_end, len, PED_LITTLE, &cut_config, &cut_taken) != expected) {
            fail("another attribute before a forbidden page");
        }
        memcpy(pages, bytes, len);
        if (ped_read_attr(pages, len, PED_LITTLE, &cut_config, &cut_taken) != expected) {
            fail("another attribute after a forbidden page");
        }
    }
    if (cut_taken != taken || memcmp(&cut_config, config, sizeof *config) != 0) {
        fail("another configuration");
    }
}

/* ---- several frames at once */

static void read_many(const struct stream *stream, size_t room)
{
    struct ped_frame *frames = guarded_frames(room == 0 ? 1 : room);
    size_t count = room < stream->count ? room : stream->count, taken = 0, i;
    struct ped_ended ended = ped_read_many(&stream->config, stream->bytes, stream->len, frames, room);
    for (i = 0; i < count; i++) {
        taken += ped_frame_length(&stream->frames[i], stream->len - taken);
    }
    if (ended.count != count || ended.taken != taken
        || ended.how != (room > stream->count ? (uint32_t)PED_DONE : (uint32_t)PED_LIMIT)
        || memcmp(frames, stream->frames, count * sizeof *frames) != 0) {
        fail("other frames if several are read at once");
    }
}

/* ---- frames in two pieces */

struct halves {
    uint8_t *first_pages, *second_pages, *scratch_pages;
    size_t first_size, second_size, scratch_size;
    struct ped_frame *frame;
};

/* Reads a frame of `len` bytes, at least, of which `cut` are in the first piece; the second begins
 * after a forbidden page, and the space for a copy has just the bytes that are needed. */
static void read_halves(const struct stream *stream, const struct halves *halves, size_t index,
                        const uint8_t *bytes, size_t len, size_t cut)
{
    uint8_t *first = halves->first_pages + halves->first_size - cut;
    uint8_t *scratch = halves->scratch_pages + halves->scratch_size - len;
    int is_in_both = cut > 0 && cut < len;
    struct ped_split_end end;
    memcpy(first, bytes, cut);
    memcpy(halves->second_pages, bytes + cut, len - cut);
    end = ped_read_split(&stream->config, first, cut, halves->second_pages, len - cut, scratch, len,
                         halves->frame);
    if (end.how != PED_LIMIT || end.at != (uint32_t)is_in_both
        || memcmp(halves->frame, &stream->frames[index], sizeof(struct ped_frame)) != 0
        || (is_in_both && memcmp(scratch, bytes, len) != 0)) {
        fail("another frame if it is in two pieces");
    }
    end = ped_read_split(&stream->config, first, cut, halves->second_pages, len - cut, scratch, len - 1,
                         halves->frame);
    if (end.how != (is_in_both ? (uint32_t)PED_SMALL_SCRATCH : (uint32_t)PED_LIMIT)) {
        fail("a frame in two pieces needs its length to be copied");
    }
}

/* Cuts each frame of the stream at each of its bytes. */
static void read_all_halves(const struct stream *stream)
{
    struct halves halves;
    const uint8_t *bytes = stream->bytes;
    size_t index, cut;
    halves.first_pages = guarded(65536, &halves.first_size);
    halves.second_pages = guarded(65536, &halves.second_size);
    halves.scratch_pages = guarded(65536, &halves.scratch_size);
    halves.frame = guarded_frames(1);
    for (index = 0; index < stream->count; index++) {
        size_t len = ped_frame_length(&stream->frames[index],
                                      stream->len - (size_t)(bytes - stream->bytes));
        for (cut = 0; cut <= len; cut++) {
            read_halves(stream, &halves, index, bytes, len, cut);
        }
        bytes += len;
    }
}

/* ---- a small stack */

static const struct stream *stack_stream;
static struct ped_frame stack_frame;
static int stack_result;

static void read_on_stack(void)
{
    stack_result = is_as_expected(stack_stream, stack_stream->bytes, stack_stream->len, &stack_frame);
}

static void read_on_small_stack(const struct stream *stream)
{
    static ucontext_t here, there;
    size_t size;
    uint8_t *pages = guarded(STACK, &size);
    stack_stream = stream;
    stack_result = 0;
    if (getcontext(&there) != 0) {
        fail("no context");
    }
    there.uc_stack.ss_sp = pages;
    there.uc_stack.ss_size = size;
    there.uc_link = &here;
    makecontext(&there, read_on_stack, 0);
    if (swapcontext(&here, &there) != 0 || !stack_result) {
        fail("other frames on a stack of 16 kB");
    }
}

/* ---- threads */

static void *read_in_thread(void *argument)
{
    const struct stream *stream = (const struct stream *)argument;
    struct ped_frame frame;
    int round;
    for (round = 0; round < 20; round++) {
        if (!is_as_expected(stream, stream->bytes, stream->len, &frame)) {
            return NULL;
        }
    }
    return argument;
}

static void read_in_threads(struct stream *stream)
{
    pthread_t threads[THREADS];
    void *result;
    int i;
    for (i = 0; i < THREADS; i++) {
        if (pthread_create(&threads[i], NULL, read_in_thread, stream) != 0) {
            fail("no thread");
        }
    }
    for (i = 0; i < THREADS; i++) {
        if (pthread_join(threads[i], &result) != 0 || result == NULL) {
            fail("other frames in a thread");
        }
    }
}

static void check_stream(const char *path)
{
    struct stream stream;
    size_t len = 0, taken = 0, cuts;
    FILE *file = fopen(path, "rb");
    uint8_t *bytes = file == NULL ? NULL : read_file(file, &len);
    if (bytes == NULL || ped_read_attr(bytes, len, PED_LITTLE, &stream.config, &taken) != PED_ACCEPTED) {
        fail("no stream with an attribute");
    }
    fclose(file);
    stream.bytes = bytes + taken;
    stream.len = len - taken;
    read_attribute_cuts(bytes, taken, &stream.config);
    read_expected(&stream);
    cuts = read_all_cuts(&stream);
    read_many(&stream, 0);
    read_many(&stream, 1);
    read_many(&stream, 7);
    read_many(&stream, stream.count);
    read_many(&stream, stream.count + 3);
    read_all_halves(&stream);
    read_on_small_stack(&stream);
    read_in_threads(&stream);
    printf("guard: %zu frames, %zu cuts, %d threads: %s\n", stream.count, cuts, THREADS, path);
    free(stream.frames);
    free(bytes);
}

int main(int count, char **words)
{
    int i;
    if (count < 2) {
        fputs("usage: guard STREAM..\n", stderr);
        return 2;
    }
    for (i = 1; i < count; i++) {
        check_stream(words[i]);
    }
    return 0;
}
