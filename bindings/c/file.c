/* Reads files that `perf record` wrote: file [--cuts] FILE .. . Prints for each, in order of time, how
 * many frames each event and perf itself have, by their types. With --cuts the bytes of each are changed
 * besides: cut at many lengths, and each of the first 2,048 bytes set to 0 and to 255. Whatever is
 * returned then, nothing outside the arguments may be touched (build it with sanitizers).
 *
 * file --lines file|time FILE prints what `perf_data dump --order file|time FILE` prints, if each frame is
 * of an event or perf's own, and file --lines events FILE what `perf_data events FILE` does; file --lines
 * header FILE the machine, the release of its kernel and the words of the command, a line each. */
#include <stdio.h>
#include <stdlib.h>
#include <string.h>
#include "text.h"

enum { CHANGED = 2048, ALL_CUTS = 4096, STEP = 997, TYPES = 128, BATCH = 5 };

/* A file that was read, or why not. */
struct recording {
    uint32_t refusal;
    struct ped_file file;
    struct ped_event *events;
    struct ped_part *parts;
    struct ped_id *ids;
    struct ped_entry *entries;
    size_t count;
    uint32_t end;
};

static void fail(const char *what)
{
    fprintf(stderr, "file: %s\n", what);
    exit(1);
}

/* So many elements, each of `size` bytes: at least one, as a pointer may not be NULL. */
static void *room(size_t count, size_t size)
{
    void *memory = calloc(count + (count == 0), size);
    if (memory == NULL) {
        fail("out of memory");
    }
    return memory;
}

static void drop_recording(struct recording *recording)
{
    free(recording->events);
    free(recording->parts);
    free(recording->ids);
    free(recording->entries);
}

/* The entries of all frames. A frame has at least the eight bytes of its header. */
static void read_entries(const uint8_t *bytes, size_t len, struct recording *recording)
{
    uint64_t at = 0;
    recording->entries = room(len / 8, sizeof *recording->entries);
    do {
        recording->end = ped_file_next(&recording->file, bytes, len, recording->events,
                                       recording->file.events, recording->ids, recording->file.ids, &at,
                                       &recording->entries[recording->count]);
        recording->count += recording->end == PED_LIMIT;
    } while (recording->end == PED_LIMIT);
}

/* Where the names of events are. */
static void read_names(const uint8_t *bytes, size_t len, struct recording *recording)
{
    struct ped_name *names = room(recording->file.events, sizeof *names);
    if (ped_file_names(bytes, len, recording->events, recording->file.events, recording->ids,
                       recording->file.ids, names, recording->file.events - 1) != PED_FILE_OTHER_COUNT) {
        fail("too few names are accepted");
    }
    if (ped_file_names(bytes, len, recording->events, recording->file.events, recording->ids,
                       recording->file.ids, names, recording->file.events) != PED_FILE_READ) {
        fail("no names are read");
    }
    free(names);
}

/* Prints the name of an event, which fits in no less room. */
static void print_name(const uint8_t *bytes, size_t len, const struct ped_event *event)
{
    char *text = room(PED_NAME_ROOM(*event), 1), *cut;
    size_t count = ped_event_name(event, bytes, len, text, PED_NAME_ROOM(*event));
    cut = room(count, 1);
    if (ped_event_name(event, bytes, len, cut, count) != count || memcmp(cut, text, count) != 0
        || (count > 0 && (ped_event_name(event, bytes, len, cut, count - 1) != count - 1
                          || memcmp(cut, text, count) != 0))) {
        fail("another name in less room");
    }
    printf("%.*s", (int)count, text);
    free(cut);
    free(text);
}

static struct recording read_recording(const uint8_t *bytes, size_t len)
{
    struct recording recording;
    size_t parts;
    memset(&recording, 0, sizeof recording);
    recording.refusal = ped_file_open(bytes, len, &recording.file);
    if (recording.refusal != PED_FILE_READ) {
        return recording;
    }
    if (recording.file.events > len / 72 || recording.file.ids > len / 8) {
        fail("more events or ids than the file has room for");
    }
    parts = PED_FILE_PARTS(recording.file.events);
    recording.events = room(recording.file.events, sizeof *recording.events);
    recording.parts = room(parts, sizeof *recording.parts);
    recording.ids = room(recording.file.ids, sizeof *recording.ids);
    if (ped_file_events(bytes, len, recording.events, recording.file.events, recording.parts, parts - 1,
                        recording.ids, recording.file.ids) != PED_FILE_OTHER_COUNT) {
        fail("too few parts are accepted");
    }
    recording.refusal = ped_file_events(bytes, len, recording.events, recording.file.events,
                                        recording.parts, parts, recording.ids, recording.file.ids);
    if (recording.refusal == PED_FILE_READ) {
        read_names(bytes, len, &recording);
        read_entries(bytes, len, &recording);
    }
    return recording;
}

/* How many frames an owner has, by their types. */
static void print_types(const char *name, const size_t *types)
{
    size_t type, all = 0;
    for (type = 0; type < TYPES; type++) {
        all += types[type];
    }
    printf("%s: %zu frames", name, all);
    for (type = 0; type < TYPES; type++) {
        if (types[type] > 0) {
            printf(" %zu:%zu", type, types[type]);
        }
    }
    printf("\n");
}

/* Checks an entry against the one before it, and against its frame. */
static void check_entry(const struct ped_entry *entry, int is_first, uint32_t type,
                        const struct ped_frame *frame)
{
    if (!is_first && (entry->time < entry[-1].time
                      || (entry->time == entry[-1].time && entry->at <= entry[-1].at))) {
        fail("entries out of order");
    }
    if (entry->owner == PED_OWNER_EVENT) {
        if (frame->type != type) {
            fail("a frame of an event is not read");
        }
        if (frame->refusal == PED_ACCEPTED && frame->read == 9 && frame->time != entry->time) {
            fail("a sample has another time than its entry");
        }
    } else if (frame->refusal != PED_UNSUPPORTED_CONFIG || frame->read != 0) {
        fail("a frame without an event is read");
    }
}

/* The type in the header of an entry's frame. */
static uint32_t type_of(const uint8_t *bytes, const struct ped_file *file, uint64_t at)
{
    uint32_t type;
    memcpy(&type, bytes + at, sizeof type);
    return file->order == PED_BIG ? __builtin_bswap32(type) : type;
}

/* Counts the frames of each event by their types, some at a time. */
static void count_types(const uint8_t *bytes, size_t len, const struct recording *recording,
                        size_t (*types)[TYPES])
{
    struct ped_frame frames[BATCH];
    size_t i = 0, k;
    while (i < recording->count) {
        size_t read = ped_file_read(&recording->file, bytes, len, recording->events,
                                    recording->file.events, recording->entries + i,
                                    recording->count - i, frames, BATCH);
        if (read != (recording->count - i < BATCH ? recording->count - i : BATCH)) {
            fail("another number of frames is read");
        }
        for (k = 0; k < read; k++, i++) {
            const struct ped_entry *entry = &recording->entries[i];
            uint32_t type = type_of(bytes, &recording->file, entry->at);
            size_t owner = entry->owner == PED_OWNER_EVENT ? entry->number : recording->file.events;
            check_entry(entry, i == 0, type, &frames[k]);
            types[owner][type < TYPES ? type : 0]++;
        }
    }
}

static void print_recording(const uint8_t *bytes, size_t len, const struct recording *recording)
{
    size_t owners = recording->file.events + 1, i;
    size_t(*types)[TYPES] = room(owners, sizeof *types);
    char name[64];
    count_types(bytes, len, recording, types);
    for (i = 0; i < recording->file.events; i++) {
        snprintf(name, sizeof name, "event %zu (type %u, config %llu, %llu ids)", i,
                 recording->events[i].type, (unsigned long long)recording->events[i].event,
                 (unsigned long long)recording->events[i].ids);
        print_types(name, types[i]);
    }
    print_types("none", types[owners - 1]);
    free(types);
}

/* Prints the line of the frame of an entry. */
static void print_line(const uint8_t *bytes, size_t len, const struct recording *recording, size_t index)
{
    const struct ped_entry *entry = &recording->entries[index];
    const struct ped_config plain = {PED_VERSION, recording->file.order, 0, 0, 0, 0, 0, 0};
    struct ped_frame frame;
    int is_read = 0;
    printf("%zu %llu ", index, (unsigned long long)entry->at);
    if (entry->owner == PED_OWNER_EVENT) {
        printf("%llu", (unsigned long long)entry->number);
        is_read = ped_file_read(&recording->file, bytes, len, recording->events, recording->file.events,
                                entry, 1, &frame, 1) == 1;
    } else if (entry->owner == PED_OWNER_PERF) {
        printf("-");
        is_read = ped_read(&plain, bytes + entry->at, len - entry->at, &frame) == PED_LIMIT;
    }
    if (!is_read) {
        fail("a frame is not read");
    }
    print_answer(stdout, recording->file.order, bytes + entry->at, &frame);
}

static void print_events(const uint8_t *bytes, size_t len, const struct recording *recording)
{
    size_t i;
    for (i = 0; i < recording->file.events; i++) {
        const struct ped_event *event = &recording->events[i];
        printf("%zu ", i);
        print_name(bytes, len, event);
        printf(" type=%u config=0x%llx sample_type=0x%llx ids=%llu\n", event->type,
               (unsigned long long)event->event, (unsigned long long)event->config.sample_type,
               (unsigned long long)event->ids);
    }
}

/* Prints the text at the front of some bytes, after its length, up to a zero; returns what follows. */
static const uint8_t *print_text(const struct ped_file *file, const uint8_t *bytes, const uint8_t *end)
{
    uint32_t size;
    if (end - bytes < 4) {
        fail("a feature is cut");
    }
    memcpy(&size, bytes, 4);
    size = file->order == PED_BIG ? __builtin_bswap32(size) : size;
    bytes += 4;
    if ((size_t)(end - bytes) < size) {
        fail("a feature is cut");
    }
    printf("%.*s\n", (int)size, (const char *)bytes); /* which ends before a zero */
    return bytes + size;
}

/* Prints what perf states about the machine and the command. */
static void print_header(const uint8_t *bytes, size_t len, const struct ped_file *file)
{
    static const uint8_t features[] = {PED_FEATURE_HOSTNAME, PED_FEATURE_OSRELEASE, PED_FEATURE_CMDLINE};
    size_t i;
    for (i = 0; i < sizeof features; i++) {
        struct ped_part place = {0, 0};
        const uint8_t *at, *end;
        if (ped_file_feature(bytes, len, features[i], &place) != PED_FILE_READ) {
            fail("a feature is absent");
        }
        at = bytes + place.at;
        end = at + place.size;
        if (features[i] == PED_FEATURE_CMDLINE) {
            at += 4;
            while (at < end) {
                at = print_text(file, at, end);
            }
        } else {
            print_text(file, at, end);
        }
    }
}

/* Looks for all features, whose places are in the file. */
static void find_features(const uint8_t *bytes, size_t len)
{
    int feature;
    for (feature = 0; feature < 256; feature++) {
        struct ped_part place = {7, 9};
        uint32_t found = ped_file_feature(bytes, len, (uint8_t)feature, &place);
        if (found == PED_FILE_READ ? place.at > len || place.size > len - place.at
                                   : place.at != 7 || place.size != 9) {
            fail("a feature is not in the file");
        }
    }
}

/* Prints the lines of all events, or those of all frames in the order of the file or of time. */
static void print_lines(const char *which, const uint8_t *bytes, size_t len)
{
    struct recording recording = read_recording(bytes, len);
    size_t i;
    if (recording.refusal != PED_FILE_READ) {
        fail(ped_file_message(recording.refusal));
    }
    if (strcmp(which, "events") == 0) {
        print_events(bytes, len, &recording);
        recording.count = 0;
    } else if (strcmp(which, "header") == 0) {
        print_header(bytes, len, &recording.file);
        recording.count = 0;
    } else if (strcmp(which, "time") == 0) {
        ped_file_sort(recording.entries, recording.count);
    }
    for (i = 0; i < recording.count; i++) {
        print_line(bytes, len, &recording, i);
    }
    drop_recording(&recording);
}

/* Reads bytes that were changed, in memory that ends where they do. */
static void read_changed(const uint8_t *bytes, size_t len, size_t changed, uint8_t value)
{
    uint8_t *copy = room(len, 1);
    struct recording recording;
    memcpy(copy, bytes, len);
    if (changed < len) {
        copy[changed] = value;
    }
    recording = read_recording(copy, len);
    find_features(copy, len);
    if (recording.entries != NULL) {
        struct ped_frame frames[BATCH];
        ped_file_sort(recording.entries, recording.count);
        ped_file_read(&recording.file, copy, len, recording.events, recording.file.events,
                      recording.entries, recording.count, frames, BATCH);
    }
    drop_recording(&recording);
    free(copy);
}

static void check_changes(const uint8_t *bytes, size_t len)
{
    size_t i;
    for (i = 0; i < len; i += i < ALL_CUTS ? 1 : STEP) {
        read_changed(bytes, i, i, 0);
    }
    for (i = 0; i < CHANGED && i < len; i++) {
        read_changed(bytes, len, i, 0);
        read_changed(bytes, len, i, 255);
    }
}

static uint8_t *read_bytes(const char *name, size_t *len)
{
    FILE *input = fopen(name, "rb");
    uint8_t *bytes;
    long end;
    if (input == NULL || fseek(input, 0, SEEK_END) != 0 || (end = ftell(input)) < 0) {
        fail("no such file");
    }
    *len = (size_t)end;
    bytes = room(*len, 1);
    rewind(input);
    if (fread(bytes, 1, *len, input) != *len) {
        fail("the file is not read");
    }
    fclose(input);
    return bytes;
}

int main(int count, char **words)
{
    int cuts = count > 1 && strcmp(words[1], "--cuts") == 0, i;
    if (count == 4 && strcmp(words[1], "--lines") == 0) {
        size_t len;
        uint8_t *bytes = read_bytes(words[3], &len);
        print_lines(words[2], bytes, len);
        free(bytes);
        return 0;
    }
    for (i = 1 + cuts; i < count; i++) {
        size_t len;
        uint8_t *bytes = read_bytes(words[i], &len);
        struct recording recording = read_recording(bytes, len);
        if (recording.refusal != PED_FILE_READ) {
            printf("refused: %s\n", ped_file_message(recording.refusal));
        } else {
            ped_file_sort(recording.entries, recording.count);
            print_recording(bytes, len, &recording);
        }
        drop_recording(&recording);
        if (cuts) {
            check_changes(bytes, len);
        }
        free(bytes);
    }
    return 0;
}
