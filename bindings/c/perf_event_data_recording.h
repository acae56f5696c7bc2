/* A file of `perf record`, opened by its path, frame after frame: for programs that may take memory.
 *
 *     struct ped_recording recording;
 *     if (ped_recording_open("perf.data", PED_IN_TIME_ORDER, &recording) != PED_FILE_READ) {
 *         fprintf(stderr, "%s\n", ped_recording_message(&recording));
 *     }
 *     while (ped_recording_next(&recording) != NULL) {
 *         .. recording.frame, recording.event ..
 *     }
 *     ped_recording_close(&recording);
 *
 * These functions map or read the file, take memory by calloc and realloc, and make the calls of
 * perf_event_data.h, which are proved. They are written by hand: tested, not proved. One recording is used by
 * one thread at a time; any number of them may be open. */
#ifndef PERF_EVENT_DATA_RECORDING_H
#define PERF_EVENT_DATA_RECORDING_H

#include <errno.h>
#include <fcntl.h>
#include <stdlib.h>
#include <sys/mman.h>
#include <sys/stat.h>
#include <unistd.h>
#include "perf_event_data.h"

#ifdef __cplusplus
extern "C" {
#endif

/* In which order frames are given. */
enum ped_recording_order {
    PED_IN_FILE_ORDER = 0,
    PED_IN_TIME_ORDER = 1 /* frames without a time first; those of one time as in the file */
};

enum {
    /* Besides a refusal, what ped_recording_open returns if the system does not open or read the file. */
    PED_FILE_NOT_OPENED = 64,
    /* How many frames are read at once. */
    PED_RECORDING_BATCH = 64
};

/* An open recording. Only `next` may be set by others. */
struct ped_recording {
    /* what ped_recording_next has returned last, NULL before the first and after the last frame */
    const struct ped_frame *frame;
    const uint8_t *frame_bytes;     /* where the spans of that frame count from */
    const struct ped_entry *entry;  /* its offset in the file, and of which event it is, by its number */
    const struct ped_event *event;  /* that event; NULL if perf wrote the frame for itself, or it is not known */
    size_t next;                    /* the number, from 0, of the frame that is given next */
    /* the recording */
    size_t count;                   /* how many frames it has */
    uint32_t end;                   /* how they end: PED_DONE, or PED_CUT_HEADER */
    struct ped_file file;
    struct ped_event *events;       /* file.events of them */
    struct ped_id *ids;
    struct ped_entry *entries;      /* of all frames, in the order that was asked for */
    const uint8_t *bytes;           /* the whole file */
    size_t len;
    uint32_t refusal;               /* what ped_recording_open has returned */
    int error;                      /* for PED_FILE_NOT_OPENED the errno */
    /* for these functions alone */
    void *memory;                   /* the bytes, if they are to be given back */
    int is_mapped;
    size_t batch;                   /* the number of the batch in `frames`, from 1 */
    struct ped_frame *frames;
};

/* ---- steps of the functions below */

/* Zeros for so many elements, and for one at least, as a pointer may not be NULL. */
static inline void *ped_recording_room(size_t count, size_t size)
{
    return calloc(count == 0 ? 1 : count, size);
}

/* Reads all that is left of an open file, of unknown length. */
static inline uint32_t ped_recording_read(struct ped_recording *recording, int file)
{
    size_t room = 0;
    ssize_t got = 1;
    while (got != 0) {
        if (recording->len == room) {
            void *larger;
            room = room == 0 ? 65536 : 2 * room;
            larger = realloc(recording->memory, room);
            if (larger == NULL) {
                return PED_FILE_NO_MEMORY;
            }
            recording->memory = larger;
        }
        got = read(file, (uint8_t *)recording->memory + recording->len, room - recording->len);
        if (got < 0 && errno != EINTR) {
            recording->error = errno;
            return PED_FILE_NOT_OPENED;
        }
        recording->len += got < 0 ? 0 : (size_t)got;
    }
    recording->bytes = (const uint8_t *)recording->memory;
    return PED_FILE_READ;
}

/* Maps an open file, if it is one that has bytes and can be mapped. */
static inline int ped_recording_map(struct ped_recording *recording, int file)
{
    struct stat facts;
    void *memory;
    if (fstat(file, &facts) != 0 || !S_ISREG(facts.st_mode) || facts.st_size <= 0) {
        return 0;
    }
    memory = mmap(NULL, (size_t)facts.st_size, PROT_READ, MAP_PRIVATE, file, 0);
    if (memory == MAP_FAILED) {
        return 0;
    }
    recording->memory = memory;
    recording->is_mapped = 1;
    recording->bytes = (const uint8_t *)memory;
    recording->len = (size_t)facts.st_size;
    return 1;
}

/* Maps or reads the file of this path. */
static inline uint32_t ped_recording_load(struct ped_recording *recording, const char *path)
{
    uint32_t refusal = PED_FILE_READ;
    int file;
    if (strcmp(path, "-") == 0) {
        return ped_recording_read(recording, 0);
    }
#ifdef O_CLOEXEC
    file = open(path, O_RDONLY | O_CLOEXEC);
#else
    file = open(path, O_RDONLY);
#endif
    if (file < 0) {
        recording->error = errno;
        return PED_FILE_NOT_OPENED;
    }
    if (!ped_recording_map(recording, file)) {
        refusal = ped_recording_read(recording, file);
    }
    close(file);
    return refusal;
}

/* Reads the events and their names. */
static inline uint32_t ped_recording_events(struct ped_recording *recording)
{
    struct ped_file *file = &recording->file;
    struct ped_part *parts;
    struct ped_name *names;
    uint32_t refusal = ped_file_open(recording->bytes, recording->len, file);
    if (refusal != PED_FILE_READ) {
        return refusal;
    }
    recording->events = (struct ped_event *)ped_recording_room(file->events, sizeof *recording->events);
    recording->ids = (struct ped_id *)ped_recording_room(file->ids, sizeof *recording->ids);
    parts = (struct ped_part *)ped_recording_room(PED_FILE_PARTS(file->events), sizeof *parts);
    names = (struct ped_name *)ped_recording_room(file->events, sizeof *names);
    refusal = PED_FILE_NO_MEMORY;
    if (recording->events != NULL && recording->ids != NULL && parts != NULL && names != NULL) {
        refusal = ped_file_events(recording->bytes, recording->len, recording->events, file->events, parts,
                                  PED_FILE_PARTS(file->events), recording->ids, file->ids);
    }
    if (refusal == PED_FILE_READ) {
        refusal = ped_file_names(recording->bytes, recording->len, recording->events, file->events,
                                 recording->ids, file->ids, names, file->events);
    }
    free(parts);
    free(names);
    return refusal;
}

/* Keeps the entries of all frames, in room that grows with them. */
static inline uint32_t ped_recording_entries(struct ped_recording *recording)
{
    const struct ped_file *file = &recording->file;
    size_t room = 0;
    uint64_t at = 0;
    for (;;) {
        if (recording->count == room) {
            void *larger;
            room = room == 0 ? 1024 : 2 * room;
            larger = realloc(recording->entries, room * sizeof *recording->entries);
            if (larger == NULL) {
                return PED_FILE_NO_MEMORY;
            }
            recording->entries = (struct ped_entry *)larger;
        }
        recording->end = ped_file_next(file, recording->bytes, recording->len, recording->events, file->events,
                                       recording->ids, file->ids, &at, &recording->entries[recording->count]);
        if (recording->end != PED_LIMIT) {
            return PED_FILE_READ;
        }
        recording->count++;
    }
}

/* How many bytes that are no frames follow a whole frame of perf's own: after AUXTRACE and TRACING_DATA. */
static inline uint64_t ped_recording_payload(uint32_t order, const uint8_t *bytes, const struct ped_frame *frame)
{
    uint64_t number;
    if (frame->type == 71 && frame->size >= 16) {
        return ped_eight(order, bytes + 8);
    }
    if (frame->type == 66 && frame->size >= 12) {
        number = order == PED_BIG ? ped_eight(order, bytes + 4) & UINT32_MAX : ped_eight(order, bytes + 4) >> 32;
        return (number + 7) / 8 * 8;
    }
    return 0;
}

/* The frame of an entry that has no event. It is refused, unless perf wrote it for itself: then it has its
 * body in `spans.unknown.data`. */
static inline void ped_recording_no_event(const struct ped_recording *recording, const struct ped_entry *entry,
                                          struct ped_frame *frame)
{
    const struct ped_file *file = &recording->file;
    const uint8_t *bytes = recording->bytes + entry->at;
    uint64_t header = ped_eight(file->order, bytes), left = file->frames.at + file->frames.size - entry->at;
    int is_big = file->order == PED_BIG;
    memset(frame, 0, sizeof *frame);
    frame->type = (uint32_t)(is_big ? header >> 32 : header);
    frame->misc = (uint16_t)(is_big ? header >> 16 : header >> 32);
    frame->size = (uint16_t)(is_big ? header : header >> 48);
    if (frame->size < 8) {
        frame->refusal = PED_INVALID_RECORD;
        frame->reason = PED_SMALL_HEADER;
    } else if (frame->size > left || ped_recording_payload(file->order, bytes, frame) > left - frame->size) {
        frame->refusal = PED_EOF;
    } else if (entry->owner != PED_OWNER_PERF) {
        frame->refusal = PED_UNSUPPORTED_CONFIG;
    } else {
        frame->spans.unknown.data.at = 8;
        frame->spans.unknown.data.len = frame->size - 8u;
    }
}

/* Reads the batch of frames in which the next one is. */
static inline void ped_recording_batch(struct ped_recording *recording)
{
    size_t batch = recording->next / PED_RECORDING_BATCH, first = batch * PED_RECORDING_BATCH, count, i;
    count = ped_file_read(&recording->file, recording->bytes, recording->len, recording->events,
                          recording->file.events, recording->entries + first, recording->count - first,
                          recording->frames, PED_RECORDING_BATCH);
    for (i = 0; i < count; i++) {
        if (recording->entries[first + i].owner != PED_OWNER_EVENT) {
            ped_recording_no_event(recording, &recording->entries[first + i], &recording->frames[i]);
        }
    }
    recording->batch = batch + 1;
}

/* Gives back what was taken: the recording has no frames then. */
static inline void ped_recording_release(struct ped_recording *recording)
{
    const struct ped_recording taken = *recording;
    if (taken.is_mapped) {
        munmap(taken.memory, taken.len);
    } else {
        free(taken.memory);
    }
    free(taken.events);
    free(taken.ids);
    free(taken.entries);
    free(taken.frames);
    memset(recording, 0, sizeof *recording);
    recording->refusal = taken.refusal;
    recording->error = taken.error;
}

/* Reads what is known of the bytes that are there, unless they were refused. */
static inline uint32_t ped_recording_begin(struct ped_recording *recording, enum ped_recording_order order)
{
    if (recording->refusal == PED_FILE_READ) {
        recording->refusal = ped_recording_events(recording);
    }
    if (recording->refusal == PED_FILE_READ) {
        recording->refusal = ped_recording_entries(recording);
    }
    if (recording->refusal == PED_FILE_READ) {
        recording->frames = (struct ped_frame *)ped_recording_room(PED_RECORDING_BATCH, sizeof *recording->frames);
        recording->refusal = recording->frames == NULL ? PED_FILE_NO_MEMORY : PED_FILE_READ;
    }
    if (recording->refusal != PED_FILE_READ) {
        ped_recording_release(recording);
    } else if (order == PED_IN_TIME_ORDER) {
        ped_file_sort(recording->entries, recording->count);
    }
    return recording->refusal;
}

/* ---- what a program calls */

/* Opens the file of this path, or, for "-", what is left of standard input, and returns PED_FILE_READ; or why
 * it is refused, by ped_file_open or ped_file_events, PED_FILE_NO_MEMORY, or PED_FILE_NOT_OPENED. It has no
 * frames then. A file that is mapped must not change until it is closed: if it becomes shorter, the process
 * may end by a signal. What is read from "-", or from a pipe, is kept in memory. */
static inline uint32_t ped_recording_open(const char *path, enum ped_recording_order order,
                                          struct ped_recording *recording)
{
    memset(recording, 0, sizeof *recording);
    recording->refusal = ped_recording_load(recording, path);
    return ped_recording_begin(recording, order);
}

/* The same of bytes in memory, which must stay there until it is closed. */
static inline uint32_t ped_recording_of(const uint8_t *bytes, size_t len, enum ped_recording_order order,
                                        struct ped_recording *recording)
{
    memset(recording, 0, sizeof *recording);
    recording->bytes = bytes;
    recording->len = len;
    return ped_recording_begin(recording, order);
}

/* Why it was not opened, and what to do; "" if it was. */
static inline const char *ped_recording_message(const struct ped_recording *recording)
{
    switch (recording->refusal) {
    case PED_FILE_NO_MEMORY: return "out of memory";
    case PED_FILE_NOT_OPENED: return strerror(recording->error);
    default: return ped_file_message(recording->refusal);
    }
}

/* Gives the next frame, which stays until the next call, and sets `frame_bytes`, `entry` and `event`; NULL
 * after the last one. A refused frame is given too: see its `refusal`. */
static inline const struct ped_frame *ped_recording_next(struct ped_recording *recording)
{
    const struct ped_entry *entry;
    recording->frame = NULL;
    recording->frame_bytes = NULL;
    recording->entry = NULL;
    recording->event = NULL;
    if (recording->next >= recording->count) {
        return NULL;
    }
    if (recording->batch != recording->next / PED_RECORDING_BATCH + 1) {
        ped_recording_batch(recording);
    }
    entry = &recording->entries[recording->next];
    recording->frame = &recording->frames[recording->next % PED_RECORDING_BATCH];
    recording->frame_bytes = recording->bytes + entry->at;
    recording->entry = entry;
    recording->event = entry->owner == PED_OWNER_EVENT ? &recording->events[entry->number] : NULL;
    recording->next++;
    return recording->frame;
}

/* Writes the name of an event, as ped_event_name does, and a zero after it to `text`, as far as there is room
 * for both, and returns `text`. It is "" for no event. */
static inline char *ped_recording_name(const struct ped_recording *recording, const struct ped_event *event,
                                       char *text, size_t room)
{
    size_t count = 0;
    if (event != NULL && room > 1) {
        count = ped_event_name(event, recording->bytes, recording->len, text, room - 1);
    }
    if (room > 0) {
        text[count] = '\0';
    }
    return text;
}

/* Gives back what a recording has taken, and returns what ped_recording_open has returned, which its message
 * still tells. It may be called more than once. */
static inline uint32_t ped_recording_close(struct ped_recording *recording)
{
    ped_recording_release(recording);
    return recording->refusal;
}

#ifdef __cplusplus
}
#endif
#endif
