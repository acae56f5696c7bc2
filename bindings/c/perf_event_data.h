/* Records of Linux performance events (perf_event_open(2)) as plain structs, read by a proved library.
 *
 * A call depends on its arguments alone: nothing is kept from one call to the next, no memory is asked
 * for and no pointer is returned. So calls may come from any thread, and from a signal handler.
 *
 * What a caller owes, and nothing checks:
 *  - A pointer is true, aligned and not NULL, also where its length is 0; a length is below 2^63.
 *  - What is written overlaps nothing else that is passed.
 *  - The bytes stay what they are during a call.
 * Then a call returns, whatever the bytes and the configuration are, and reads and writes nothing but
 * its arguments. docs/LINKING.md has what each call promises. */
#ifndef PERF_EVENT_DATA_H
#define PERF_EVENT_DATA_H

#if !(defined(__x86_64__) || defined(__aarch64__)) || !defined(__LP64__) \
    || __BYTE_ORDER__ != __ORDER_LITTLE_ENDIAN__
#error "perf_event_data is for x86-64 and arm64, with pointers of 64 bits and the lowest byte first"
#endif

#include <stddef.h>
#include <stdint.h>
#include <string.h>

#if defined(__linux__) && defined(__has_include)
#if __has_include(<linux/perf_event.h>)
#include <linux/perf_event.h>
#endif
#endif

#ifdef __cplusplus
extern "C" {
#endif

/* The release of the library that this header is from. */
#define PED_RELEASE "0.1.8"

/* The version of the structs below. A configuration of another version is not read. */
#define PED_VERSION 1u

enum ped_order {
    PED_LITTLE = 0, /* the lowest byte first, as on x86-64 and arm64 */
    PED_BIG = 1     /* the highest byte first */
};

/* How records are to be read: fields of the attribute of their event, `struct perf_event_attr`. */
struct ped_config {
    uint32_t version; /* PED_VERSION */
    uint32_t order;   /* PED_LITTLE or PED_BIG */
    uint64_t sample_type;
    uint64_t read_format;
    uint64_t flags; /* the word of single bits, from `disabled` on */
    uint64_t branch_sample_type;
    uint64_t sample_regs_user;
    uint64_t sample_regs_intr;
};

/* A place in a frame. */
struct ped_span {
    uint32_t at;  /* offset from the first byte of the frame's header; 0 if the span is absent */
    uint32_t len; /* in bytes */
};

/* How a call ended. */
enum ped_end {
    PED_LIMIT = 0,         /* as many frames as there is space for were read, accepted or refused */
    PED_DONE = 1,          /* no byte is left where a header would begin */
    PED_CUT_HEADER = 2,    /* one to seven bytes are left there */
    PED_SMALL_SCRATCH = 3, /* a frame in two pieces is longer than the space to copy it */
    PED_NOT_READ = 4,      /* the configuration has another version, or no such order */
    PED_LONG_BODY = 5      /* a body of more than 65,527 bytes, longer than that of any frame */
};

/* Why a frame has no record: the kind. */
enum ped_refusal {
    PED_ACCEPTED = 0, /* there is a record */
    PED_EOF = 1,
    PED_INVALID_RECORD = 2,
    PED_UNSUPPORTED_CONFIG = 3,
    PED_UNSUPPORTED_DATA = 4
};

/* Why a frame has no record: the reason, if there is one besides the kind. */
enum ped_reason {
    PED_NO_REASON = 0,
    PED_SMALL_HEADER = 1,     /* the header's size is below 8 */
    PED_NO_ROOM_FOR_ID = 2,   /* the frame is too short for its sample id */
    PED_BUILD_ID_LENGTH = 3,  /* a build id of more than 20 bytes */
    PED_USED_STACK = 4,       /* more of the stack is used than there is */
    PED_SINGLE_READ = 5,      /* a single read under PERF_FORMAT_GROUP */
    PED_GROUP_READ = 6,       /* a group read without it */
    PED_READ_FORMAT = 7,      /* a bit of the read format that is not known */
    PED_GROUP_LENGTH = 8,     /* a group of 2^64 numbers or more */
    PED_ATTRIBUTE_SIZE = 9,   /* a size that no attribute has had */
    PED_ATTRIBUTE_TAIL = 10   /* an attribute with fields that are not known and not 0 */
};

/* In `present`: the sample has an lbr_hw_index. */
#define PED_HAS_LBR_HW_INDEX ((uint64_t)1 << 32)

/* The numbers of a record. What it does not have is 0. */
union ped_numbers {
    uint64_t all[24];
    /* made of fields.txt by fields.py */
    struct { uint64_t pid, tid, addr, len, pgoff; } mmap;
    struct { uint64_t id, lost; } lost;
    struct { uint64_t pid, tid; } comm;
    struct { uint64_t pid, ppid, tid, ptid, time; } task; /* EXIT and FORK */
    struct { uint64_t time, id, stream_id; } throttle; /* THROTTLE and UNTHROTTLE */
    struct { uint64_t pid, tid, value, time_enabled, time_running, id, lost; } read;
        /* time_enabled to lost: each if its bit of read_format is set */
    struct {
        uint64_t ip, addr, period, weight, data_src, transaction, phys_addr, cgroup, data_page_size,
            code_page_size, lbr_hw_index, regs_user_abi, regs_intr_abi, time_enabled, time_running,
            count; /* of the counters */
        uint64_t value, value_id, value_lost; /* of one counter, without PERF_FORMAT_GROUP */
    } sample;
    struct { uint64_t pid, tid, addr, len, pgoff, prot, flags, maj, min, ino, ino_generation; } mmap2;
        /* maj to ino_generation: absent with a build id */
    struct { uint64_t aux_offset, aux_size, flags; } aux;
    struct { uint64_t pid, tid; } itrace_start;
    struct { uint64_t lost; } lost_samples;
    struct { uint64_t pid, tid, out; } switch_cpu_wide;
        /* out: 1 if the switch went to that task, 0 if it came from there */
    struct { uint64_t pid, tid, count; } namespaces;
    struct { uint64_t addr, len, ksym_type, flags; } ksymbol;
    struct { uint64_t ty, flags, id; } bpf_event;
    struct { uint64_t id; } cgroup;
    struct { uint64_t addr; } text_poke;
    struct { uint64_t hw_id; } aux_output_hw_id;
    /* up to here */
};

/* Where the byte strings and the lists of a record are. A name has no zero bytes at its end. */
union ped_spans {
    struct ped_span all[8];
    /* made of fields.txt by fields.py */
    struct { struct ped_span data; } unknown;
        /* the whole body of a type that the kernel does not have */
    struct { struct ped_span filename; } mmap;
    struct { struct ped_span comm; } comm;
    struct {
        struct ped_span callchain; /* numbers */
        struct ped_span lbr; /* three numbers each: from, to, and the word of the branch */
        struct ped_span values; /* with PERF_FORMAT_GROUP: of each counter its value, id and lost */
        struct ped_span regs_user, regs_intr; /* regs_user and regs_intr: numbers */
        struct ped_span raw, stack_user; /* stack_user: what of it is used */
        struct ped_span aux;
    } sample;
    struct { struct ped_span filename, build_id; } mmap2;
        /* build_id: with PERF_RECORD_MISC_MMAP_BUILD_ID in `misc` */
    struct { struct ped_span namespaces; } namespaces; /* two numbers each: device and inode */
    struct { struct ped_span name; } ksymbol;
    struct { struct ped_span tag; } bpf_event;
    struct { struct ped_span path; } cgroup;
    struct { struct ped_span old_bytes, new_bytes; } text_poke;
    /* up to here */
};

/* A frame as plain numbers, in 320 bytes. What its record does not have is 0. */
struct ped_frame {
    uint32_t type; /* the header: PERF_RECORD_* */
    uint16_t misc; /* PERF_RECORD_MISC_* */
    uint16_t size; /* in bytes, as the header states it */
    uint32_t read; /* the type that was read, which selects a member of the unions; 0: `unknown` */
    uint16_t refusal; /* enum ped_refusal */
    uint16_t reason;  /* enum ped_reason */
    uint64_t present; /* PERF_SAMPLE_* of the fields that a sample has, or the sample id of a record */
    uint32_t pid;     /* from here to cpu: of the sample, or of the sample id */
    uint32_t tid;
    uint64_t time;
    uint64_t id;
    uint64_t stream_id;
    uint32_t cpu;
    uint32_t read_format; /* of a SAMPLE or READ with counters: PERF_FORMAT_* */
    union ped_numbers numbers;
    union ped_spans spans;
};

/* Reads the frame at the front of `bytes` and writes it to `frame`: PED_LIMIT. If there is no whole
 * header it returns PED_DONE or PED_CUT_HEADER, and PED_NOT_READ for a configuration that it does not
 * read; nothing is written then. */
uint32_t ped_read(const struct ped_config *config, const uint8_t *bytes, size_t len,
                  struct ped_frame *frame);

/* How far several frames were read. */
struct ped_ended {
    size_t count; /* of the frames */
    size_t taken; /* bytes of these frames: what is left begins after them */
    uint32_t how; /* enum ped_end */
};

/* Reads the first frames of `bytes`, as many as there is room for in `frames`, which has room for
 * `room` of them. What is after them in `frames` is unchanged. It ends by PED_LIMIT if all of the room
 * is used. */
struct ped_ended ped_read_many(const struct ped_config *config, const uint8_t *bytes, size_t len,
                               struct ped_frame *frames, size_t room);

/* How the reading of a frame in two pieces ended. */
struct ped_split_end {
    uint32_t how; /* enum ped_end */
    uint32_t at;  /* spans count in `scratch` if it is 1; if 0, in the first piece that is not empty */
};

/* Reads the frame at the front of two pieces, as if the second followed the first in memory: of a ring
 * that wraps, the bytes up to its end and those from its beginning. Only a frame with bytes of both is
 * copied, to the front of `scratch`, which has `room` bytes; 65,535 are always enough. With too few it
 * ends by PED_SMALL_SCRATCH. If no frame is read, nothing is written. */
struct ped_split_end ped_read_split(const struct ped_config *config, const uint8_t *first,
                                    size_t first_len, const uint8_t *second, size_t second_len,
                                    uint8_t *scratch, size_t room, struct ped_frame *frame);

/* Reads the attribute at the front of `bytes`, `struct perf_event_attr`: writes the configuration that it
 * gives to `config` and its size in bytes to `taken`, and returns PED_ACCEPTED. If it is refused, it
 * returns PED_EOF, PED_INVALID_RECORD (a size that no attribute has had) or PED_UNSUPPORTED_DATA (a byte
 * that is not zero after the fields that are known), and PED_UNSUPPORTED_CONFIG if there is no such
 * order; nothing is written then. A file of `perf record` does not begin with an attribute: ped_file_open
 * reads it, and the program perf_data prints it. */
uint32_t ped_read_attr(const uint8_t *bytes, size_t len, uint32_t order, struct ped_config *config,
                       size_t *taken);

/* Reads the record of a type from its body, after its header and its sample id were taken off, and
 * writes it to `frame`: PED_LIMIT. A span with the offset `at` begins at `body + (at - 8)`; no field of a
 * sample id is present. For PED_LONG_BODY and PED_NOT_READ nothing is written. */
uint32_t ped_read_body(const struct ped_config *config, uint32_t type, uint16_t misc,
                       const uint8_t *body, size_t len, struct ped_frame *frame);

/* Writes the kernel's own number of the event that wrote the frame at the front of `bytes`, and
 * returns 1: for use before the configuration of the frame is known, if all events have
 * PERF_SAMPLE_IDENTIFIER, and `sample_id_all` is not 0 if they have that too. If the frame has no such
 * number, or there is no such order, it returns 0 and nothing is written. */
uint32_t ped_identifier(const uint8_t *bytes, size_t len, uint32_t order, uint32_t sample_id_all,
                        uint64_t *id);

/* ---- files that `perf record` wrote
 *
 * A file is in memory as a whole, mapped or read: one that `perf record` wrote, or what `perf record -o -`
 * writes to a pipe. ped_file_open states how much memory its events need, ped_file_events reads them,
 * ped_file_names finds their names, ped_file_next goes over its frames in the order of the file,
 * ped_file_sort puts their entries in order of time, and ped_file_read reads frames, each under its own
 * event. perf_event_data_recording.h opens a file by its path, and makes these calls. */

/* Why a file is refused: the first check that fails, in the order of the numbers. Events are numbered
 * from 0, in the order of the file. */
enum ped_file_refusal {
    PED_FILE_READ = 0,           /* it is not refused */
    PED_FILE_NOT_PERF_DATA = 1,  /* fewer than 16 bytes, or it does not begin as perf writes it */
    PED_FILE_OLD_FORMAT = 2,     /* the format before PERFILE2, which perf wrote until 2009 */
    PED_FILE_BAD_HEAD = 3,       /* its head has an unknown size, or is cut off */
    PED_FILE_PIPE = 4,           /* not returned: what `perf record -o -` writes is read */
    PED_FILE_DIRECTORY = 5,      /* one of several files of `perf record --threads` */
    PED_FILE_COMPRESSED = 6,     /* its frames are compressed, by `perf record -z` */
    PED_FILE_CUT_ATTRIBUTES = 7, /* the attributes end beyond the file */
    PED_FILE_CUT_FRAMES = 8,     /* the frames do */
    PED_FILE_CUT_IDS = 9,        /* the ids of an event do */
    PED_FILE_BAD_ENTRY = 10,     /* the attributes are not whole entries of at least 80 bytes */
    PED_FILE_NO_EVENT = 11,
    PED_FILE_BAD_ATTRIBUTE = 12, /* an attribute is damaged */
    PED_FILE_NEW_ATTRIBUTE = 13, /* an attribute has fields that this library does not know */
    PED_FILE_BAD_IDS = 14,       /* ids are not whole numbers of eight bytes */
    PED_FILE_OVERLAP = 15,       /* two parts of the file share a byte */
    PED_FILE_NO_ID_PLACE = 16,   /* several events without a common place of their ids */
    PED_FILE_SHARED_ID = 17,     /* two events have one id */
    PED_FILE_NO_MEMORY = 18,     /* of perf_event_data_recording.h: no call here asks for memory */
    PED_FILE_OTHER_COUNT = 19,   /* no refusal: an array does not have as many elements as it needs */
    PED_FILE_NO_FEATURE = 20,    /* no refusal: the file does not have the feature */
    PED_FILE_CUT_FEATURE = 21    /* no refusal: the feature ends beyond the file */
};

/* A part of a file. */
struct ped_part {
    uint64_t at;   /* its offset in the file */
    uint64_t size; /* in bytes */
};

/* What is known of a file before its events are read. */
struct ped_file {
    uint32_t order;         /* PED_LITTLE or PED_BIG: that of its numbers */
    uint32_t is_closed;     /* 1 if perf ended regularly; 0: the frames extend to the file's end */
    struct ped_part frames;
    uint64_t events;        /* how many events it has */
    uint64_t ids;           /* how many ids they have together: at most one for eight bytes */
};

/* Writes to `file` what is known before events are read, and returns PED_FILE_READ. If the file is
 * refused before that it returns why, and nothing is written. */
uint32_t ped_file_open(const uint8_t *bytes, size_t len, struct ped_file *file);

/* An event of a file. Its ids are at `bytes + ids_at`; ped_eight reads one. */
struct ped_event {
    struct ped_config config; /* how its frames are read */
    uint32_t type;            /* PERF_TYPE_* */
    uint64_t event;           /* what of that type it counts: `config` of its attribute */
    uint64_t ids_at;          /* the offset in the file of its ids, numbers of eight bytes */
    uint64_t ids;             /* how many ids it has */
    struct ped_part name;     /* where ped_file_names has found its name; size 0: it has none in the file */
};

/* An id, and the number of the event that has it. */
struct ped_id {
    uint64_t id;
    uint64_t event;
};

/* How many parts a file has: its head, attributes and frames, and the ids of each event. */
#define PED_FILE_PARTS(events) ((events) + 3)

/* Reads the events of a file to `events`, in the order of the file, and their ids to `ids`, by rising
 * numbers, and returns PED_FILE_READ. `parts` is room for comparing the parts of the file. Their counts
 * are those of ped_file_open, and PED_FILE_PARTS(events) parts: with others nothing is written, and it
 * returns PED_FILE_OTHER_COUNT. If the file is refused it returns why; the arrays may be written
 * then. */
uint32_t ped_file_events(const uint8_t *bytes, size_t len, struct ped_event *events,
                         size_t event_count, struct ped_part *parts, size_t part_count,
                         struct ped_id *ids, size_t id_count);

/* Room for the name of an event, in which ped_file_names sorts and searches. */
struct ped_name {
    uint64_t kind;        /* 0, or of events without ids the type and 1 */
    uint64_t number;      /* the first id of an event, or the config of events without ids */
    struct ped_part name; /* where it is among the file's descriptions of events; `at` 0: not found */
};

/* Finds the names of events in a file, writes to each where its name is, and returns PED_FILE_READ.
 * `events` and `ids` are those that ped_file_events wrote for these bytes, and `names` has as many
 * elements as `events`: with another count it returns PED_FILE_OTHER_COUNT. If the file's head is refused
 * it returns why. Nothing is written then. */
uint32_t ped_file_names(const uint8_t *bytes, size_t len, struct ped_event *events, size_t event_count,
                        const struct ped_id *ids, size_t id_count, struct ped_name *names,
                        size_t name_count);

/* Writes the name of an event to `text`, which has room for `room` bytes, as far as there is room, and
 * returns how many bytes it wrote, without a zero byte at the end: in ASCII, as `perf_data events` prints
 * it. If it has none in the file, `bytes`, it is the name that perf prints for an event of the kernel's
 * own, as "cycles", or else "type 4 config 0x1a8". PED_NAME_ROOM is always enough. */
size_t ped_event_name(const struct ped_event *event, const uint8_t *bytes, size_t len, char *text,
                      size_t room);

/* How many bytes a name has at most: four for a byte of it in the file, or two numbers. */
#define PED_NAME_ROOM(event) (4 * (event).name.size + 64)

/* Some features, what perf states about the recording, by its numbers. The first three are texts, each
 * after its length of four bytes, and may have zeros at their end; the command line is how many words
 * there are, four bytes, and the words, of which each is such a text. */
enum ped_feature {
    PED_FEATURE_HOSTNAME = 3,
    PED_FEATURE_OSRELEASE = 4,
    PED_FEATURE_ARCH = 6,
    PED_FEATURE_CMDLINE = 11
};

/* Writes where a feature is in a file to `place`, and returns PED_FILE_READ. If the file does not have it,
 * or is not read, it returns PED_FILE_NO_FEATURE, and if it ends beyond the file PED_FILE_CUT_FEATURE;
 * nothing is written then. */
uint32_t ped_file_feature(const uint8_t *bytes, size_t len, uint8_t feature, struct ped_part *place);

/* What the number of an entry is. */
enum ped_owner {
    PED_OWNER_EVENT = 0,   /* that of its event */
    PED_OWNER_PERF = 1,    /* 0: perf wrote the frame for itself */
    PED_OWNER_UNKNOWN = 2, /* the id of an event that the file does not have */
    PED_OWNER_SHORT = 3    /* 0: the frame is too short for an id */
};

/* When a frame happened, where it is, and which event it belongs to. */
struct ped_entry {
    uint64_t time;   /* in nanoseconds of the clock of the recording, 0 for a frame without a time */
    uint64_t at;     /* the offset in the file at which its header begins */
    uint64_t number;
    uint32_t owner;  /* enum ped_owner: what `number` is */
};

/* Writes the entry of the frame at the offset `*at` of a file to `entry`, moves `*at` beyond the frame
 * and its payload, and returns PED_LIMIT. With `*at` 0 it begins at the first frame. At the end of the
 * frames it returns PED_DONE, or PED_CUT_HEADER if fewer bytes are left there than a header has, and
 * PED_NOT_READ if `file` is not of these bytes; nothing is written then. `file`, `events` and `ids` are
 * what ped_file_open and ped_file_events wrote for these bytes. */
uint32_t ped_file_next(const struct ped_file *file, const uint8_t *bytes, size_t len,
                       const struct ped_event *events, size_t event_count, const struct ped_id *ids,
                       size_t id_count, uint64_t *at, struct ped_entry *entry);

/* Sorts entries by time, and at equal times by their offsets: in place. */
void ped_file_sort(struct ped_entry *entries, size_t count);

/* Reads the frames of entries, each under its own event, as ped_read does, and writes them to `frames`, in
 * the order of the entries: as many as there is room for, which it returns. The spans of a frame count
 * from `bytes + at` of its entry. An entry that has no event, or is not in the file, is not read: the
 * `refusal` of its frame is PED_UNSUPPORTED_CONFIG, its `read` is 0, and the rest of it is unchanged. */
size_t ped_file_read(const struct ped_file *file, const uint8_t *bytes, size_t len,
                     const struct ped_event *events, size_t event_count,
                     const struct ped_entry *entries, size_t count, struct ped_frame *frames,
                     size_t room);

/* ---- helpers, written by hand: tested, not proved */

/* How many of the `len` bytes at its front the frame takes: its size, at least a header, and all that
 * is left if that is less. The next frame begins after them. */
static inline size_t ped_frame_length(const struct ped_frame *frame, size_t len)
{
    size_t size = frame->size < 8 ? 8 : frame->size;
    return size < len ? size : len;
}

/* How many bytes are needed for the frame at the front, as far as these `len` bytes tell. If that is
 * at most `len`, the frame is whole. */
static inline size_t ped_needed(uint32_t order, const uint8_t *bytes, size_t len)
{
    size_t size;
    if (len < 8) {
        return 8;
    }
    size = order == PED_BIG ? (size_t)bytes[6] << 8 | bytes[7] : (size_t)bytes[7] << 8 | bytes[6];
    return size < 8 ? 8 : size;
}

/* The number at `at`, of eight bytes. */
static inline uint64_t ped_eight(uint32_t order, const uint8_t *at)
{
    int is_big_here = __BYTE_ORDER__ == __ORDER_BIG_ENDIAN__;
    uint64_t number;
    memcpy(&number, at, sizeof number);
    return (order == PED_BIG) == is_big_here ? number : __builtin_bswap64(number);
}

/* How many numbers a span has. */
static inline size_t ped_count(struct ped_span span)
{
    return span.len / 8;
}

/* The i-th number of a span, from 0; `bytes` is where the frame begins. */
static inline uint64_t ped_number(uint32_t order, const uint8_t *bytes, struct ped_span span, size_t i)
{
    return ped_eight(order, bytes + span.at + 8 * i);
}

/* Why a file is refused, and what to do. */
static inline const char *ped_file_message(uint32_t refusal)
{
    switch (refusal) {
    case PED_FILE_READ: return "";
    case PED_FILE_NOT_PERF_DATA:
        return "this is no perf.data file: pass a file that `perf record` has written";
    case PED_FILE_OLD_FORMAT:
        return "this file has the format that perf wrote before 2010: record again with a newer perf";
    case PED_FILE_BAD_HEAD:
        return "the head of the file is cut off, or has an unknown size: copy the file again, or "
               "record again";
    case PED_FILE_DIRECTORY:
        return "this is one of several files of `perf record --threads`: record again without that "
               "option";
    case PED_FILE_COMPRESSED:
        return "the frames are compressed: run `perf inject -i perf.data -o plain.data`, or record "
               "without `-z`";
    case PED_FILE_CUT_ATTRIBUTES:
        return "the attributes end beyond the file, so it is cut off: copy it again, or record again";
    case PED_FILE_CUT_FRAMES:
        return "the frames end beyond the file, so it is cut off: copy it again, or record again";
    case PED_FILE_CUT_IDS:
        return "the ids of an event end beyond the file, so it is cut off: copy it again, or record "
               "again";
    case PED_FILE_BAD_ENTRY:
        return "the attributes are not whole entries, so the file is damaged: copy it again, or record "
               "again";
    case PED_FILE_NO_EVENT:
        return "the file has no event, so it is damaged: copy it again, or record again";
    case PED_FILE_BAD_ATTRIBUTE:
        return "the attribute of an event is damaged: copy the file again, or record again";
    case PED_FILE_NEW_ATTRIBUTE:
        return "an event has fields of a newer kernel than this library knows: use a newer version of "
               "it";
    case PED_FILE_BAD_IDS:
        return "the ids of an event are not whole numbers, so the file is damaged: copy it again, or "
               "record again";
    case PED_FILE_OVERLAP:
        return "two parts of the file share bytes, so it is damaged: copy it again, or record again";
    case PED_FILE_NO_ID_PLACE:
        return "the events have their ids at different places: record all of them with one `perf "
               "record`";
    case PED_FILE_SHARED_ID:
        return "two events have one id, so the file is damaged: copy it again, or record again";
    case PED_FILE_OTHER_COUNT: return "an array does not have as many elements as it needs";
    case PED_FILE_CUT_FEATURE:
        return "the feature ends beyond the file, so it is cut off: copy it again, or record again";
    default: return "not a refusal";
    }
}

/* The text of a refusal's kind. */
static inline const char *ped_kind_text(const struct ped_frame *frame)
{
    switch (frame->refusal) {
    case PED_ACCEPTED: return "";
    case PED_EOF: return "unexpected EOF during parsing";
    case PED_INVALID_RECORD: return "invalid record";
    case PED_UNSUPPORTED_CONFIG: return "unsupported config";
    case PED_UNSUPPORTED_DATA: return "unsupported serialized data";
    default: return "not a refusal";
    }
}

/* The message of a refusal, or its kind's text if it has none. */
static inline const char *ped_message(const struct ped_frame *frame)
{
    switch (frame->reason) {
    case PED_SMALL_HEADER: return "header size was too small to be valid";
    case PED_NO_ROOM_FOR_ID:
        return "config has sample_id_all bit set but record does not have enough data to store the "
               "sample_id";
    case PED_BUILD_ID_LENGTH: return "build_id had invalid length";
    case PED_USED_STACK: return "stack dyn_size was greater than the record size";
    case PED_SINGLE_READ:
        return "attempted to parse a SingleRead with a config that has GROUP set in read_format";
    case PED_GROUP_READ:
        return "attempted to parse a GroupRead with a config that does not have GROUP set in "
               "read_format";
    case PED_READ_FORMAT: return "read_format contains unsupported flags";
    case PED_GROUP_LENGTH: return "number of elements in group read was too large for data type";
    case PED_ATTRIBUTE_SIZE: return "not a valid size for a perf_event_attr struct";
    case PED_ATTRIBUTE_TAIL:
        return "serialized perf_event_attr contains fields not supported by this version of "
               "perf-event-data";
    default: return ped_kind_text(frame);
    }
}

/* The configuration of an event of this machine, if it has <linux/perf_event.h>. */
#ifdef PERF_ATTR_SIZE_VER0
static inline struct ped_config ped_config_of(const struct perf_event_attr *attr)
{
    struct ped_config config;
    config.version = PED_VERSION;
    config.order = PED_LITTLE;
    config.sample_type = attr->sample_type;
    config.read_format = attr->read_format;
    /* the word of single bits follows read_format */
    memcpy(&config.flags, (const char *)attr + offsetof(struct perf_event_attr, read_format) + 8, 8);
    config.branch_sample_type = attr->branch_sample_type;
    config.sample_regs_user = attr->sample_regs_user;
    config.sample_regs_intr = attr->sample_regs_intr;
    return config;
}
#endif

#ifdef __cplusplus
}
#endif
#endif
