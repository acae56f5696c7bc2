/* What each call and each helper of the header does with bytes written by hand: C99, and C++17 too. */
#include <linux/perf_event.h>
#include <stdio.h>
#include "perf_event_data.h"

/* The layout that the library has: offsets and sizes in bytes. */
#define IS(name, fact) typedef char name[(fact) ? 1 : -1]
IS(config_size, sizeof(struct ped_config) == 56);
IS(config_order, offsetof(struct ped_config, order) == 4);
IS(config_sample_type, offsetof(struct ped_config, sample_type) == 8);
IS(config_regs_intr, offsetof(struct ped_config, sample_regs_intr) == 48);
IS(frame_size, sizeof(struct ped_frame) == 320);
IS(frame_read, offsetof(struct ped_frame, read) == 8);
IS(frame_present, offsetof(struct ped_frame, present) == 16);
IS(frame_time, offsetof(struct ped_frame, time) == 32);
IS(frame_cpu, offsetof(struct ped_frame, cpu) == 56);
IS(frame_numbers, offsetof(struct ped_frame, numbers) == 64);
IS(frame_spans, offsetof(struct ped_frame, spans) == 256);

IS(ended_size, sizeof(struct ped_ended) == 24);
IS(ended_how, offsetof(struct ped_ended, how) == 16);
IS(split_end_size, sizeof(struct ped_split_end) == 8);
IS(event_size, sizeof(struct ped_event) == 104);
IS(event_name, offsetof(struct ped_event, name) == 88);
IS(name_size, sizeof(struct ped_name) == 32);

static int failures;

static void check(int holds, const char *what)
{
    if (!holds) {
        printf("calls: %s\n", what);
        failures++;
    }
}

/* The thread 7 of the process 5 is called `sh`, as it executed that; then its sample id: pid 5 and tid
 * 7, time 9, id 11, stream id 12, cpu 3, and the number 11 once more. */
static const uint8_t comm[72] = {
    3, 0, 0, 0, 0, 0x20, 72, 0, 5, 0, 0, 0, 7, 0, 0, 0, 's', 'h', 0, 0, 0, 0, 0, 0,
    5, 0, 0, 0, 7, 0, 0, 0, 9, 0, 0, 0, 0, 0, 0, 0, 11, 0, 0, 0, 0, 0, 0, 0,
    12, 0, 0, 0, 0, 0, 0, 0, 3, 0, 0, 0, 0, 0, 0, 0, 11, 0, 0, 0, 0, 0, 0, 0};

/* The first 24 bytes in big endian, without a sample id. */
static const uint8_t big_comm[24] = {0, 0, 0, 3, 0x20, 0, 0, 24, 0, 0, 0, 5,
                                     0, 0, 0, 7, 's', 'h', 0, 0, 0, 0, 0, 0};

static const uint64_t id_flags = PERF_SAMPLE_TID | PERF_SAMPLE_TIME | PERF_SAMPLE_ID
                                 | PERF_SAMPLE_STREAM_ID | PERF_SAMPLE_CPU | PERF_SAMPLE_IDENTIFIER;

static struct ped_config plain_config(uint32_t order)
{
    struct ped_config config;
    memset(&config, 0, sizeof config);
    config.version = PED_VERSION;
    config.order = order;
    return config;
}

/* Of an event whose records end with a sample id. */
static struct ped_config config_with_ids(void)
{
    struct perf_event_attr attr;
    memset(&attr, 0, sizeof attr);
    attr.sample_type = PERF_SAMPLE_IP | id_flags;
    attr.sample_id_all = 1;
    return ped_config_of(&attr);
}

static void check_header(void)
{
    struct ped_config config = config_with_ids();
    struct ped_frame frame;
    check(ped_read(&config, comm, sizeof comm, &frame) == PED_LIMIT, "a frame is read");
    check(frame.type == 3 && frame.misc == 0x2000 && frame.size == 72, "its header");
    check(frame.read == 3 && frame.refusal == PED_ACCEPTED && frame.reason == 0, "its type");
    check(frame.numbers.comm.pid == 5 && frame.numbers.comm.tid == 7, "its numbers");
    check(frame.numbers.all[2] == 0 && frame.numbers.all[23] == 0, "no other numbers");
    check(frame.spans.comm.comm.at == 16 && frame.spans.comm.comm.len == 2, "its name");
    check(frame.spans.all[1].at == 0 && frame.spans.all[7].len == 0, "no other spans");
    check(memcmp(comm + frame.spans.comm.comm.at, "sh", 2) == 0, "the bytes of its name");
    check(frame.read_format == 0, "no counters");
    check(ped_frame_length(&frame, sizeof comm) == 72, "its length");
}

static void check_sample_id(void)
{
    struct ped_config config = config_with_ids();
    struct ped_frame frame;
    ped_read(&config, comm, sizeof comm, &frame);
    check(frame.present == id_flags, "which numbers of a sample id are present");
    check(frame.pid == 5 && frame.tid == 7 && frame.time == 9, "the task and the time");
    check(frame.id == 11 && frame.stream_id == 12 && frame.cpu == 3, "the event and the processor");
    config.flags = 0;
    ped_read(&config, comm, sizeof comm, &frame);
    check(frame.present == 0 && frame.pid == 0 && frame.cpu == 0, "no sample id");
    check(frame.spans.comm.comm.len == 49, "a name to the last byte that is not 0");
}

static void check_orders(void)
{
    struct ped_config config = plain_config(PED_BIG);
    struct ped_frame frame;
    check(ped_read(&config, big_comm, sizeof big_comm, &frame) == PED_LIMIT, "big endian is read");
    check(frame.type == 3 && frame.misc == 0x2000 && frame.size == 24, "its header in big endian");
    check(frame.numbers.comm.pid == 5 && frame.numbers.comm.tid == 7, "its numbers in big endian");
    check(ped_needed(PED_BIG, big_comm, 8) == 24, "needed in big endian");
    check(ped_eight(PED_BIG, big_comm) == 0x0000000320000018u, "eight bytes in big endian");
    check(ped_eight(PED_LITTLE, comm) == 0x0048200000000003u, "eight bytes in little endian");
}

/* Nothing is written if no frame is read. */
static void check_end(const struct ped_config *config, size_t len, uint32_t end, const char *what)
{
    struct ped_frame frame, before;
    memset(&frame, 0xa5, sizeof frame);
    before = frame;
    check(ped_read(config, comm, len, &frame) == end, what);
    check(memcmp(&frame, &before, sizeof frame) == 0, "nothing is written");
}

static void check_ends(void)
{
    struct ped_config config = plain_config(PED_LITTLE), other = config;
    check_end(&config, 0, PED_DONE, "done without a byte");
    check_end(&config, 1, PED_CUT_HEADER, "a header of one byte");
    check_end(&config, 7, PED_CUT_HEADER, "a header of seven bytes");
    other.version = PED_VERSION + 1;
    check_end(&other, sizeof comm, PED_NOT_READ, "a later version");
    check_end(&other, 0, PED_NOT_READ, "a later version without a byte");
    other.version = 0;
    check_end(&other, sizeof comm, PED_NOT_READ, "version 0");
    other = config;
    other.order = 2;
    check_end(&other, sizeof comm, PED_NOT_READ, "no such order");
}

static void check_refusal(uint16_t size, size_t len, uint16_t refusal, uint16_t reason,
                          const char *message)
{
    struct ped_config config = config_with_ids();
    struct ped_frame frame;
    uint8_t bytes[sizeof comm];
    memcpy(bytes, comm, sizeof comm);
    bytes[6] = (uint8_t)size;
    check(ped_read(&config, bytes, len, &frame) == PED_LIMIT, "a refused frame is a frame");
    check(frame.refusal == refusal && frame.reason == reason, "why it is refused");
    check(frame.type == 3 && frame.misc == 0x2000 && frame.size == size, "its header is there");
    check(frame.read == 0 && frame.present == 0 && frame.numbers.all[0] == 0, "and nothing else");
    check(strcmp(ped_message(&frame), message) == 0, "the message of a refusal");
    check(ped_frame_length(&frame, len) == (size < 8 ? 8 : size < len ? size : len),
          "the length of a refused frame");
}

static void check_refusals(void)
{
    check_refusal(7, 72, PED_INVALID_RECORD, PED_SMALL_HEADER,
                  "header size was too small to be valid");
    check_refusal(72, 71, PED_EOF, PED_NO_REASON, "unexpected EOF during parsing");
    check_refusal(48, 72, PED_INVALID_RECORD, PED_NO_ROOM_FOR_ID,
                  "config has sample_id_all bit set but record does not have enough data to store "
                  "the sample_id");
}

/* ---- several frames, a frame in two pieces, and the event of a frame */

/* A LOST_SAMPLES of 5, a LOST_SAMPLES of 6, and five bytes. */
static const uint8_t two_frames[37] = {13, 0, 0, 0, 0, 0, 16, 0, 5, 0, 0, 0, 0, 0, 0, 0,
                                       13, 0, 0, 0, 0, 0, 16, 0, 6, 0, 0, 0, 0, 0, 0, 0, 1, 2, 3, 4, 5};

static void check_many_end(size_t len, size_t room, size_t count, uint32_t how, const char *what)
{
    struct ped_config config = plain_config(PED_LITTLE);
    struct ped_frame frames[4], before;
    struct ped_ended ended;
    size_t i;
    memset(frames, 0xa5, sizeof frames);
    before = frames[3];
    ended = ped_read_many(&config, two_frames, len, frames, room);
    check(ended.count == count && ended.taken == 16 * count && ended.how == how, what);
    for (i = 0; i < count; i++) {
        check(frames[i].numbers.lost_samples.lost == 5 + i, "each frame at its place");
    }
    for (i = count; i < 4; i++) {
        check(memcmp(&frames[i], &before, sizeof before) == 0, "no more frames are written");
    }
}

static void check_many(void)
{
    struct ped_config config = plain_config(PED_LITTLE);
    struct ped_frame frame;
    struct ped_ended ended;
    check_many_end(32, 3, 2, PED_DONE, "all frames, and done");
    check_many_end(37, 3, 2, PED_CUT_HEADER, "all frames, and a cut header");
    check_many_end(37, 2, 2, PED_LIMIT, "as many as there is room for");
    check_many_end(37, 1, 1, PED_LIMIT, "room for one");
    check_many_end(37, 0, 0, PED_LIMIT, "no room");
    ended = ped_read_many(&config, two_frames, 31, &frame, 1);
    check(ended.count == 1 && ended.taken == 16, "one frame and its bytes");
    ended = ped_read_many(&config, two_frames + 16, 15, &frame, 1);
    check(ended.count == 1 && ended.taken == 15 && frame.refusal == PED_EOF, "an unfinished frame");
    config.version++;
    ended = ped_read_many(&config, two_frames, 32, &frame, 1);
    check(ended.count == 0 && ended.taken == 0 && ended.how == PED_NOT_READ, "a later version");
}

static void check_split_end(size_t first, size_t second, size_t room, uint32_t how, uint32_t at,
                            const char *what)
{
    struct ped_config config = config_with_ids();
    struct ped_frame frame, whole;
    struct ped_split_end end;
    uint8_t scratch[80], before[80];
    memset(scratch, 0x5a, sizeof scratch);
    memcpy(before, scratch, sizeof scratch);
    memset(&frame, 0xa5, sizeof frame);
    whole = frame;
    if (how == PED_LIMIT) {
        ped_read(&config, comm, sizeof comm, &whole);
        memcpy(before, comm, at == 1 ? sizeof comm : 0);
    }
    end = ped_read_split(&config, comm, first, comm + first, second, scratch, room, &frame);
    check(end.how == how && end.at == at, what);
    check(memcmp(&frame, &whole, sizeof frame) == 0, "the frame of both pieces, or nothing");
    check(memcmp(scratch, before, sizeof scratch) == 0, "the copy, or nothing");
}

static void check_split(void)
{
    struct ped_config config = config_with_ids();
    struct ped_frame frame;
    struct ped_split_end end;
    uint8_t scratch[80];
    check_split_end(72, 0, 0, PED_LIMIT, 0, "in the first piece");
    check_split_end(0, 72, 0, PED_LIMIT, 0, "in the second piece");
    check_split_end(20, 52, 72, PED_LIMIT, 1, "in both pieces");
    check_split_end(3, 69, 72, PED_LIMIT, 1, "a header in both pieces");
    check_split_end(20, 52, 71, PED_SMALL_SCRATCH, 0, "too little space");
    check_split_end(0, 0, 72, PED_DONE, 0, "no bytes");
    check_split_end(3, 4, 72, PED_CUT_HEADER, 0, "a header of seven bytes");
    config.order = 2;
    end = ped_read_split(&config, comm, 20, comm + 20, 52, scratch, sizeof scratch, &frame);
    check(end.how == PED_NOT_READ && end.at == 0, "no such order");
}

/* A SAMPLE of the event 21 in big endian, and after its number eight more bytes. */
static const uint8_t big_sample[24] = {0, 0, 0, 9, 0, 0, 0, 24, 0, 0, 0, 0, 0, 0, 0, 21, 1, 2, 3, 4, 5, 6, 7, 8};

static void check_identifier(void)
{
    uint64_t id = 1;
    check(ped_identifier(comm, 72, PED_LITTLE, 1, &id) == 1 && id == 11, "at the end of a COMM");
    check(ped_identifier(big_sample, 24, PED_BIG, 0, &id) == 1 && id == 21, "at the front of a SAMPLE");
    check(ped_identifier(big_sample, 24, PED_BIG, 5, &id) == 1 && id == 21, "with sample ids too");
    id = 1;
    check(ped_identifier(comm, 72, PED_LITTLE, 0, &id) == 0 && id == 1, "no sample ids");
    check(ped_identifier(comm, 71, PED_LITTLE, 1, &id) == 0 && id == 1, "no whole frame");
    check(ped_identifier(comm, 0, PED_LITTLE, 1, &id) == 0 && id == 1, "no bytes");
    check(ped_identifier(comm, 72, 2, 1, &id) == 0 && id == 1, "no such order");
}

/* ---- an attribute, and a body */

/* An attribute of 104 bytes: the size at 4, sample_type 1 + 256 at 24, read_format 4 at 32, sample_id_all
 * (bit 18) at 40, branch_sample_type (bit 17) at 72, the masks 3 at 80 and 5 at 96. */
static void put_attribute(uint8_t bytes[160], uint8_t size)
{
    memset(bytes, 0, 160);
    bytes[4] = size;
    bytes[24] = 1;
    bytes[25] = 1;
    bytes[32] = 4;
    bytes[42] = 4;
    bytes[74] = 2;
    bytes[80] = 3;
    bytes[96] = 5;
}

static void check_attribute(void)
{
    uint8_t bytes[160];
    struct ped_config config;
    size_t taken = 0;
    put_attribute(bytes, 104);
    check(ped_read_attr(bytes, 160, PED_LITTLE, &config, &taken) == PED_ACCEPTED, "an attribute");
    check(taken == 104, "its size");
    check(config.version == PED_VERSION && config.order == PED_LITTLE, "version and order");
    check(config.sample_type == 257 && config.read_format == 4, "the sample type and the read format");
    check(config.flags == 1 << 18 && config.branch_sample_type == 1 << 17, "the flags");
    check(config.sample_regs_user == 3 && config.sample_regs_intr == 5, "the registers");
    put_attribute(bytes, 96);
    check(ped_read_attr(bytes, 96, PED_LITTLE, &config, &taken) == PED_ACCEPTED && taken == 96
              && config.sample_regs_user == 3 && config.sample_regs_intr == 0,
          "a field after the end is 0");
}

static void check_refused_attribute(uint8_t size, size_t len, uint32_t order, uint8_t tail,
                                    uint32_t refusal, const char *what)
{
    uint8_t bytes[160];
    struct ped_config config, before;
    size_t taken = 1;
    put_attribute(bytes, size);
    bytes[140] = tail;
    memset(&config, 0xa5, sizeof config);
    before = config;
    check(ped_read_attr(bytes, len, order, &config, &taken) == refusal, what);
    check(taken == 1 && memcmp(&config, &before, sizeof config) == 0, "nothing of it is written");
}

static void check_attributes(void)
{
    check_attribute();
    check_refused_attribute(104, 103, PED_LITTLE, 0, PED_EOF, "an attribute that is cut");
    check_refused_attribute(104, 7, PED_LITTLE, 0, PED_EOF, "an attribute without its size");
    check_refused_attribute(100, 160, PED_LITTLE, 0, PED_INVALID_RECORD, "no size of an attribute");
    check_refused_attribute(104, 160, PED_BIG, 0, PED_EOF, "a size of 104 * 2^24 in big endian");
    check_refused_attribute(152, 160, PED_LITTLE, 1, PED_UNSUPPORTED_DATA, "a tail that is not zero");
    check_refused_attribute(104, 160, 2, 0, PED_UNSUPPORTED_CONFIG, "no such order");
}

static void check_body(void)
{
    static const uint8_t long_body[65528] = {0};
    struct ped_config config = config_with_ids();
    struct ped_frame frame;
    check(ped_read_body(&config, 3, 0x2000, comm + 8, 16, &frame) == PED_LIMIT, "a body is read");
    check(frame.type == 3 && frame.misc == 0x2000 && frame.size == 24 && frame.read == 3, "as a frame");
    check(frame.present == 0 && frame.pid == 0 && frame.cpu == 0, "without a sample id");
    check(frame.numbers.comm.pid == 5 && frame.numbers.comm.tid == 7, "the numbers of a body");
    check(frame.spans.comm.comm.at == 16 && frame.spans.comm.comm.len == 2, "the name of a body");
    check(ped_read_body(&config, 3, 0, comm + 8, 7, &frame) == PED_LIMIT && frame.refusal == PED_EOF,
          "a body that is too short");
    check(ped_read_body(&config, 100, 0, long_body, 65527, &frame) == PED_LIMIT && frame.size == 65535
              && frame.read == 0 && frame.spans.unknown.data.at == 8
              && frame.spans.unknown.data.len == 65527,
          "the longest body");
    frame.type = 1;
    check(ped_read_body(&config, 100, 0, long_body, 65528, &frame) == PED_LONG_BODY && frame.type == 1,
          "a longer one");
    config.version = 0;
    check(ped_read_body(&config, 3, 0, comm + 8, 16, &frame) == PED_NOT_READ && frame.type == 1,
          "a body under version 0");
}

static void check_name(uint32_t type, uint64_t number, uint64_t at, uint64_t size, size_t room,
                       const char *name)
{
    /* a name with an escape, a backslash and a byte that is no ASCII */
    static const uint8_t bytes[8] = {0, 'a', 'b', 27, 92, 255, 'c', 0};
    struct ped_event event;
    char text[80], before[80];
    size_t count = strlen(name);
    memset(&event, 0, sizeof event);
    memset(text, 90, sizeof text);
    memset(before, 90, sizeof before);
    memcpy(before, name, count);
    event.type = type;
    event.event = number;
    event.name.at = at;
    event.name.size = size;
    check(ped_event_name(&event, bytes, sizeof bytes, text, room) == count, name);
    check(memcmp(text, before, sizeof text) == 0, "the name of an event, and nothing else");
}

static void check_names(void)
{
    check_name(1, 0, 1, 6, 80, "ab\\x1b\\x5c\\xffc");
    check_name(1, 0, 1, 6, 9, "ab\\x1b\\x5");
    check_name(1, 0, 1, 2, 0, "");
    check_name(1, 0, 1, 0, 80, "cpu-clock");
    check_name(0, 9, 1, 8, 80, "ref-cycles");
    check_name(3, 0x10202, 0, 0, 80, "LLC-prefetch-misses");
    check_name(3, 0x101, 0, 2, 80, "type 3 config 0x101");
    check_name(4294967295u, 18446744073709551615u, 1, 18446744073709551615u, 80,
               "type 4294967295 config 0xffffffffffffffff");
}

static void check_helpers(void)
{
    /* the numbers 1 and 0x0807060504030201 */
    static const uint8_t numbers[16] = {1, 0, 0, 0, 0, 0, 0, 0, 1, 2, 3, 4, 5, 6, 7, 8};
    struct ped_span both = {0, 16}, second = {8, 8};
    check(ped_count(both) == 2 && ped_count(second) == 1, "how many numbers a span has");
    check(ped_number(PED_LITTLE, numbers, both, 1) == 0x0807060504030201u, "a number of a span");
    check(ped_number(PED_LITTLE, numbers, second, 0) == 0x0807060504030201u, "of a later span");
    check(ped_number(PED_BIG, numbers, both, 1) == 0x0102030405060708u, "and in big endian");
    check(ped_needed(PED_LITTLE, comm, 7) == 8, "a header is needed first");
    check(ped_needed(PED_LITTLE, comm, 8) == 72, "then its size");
}

int main(void)
{
    check_header();
    check_sample_id();
    check_orders();
    check_ends();
    check_refusals();
    check_many();
    check_split();
    check_identifier();
    check_attributes();
    check_body();
    check_names();
    check_helpers();
    printf("calls: %d failures\n", failures);
    return failures != 0;
}
