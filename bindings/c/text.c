#include <linux/perf_event.h>
#include <stdlib.h>
#include "text.h"

/* How a field is printed: a number of the record or of the frame itself, bytes, or a list of items. */
enum kind { NUMBER, OWN, BYTES, COUNTERS, NUMBERS, PAIRS, BRANCHES };

/* What a field may need besides a flag and PERF_FORMAT_*: no group, a build id, or none. */
enum { SINGLE = 32, BUILD_ID = 64, INODE = 128 };

/* A field: what is printed before it, its place among the numbers or the spans, and when it is present: if
 * the frame has one of the flags, PERF_SAMPLE_*, unless there are none, and all of the forms. */
struct field {
    const char *before;
    enum kind kind;
    int at;
    uint64_t flags;
    uint32_t forms;
};

#define FIELD(name, kind, at) {" " #name "=", kind, at, 0, 0}
#define IF(name, kind, at, flag) {" " #name "=", kind, at, PERF_SAMPLE_##flag, 0}
#define END {NULL, NUMBER, 0, 0, 0}

/* The records by the numbers of their types, each with its fields in the order of its line. */
static const struct record {
    const char *name;
    struct field fields[34];
} records[] = {
    /* made of fields.txt by fields.py */
    {"Unknown", {FIELD(data, BYTES, 0), END}},
    {"Mmap", {FIELD(pid, NUMBER, 0), FIELD(tid, NUMBER, 1), FIELD(addr, NUMBER, 2), FIELD(len, NUMBER, 3),
        FIELD(pgoff, NUMBER, 4), FIELD(filename, BYTES, 0), END}},
    {"Lost", {FIELD(id, NUMBER, 0), FIELD(lost, NUMBER, 1), END}},
    {"Comm", {FIELD(pid, NUMBER, 0), FIELD(tid, NUMBER, 1), FIELD(comm, BYTES, 0), END}},
    {"Exit", {FIELD(pid, NUMBER, 0), FIELD(ppid, NUMBER, 1), FIELD(tid, NUMBER, 2), FIELD(ptid, NUMBER, 3),
        FIELD(time, NUMBER, 4), END}},
    {"Throttle", {FIELD(time, NUMBER, 0), FIELD(id, NUMBER, 1), FIELD(stream_id, NUMBER, 2), END}},
    {"Unthrottle", {FIELD(time, NUMBER, 0), FIELD(id, NUMBER, 1), FIELD(stream_id, NUMBER, 2), END}},
    {"Fork", {FIELD(pid, NUMBER, 0), FIELD(ppid, NUMBER, 1), FIELD(tid, NUMBER, 2), FIELD(ptid, NUMBER, 3),
        FIELD(time, NUMBER, 4), END}},
    {"Read", {FIELD(pid, NUMBER, 0), FIELD(tid, NUMBER, 1), FIELD(value, NUMBER, 2),
        {" time_enabled=", NUMBER, 3, 0, PERF_FORMAT_TOTAL_TIME_ENABLED},
        {" time_running=", NUMBER, 4, 0, PERF_FORMAT_TOTAL_TIME_RUNNING},
        {" id=", NUMBER, 5, 0, PERF_FORMAT_ID}, {" lost=", NUMBER, 6, 0, PERF_FORMAT_LOST}, END}},
    {"Sample", {IF(ip, NUMBER, 0, IP), IF(pid, OWN, 0, TID), IF(tid, OWN, 1, TID), IF(time, OWN, 2, TIME),
        IF(addr, NUMBER, 1, ADDR), {" id=", OWN, 3, PERF_SAMPLE_ID | PERF_SAMPLE_IDENTIFIER, 0},
        IF(stream_id, OWN, 4, STREAM_ID), IF(cpu, OWN, 5, CPU), IF(period, NUMBER, 2, PERIOD),
        {" time_enabled=", NUMBER, 13, PERF_SAMPLE_READ, PERF_FORMAT_TOTAL_TIME_ENABLED},
        {" time_running=", NUMBER, 14, PERF_SAMPLE_READ, PERF_FORMAT_TOTAL_TIME_RUNNING},
        {" values=", COUNTERS, 2, PERF_SAMPLE_READ, PERF_FORMAT_GROUP},
        {" values=", NUMBER, 16, PERF_SAMPLE_READ, SINGLE},
        {":", NUMBER, 17, PERF_SAMPLE_READ, SINGLE | PERF_FORMAT_ID},
        {":", NUMBER, 18, PERF_SAMPLE_READ, SINGLE | PERF_FORMAT_LOST}, IF(callchain, NUMBERS, 0, CALLCHAIN),
        IF(raw, BYTES, 5, RAW), {" lbr_hw_index=", NUMBER, 10, PED_HAS_LBR_HW_INDEX, 0},
        IF(lbr, BRANCHES, 1, BRANCH_STACK), IF(regs_user_abi, NUMBER, 11, REGS_USER),
        IF(regs_user, NUMBERS, 3, REGS_USER), IF(stack_user, BYTES, 6, STACK_USER),
        {" weight=", NUMBER, 3, PERF_SAMPLE_WEIGHT | PERF_SAMPLE_WEIGHT_STRUCT, 0},
        IF(data_src, NUMBER, 4, DATA_SRC), IF(transaction, NUMBER, 5, TRANSACTION),
        IF(regs_intr_abi, NUMBER, 12, REGS_INTR), IF(regs_intr, NUMBERS, 4, REGS_INTR),
        IF(phys_addr, NUMBER, 6, PHYS_ADDR), IF(aux, BYTES, 7, AUX), IF(cgroup, NUMBER, 7, CGROUP),
        IF(data_page_size, NUMBER, 8, DATA_PAGE_SIZE), IF(code_page_size, NUMBER, 9, CODE_PAGE_SIZE), END}},
    {"Mmap2", {FIELD(pid, NUMBER, 0), FIELD(tid, NUMBER, 1), FIELD(addr, NUMBER, 2), FIELD(len, NUMBER, 3),
        FIELD(pgoff, NUMBER, 4), {" maj=", NUMBER, 7, 0, INODE}, {" min=", NUMBER, 8, 0, INODE},
        {" ino=", NUMBER, 9, 0, INODE}, {" ino_generation=", NUMBER, 10, 0, INODE},
        {" build_id=", BYTES, 1, 0, BUILD_ID}, FIELD(prot, NUMBER, 5), FIELD(flags, NUMBER, 6),
        FIELD(filename, BYTES, 0), END}},
    {"Aux", {FIELD(aux_offset, NUMBER, 0), FIELD(aux_size, NUMBER, 1), FIELD(flags, NUMBER, 2), END}},
    {"ITraceStart", {FIELD(pid, NUMBER, 0), FIELD(tid, NUMBER, 1), END}},
    {"LostSamples", {FIELD(lost, NUMBER, 0), END}},
    {"Switch", {END}},
    {"SwitchCpuWide", {FIELD(pid, NUMBER, 0), FIELD(tid, NUMBER, 1), FIELD(out, NUMBER, 2), END}},
    {"Namespaces", {FIELD(pid, NUMBER, 0), FIELD(tid, NUMBER, 1), FIELD(namespaces, PAIRS, 0), END}},
    {"KSymbol", {FIELD(addr, NUMBER, 0), FIELD(len, NUMBER, 1), FIELD(ksym_type, NUMBER, 2),
        FIELD(flags, NUMBER, 3), FIELD(name, BYTES, 0), END}},
    {"BpfEvent", {FIELD(ty, NUMBER, 0), FIELD(flags, NUMBER, 1), FIELD(id, NUMBER, 2), FIELD(tag, BYTES, 0),
        END}},
    {"CGroup", {FIELD(id, NUMBER, 0), FIELD(path, BYTES, 0), END}},
    {"TextPoke", {FIELD(addr, NUMBER, 0), FIELD(old_bytes, BYTES, 0), FIELD(new_bytes, BYTES, 1), END}},
    {"AuxOutputHwId", {FIELD(hw_id, NUMBER, 0), END}},
    /* up to here */
};

static const char *const kind_names[] = {
    "", "Eof", "InvalidRecord", "UnsupportedConfig", "UnsupportedData", "", "", ""};

/* How many frames are read at a time. */
enum { FRAMES = 16 };

/* A line of text: of this frame, which begins at `bytes`. */
struct line {
    FILE *out;
    uint32_t order;
    const uint8_t *bytes;
    const struct ped_frame *frame;
};

static void put(const struct line *line, const char *before, uint64_t number)
{
    fprintf(line->out, "%s%llu", before, (unsigned long long)number);
}

static void put_hex(const struct line *line, struct ped_span span)
{
    uint32_t i;
    for (i = 0; i < span.len; i++) {
        fprintf(line->out, "%02x", line->bytes[span.at + i]);
    }
}

/* The word of a branch: four bits, its cycles and its type. */
static void put_branch(const struct line *line, uint64_t word)
{
    int bit;
    for (bit = 0; bit < 4; bit++) {
        put(line, ":", word >> bit & 1);
    }
    put(line, ":", word >> 4 & 0xffff);
    put(line, ":", word >> 20 & 15);
}

/* Items of `each` numbers: commas between items, colons inside one. */
static void put_items(const struct line *line, struct ped_span span, size_t each, int are_branches)
{
    size_t i;
    for (i = 0; i < ped_count(span); i++) {
        uint64_t number = ped_number(line->order, line->bytes, span, i);
        if (are_branches && i % each == 2) {
            put_branch(line, number);
        } else {
            put(line, i == 0 ? "" : i % each == 0 ? "," : ":", number);
        }
    }
}

/* What the fields of a frame may need besides a flag, as far as it has it. */
static uint32_t forms_of(const struct ped_frame *f)
{
    return f->read_format | (f->read_format & PERF_FORMAT_GROUP ? 0 : SINGLE)
        | (f->misc & PERF_RECORD_MISC_MMAP_BUILD_ID ? BUILD_ID : INODE);
}

static void put_field(const struct line *line, const struct field *field, uint32_t forms)
{
    const struct ped_frame *f = line->frame;
    const uint64_t own[] = {f->pid, f->tid, f->time, f->id, f->stream_id, f->cpu};
    size_t counters = 1 + ((forms & PERF_FORMAT_ID) != 0) + ((forms & PERF_FORMAT_LOST) != 0);
    fputs(field->before, line->out);
    switch (field->kind) {
    case NUMBER: put(line, "", f->numbers.all[field->at]); break;
    case OWN: put(line, "", own[field->at]); break;
    case BYTES: put_hex(line, f->spans.all[field->at]); break;
    case COUNTERS: put_items(line, f->spans.all[field->at], counters, 0); break;
    case NUMBERS: put_items(line, f->spans.all[field->at], 1, 0); break;
    case PAIRS: put_items(line, f->spans.all[field->at], 2, 0); break;
    case BRANCHES: put_items(line, f->spans.all[field->at], 3, 1); break;
    }
}

/* The name and the fields of a record; of a type without a name, those that are unknown. */
static void put_record(const struct line *line)
{
    const struct ped_frame *f = line->frame;
    int is_known = f->read < sizeof records / sizeof *records;
    const struct record *record = &records[is_known ? f->read : 0];
    const struct field *field;
    uint32_t forms = forms_of(f);
    fprintf(line->out, " %s", is_known ? record->name : "?");
    for (field = record->fields; field->before != NULL; field++) {
        if ((field->flags == 0 || f->present & field->flags) && (forms & field->forms) == field->forms) {
            put_field(line, field, forms);
        }
    }
}

/* ---- a run */

void print_answer(FILE *out, uint32_t order, const uint8_t *bytes, const struct ped_frame *frame)
{
    struct line line = {out, order, bytes, frame};
    fprintf(out, " %u %u %u", frame->type, frame->misc, frame->size);
    if (frame->refusal != PED_ACCEPTED) {
        fprintf(out, " refused %s\n", kind_names[frame->refusal & 7]);
        return;
    }
    put_record(&line);
    fputc('\n', out);
}

static int put_end(FILE *out, uint32_t end, uint64_t refused)
{
    const char *name = end == PED_DONE ? "done" : end == PED_CUT_HEADER ? "cut" : "limit";
    fprintf(out, "end %s\n", name);
    return refused > 0 || end == PED_CUT_HEADER;
}

/* Prints the lines of some frames, the first of which begins at `bytes`. Returns how many are refused. */
static uint64_t print_some(struct line *line, uint64_t index, const struct ped_frame *frames, size_t count,
                           size_t len)
{
    uint64_t refused = 0;
    size_t i;
    for (i = 0; i < count; i++) {
        size_t taken = ped_frame_length(&frames[i], len);
        fprintf(line->out, "%llu", (unsigned long long)(index + i));
        print_answer(line->out, line->order, line->bytes, &frames[i]);
        refused += frames[i].refusal != PED_ACCEPTED;
        line->bytes += taken;
        len -= taken;
    }
    return refused;
}

/* Prints the lines of the frames, at most `limit`, and of the end. */
static int print_frames(FILE *out, uint64_t limit, const struct ped_config *config,
                        const uint8_t *bytes, size_t len)
{
    struct ped_frame frames[FRAMES];
    struct ped_ended ended = {0, 0, PED_LIMIT};
    struct line line = {out, config->order, bytes, frames};
    uint64_t index = 0, refused = 0;
    while (index < limit && ended.how == PED_LIMIT) {
        size_t room = limit - index < FRAMES ? (size_t)(limit - index) : FRAMES;
        ended = ped_read_many(config, line.bytes, len, frames, room);
        refused += print_some(&line, index, frames, ended.count, len);
        index += ended.count;
        len -= ended.taken;
    }
    return put_end(out, ended.how, refused);
}

uint32_t read_config(const struct command *command, const uint8_t *bytes, size_t len,
                     struct ped_config *config, size_t *taken)
{
    struct ped_config plain = {PED_VERSION, command->order, 0, 0, 0, 0, 0, 0};
    *config = plain;
    *taken = 0;
    return command->with_attr ? ped_read_attr(bytes, len, command->order, config, taken) : PED_ACCEPTED;
}

int print_run(FILE *out, const struct command *command, const uint8_t *bytes, size_t len)
{
    struct ped_config config;
    size_t taken;
    uint32_t refusal = read_config(command, bytes, len, &config, &taken);
    if (refusal != PED_ACCEPTED) {
        fprintf(out, "attr refused %s\n", kind_names[refusal & 7]);
        return 2;
    }
    return print_frames(out, command->limit, &config, bytes + taken, len - taken);
}

/* ---- the words of a command, and the bytes of a file */

/* A number of the digits 0 to 9 alone, one or more, below 2^64. Returns 0 for other words. */
static int read_limit(const char *word, uint64_t *limit)
{
    const char *at;
    *limit = 0;
    for (at = word; *at; at++) {
        uint64_t digit = (uint64_t)(*at - '0');
        if (*at < '0' || *at > '9' || *limit > (UINT64_MAX - digit) / 10) {
            return 0;
        }
        *limit = *limit * 10 + digit;
    }
    return at != word;
}

int read_order(const char *word, uint32_t *order)
{
    *order = strcmp(word, "big") == 0 ? PED_BIG : PED_LITTLE;
    return *order == PED_BIG || strcmp(word, "little") == 0 || strcmp(word, "native") == 0;
}

int read_command(int count, char **words, struct command *command)
{
    command->with_attr = count == 3 && strcmp(words[2], "attr") == 0;
    return (count == 2 || command->with_attr) && read_order(words[0], &command->order)
        && read_limit(words[1], &command->limit);
}

uint8_t *read_file(FILE *file, size_t *len)
{
    size_t capacity = 1 << 16, got;
    uint8_t *bytes = malloc(capacity);
    *len = 0;
    while (bytes != NULL && (got = fread(bytes + *len, 1, capacity - *len, file)) > 0) {
        *len += got;
        if (*len == capacity) {
            uint8_t *more = realloc(bytes, capacity *= 2);
            if (more == NULL) {
                free(bytes);
            }
            bytes = more;
        }
    }
    return bytes;
}
