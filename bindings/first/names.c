/* Prints the names of the tasks in a recording on standard input, an attribute and the records after it:
 *
 *     cc names.c $(pkg-config --cflags --libs perf_event_data)
 */
#include <linux/perf_event.h>
#include <stdio.h>
#include <perf_event_data.h>

void print_names(const struct perf_event_attr *attr, const uint8_t *bytes, size_t len)
{
    struct ped_config config = ped_config_of(attr);
    struct ped_frame frame;
    while (ped_read(&config, bytes, len, &frame) == PED_LIMIT) {
        if (frame.refusal != PED_ACCEPTED) {
            fprintf(stderr, "type %u: %s\n", frame.type, ped_message(&frame));
        } else if (frame.read == PERF_RECORD_COMM) {
            struct ped_span name = frame.spans.comm.comm;
            unsigned long long time = frame.time, tid = frame.numbers.comm.tid;
            printf("%llu %llu is %.*s\n", time, tid, (int)name.len, (const char *)bytes + name.at);
        }
        size_t taken = ped_frame_length(&frame, len);
        bytes += taken;
        len -= taken;
    }
}

static uint8_t recording[1 << 20];

int main(void)
{
    struct perf_event_attr attr;
    size_t len = fread(recording, 1, sizeof recording, stdin);
    memset(&attr, 0, sizeof attr);
    if (len < PERF_ATTR_SIZE_VER0) {
        return 1;
    }
    memcpy(&attr, recording, PERF_ATTR_SIZE_VER0);
    if (attr.size < PERF_ATTR_SIZE_VER0 || attr.size > len) {
        fputs("this begins with no attribute: of a file of `perf record` see samples.c, or the program perf_data\n", stderr);
        return 1;
    }
    memcpy(&attr, recording, attr.size < sizeof attr ? attr.size : sizeof attr);
    print_names(&attr, recording + attr.size, len - attr.size);
    return 0;
}
