/* Counts the samples of a file of `perf record` by task and event, in order of time. */
#include <perf_event_data_recording.h>
#include <stdio.h>

int main(int argc, char **argv)
{
    struct ped_recording file;
    if (ped_recording_open(argc > 1 ? argv[1] : "-", PED_IN_TIME_ORDER, &file) != PED_FILE_READ) {
        return fprintf(stderr, "%s\n", ped_recording_message(&file)), 1;
    }
    struct count { uint64_t tid, event, samples; } *counts = calloc(file.count + 1, sizeof *counts), *it;
    for (const struct ped_frame *frame; counts != NULL && (frame = ped_recording_next(&file)) != NULL;) {
        for (it = counts; it->samples > 0 && (it->tid != frame->tid || it->event != file.entry->number); it++) {}
        *it = (struct count){frame->tid, file.entry->number, it->samples + (frame->read == PERF_RECORD_SAMPLE)};
    }
    for (it = counts; it != NULL && it->samples > 0; it++) {
        printf("task %u, event %u: %u\n", (unsigned)it->tid, (unsigned)it->event, (unsigned)it->samples);
    }
    return ped_recording_close(&file) != PED_FILE_READ || counts == NULL;
}
