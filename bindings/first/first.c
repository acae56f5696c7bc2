/* Prints how many samples were lost, in C or C++:
 *
 *     cc first.c $(pkg-config --cflags --libs perf_event_data)
 */
#include <stdio.h>
#include <perf_event_data.h>

/* A LOST_SAMPLES record: eight samples were lost. */
static const uint8_t bytes[16] = {13, 0, 0, 0, 0, 0, 16, 0, 8};

int main(void)
{
    struct ped_config config = {PED_VERSION, PED_LITTLE, 0, 0, 0, 0, 0, 0};
    struct ped_frame frame;
    if (ped_read(&config, bytes, sizeof bytes, &frame) == PED_LIMIT && frame.refusal == PED_ACCEPTED) {
        printf("%llu lost\n", (unsigned long long)frame.numbers.lost_samples.lost);
    }
    return 0;
}
