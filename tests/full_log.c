/* full_log LOG: a trial's recording of two calls more than a log holds, all of them punctual ticks on an empty queue. */
#include "../programs/trial/recording.h"

enum { CALLS = 100002 };

int main(int argc, char **argv)
{
    if (argc != 2 || !begin_recording(15000, 64000, 4, OBIKUTERU_PLAIN, ""))
        return 1;
    for (uint64_t i = 1; i <= CALLS; i++)
        record_call((struct obikuteru_record){.kind = 't', .clock = i * OBIKUTERU_TICK_PERIOD});
    return write_recording(argv[1]) ? 0 : 1;
}
