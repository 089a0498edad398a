/*
 * trial QUEUEING RATE DELAY LOG: joins two TUN devices, which it makes, `trial-a` and `trial-b`. What comes from the first goes to
 * the second through the queueing (fifo, ring, calm, modem, pair, fq) at RATE bytes a second; both directions take DELAY microseconds
 * more. It prints `ready` once the devices are there, and at SIGTERM, SIGINT or the end of standard input writes the log, where the
 * queueing is the ring (ring, calm), and prints what it counted:
 *   packets bytes mean-delay-us early full marked refused voice-packets voice-mean-delay-us voice-dropped
 */
#define _GNU_SOURCE
#include "shared/say.h"
#include "trial/line.h"
#include "trial/queueing.h"
#include "trial/recording.h"

#include <errno.h>
#include <fcntl.h>
#include <inttypes.h>
#include <linux/if_tun.h>
#include <net/if.h>
#include <poll.h>
#include <signal.h>
#include <stdio.h>
#include <stdlib.h>
#include <string.h>
#include <sys/ioctl.h>
#include <sys/random.h>
#include <time.h>
#include <unistd.h>

enum { MOST_LAG = 5000 }; /* the most microseconds of a stall of this program that the line makes up for; more would be a burst */

static const struct queueing *queueing;
static uint64_t rate, delay, began;
static uint64_t free_at; /* the clock at which the bottleneck has sent its last packet */
static bool idle = true; /* the last departure found no packet */
static uint64_t sent, sent_bytes, waited, voice_sent, voice_waited;
static struct line forward, back; /* what is under way after the bottleneck, and the other way */
static volatile sig_atomic_t ended;

static void end(int signal)
{
    (void)signal;
    ended = 1;
}

static uint64_t now(void)
{
    struct timespec time;

    clock_gettime(CLOCK_MONOTONIC, &time);
    return (uint64_t)time.tv_sec * 1000000u + (uint64_t)time.tv_nsec / 1000u - began;
}

static int open_tun(const char *name)
{
    struct ifreq request = {0};
    int device = open("/dev/net/tun", O_RDWR | O_NONBLOCK);

    request.ifr_flags = IFF_TUN | IFF_NO_PI;
    strncpy(request.ifr_name, name, IFNAMSIZ - 1);
    if (device >= 0 && ioctl(device, TUNSETIFF, &request) < 0)
        return -1;
    return device;
}

/* Reads a packet into a number, or NO_PACKET. */
static int read_packet(int device)
{
    int number = take_packet();
    ssize_t length;

    if (number == NO_PACKET)
        return NO_PACKET;
    length = read(device, packets[number].bytes, MOST_BYTES);
    if (length <= 0) {
        give_back(number);
        return NO_PACKET;
    }
    packets[number].length = (uint32_t)length;
    return number;
}

static void take_arrivals(int device)
{
    uint32_t u;
    int number;

    while ((number = read_packet(device)) != NO_PACKET) {
        uint64_t clock = now();

        packets[number].clock = clock;
        if (getrandom(&u, sizeof u, 0) != sizeof u || !queueing->arrival(clock, number, u))
            give_back(number);
    }
}

static void take_answers(int device)
{
    int number;

    while ((number = read_packet(device)) != NO_PACKET)
        if (!put_on_line(&back, number, now() + delay))
            give_back(number);
}

static uint64_t least(uint64_t a, uint64_t b)
{
    return a < b ? a : b;
}

static uint64_t most(uint64_t a, uint64_t b)
{
    return a > b ? a : b;
}

/*
 * The bottleneck is free: the next packet leaves the queue, and is sent at the rate. A line needs no waking, so it is sent from when the
 * line was free and the packet was there, although this program may have slept longer. Whether there was a packet.
 */
static bool send_next(uint64_t clock)
{
    int number = queueing->departure(clock);
    uint64_t begin;

    idle = number == NO_PACKET;
    if (idle)
        return false;
    begin = most(most(free_at, packets[number].clock), clock - least(clock, MOST_LAG));
    free_at = begin + packets[number].length * 1000000u / rate;
    sent++;
    sent_bytes += packets[number].length;
    waited += clock - packets[number].clock;
    if (is_voice(number)) {
        voice_sent++;
        voice_waited += clock - packets[number].clock;
    }
    if (!put_on_line(&forward, number, free_at + delay))
        give_back(number);
    return true;
}

static void deliver(struct line *line, int device, uint64_t clock)
{
    int number;

    while ((number = take_from_line(line, clock)) != NO_PACKET) {
        if (write(device, packets[number].bytes, packets[number].length) < 0 && errno != EIO && errno != EAGAIN)
            say("a packet could not be handed on.");
        give_back(number);
    }
}

/* Waits for a packet, or for what is due next. */
static void wait_for(struct pollfd *devices, uint64_t clock)
{
    uint64_t next = least(least(queueing->due(), least(due_on_line(&forward), due_on_line(&back))), clock + 1000);
    struct timespec time = {0, 0};

    if (!idle)
        next = least(next, free_at);
    if (next > clock)
        time.tv_nsec = (long)(next - clock) * 1000;
    ppoll(devices, 3, &time, NULL);
}

static void run(struct pollfd *devices)
{
    while (!ended) {
        uint64_t clock;

        wait_for(devices, now());
        if (devices[2].revents != 0)
            return;
        take_arrivals(devices[0].fd);
        take_answers(devices[1].fd);
        clock = now();
        if (queueing->due() <= clock)
            queueing->tick(clock);
        while (free_at <= clock && send_next(clock))
            ;
        deliver(&forward, devices[1].fd, clock);
        deliver(&back, devices[0].fd, clock);
    }
}

static const struct queueing *named(const char *name)
{
    const struct queueing *const all[] = {&fifo, &ring, &calm, &modem, &pair, &fq};

    for (size_t i = 0; i < sizeof all / sizeof *all; i++)
        if (strcmp(all[i]->name, name) == 0)
            return all[i];
    return NULL;
}

static uint64_t mean(uint64_t sum, uint64_t count)
{
    return count == 0 ? 0 : sum / count;
}

static int finish_trial(const char *log)
{
    if (!write_recording(log))
        return FAILED;
    printf("%" PRIu64 " %" PRIu64 " %" PRIu64 " %" PRIu64 " %" PRIu64 " %" PRIu64 " %" PRIu64, sent, sent_bytes, mean(waited, sent),
           outcome.dropped_early, outcome.dropped_full, outcome.marked, outcome.refused);
    printf(" %" PRIu64 " %" PRIu64 " %" PRIu64 "\n", voice_sent, mean(voice_waited, voice_sent), outcome.voice_dropped);
    return finish(DONE);
}

int main(int argc, char **argv)
{
    struct pollfd devices[3] = {{.events = POLLIN}, {.events = POLLIN}, {.fd = 0, .events = POLLIN}};

    if (argc != 5 || (queueing = named(argv[1])) == NULL)
        return say("trial takes a queueing, a rate, a delay and a log.");
    rate = strtoull(argv[2], NULL, 10);
    delay = strtoull(argv[3], NULL, 10);
    devices[0].fd = open_tun("trial-a");
    devices[1].fd = open_tun("trial-b");
    if (rate == 0 || devices[0].fd < 0 || devices[1].fd < 0)
        return say("the TUN devices cannot be made.");
    signal(SIGTERM, end);
    signal(SIGINT, end);
    puts("ready");
    fflush(stdout);
    began = now();
    queueing->begin(rate);
    run(devices);
    return finish_trial(argv[4]);
}
