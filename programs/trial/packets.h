/* The packets that are under way, by number: their bytes, and what a queue asks of them. */
#ifndef PACKETS_H
#define PACKETS_H

#include <stdbool.h>
#include <stdint.h>

enum { PACKETS = 8192, MOST_BYTES = 1600, NO_PACKET = -1 };

struct packet {
    uint8_t bytes[MOST_BYTES];
    uint32_t length;
    uint64_t clock; /* of its arrival, in microseconds; later, of what happens to it next */
};

extern struct packet packets[PACKETS];

/* A packet that nobody has, or NO_PACKET. */
int take_packet(void);
void give_back(int number);

/* Whether it is an IPv4 packet whose sender reads ECN marks. */
bool reads_marks(int number);

/* Sets the packet's ECN mark, and its header's checksum. */
void mark_packet(int number);

/* Whether it is a UDP packet to port 5202: the voice of a trial. */
bool is_voice(int number);

/* Addresses, ports and protocol as they stand in the packet; ports 0 but for TCP and UDP, all 0 where it is no IPv4 packet. */
void key_of(int number, uint8_t key[13]);

#endif
