#include "packets.h"

#include <string.h>

enum { ECN_BITS = 3, CONGESTION_EXPERIENCED = 3, TCP = 6, UDP = 17, VOICE_PORT = 5202 };

struct packet packets[PACKETS];
static int unused[PACKETS];
static int unused_count, used_count;

int take_packet(void)
{
    if (unused_count > 0)
        return unused[--unused_count];
    return used_count < PACKETS ? used_count++ : NO_PACKET;
}

void give_back(int number)
{
    unused[unused_count++] = number;
}

static bool is_ipv4(const struct packet *packet)
{
    return packet->length >= 20 && packet->bytes[0] >> 4 == 4;
}

bool reads_marks(int number)
{
    const struct packet *packet = &packets[number];

    return is_ipv4(packet) && (packet->bytes[1] & ECN_BITS) != 0;
}

/* The checksum of an IPv4 header (RFC 791), with the checksum's own field taken as 0. */
static uint16_t checksum(const uint8_t *header, uint32_t length)
{
    uint32_t sum = 0;

    for (uint32_t i = 0; i < length; i += 2)
        if (i != 10)
            sum += (uint32_t)header[i] << 8 | header[i + 1];
    while (sum >> 16 != 0)
        sum = (sum & 0xffff) + (sum >> 16);
    return (uint16_t)~sum;
}

void mark_packet(int number)
{
    uint8_t *header = packets[number].bytes;
    uint16_t sum;

    header[1] |= CONGESTION_EXPERIENCED;
    sum = checksum(header, 4u * (header[0] & 15u));
    header[10] = (uint8_t)(sum >> 8);
    header[11] = (uint8_t)sum;
}

/* Source and destination port as they stand in the packet; NULL where it has none. */
static const uint8_t *ports_of(const struct packet *packet)
{
    uint32_t header = 4u * (packet->bytes[0] & 15u);
    uint8_t protocol = packet->bytes[9];

    if (!is_ipv4(packet) || packet->length < header + 4 || (protocol != TCP && protocol != UDP))
        return NULL;
    return packet->bytes + header;
}

bool is_voice(int number)
{
    const uint8_t *ports = ports_of(&packets[number]);

    return ports != NULL && packets[number].bytes[9] == UDP && (ports[2] << 8 | ports[3]) == VOICE_PORT;
}

void key_of(int number, uint8_t key[13])
{
    const uint8_t *bytes = packets[number].bytes;
    const uint8_t *ports = ports_of(&packets[number]);

    memset(key, 0, 13);
    if (!is_ipv4(&packets[number]))
        return;
    memcpy(key, bytes + 12, 8);
    if (ports != NULL)
        memcpy(key + 8, ports, 4);
    key[12] = bytes[9];
}
