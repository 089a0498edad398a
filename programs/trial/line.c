#include "line.h"

bool put_on_line(struct line *line, int number, uint64_t clock)
{
    if (line->count == PACKETS)
        return false;
    packets[number].clock = clock;
    line->number[(line->first + line->count++) % PACKETS] = number;
    return true;
}

uint64_t due_on_line(const struct line *line)
{
    return line->count == 0 ? UINT64_MAX : packets[line->number[line->first]].clock;
}

int take_from_line(struct line *line, uint64_t clock)
{
    int number;

    if (due_on_line(line) > clock)
        return NO_PACKET;
    number = line->number[line->first];
    line->first = (line->first + 1) % PACKETS;
    line->count--;
    return number;
}
