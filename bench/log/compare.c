/* Two logs, each read whole, then compared from the front. */
#include "plain.h"

#include <string.h>

uint32_t plain_compare(const uint8_t *first, size_t first_len, const uint8_t *second,
                       size_t second_len, struct plain_compared *found)
{
    struct plain_log a, b;
    uint32_t answer;
    memset(found, 0, sizeof *found);
    answer = plain_log_check(first, first_len, &a);
    if (answer != 0) {
        found->whose = 1;
        return answer;
    }
    answer = plain_log_check(second, second_len, &b);
    if (answer != 0) {
        found->whose = 2;
        return answer;
    }
    if (memcmp(first, second, PLAIN_SETTINGS) != 0)
        return PLAIN_SETTINGS_DIFFER;
    if (a.offset != b.offset
        || memcmp(first + PLAIN_SETTINGS, second + PLAIN_SETTINGS, a.offset - PLAIN_SETTINGS) != 0)
        return PLAIN_NOTES_DIFFER;

    uint32_t shared = a.count < b.count ? a.count : b.count;
    for (uint32_t i = 0; i < shared; i++) {
        size_t at = a.offset + PLAIN_RECORD * (size_t)i;
        if (memcmp(first + at, second + at, PLAIN_RECORD) != 0) {
            found->record = i;
            return PLAIN_RECORDS_DIFFER;
        }
    }
    found->record = shared;
    if (a.count == b.count)
        return PLAIN_EQUAL;
    found->whose = a.count < b.count ? 2 : 1;
    found->part.from = a.offset + PLAIN_RECORD * (uint64_t)shared;
    found->part.length = PLAIN_RECORD * (uint64_t)((a.count < b.count ? b.count : a.count) - shared);
    return a.count < b.count ? PLAIN_FIRST_ENDS : PLAIN_SECOND_ENDS;
}
