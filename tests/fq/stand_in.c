/*
 * The flows' calls by bench/fq/plain.c under the library's names: with it the comparison runs on plain
 * C, which shows that the bench measures against the same rules, refusals and all.
 *
 *   cc -O2 -Iinclude -c tests/fq/stand_in.c bench/fq/plain.c bench/fq/burst.c
 *   ar rcs libstand.a stand_in.o plain.o burst.o
 *   rustc --edition 2021 -O -L native=. -l static=stand tests/fq/main.rs -o fq
 *   cc -O2 -Iinclude tests/bursts_fq.c libstand.a -o bursts_fq
 *
 * The record is written back only where the call was accepted. A word that says that a measurement
 * runs stays as it is while one does. A burst runs in bursts of one call.
 */
#include <obikuteru.h>

#include <string.h>

#include "../../bench/fq/plain.h"

#define COMMON (19 * sizeof(uint64_t))

static struct plain_fq read(const uint64_t *common, const uint64_t *order, const uint64_t *flows,
                            const uint32_t *deficits)
{
    struct plain_fq fq;
    memcpy(&fq, common, COMMON);
    memcpy(fq.order, order, sizeof fq.order);
    memcpy(fq.flow, flows, sizeof fq.flow);
    memcpy(fq.deficits, deficits, sizeof fq.deficits);
    return fq;
}

/* At a tick, order and deficits are only read. */
static void write_flows(const struct plain_fq *fq, uint64_t *common, uint64_t *flows)
{
    struct plain_flow *rows = (struct plain_flow *)flows;
    memcpy(common, fq, COMMON);
    for (size_t i = 0; i < PLAIN_FQ_FLOWS; i++) {
        uint64_t before = rows[i].measuring;
        rows[i] = fq->flow[i];
        if (rows[i].measuring != 0 && before != 0)
            rows[i].measuring = before;
    }
}

static void write(const struct plain_fq *fq, uint64_t *common, uint64_t *order, uint64_t *flows,
                  uint32_t *deficits)
{
    write_flows(fq, common, flows);
    memcpy(order, fq->order, sizeof fq->order);
    memcpy(deficits, fq->deficits, sizeof fq->deficits);
}

uint32_t obikuteru_fq_flow(const uint8_t key[13], uint32_t salt)
{
    return plain_fq_flow(key, salt);
}

uint32_t obikuteru_fq_fresh_of(uint64_t *common, uint64_t *order, uint64_t *flows,
                               uint32_t *deficits, uint64_t target, uint64_t buffer,
                               uint64_t slots, uint32_t salt, uint64_t clock)
{
    struct plain_fq fq;
    uint32_t answer = plain_fq_fresh(&fq, target, buffer, slots, salt, clock);
    write(&fq, common, order, flows, deficits);
    return answer;
}

uint32_t obikuteru_fq_arrival_of(uint64_t *common, uint64_t *order, uint64_t *flows,
                                 uint32_t *deficits, uint32_t *handles, size_t handles_len,
                                 uint32_t *sizes, size_t sizes_len, uint64_t clock,
                                 const uint8_t *key, uint32_t handle, uint32_t size, bool ecn,
                                 uint32_t u)
{
    struct plain_fq fq = read(common, order, flows, deficits);
    uint32_t answer = plain_fq_arrival(&fq, handles, handles_len, sizes, sizes_len, clock, key,
                                       handle, size, ecn, u);
    if (!obikuteru_refused(answer))
        write(&fq, common, order, flows, deficits);
    return answer;
}

uint32_t obikuteru_fq_departure_of(uint64_t *common, uint64_t *order, uint64_t *flows,
                                   uint32_t *deficits, const uint32_t *handles,
                                   size_t handles_len, uint32_t *sizes, size_t sizes_len,
                                   uint64_t clock, uint32_t *packet)
{
    struct plain_fq fq = read(common, order, flows, deficits);
    struct plain_flow_packet left;
    uint32_t answer = plain_fq_departure(&fq, handles, handles_len, sizes, sizes_len, clock, &left);
    packet[0] = left.flow;
    packet[1] = left.handle;
    packet[2] = left.size;
    if (!obikuteru_refused(answer))
        write(&fq, common, order, flows, deficits);
    return answer;
}

uint32_t obikuteru_fq_tick_of(uint64_t *common, const uint64_t *order, uint64_t *flows,
                              const uint32_t *deficits, uint64_t clock)
{
    struct plain_fq fq = read(common, order, flows, deficits);
    uint32_t answer = plain_fq_tick(&fq, clock);
    if (!obikuteru_refused(answer))
        write_flows(&fq, common, flows);
    return answer;
}

uint32_t obikuteru_fq_calls_of(uint64_t *common, uint64_t *order, uint64_t *flows,
                               uint32_t *deficits, uint32_t *handles, size_t handles_len,
                               uint32_t *sizes, size_t sizes_len, const uint32_t *calls,
                               size_t calls_len, uint64_t *answers, size_t answers_len)
{
    if (calls_len % 10 != 0 || calls_len / 10 != answers_len)
        return OBIKUTERU_REFUSED_CALL;
    for (size_t i = 0; i < answers_len; i++) {
        struct plain_fq fq = read(common, order, flows, deficits);
        struct plain_fq_call call;
        struct plain_fq_answered answer;
        memcpy(&call, &calls[10 * i], sizeof call);
        plain_fq_calls(&fq, handles, handles_len, sizes, sizes_len, &call, &answer, 1);
        memcpy(&answers[i], &answer, sizeof answer);
        if (!obikuteru_refused(answer.code))
            write(&fq, common, order, flows, deficits);
    }
    return OBIKUTERU_ACCEPTED;
}

bool obikuteru_fq_well_formed_of(const uint64_t *common, const uint64_t *order,
                                 const uint64_t *flows, const uint32_t *deficits)
{
    struct plain_fq fq = read(common, order, flows, deficits);
    return plain_fq_well_formed(&fq);
}
