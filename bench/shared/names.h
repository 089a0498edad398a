/*
 * What a kind's kind.h defines, beside its event and stream:
 *
 *   RECORD, LIBRARY_RECORD      plain C's record and the library's
 *   library_state, library_record   the first to the second, and back
 *   same(a, b)                  whether two of plain C's are equal
 *   QUEUES, QUEUE(e)            how many queues it has, and the number of the one that an event is for
 *   NAMED(side, name)           the call of that name of the side with the prefix `side`
 *   START(s, c, q), ARRIVE(s, c, e, h, z), DEPART(s, c, e, h, z, p), UPDATE(s, c, e)
 *                               its calls, as CALL(..): on the record s, with the table of counts c if it
 *                               has one, of the queue q, for the event e, with tables h and z of `slots`,
 *                               into the packet p
 *   PLAIN_RUN and LIBRARY_RUN(entry, s, c, q, h, z, calls, answers, n)
 *                               a burst of calls
 *   call_of(e)                  the event as a call of a burst
 *   OWN_TABLES                  if each call of a block is lent tables of its own
 * and, where these are not the kind's:
 */
#ifndef NAMES_H
#define NAMES_H

/* Events of a run. */
#ifndef EVENTS
#define EVENTS 1000000u
#endif

/* Situations are timed in blocks of this many, so that their records stay in the nearest cache. */
#ifndef BLOCK
#define BLOCK 64
#endif

/* What a departure gives. */
#ifndef PLAIN_PACKET
#define PLAIN_PACKET struct plain_packet
#define LIBRARY_PACKET struct obikuteru_packet
#endif

/* A call of a burst, and its answer. */
#ifndef BURST_CALL
#define BURST_CALL struct plain_call
#define BURST_ANSWER struct plain_answered
#endif

#endif
