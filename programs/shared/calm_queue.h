/* A calm queue of its own, which answers the calls of a script. */
#ifndef CALM_QUEUE_H
#define CALM_QUEUE_H

#include <obikuteru.h>

/* Starts it afresh, with slots of at most a script's 4,096; false where the settings are refused. */
bool start_calm_queue(const struct obikuteru_settings *settings);

/* Makes the record's call and writes its answer into the record; false where it is refused. */
bool ask_calm_queue(struct obikuteru_record *record);

#endif
