//! The records as the C header's words.

use crate::model::{Queue, Shared};
use crate::words;

words!(Shared, 6, SHARED_FIELDS, shared_words, shared_of:
    slots, reserve[0], reserve[1], used, freed, spare);

words!(Queue, 21, QUEUE_FIELDS, queue_words, queue_of:
    target, buffer, clock, last, probability, old_delay, allowance, accumulated, average,
    measuring, start, counted, count, bytes, head, tail,
    verdicts[0], verdicts[1], verdicts[2], verdicts[3], verdicts[4]);
