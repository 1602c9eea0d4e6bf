"""What happens to captures: records that are missing, cut off, doubled or out of order. A capture is a pcap file in the
order of this machine, as dumpcap -P writes it."""

import random
import struct

import segments

# How late a record may be, in seconds: those of both directions come from two queues.
MOST_DELAY = 0.008


def time_of(record):
    """In seconds; dumpcap -P writes nanoseconds only if it is asked to."""
    seconds, parts, _, _ = record[0]
    return seconds + parts / 1e6


def at_random(records, chance):
    return [record for record in records if chance.random() >= 0.02]


def in_bursts(records, chance):
    kept, left = [], 0
    for record in records:
        if left == 0 and chance.random() < 0.002:
            left = chance.randrange(1, 40)
        if left > 0:
            left -= 1
        else:
            kept.append(record)
    return kept


def at_the_front(records, chance):
    return records[chance.randrange(1, len(records)) :]


def at_the_end(records, chance):
    return records[: chance.randrange(1, len(records))]


def doubled(records, chance):
    return [record for record in records for _ in range(2 if chance.random() < 0.05 else 1)]


def out_of_order(records, chance):
    """Each record keeps its time, and is written late."""
    return sorted(records, key=lambda record: time_of(record) + chance.uniform(0, MOST_DELAY))


def moved_in_time(records, chance):
    """The times are out of order, as the network makes them."""
    late = [(time_of(record) + chance.uniform(0, MOST_DELAY), record) for record in records]
    late.sort(key=lambda one: one[0])
    return [((int(time), int(time % 1 * 1e6), *record[0][2:]), record[1]) for time, record in late]


KINDS = (at_random, in_bursts, at_the_front, at_the_end, doubled, out_of_order, moved_in_time)


def damaged(data, seed):
    """Yields each kind of damage, and a capture that has it."""
    chance = random.Random(seed)
    records = list(segments.records(data))
    for kind in KINDS:
        changed = kind(records, chance)
        text = b"".join(struct.pack("=IIII", *header) + frame for header, frame in changed)
        yield kind.__name__, data[: segments.FILE] + text
