#!/usr/bin/env python3
"""Makes session scripts from a seed, for the comparison of `replay_follower` with the oracle.

    cases.py --seed 7 --count 1000 --out DIR    writes case-000000.txt and on
    cases.py --seed 7 --one 12                  prints one script
    cases.py --seed 7 --systematic --out DIR    writes the systematic scripts

A script depends on the seed and its own number alone. A script with captures
reads them from the directory that it is run in; `--out` writes them there.

A script is a row of acts on one follower, each from a start to a stop. Every
script has, somewhere, a stop, a start, and a stop again before green.

The systematic scripts join one day of a hundred messages late, by a snapshot
at each of its numbers, with each of its packets lost, doubled or swapped with
the next in turn; each join has to end green, with the same book.
"""

import argparse
import os
import random
import sys

import days
from days import MOST

WAYS = ("lost", "doubled", "swapped")
DAY_SIZE = 100


def hexed(data):
    return data.hex() if data else "-"


class Writer:
    """Collects the lines of one script, and the files that it reads."""

    def __init__(self, rng, name):
        self.rng = rng
        self.name = name
        self.lines = []
        self.files = {}

    def line(self, text):
        self.lines.append(text)

    def chance(self, share):
        return self.rng.random() < share

    def bytes_word(self, data):
        word = hexed(data)
        return word.upper() if self.rng.random() < 0.02 else word

    def packet(self, data):
        self.line("packet " + self.bytes_word(data))

    def capture(self, packets):
        """A capture file, with a tail that is too short now and then."""
        name = "%s-%d.cap" % (self.name, len(self.files))
        data = b"".join(days.two(len(p)) + p for p in packets)
        if self.chance(0.3):
            data += self.rng.choice([b"\x00", b"\x00\x05abcd", b"\x00\x10"])
        self.files[name] = data
        self.line("capture " + name)

    def text(self):
        return "".join(line + "\n" for line in self.lines).encode()


def symbol_word(rng, symbol):
    text = symbol.rstrip(b" ")
    plain = text and all(33 <= byte < 127 for byte in text)
    if plain and rng.random() < 0.7:
        return text.decode()
    return "0x" + symbol.hex()


def ask(writer, day, every=False):
    """Questions; all of them, or some."""
    rng = writer.rng
    writer.line("lamp")
    symbols = list(day.symbols)
    if not every:
        symbols = rng.sample(symbols, rng.randint(0, len(symbols)))
    if every or rng.random() < 0.5:
        writer.line("event")
    if rng.random() < 0.2:
        symbols.append(rng.choice([b"NONE  ", b"7203\x00\x00", days.any_bytes(rng, 6)]))
    for symbol in symbols:
        word = symbol_word(rng, symbol)
        writer.line("stock " + word)
        for side in "BS" if every else rng.choice(["BS", "B", "S"]):
            writer.line("orders %s %s" % (word, side))


# Packets on their way


def disturbed(rng, packets, strength):
    """Packets with some lost, doubled, swapped and delayed."""
    result = []
    for packet in packets:
        chance = rng.random()
        if chance < strength:
            continue
        result.append(packet)
        if chance < 2 * strength:
            result.append(packet)
        elif chance < 3 * strength and len(result) > 1:
            result[-1], result[-2] = result[-2], result[-1]
        elif chance < 4 * strength:
            result.insert(max(0, len(result) - rng.randint(2, 8)), result.pop())
    return result


def overlapping(rng, day, first, messages):
    """A packet with other ends than this one's, with some of the same messages."""
    low = max(day.first, first - rng.randint(0, 3))
    high = min(day.last(), first + len(messages) - 1 + rng.randint(0, 3))
    return low, day.span(low, high)


def send(writer, day, packets, noise):
    """Sends packets, with heartbeats, damage and questions between them."""
    rng = writer.rng
    pending = []
    for first, messages in packets:
        if rng.random() < noise:
            writer.packet(days.damaged_packet(rng, first, messages))
        if rng.random() < noise:
            ahead = rng.choice([0, 0, 0, 1, len(messages), -1, 7])
            session = day.session if rng.random() < 0.8 else days.flipped(rng, day.session)
            writer.packet(days.heartbeat(min(max(1, first + ahead), MOST), session))
        if rng.random() < noise:
            first, messages = overlapping(rng, day, first, messages)
        if rng.random() < noise / 8:
            # The same numbers with something else in them.
            messages = [days.flipped(rng, message) for message in messages]
        pending.append(days.data_packet(first, messages))
        if rng.random() < 0.9:
            for packet in pending:
                writer.packet(packet)
            pending = []
        if rng.random() < noise:
            ask(writer, day)
        if rng.random() < noise / 4:
            stray_call(writer, day)
        elif rng.random() < 0.15:
            writer.line("lamp")
    if pending:
        writer.capture(pending)


def stray_call(writer, day):
    """A call at a moment when it is likely to be refused."""
    rng = writer.rng
    what = rng.randrange(6)
    if what == 0:
        writer.line(rng.choice(["start one", "start snapshot"]))
    elif what == 1:
        writer.line("snapshot " + hexed(days.snapshot_of(rng, day, rng.randint(day.first, day.last() + 1))))
    elif what == 2:
        repair(writer, day)
    elif what == 3:
        bad_line(writer)
    elif what == 4:
        requests(writer)
    else:
        ask(writer, day)


# Repairs


def source(rng, day, span, damage):
    """One source, of a span of the day's numbers, as words."""
    low, high = span
    session = day.session if rng.random() < 1 - damage / 2 else days.flipped(rng, day.session)
    messages = day.span(low, high)
    if rng.random() < 0.5:
        if rng.random() < damage:
            data = days.damaged_recovery(rng, session, low, messages)
        else:
            data = days.recovery(rng, session, low, messages)
        return "session " + hexed(data)
    if rng.random() < damage:
        blocks = [days.bad_block(rng, session, low, messages) for _ in range(rng.randint(0, 3))]
        return "file " + hexed(b"".join(blocks)[: rng.choice([511, 512, 600, 4096])])
    return "file " + hexed(days.day_file_of(rng, session, low, messages))


def honest_source(rng, day):
    """A source that holds all of the day and nothing else, as words."""
    if rng.random() < 0.5:
        return "session " + hexed(days.recovery(rng, day.session, day.first, day.messages))
    blocks = days.blocks_of(rng, day.session, day.first, day.messages)
    rng.shuffle(blocks)
    return "file " + hexed(b"".join(blocks))


def some_span(rng, day):
    low = rng.randint(day.first, day.last())
    return rng.choice([
        (day.first, day.last()),
        (day.first, low),
        (day.first, low),
        (day.first, low),
        (low, day.last()),
        (low, low + rng.randint(0, 20)),
        (low, low - 1),
    ])


def repair(writer, day, damage=0.2):
    """A repair of any kind."""
    rng = writer.rng
    budget = rng.choice([0, 1, 2, 5, 1000, 1000, 1000, rng.randint(0, 30), MOST, 2**64 - 1])
    count = rng.choice([1, 1, 1, 2, 2, 3])
    sources = [source(rng, day, some_span(rng, day), damage) for _ in range(count)]
    writer.line("repair %d %s" % (budget, " ".join(sources)))


def mend(writer, day):
    """Repairs after which the lamp should be green, if nothing stops the book."""
    rng = writer.rng
    for _ in range(rng.randint(0, 3)):
        repair(writer, day)
        if rng.random() < 0.5:
            writer.line("lamp")
    whole = (day.first, day.last())
    writer.line("repair 100000 " + source(rng, day, whole, 0))
    writer.line("repair 100000 session " + hexed(days.recovery(rng, day.session, day.first, day.messages)))


# Acts: each goes from a start to a stop


def act_plain(writer, day):
    """A follower from the first message on."""
    rng = writer.rng
    writer.line("start one")
    if rng.random() < 0.4:
        writer.line(rng.choice(["lamp", "event", "stock 7203", "orders 7203 B"]))
    packets = days.cut_in_packets(rng, day, rng.choice([1, 3, 10, 30]))
    strength = rng.choice([0, 0.02, 0.08, 0.2])
    send(writer, day, disturbed(rng, packets, strength), rng.choice([0, 0.03, 0.15]))
    close(writer, day)


def close(writer, day):
    """The last heartbeat, repairs and questions, some of them or all."""
    rng = writer.rng
    if rng.random() < 0.7:
        writer.packet(days.heartbeat(min(day.last() + 1, MOST), day.session))
    if rng.random() < 0.2:
        ask(writer, day)
    if rng.random() < 0.8:
        mend(writer, day)
    ask(writer, day, every=rng.random() < 0.7)


def act_late(writer, day):
    """A late join by a snapshot, with packets before and after it."""
    rng = writer.rng
    writer.line("start snapshot")
    packets = days.cut_in_packets(rng, day, rng.choice([1, 3, 10]))
    number = rng.randint(day.first, day.last() + 1)
    around = sum(1 for first, _ in packets if first <= number)
    joined = min(max(0, around + rng.choice([-3, -1, 0, 1, 3, 10])), len(packets))
    seen = max(0, joined - rng.choice([0, 1, 5, 50]))
    noise = rng.choice([0, 0.03, 0.15])
    strength = rng.choice([0, 0.02, 0.1])
    send(writer, day, disturbed(rng, packets[seen:joined], strength), noise)
    while rng.random() < 0.4:
        writer.line("snapshot " + hexed(days.damaged_snapshot(rng, day, number)))
        writer.line("lamp")
    if rng.random() < 0.2:
        repair(writer, day)
    writer.line("snapshot " + writer.bytes_word(days.snapshot_of(rng, day, min(number, MOST))))
    writer.line("lamp")
    send(writer, day, disturbed(rng, packets[joined:], strength), noise)
    close(writer, day)


def act_capture(writer, day):
    """Most of the day from capture files."""
    rng = writer.rng
    writer.line(rng.choice(["start one", "start one", "start snapshot"]))
    packets = []
    for first, messages in disturbed(rng, days.cut_in_packets(rng, day, 12), 0.05):
        packets.append(days.data_packet(first, messages))
        if rng.random() < 0.15:
            packets.append(days.damaged_packet(rng, first, messages))
    at = rng.randint(0, len(packets))
    writer.capture(packets[:at])
    ask(writer, day)
    writer.line("capture nowhere-to-be-found.cap")
    writer.capture(packets[at:])
    close(writer, day)


def act_wild(writer, day):
    """Calls in no order."""
    rng = writer.rng
    writer.line(rng.choice(["start one", "start snapshot"]))
    packets = days.cut_in_packets(rng, day, 6)
    for _ in range(rng.randint(1, 40)):
        first, messages = rng.choice(packets)
        what = rng.randrange(12)
        if what < 5:
            writer.packet(days.data_packet(first, messages))
        elif what == 5:
            writer.packet(days.damaged_packet(rng, first, messages))
        elif what == 6:
            writer.packet(days.any_bytes(rng, rng.choice([0, 3, 6, 16, 40])))
        elif what == 7:
            writer.line("snapshot " + hexed(days.damaged_snapshot(rng, day, first)))
        elif what == 8:
            writer.line(rng.choice(["stop", "start one", "start snapshot", "lamp"]))
        else:
            stray_call(writer, day)
    ask(writer, day)


def act_random_messages(writer, day):
    """Packets of messages with fields from few values, so that every cause comes up."""
    rng = writer.rng
    writer.line("start one")
    symbols = day.symbols[:2]
    number = 1
    for symbol in symbols:
        writer.packet(days.data_packet(number, [days.status(rng, symbol, rng.choice(days.STATES))]))
        number += 1
    for _ in range(rng.randint(1, 30)):
        reference = rng.choice([0, 1, 2, 3, MOST, MOST + 1]) if rng.random() < 0.1 else rng.randrange(12)
        shares = rng.choice([0, 1, 1, 2, 2, 3, 3, 4, 4, 4, 4, 4])
        message = rng.choice([
            days.added(rng, reference, rng.choice([b"B", b"S"]), shares + 3, rng.choice(symbols), 1 + shares),
            days.added(rng, reference, rng.choice([b"B", b"S"]), shares + 3, rng.choice(day.symbols), 1 + shares),
            days.executed(rng, reference, max(1, shares)),
            days.cancelled(rng, reference, shares),
            days.other(rng),
        ])
        writer.packet(days.data_packet(number, [message]))
        number += 1
        if rng.random() < 0.3:
            ask(writer, day)
    ask(writer, day, every=True)


def act_one_by_one(writer, day):
    """A short day with all questions after each message."""
    writer.line("start one")
    for number, message in enumerate(day.messages[:25], 1):
        writer.packet(days.data_packet(number, [message]))
        ask(writer, day, every=True)


def act_causes(writer, day):
    """Small books, each of them stopped by a message with a cause."""
    rng = writer.rng
    for _ in range(rng.randint(3, 12)):
        writer.line("start one")
        maker = days.DayMaker(rng, day.symbols, 60)
        for _ in range(rng.choice([0, 1, 5, 12])):
            maker.put(maker.good())
        last = maker.stopping(rng.choice("abbbcdef"))
        if rng.random() < 0.3:
            last = rng.choice([days.flipped(rng, last), last[: max(5, len(last) - 1)]])
        writer.packet(days.data_packet(1, maker.messages + [last] + day.messages[: rng.randint(0, 2)]))
        writer.line("lamp")
        if rng.random() < 0.3:
            ask(writer, day)
        writer.line("stop")
    writer.line("start one")


def changed_day(rng, day):
    """The same day with other bytes in some of its messages."""
    share = rng.choice([0, 0, 0.1, 1])
    messages = [days.flipped(rng, m) if rng.random() < share else m for m in day.messages]
    return days.Day(day.session, day.first, messages)


def act_repairs(writer, day):
    """A gap over the whole day, and repairs of every kind, step by step."""
    rng = writer.rng
    writer.line("start one")
    packet = days.heartbeat(min(day.last() + 1, MOST), day.session)
    if day.first > 1:
        writer.lines[-1] = "start snapshot"
        writer.line("snapshot " + hexed(days.snapshot_of(rng, day, day.first)))
    writer.packet(packet if rng.random() < 0.6 else days.data_packet(day.last(), day.messages[-1:]))
    for _ in range(rng.randint(3, 12)):
        count = rng.choice([1, 1, 2, 3])
        sources = [source(rng, changed_day(rng, day), some_span(rng, day), 0.4) for _ in range(count)]
        writer.line("repair %d %s" % (rng.choice([0, 1, 2, 3, 8, 20]), " ".join(sources)))
        writer.line("lamp")
        if rng.random() < 0.1:
            ask(writer, day)
    close(writer, day)


def act_snapshots(writer, day):
    """Damaged snapshots, one after another, with packets held or none."""
    rng = writer.rng
    packets = days.cut_in_packets(rng, day, 8)
    for _ in range(rng.randint(3, 10)):
        writer.line("start snapshot")
        first, messages = rng.choice(packets)
        if rng.random() < 0.6:
            writer.packet(days.data_packet(first, messages))
        if rng.random() < 0.2:
            writer.packet(days.heartbeat(first, day.session))
        writer.line("snapshot " + hexed(days.damaged_snapshot(rng, day, first + rng.randint(0, 3))))
        writer.line("lamp")
        if rng.random() < 0.3:
            ask(writer, day)
        if rng.random() < 0.3:
            writer.line("stop")
    if rng.random() < 0.5:
        close(writer, day)


def act_very_long(writer, day):
    """Session bytes with messages of the greatest length and above it."""
    rng = writer.rng
    number = rng.randint(day.first, day.last())
    head, tail = days.opened(rng, day.session, 1), days.stream(rng, [days.ended(rng, number)])
    long = days.very_long(rng)
    writer.line("start snapshot")
    writer.line("snapshot " + hexed(long + head + tail if rng.random() < 0.5 else head + long + tail))
    writer.line("lamp")
    writer.line("snapshot " + hexed(days.snapshot_of(rng, day, number)))
    writer.packet(days.heartbeat(min(day.last() + 1, MOST), day.session))
    messages = days.stream(rng, day.messages)
    head = days.opened(rng, day.session, day.first)
    data = long + head + messages if rng.random() < 0.5 else head + long + messages
    writer.line("repair 1000 session " + hexed(data))
    close(writer, day)


def act_long(writer, day):
    """A packet with very many messages, before or after the day's."""
    rng = writer.rng
    writer.line(rng.choice(["start one", "start snapshot"]))
    count = rng.choice([255, 256, 300, 2000, 32767])
    first = rng.choice([1, day.last() + 1, 50])
    packets = days.cut_in_packets(rng, day, 30)
    long = (first, [days.stamped(rng, b"T")] * count)
    packets.insert(rng.randint(0, len(packets)), long)
    for packet in packets:
        writer.packet(days.data_packet(*packet))
        writer.line("lamp")
    close(writer, day)


def restless(writer, day):
    """A stop, a start, and a stop again before green."""
    rng = writer.rng
    packets = [p for p in days.cut_in_packets(rng, day, 4) if p[0] > 1]
    writer.line(rng.choice(["start one", "start snapshot"]))
    send(writer, day, packets[: rng.randint(0, 3)], 0.2)
    writer.line("stop")
    writer.line("lamp")
    writer.line(rng.choice(["start one", "start snapshot"]))
    for first, messages in packets[: rng.randint(0, 4)]:
        writer.packet(days.data_packet(first, messages))
    if rng.random() < 0.3:
        writer.packet(days.heartbeat(rng.randint(2, 900), rng.choice([day.session, b"0123456789"])))
    writer.line("lamp")
    writer.line(rng.choice(["event", "lamp", "stock 7203", "orders 0x000000000000 S"]))
    writer.line("stop")
    writer.line(rng.choice(["lamp", "stop", "event", "packet -"]))


# Requests and bad lines


def requests(writer):
    """Logins, heartbeats and ends of sessions, in any order; requests to be read."""
    rng = writer.rng
    for _ in range(rng.randint(1, 6)):
        user, password, session = (days.any_bytes(rng, n) for n in (6, 10, 10))
        number = rng.choice([0, 1, 10, rng.randint(0, MOST), MOST, MOST + 1, 4_294_967_295])
        words = "%s %s %s" % (user.hex(), password.hex(), session.hex())
        field = days.number_field(rng, min(number, MOST))
        if rng.random() < 0.4:
            field = days.damaged_number_field(rng, number % 1000)
        login = b"\x00\x25L" + user + password + session + field
        writer.line(rng.choice([
            "login %s %d" % (words, number),
            "beat",
            "logout",
            "lost",
            "request " + hexed(login),
            "request " + hexed(days.flipped(rng, login)),
            "request " + hexed(login[: rng.randrange(40)]),
            "request " + hexed(login + b"0"),
            "request 00014f",
            "request 000152",
            "request " + rng.choice(["-", "0001", "00016f", "00024f4f", "00014f4f", "00015252"]),
        ]))


BAD_LINES = [
    "nonsense",
    "Lamp",
    "lamp now",
    "lamp ",
    " lamp",
    "start",
    "start two",
    "start  one",
    "start one now",
    "stop it",
    "slots 1 1 1 1",
    "slots 1 1 1",
    "slots 18446744073709551616 1 1 1",
    "repair 18446744073709551616 session -",
    "packet",
    "packet ",
    "packet 0",
    "packet 0g",
    "packet 00 00",
    "packet --",
    "snapshot",
    "snapshot xyz",
    "snapshot - -",
    "capture",
    "repair",
    "repair 5",
    "repair x session -",
    "repair -1 session -",
    "repair 5 session",
    "repair 5 paper 00",
    "repair 5 session - file",
    "repair 5 file - file - file - file -",
    "event now",
    "stock",
    "stock ABCDEFG",
    "stock 0x00112233445",
    "stock 0x0011223344556",
    "stock 0x00112233445g",
    "orders 7203",
    "orders 7203 X",
    "orders 7203 b",
    "orders 7203 BS",
    "orders ABCDEFG B",
    "login",
    "login 00 00 00 1",
    "login 414141414141 41414141414141414141 41414141414141414141",
    "login 414141414141 41414141414141414141 41414141414141414141 x",
    "login 414141414141 41414141414141414141 414141414141414141 1",
    "login 4141414141 41414141414141414141 41414141414141414141 1",
    "request",
    "request 0",
    "beat now",
    "logout now",
    "lost now",
    "saying",
    "# nothing",
    "",
    "say hello, world",
    "say  two spaces ",
]


def bad_line(writer):
    writer.line(writer.rng.choice(BAD_LINES))


def before_slots(writer):
    """Lines before there is a follower."""
    rng = writer.rng
    for _ in range(rng.randint(1, 4)):
        writer.line(rng.choice([
            "lamp", "start one", "stop", "packet 00", "event", "stock 7203", "orders 7203 B",
            "snapshot -", "repair 1 session -", "capture nowhere.cap", "say early", "# early", "slots 1 1 x 1",
        ]))
    if rng.random() < 0.5:
        requests(writer)


# Scripts

SHARES = {
    act_plain: 25,
    act_late: 30,
    act_capture: 6,
    act_wild: 14,
    act_random_messages: 6,
    act_one_by_one: 6,
    act_causes: 10,
    act_repairs: 14,
    act_snapshots: 12,
    act_very_long: 1,
    act_long: 1,
}


def some_day(rng):
    """A day, short or long, whole or with a message that stops the book."""
    size = rng.choice([1, 3, 10, 30, 30, 80, 80, 80, 200, 200, 500])
    stop = rng.choice("abcdef") if rng.random() < 0.25 else None
    first = 1
    if rng.random() < 0.05:
        first = MOST - size + 1 - rng.choice([0, 0, 0, 1, 5])
    return days.make_day(rng, size, stop, first)


def slots_line(rng, some_days):
    """Slots enough for the days, mostly."""
    peaks = [day.peaks() for day in some_days]
    stocks, orders = (max(column) for column in zip(*peaks))

    def slots(enough):
        most = enough + 50
        return max(0, rng.choice([enough, enough, enough + 1, enough + 1, most, most, enough - 1, 1, 0]))

    if rng.random() < 0.8:
        stocks, orders = stocks + rng.choice([0, 0, 1, 20]), orders + rng.choice([0, 0, 1, 50])
    else:
        stocks, orders = slots(stocks), slots(orders)
    held = rng.choice([0, 1, 2, 5, 20, 20, 300, 300, 300])
    rows = rng.choice([0, 1, 3, 10, 200, 200, 200])
    return "slots %d %d %d %d" % (stocks, orders, held, rows)


def random_case(seed, number):
    """The script of this number, and the files that it reads."""
    rng = random.Random("%d/%d" % (seed, number))
    writer = Writer(rng, "case-%06d" % number)
    some_days = [some_day(rng) for _ in range(rng.choice([1, 1, 2]))]
    day = some_days[0]
    if rng.random() < 0.1:
        before_slots(writer)
    writer.line(slots_line(rng, some_days))
    if rng.random() < 0.1:
        stray_call(writer, day)
    acts = rng.choices(list(SHARES), list(SHARES.values()), k=rng.choice([1, 1, 2, 3]))
    quiet = rng.randint(0, len(acts))
    for at, act in enumerate(acts):
        if at == quiet:
            restless(writer, day)
        act(writer, day)
        if rng.random() < 0.15:
            requests(writer)
        if rng.random() < 0.15:
            bad_line(writer)
        writer.line("stop")
        day = rng.choice(some_days)
    if quiet == len(acts):
        restless(writer, day)
    if rng.random() < 0.2:
        requests(writer)
    if rng.random() < 0.3:
        rng.choice([act_plain, act_late])(writer, day)
    return writer.text(), writer.files


# Late joins, one by one


def systematic_day(seed):
    """A day that stops nothing, and its packets."""
    rng = random.Random("%d/day" % seed)
    day = days.make_day(rng, DAY_SIZE)
    return day, days.cut_in_packets(rng, day, 6)


def tampered(packets, at, way):
    """The packets with the one at this place lost, doubled or swapped with the next."""
    packet = packets[at : at + 1]
    if way == "lost":
        return packets[:at] + packets[at + 1 :]
    if way == "doubled":
        return packets[:at] + packet + packets[at:]
    return packets[:at] + packets[at + 1 : at + 2] + packet + packets[at + 2 :]


def join(writer, day, packets, number):
    """One late join, with the snapshot somewhere between the packets."""
    rng = writer.rng
    writer.line("start snapshot")
    place = rng.randint(0, len(packets))
    for at in range(len(packets) + 1):
        if at == place:
            writer.line("snapshot " + hexed(days.snapshot_of(rng, day, number)))
            writer.line("lamp")
        if at < len(packets):
            writer.packet(days.data_packet(*packets[at]))
    writer.packet(days.heartbeat(day.last() + 1, day.session))
    writer.line("lamp")
    writer.line("repair 1000 " + honest_source(rng, day))
    writer.line("repair 1000 session " + hexed(days.recovery(rng, day.session, day.first, day.messages)))


def systematic_case(seed, number, way):
    """The whole run, and the late joins at this number, one for each packet treated in this way.

    Between the lines `book` and `done` each of them prints the same.
    """
    day, packets = systematic_day(seed)
    stocks, orders = day.peaks()
    questions = Writer(random.Random(0), "")
    ask(questions, day, every=True)
    rng = random.Random("%d/%d/%s" % (seed, number, way))
    writer = Writer(rng, "join-%03d-%s" % (number, way))
    writer.line("slots %d %d %d %d" % (stocks, orders, rng.choice([5, 20, 100, 100]), orders))
    restless(writer, day)
    for at in range(-1, len(packets)):
        if at < 0:
            writer.line("start one")
            writer.packet(days.data_packet(day.first, day.messages))
        else:
            writer.line("say %s %d" % (way, at))
            join(writer, day, tampered(packets, at, way), number)
        writer.line("say book")
        writer.lines += questions.lines
        writer.line("say done")
        writer.line("stop")
    return writer.text(), writer.files


def systematic_names():
    """The number and the way of each systematic script."""
    return [(number, way) for number in range(1, DAY_SIZE + 2) for way in WAYS]


def write_case(directory, name, text, files):
    for file, data in list(files.items()) + [(name + ".txt", text)]:
        with open(os.path.join(directory, file), "wb") as out:
            out.write(data)


def main():
    parser = argparse.ArgumentParser(description="Makes session scripts from a seed.")
    parser.add_argument("--seed", type=int, required=True)
    parser.add_argument("--count", type=int, default=0)
    parser.add_argument("--one", type=int)
    parser.add_argument("--systematic", action="store_true")
    parser.add_argument("--out")
    options = parser.parse_args()
    if options.one is not None:
        text, files = random_case(options.seed, options.one)
        sys.stdout.buffer.write(text)
        if options.out:
            os.makedirs(options.out, exist_ok=True)
            write_case(options.out, "case-%06d" % options.one, text, files)
        return
    if not options.out:
        parser.error("--out DIR is needed to write scripts")
    os.makedirs(options.out, exist_ok=True)
    for number in range(options.count):
        write_case(options.out, "case-%06d" % number, *random_case(options.seed, number))
    if options.systematic:
        for number, way in systematic_names():
            text, files = systematic_case(options.seed, number, way)
            write_case(options.out, "join-%03d-%s" % (number, way), text, files)


if __name__ == "__main__":
    main()
