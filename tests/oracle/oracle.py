#!/usr/bin/env python3
"""A second follower, written from docs/RULES.md alone, to compare `replay_follower` with.

It reads a session script on standard input and prints what `replay_follower` must
print for it. A script is a call to a line, all of them made on one follower.
A line ends with a line feed, or a carriage return and a line feed, and is
UTF-8. Words stand apart by exactly one space; numbers are decimal, and fit in
64 bits; bytes are pairs of hexadecimal digits, or `-` for none; a symbol is text
of one to six bytes, filled up with spaces, or `0x` and twelve hexadecimal
digits. Empty lines and lines that begin with `#` print nothing.

    line                          prints
    say TEXT                      TEXT, the rest of the line
    slots S O H R                 the line itself; makes the follower, with slots for S stocks,
                                  O orders and H held messages, and R rows for answers
    start one | start snapshot    started
    stop                          stopped
    packet BYTES                  taken T repeated R dropped D unread U
    capture PATH                  packets P taken T repeated R dropped D unread U refused F:
                                  sums over the packets of a file, in which each follows its
                                  length of 2 bytes; a tail that is shorter is not read; the
                                  path is the rest of the line
    snapshot BYTES                snapshot N
    repair BUDGET SOURCE..        fetched N red | green | budget | not-held; one to three
                                  sources, each `session BYTES` or `file BYTES`; two make a
                                  pair, three a pair of that pair and the third
    lamp                          dark | red NUMBER CAUSE | waiting | gap W K | green W
    event                         event CODE | event none
    stock SYMBOL                  trading LETTER short LETTER, `none` where untold
    orders SYMBOL B|S             orders N, and N lines REFERENCE SHARES PRICE
    login USER PASSWORD SESSION NUMBER
                                  request BYTES; opens a session (6, 10 and 10 bytes, a number)
    beat                          request BYTES
    logout | lost                 request BYTES | lost; either ends the open session
    request BYTES                 login USER PASSWORD SESSION NUMBER | logout | heartbeat

A refusal prints `refused NUMBER` and what it names: a cause, the lamp, or the
count of rows. A source that does not open prints its refusal in place of the
repair. A file that cannot be read prints `no file`. Every other line, a call
before `slots`, a second `slots`, a `login` while a session is open, and `beat`,
`logout` or `lost` while none is, print `bad line` and change nothing. A session
that is open at the end of the script is lost, and prints `lost`.
"""

import os
import re
import sys

MOST = 2_147_483_647
MOST_PRICE = 1_000_000_000_000_000
MOST_SHORT = 32_767
BLOCK = 512


class Refusal(Exception):
    """A refused call: the refusal's number, and the text of what it names."""

    def __init__(self, number, names=""):
        super().__init__(number, names)
        self.number = number
        self.names = names


class Stop(Exception):
    """A message stops the book, by a cause."""

    def __init__(self, cause):
        super().__init__(cause)
        self.cause = cause


class BadLine(Exception):
    """A line that is no call, or not one that can be made now."""


# Bytes and number fields


def integer(data):
    return int.from_bytes(data, "big")


def read_number_field(data):
    """The number in a field of text, or None if the field has none."""
    match = re.fullmatch(rb" *(0|[1-9][0-9]*)", data)
    if match is None:
        return None
    number = int(match.group(1))
    return number if number <= MOST else None


def write_number_field(number):
    if number > MOST:
        raise Refusal(17)
    return b"%10d" % number


# Messages

LENGTHS = {"T": 5, "S": 6, "H": 13, "A": 29, "E": 22, "X": 13}


def kind(message):
    """The letter of a message; a message too short for one has cause a."""
    if len(message) < 5:
        raise Stop("a")
    return chr(message[4])


def among(limit, low, value):
    """Cause b for a value outside its limits."""
    if not low <= value <= limit:
        raise Stop("b")
    return value


def letter_of(allowed, byte):
    """Cause b for a letter that is not listed."""
    if chr(byte) not in allowed:
        raise Stop("b")
    return chr(byte)


def check_length(message, length):
    if len(message) != length:
        raise Stop("a")


class Book:
    """The plain book: the event code, the stocks and the live orders."""

    def __init__(self, stock_slots, order_slots):
        self.stock_slots = stock_slots
        self.order_slots = order_slots
        self.event = None
        self.stocks = {}  # symbol: [trading state, short-sell state]
        self.orders = {}  # reference: [side, shares, symbol, price]

    def run(self, message):
        letter = kind(message)
        if letter not in LENGTHS:
            return
        check_length(message, LENGTHS[letter])
        if letter == "S":
            self.event = letter_of("OSEC", message[5])
        elif letter == "H":
            self.status(message)
        elif letter == "A":
            self.add(message)
        elif letter in "EX":
            self.lower(message)

    def status(self, message):
        symbol = message[5:11]
        state = letter_of("HTAD", message[11])
        if symbol not in self.stocks:
            if len(self.stocks) >= self.stock_slots:
                raise Stop("g")
            self.stocks[symbol] = [None, None]
        self.stocks[symbol][0 if state in "HT" else 1] = state

    def add(self, message):
        reference = among(MOST, 0, integer(message[5:9]))
        side = letter_of("BS", message[9])
        shares = among(MOST, 1, integer(message[10:14]))
        symbol = message[14:20]
        price = among(MOST_PRICE, 1, integer(message[20:28]))
        letter_of("Y", message[28])
        if reference in self.orders:
            raise Stop("c")
        if symbol not in self.stocks:
            raise Stop("d")
        if len(self.orders) >= self.order_slots:
            raise Stop("g")
        self.orders[reference] = [side, shares, symbol, price]

    def lower(self, message):
        reference = among(MOST, 0, integer(message[5:9]))
        shares = among(MOST, 1, integer(message[9:13]))
        if reference not in self.orders:
            raise Stop("e")
        order = self.orders[reference]
        if shares > order[1]:
            raise Stop("f")
        order[1] -= shares
        if order[1] == 0:
            del self.orders[reference]

    def rows(self, symbol, side):
        """The orders of a stock on one side, by ascending reference."""
        return [
            (reference, order[1], order[3])
            for reference, order in sorted(self.orders.items())
            if order[0] == side and order[2] == symbol
        ]


def end_of_snapshot(message):
    """The next number, from an End message."""
    check_length(message, 9)
    return among(MOST, 1, integer(message[5:9]))


# Packets


def cut_messages(data, count):
    """The counted messages from the start of the data, and what follows them."""
    messages = []
    for _ in range(count):
        length = integer(data[:2])
        if len(data) < 2 or not 5 <= length <= 80 or len(data) < 2 + length:
            raise Refusal(6)
        messages.append(data[2 : 2 + length])
        data = data[2 + length :]
    return messages, data


def packet_header(packet):
    """The first number and the count, or refusal 4 or 5."""
    if len(packet) < 6:
        raise Refusal(4)
    number = integer(packet[:4])
    count = integer(packet[4:6])
    last = number + count - 1 if count > 0 else number
    if number == 0 or last > MOST or count > MOST_SHORT:
        raise Refusal(5)
    return number, count


def read_packet(packet):
    """(number, session, None) of a heartbeat, (number, None, messages) of data."""
    number, count = packet_header(packet)
    if count == 0:
        if len(packet) != 16:
            raise Refusal(6)
        return number, packet[6:16], None
    messages, rest = cut_messages(packet[6:], count)
    if rest:
        raise Refusal(6)
    return number, None, messages


# Session bytes


def session_messages(data):
    """(letter, data, offset behind it) of each message.

    The letter is None, once and at the end, where the bytes end, a message is
    cut, or one has the length 0.
    """
    at = 0
    while len(data) - at >= 2:
        length = integer(data[at : at + 2])
        if length > MOST_SHORT or length == 0 or len(data) - at - 2 < length:
            break
        behind = at + 2 + length
        yield chr(data[at + 2]), data[at + 3 : behind], behind
        at = behind
    yield None, b"", at


def open_session(data):
    """The session, the number and the bytes behind the opening, or refusal 8."""
    for letter, body, behind in session_messages(data):
        if letter in ("+", "H"):
            continue
        if letter != "A" or len(body) != 31:
            raise Refusal(8)
        number = read_number_field(body[10:20])
        if number is None:
            raise Refusal(8)
        return body[:10], number, data[behind:]
    raise Refusal(8)


def sequenced(data):
    """The messages of the S data, up to the first thing that ends them."""
    for letter, body, _ in session_messages(data):
        if letter in ("+", "H"):
            continue
        if letter != "S" or not 5 <= len(body) <= 80:
            return
        yield body


def run_snapshot(data, book):
    """Runs a snapshot's messages on the book, and answers the next number."""
    for message in sequenced(data):
        letter = kind(message)
        try:
            if letter in ("E", "X"):
                raise Stop("h")
            if letter == "G":
                return end_of_snapshot(message)
            book.run(message)
        except Stop as stop:
            raise Refusal(12, stop.cause) from None
    raise Refusal(11)


# Sources of missing messages


class Source:
    """A session's name, and the messages held, by number."""

    def __init__(self, session, held):
        self.session = session
        self.held = held


def recovery_session(data):
    session, number, rest = open_session(data)
    if number < 1:
        raise Refusal(8)
    held = {}
    for message in sequenced(rest):
        if number > MOST:
            break
        held[number] = message
        number += 1
    return Source(session, held)


def check_of(block):
    return sum(place * byte for place, byte in enumerate(block[:510], 1)) % 65_521


def read_block(block):
    """(session, first number, messages) of a good block, or None."""
    try:
        number, count = packet_header(block[10:510])
        messages, rest = cut_messages(block[16:510], count)
    except Refusal:
        return None
    if count == 0 or any(rest) or check_of(block) != integer(block[510:512]):
        return None
    return block[:10], number, messages


def day_file(data):
    session = None
    held = {}
    for at in range(0, len(data) - BLOCK + 1, BLOCK):
        good = read_block(data[at : at + BLOCK])
        if good is None:
            continue
        if session is None:
            session = good[0]
        if good[0] == session:
            for number, message in enumerate(good[2], good[1]):
                held.setdefault(number, message)
    if session is None:
        raise Refusal(9)
    return Source(session, held)


def pair(first, second):
    held = dict(first.held)
    if first.session == second.session:
        for number, message in second.held.items():
            held.setdefault(number, message)
    return Source(first.session, held)


# The follower


class Follower:
    """The plain follower, with as many slots as it is lent."""

    def __init__(self, stock_slots, order_slots, held_slots, rows):
        self.stock_slots = stock_slots
        self.order_slots = order_slots
        self.held_slots = held_slots
        self.lent_rows = rows
        self.be_dark()

    def be_dark(self):
        self.state = "dark"
        self.red = None  # number and cause
        self.session = None
        self.book = None
        self.wanted = None
        self.heard = False
        self.highest = 0
        self.held = {}

    def lamp(self):
        if self.state == "dark":
            return "dark"
        if self.state == "red":
            return "red %d %s" % self.red
        if self.book is None or not self.heard:
            return "waiting"
        if self.wanted <= self.highest:
            return "gap %d %d" % (self.wanted, self.highest)
        return "green %d" % self.wanted

    def lamp_is(self, colour):
        return self.lamp().split()[0] == colour

    def need_started(self):
        if self.state == "dark":
            raise Refusal(1)
        if self.state == "red":
            raise Refusal(3)

    def need_session(self, session):
        if self.session is not None and self.session != session:
            raise Refusal(10)

    # Starts and the stop

    def start(self, at_one):
        if self.state != "dark":
            raise Refusal(2)
        self.be_dark()
        self.state = "started"
        if at_one:
            self.book = self.empty_book()
            self.wanted = 1

    def stop(self):
        if self.state == "dark":
            raise Refusal(1)
        self.be_dark()

    def empty_book(self):
        return Book(self.stock_slots, self.order_slots)

    # Packets

    def hear(self, number):
        self.heard = True
        self.highest = max(self.highest, number)

    def packet(self, packet):
        """The counts of messages taken, repeated, dropped and unread."""
        self.need_started()
        number, session, messages = read_packet(packet)
        counts = {"taken": 0, "repeated": 0, "dropped": 0, "unread": 0}
        if messages is None:
            self.need_session(session)
            self.session = session
            self.hear(number - 1)
            return counts
        self.hear(number + len(messages) - 1)
        for k, message in enumerate(messages, number):
            counts[self.treat(k, message)] += 1
        return counts

    def treat(self, k, message):
        """What becomes of one message of a packet."""
        if self.state == "red":
            return "unread"
        if self.book is not None and k < self.wanted or k in self.held:
            return "repeated"
        if self.book is not None and k == self.wanted:
            self.take(message)
            return "taken"
        if len(self.held) >= self.held_slots:
            return "dropped"
        self.held[k] = message
        return "taken"

    def take(self, message):
        """Runs the wanted message, and then the held ones that follow it."""
        if self.run_wanted(message):
            self.run_held()

    def run_held(self):
        while self.wanted in self.held:
            if not self.run_wanted(self.held.pop(self.wanted)):
                return

    def run_wanted(self, message):
        try:
            self.book.run(message)
        except Stop as stop:
            self.state = "red"
            self.red = (self.wanted, stop.cause)
            return False
        self.wanted += 1
        return True

    # Snapshots and repairs

    def snapshot(self, data):
        self.need_started()
        if self.book is not None:
            raise Refusal(7)
        session, mode, rest = open_session(data)
        if mode not in (1, 2):
            raise Refusal(8)
        self.need_session(session)
        book = self.empty_book()
        number = run_snapshot(rest, book)
        self.session = session
        self.book = book
        self.wanted = number
        self.hear(number - 1)
        self.held = {k: m for k, m in self.held.items() if k >= number}
        self.run_held()
        return number

    def repair(self, source, budget):
        """How many messages were fetched, and how the repair ended."""
        self.need_started()
        self.need_session(source.session)
        if self.lamp_is("waiting"):
            raise Refusal(13)
        self.session = source.session
        fetched = 0
        while True:
            if self.state == "red":
                return fetched, "red"
            if self.lamp_is("green"):
                return fetched, "green"
            if fetched >= budget:
                return fetched, "budget"
            if self.wanted not in source.held:
                return fetched, "not-held"
            self.take(source.held[self.wanted])
            fetched += 1

    # Questions

    def need_green(self):
        self.need_started()
        if not self.lamp_is("green"):
            raise Refusal(14, self.lamp())

    def event(self):
        self.need_green()
        return self.book.event

    def stock(self, symbol):
        self.need_green()
        if symbol not in self.book.stocks:
            raise Refusal(15)
        return self.book.stocks[symbol]

    def orders(self, symbol, side):
        self.stock(symbol)
        rows = self.book.rows(symbol, side)
        if len(rows) > self.lent_rows:
            raise Refusal(16, str(len(rows)))
        return rows


# Requests


def login_request(user, password, session, number):
    return b"\x00\x25L" + user + password + session + write_number_field(number)


LOGOUT = b"\x00\x01O"
HEARTBEAT = b"\x00\x01R"


def read_request(data):
    """The words that a request is printed in, or refusal 17."""
    if data == LOGOUT:
        return "logout"
    if data == HEARTBEAT:
        return "heartbeat"
    if len(data) != 39 or data[:3] != b"\x00\x25L":
        raise Refusal(17)
    number = read_number_field(data[29:39])
    if number is None:
        raise Refusal(17)
    fields = (data[3:9].hex(), data[9:19].hex(), data[19:29].hex(), number)
    return "login %s %s %s %d" % fields


# The script


def word_bytes(word):
    if word == b"-":
        return b""
    if re.fullmatch(rb"([0-9a-fA-F]{2})+", word) is None:
        raise BadLine
    return bytes.fromhex(word.decode())


def word_number(word):
    if re.fullmatch(rb"[0-9]+", word) is None or int(word) >= 2**64:
        raise BadLine
    return int(word)


def word_symbol(word):
    if re.fullmatch(rb"0x[0-9a-fA-F]{12}", word):
        return bytes.fromhex(word[2:].decode())
    if not 1 <= len(word) <= 6:
        raise BadLine
    return word.ljust(6)


def packets_of_capture(data):
    """The packets of a capture file; a tail that is too short is left out."""
    packets = []
    while len(data) >= 2 and len(data) - 2 >= integer(data[:2]):
        length = integer(data[:2])
        packets.append(data[2 : 2 + length])
        data = data[2 + length :]
    return packets


def counts_text(counts):
    return "taken %(taken)d repeated %(repeated)d dropped %(dropped)d unread %(unread)d" % counts


class Script:
    """Runs a script's lines on one follower, and keeps what they print."""

    # The words of each line, the first left out, as the readers of them.
    SHAPES = {
        b"slots": [word_number] * 4,
        b"stop": [],
        b"packet": [word_bytes],
        b"capture": [bytes],
        b"snapshot": [word_bytes],
        b"lamp": [],
        b"event": [],
        b"stock": [word_symbol],
        b"orders": [word_symbol, bytes],
        b"login": [word_bytes, word_bytes, word_bytes, word_number],
        b"beat": [],
        b"logout": [],
        b"lost": [],
        b"request": [word_bytes],
        b"start": [bytes],
    }
    WITHOUT_FOLLOWER = (b"slots", b"login", b"beat", b"logout", b"lost", b"request")

    def __init__(self, directory="."):
        self.directory = os.fsencode(directory)
        self.follower = None
        self.session_open = False
        self.printed = []

    def say(self, text):
        self.printed.append(text if isinstance(text, bytes) else text.encode())

    def run(self, text):
        for line in text.replace(b"\r\n", b"\n").split(b"\n"):
            self.line(line)
        if self.session_open:
            self.say("lost")
        return b"".join(line + b"\n" for line in self.printed)

    def line(self, line):
        if line == b"" or line.startswith(b"#"):
            return
        try:
            line.decode()
            if line.startswith(b"say "):
                self.say(line[4:])
            else:
                self.call(line.split(b" "))
        except (BadLine, UnicodeDecodeError):
            self.say("bad line")
        except Refusal as refusal:
            self.say(("refused %d %s" % (refusal.number, refusal.names)).rstrip())

    def call(self, words):
        name = words[0]
        if name == b"repair":
            self.repair(words[1:])
            return
        if name == b"capture" and len(words) > 1:
            words = [name, b" ".join(words[1:])]
        shape = self.SHAPES.get(name)
        if shape is None or len(words) - 1 != len(shape):
            raise BadLine
        values = [read(word) for read, word in zip(shape, words[1:])]
        if name not in self.WITHOUT_FOLLOWER:
            self.need_follower()
        getattr(self, "call_" + name.decode())(*values)

    def need_follower(self):
        if self.follower is None:
            raise BadLine

    def need_open(self, is_open):
        if self.session_open != is_open:
            raise BadLine

    # Calls on the follower

    def call_slots(self, stocks, orders, held, rows):
        if self.follower is not None:
            raise BadLine
        self.follower = Follower(stocks, orders, held, rows)
        self.say("slots %d %d %d %d" % (stocks, orders, held, rows))

    def call_start(self, where):
        if where not in (b"one", b"snapshot"):
            raise BadLine
        self.follower.start(where == b"one")
        self.say("started")

    def call_stop(self):
        self.follower.stop()
        self.say("stopped")

    def call_packet(self, data):
        self.say(counts_text(self.follower.packet(data)))

    def call_capture(self, path):
        try:
            with open(os.path.join(self.directory, path), "rb") as file:
                packets = packets_of_capture(file.read())
        except (OSError, ValueError):
            self.say("no file")
            return
        sums = {"taken": 0, "repeated": 0, "dropped": 0, "unread": 0}
        refused = 0
        for packet in packets:
            try:
                for name, count in self.follower.packet(packet).items():
                    sums[name] += count
            except Refusal:
                refused += 1
        self.say("packets %d %s refused %d" % (len(packets), counts_text(sums), refused))

    def call_snapshot(self, data):
        self.say("snapshot %d" % self.follower.snapshot(data))

    def repair(self, words):
        """A repair has a number of words that its sources decide."""
        if len(words) not in (3, 5, 7):
            raise BadLine
        budget = word_number(words[0])
        openers = {b"session": recovery_session, b"file": day_file}
        parts = []
        for name, data in zip(words[1::2], words[2::2]):
            if name not in openers:
                raise BadLine
            parts.append((openers[name], word_bytes(data)))
        self.need_follower()
        sources = [opener(data) for opener, data in parts]
        source = sources[0]
        for other in sources[1:]:
            source = pair(source, other)
        self.say("fetched %d %s" % self.follower.repair(source, budget))

    def call_lamp(self):
        self.say(self.follower.lamp())

    def call_event(self):
        self.say("event %s" % (self.follower.event() or "none"))

    def call_stock(self, symbol):
        trading, short = self.follower.stock(symbol)
        self.say("trading %s short %s" % (trading or "none", short or "none"))

    def call_orders(self, symbol, side):
        if side not in (b"B", b"S"):
            raise BadLine
        rows = self.follower.orders(symbol, side.decode())
        self.say("orders %d" % len(rows))
        for row in rows:
            self.say("%d %d %d" % row)

    # Requests

    def call_login(self, user, password, session, number):
        if (len(user), len(password), len(session)) != (6, 10, 10):
            raise BadLine
        self.need_open(False)
        self.say("request " + login_request(user, password, session, number).hex())
        self.session_open = True

    def call_beat(self):
        self.need_open(True)
        self.say("request " + HEARTBEAT.hex())

    def call_logout(self):
        self.need_open(True)
        self.session_open = False
        self.say("request " + LOGOUT.hex())

    def call_lost(self):
        self.need_open(True)
        self.session_open = False
        self.say("lost")

    def call_request(self, data):
        self.say(read_request(data))


def run_script(text, directory="."):
    """What the script prints; files are looked for in the directory."""
    return Script(directory).run(text)


if __name__ == "__main__":
    sys.stdout.buffer.write(run_script(sys.stdin.buffer.read()))
