"""What scripts are made of: messages, days, packets, session bytes, day files.

Everything here takes its chances from a `random.Random` that it is handed.
"""

from oracle import MOST, MOST_PRICE, Book, Stop, check_of

CODES = b"OSEC"
STATES = b"HTAD"
KNOWN = b"TSHAEX"


def four(number):
    return (number % 2**32).to_bytes(4, "big")


def two(number):
    return (number % 2**16).to_bytes(2, "big")


def any_bytes(rng, count):
    return bytes(rng.randrange(256) for _ in range(count))


# Messages


def stamped(rng, letter, body=b""):
    return any_bytes(rng, 4) + letter + body


def event(rng, code):
    return stamped(rng, b"S", bytes([code]))


def status(rng, symbol, state):
    return stamped(rng, b"H", symbol + bytes([state]) + any_bytes(rng, 1))


def added(rng, reference, side, shares, symbol, price, last=b"Y"):
    body = four(reference) + side + four(shares) + symbol
    return stamped(rng, b"A", body + (price % 2**64).to_bytes(8, "big") + last)


def executed(rng, reference, shares):
    return stamped(rng, b"E", four(reference) + four(shares) + any_bytes(rng, 9))


def cancelled(rng, reference, shares):
    return stamped(rng, b"X", four(reference) + four(shares))


def ended(rng, number):
    return stamped(rng, b"G", four(number))


def other(rng):
    """A message of a letter that the book does not read, of any length."""
    letter = rng.choice(b"BCDFGIJKLMNOPQRUVWYZ\x00\xffahtsex ")
    return stamped(rng, bytes([letter]), any_bytes(rng, rng.choice([0, 1, 4, 20, 75, rng.randrange(76)])))


# Days


class Day:
    """A session's name and its messages, the first under the number `first`."""

    def __init__(self, session, first, messages):
        self.session = session
        self.first = first
        self.messages = messages

    def last(self):
        return self.first + len(self.messages) - 1

    def span(self, low, high):
        """The messages from the number low to the number high."""
        return self.messages[max(0, low - self.first) : max(0, high - self.first + 1)]

    def book_before(self, number):
        """The book that wants the number, or the last one before a stop, with what it wants."""
        book = Book(MOST, MOST)
        wanted = self.first
        for message in self.span(self.first, number - 1):
            try:
                book.run(message)
            except Stop:
                break
            wanted += 1
        return book, wanted

    def peaks(self):
        """The most stocks and the most orders that the book has at once."""
        book = Book(MOST, MOST)
        stocks = orders = 0
        for message in self.messages:
            try:
                book.run(message)
            except Stop:
                break
            stocks = max(stocks, len(book.stocks))
            orders = max(orders, len(book.orders))
        return stocks, orders


class DayMaker:
    """Adds messages that a book can run, or one that stops it."""

    def __init__(self, rng, symbols, reference_limit):
        self.rng = rng
        self.symbols = symbols
        self.reference_limit = reference_limit
        self.book = Book(MOST, MOST)
        self.messages = []
        self.weights = rng.choice([[6, 3, 10, 40, 18, 18, 5], [2, 1, 5, 80, 6, 6, 2]])

    def put(self, message):
        self.messages.append(message)
        try:
            self.book.run(message)
        except Stop:
            pass

    def reference(self):
        rng = self.rng
        if rng.random() < 0.05:
            return rng.choice([0, 1, MOST, MOST - 1, 256, 65536, 2**24])
        return rng.randrange(self.reference_limit)

    def free_reference(self):
        """A reference that no live order has."""
        reference = self.reference()
        while reference in self.book.orders:
            reference = self.rng.randrange(MOST)
        return reference

    def price(self):
        rng = self.rng
        return rng.choice([1, MOST_PRICE, rng.randint(1, MOST_PRICE), rng.randint(1, 10**10), 256, 2**32])

    def shares(self):
        rng = self.rng
        return rng.choice([1, 2, 100, MOST, rng.randint(1, 1000), rng.randint(1, MOST)])

    def good(self):
        """A message that the book runs."""
        rng = self.rng
        what = rng.choices("TSHAEXo", self.weights)[0]
        if what == "T":
            return stamped(rng, b"T")
        if what == "S":
            return event(rng, rng.choice(CODES))
        if what == "A" and self.book.stocks:
            reference = self.reference()
            if reference not in self.book.orders:
                return self.order(reference)
        if what in "EX" and self.book.orders:
            return self.lowering(what)
        if what == "o":
            return other(rng)
        return status(rng, rng.choice(self.symbols), rng.choice(STATES))

    def order(self, reference):
        rng = self.rng
        symbol = rng.choice(sorted(self.book.stocks))
        return added(rng, reference, rng.choice([b"B", b"S"]), self.shares(), symbol, self.price())

    def lowering(self, what):
        rng = self.rng
        reference = rng.choice(sorted(self.book.orders))
        most = self.book.orders[reference][1]
        shares = most if rng.random() < 0.4 else rng.randint(1, most)
        return (executed if what == "E" else cancelled)(rng, reference, shares)

    def stopping(self, cause):
        """A message that stops the book by the cause, or a good one if none can be made."""
        maker = getattr(self, "stop_" + cause)
        return maker() or self.good()

    def stop_a(self):
        rng = self.rng
        message = next(m for m in iter(self.good, None) if m[4] in KNOWN)
        if rng.random() < 0.5:
            return message + any_bytes(rng, rng.choice([1, 2, 80 - len(message)]))
        return message[: max(5, len(message) - rng.choice([1, 2, 9]))] + (b"" if len(message) > 5 else b"?")

    def stop_b(self):
        rng = self.rng
        symbol = rng.choice(self.symbols)
        big = rng.choice([MOST + 1, 2**32 - 1])
        none_or_big = rng.choice([0, big])
        reference = self.reference()
        bad_price = rng.choice([0, MOST_PRICE + 1, 2**63, 2**64 - 1])
        return rng.choice([
            event(rng, rng.choice(b"oTXY \x00\xff")),
            status(rng, symbol, rng.choice(b"htBSYE \x00\xff")),
            added(rng, big, b"B", 1, symbol, 1),
            added(rng, reference, rng.choice([b"b", b"A", b" "]), 1, symbol, 1),
            added(rng, reference, b"B", none_or_big, symbol, 1),
            added(rng, reference, b"S", 1, symbol, bad_price),
            added(rng, reference, b"S", 1, symbol, 1, rng.choice([b"N", b"y", b"\x00"])),
            executed(rng, big, 1),
            executed(rng, reference, none_or_big),
            cancelled(rng, big, 1),
            cancelled(rng, reference, none_or_big),
        ])

    def stop_c(self):
        rng = self.rng
        if not self.book.orders:
            return None
        reference = rng.choice(sorted(self.book.orders))
        symbol = rng.choice(self.symbols + [b"??????"])
        return added(rng, reference, rng.choice([b"B", b"S"]), self.shares(), symbol, self.price())

    def stop_d(self):
        rng = self.rng
        unknown = [s for s in self.symbols if s not in self.book.stocks] + [any_bytes(rng, 6)]
        free = self.free_reference()
        return added(rng, free, rng.choice([b"B", b"S"]), self.shares(), rng.choice(unknown), self.price())

    def stop_e(self):
        rng = self.rng
        free = self.free_reference()
        return rng.choice([executed, cancelled])(rng, free, self.shares())

    def stop_f(self):
        rng = self.rng
        able = [r for r, order in sorted(self.book.orders.items()) if order[1] < MOST]
        if not able:
            return None
        reference = rng.choice(able)
        most = self.book.orders[reference][1]
        return rng.choice([executed, cancelled])(rng, reference, rng.choice([most + 1, MOST]))


def some_symbols(rng):
    names = [b"7203  ", b"6758  ", b"9984  ", b"1     ", b"13060 ", b"ABCDEF", b"0x1234", b"abcdef"]
    names += [any_bytes(rng, 6), bytes(6), b"\xff" * 6]
    if rng.random() < 0.2:
        # Many that differ in one byte, at any place.
        base = any_bytes(rng, 6)
        places = [rng.randrange(6) for _ in range(40)]
        names += [base[:at] + any_bytes(rng, 1) + base[at + 1 :] for at in places]
        return rng.sample(sorted(set(names)), 30)
    return rng.sample(names, rng.randint(1, 6))


def make_day(rng, size, stop=None, first=1):
    """A day of some size, with a message in it that has the cause, if one is named."""
    symbols = some_symbols(rng)
    maker = DayMaker(rng, symbols, rng.choice([60, 400, MOST]))
    place = rng.randrange(size) if size and rng.random() < 0.5 else size * 3 // 4
    for at in range(size):
        if stop is not None and at == place:
            maker.put(maker.stopping(stop))
        else:
            maker.put(maker.good())
    session = rng.choice([b"SESSION001", any_bytes(rng, 10), bytes(10)])
    day = Day(session, first, maker.messages)
    day.symbols = symbols
    return day


# Packets


def data_packet(first, messages):
    body = b"".join(two(len(m)) + m for m in messages)
    return four(first) + two(len(messages)) + body


def heartbeat(number, session):
    return four(number) + two(0) + session


def cut_in_packets(rng, day, most):
    """The day's packets, as (first number, messages)."""
    packets = []
    at = 0
    while at < len(day.messages):
        count = rng.randint(1, most)
        packets.append((day.first + at, day.messages[at : at + count]))
        at += count
    return packets


def damaged_packet(rng, first, messages):
    """A packet that is likely to be refused, by 4, 5 or 6."""
    good = data_packet(first, messages)
    wrong_length = two(rng.choice([0, 4, 81, 32768 + 5, 65535, 3]))
    session = any_bytes(rng, 10)
    return rng.choice([
        good[: rng.randrange(6)],
        good[: rng.randrange(len(good))],
        four(0) + good[4:],
        four(rng.choice([2**31, 2**32 - 1])) + good[4:],
        four(MOST - len(messages) + 2) + good[4:],
        good[:4] + two(rng.choice([32768, 65535])) + good[6:],
        good[:4] + two(len(messages) + 1) + good[6:],
        good[:4] + two(max(0, len(messages) - 1)) + good[6:],
        good + any_bytes(rng, rng.randint(1, 12)),
        good[:6] + wrong_length + good[8:],
        data_packet(first, messages + [any_bytes(rng, rng.choice([0, 4, 81, 100]))]),
        heartbeat(first, session)[: rng.choice([6, 7, 15])],
        heartbeat(first, session) + b"\x00",
        heartbeat(rng.choice([0, 2**31, 2**32 - 1]), session),
        flipped(rng, good),
    ])


def flipped(rng, data):
    """The bytes with one of them changed."""
    if not data:
        return data
    at = rng.randrange(len(data))
    return data[:at] + bytes([data[at] ^ rng.randint(1, 255)]) + data[at + 1 :]


# Session bytes


def frame(letter, body=b""):
    return two(len(body) + 1) + letter + body


def chatter(rng):
    """Debug and server heartbeat messages, or nothing."""
    if rng.random() < 0.85:
        return b""
    return rng.choice([
        frame(b"H"),
        frame(b"+", b"hello"),
        frame(b"+"),
        frame(b"+", any_bytes(rng, 90)) + frame(b"H", b"x"),
        frame(b"H") + frame(b"H"),
    ])


def number_field(rng, number):
    return b"%10d" % number


def damaged_number_field(rng, number):
    return rng.choice([
        b"%010d" % number,
        b"%-10d" % number,
        b"          ",
        b"%9d " % number,
        b"        +1",
        b"        -1",
        b"2147483648",
        b"9999999999",
        b"        01",
        b"        00",
        b"       1 1",
        b"\t%9d" % number,
        b"\x00%9d" % number,
    ])


def opening(session, field, tail=b" " * 11):
    return frame(b"A", session + field + tail)


def opened(rng, session, number):
    return chatter(rng) + opening(session, number_field(rng, number), any_bytes(rng, 11))


def damaged_opening(rng, session, number):
    good = opening(session, number_field(rng, number))
    return rng.choice([
        b"",
        good[: rng.randrange(len(good))],
        opening(session, damaged_number_field(rng, number)),
        opening(session, number_field(rng, number), b" " * rng.choice([10, 12])),
        frame(b"S", b"12345") + good,
        frame(b"J", b"A") + good,
        two(0) + good,
        frame(b"+") + two(0x8001) + good,
        b"\x00",
    ])


def stream(rng, messages):
    """S messages with debug and heartbeat messages between them."""
    return b"".join(chatter(rng) + frame(b"S", m) for m in messages)


def stray(rng):
    """Something that ends session bytes."""
    return rng.choice([
        b"",
        b"\x00",
        two(0),
        two(32768) + b"S" * 40,
        two(200) + b"S1234567890",
        frame(b"S", any_bytes(rng, rng.choice([0, 1, 4]))),
        frame(b"S", any_bytes(rng, rng.choice([81, 82, 255]))),
        frame(b"S", b"1234"),
        frame(b"A", b"0" * 31),
        frame(b"Z"),
        frame(b"J", b"A"),
        frame(b"s", b"12345"),
    ])


def very_long(rng):
    """A debug message of the greatest length, or one of a length that is cut though its bytes follow."""
    length = rng.choice([32767, 32768, 40000])
    return two(length) + b"+" * length


def snapshot_messages(rng, book):
    """Messages that make the book from the empty one, in any order that can run."""
    stocks = []
    for symbol, states in book.stocks.items():
        told = [status(rng, symbol, ord(state)) for state in states if state]
        if rng.random() < 0.2:
            told.insert(0, status(rng, symbol, rng.choice(STATES[:2] if states[0] else STATES[2:])))
        stocks += told
    orders = [
        added(rng, reference, side.encode(), shares, symbol, price)
        for reference, (side, shares, symbol, price) in book.orders.items()
    ]
    if rng.random() < 0.5:
        rng.shuffle(orders)
    events = [event(rng, ord(book.event))] if book.event else []
    seconds = [stamped(rng, b"T")] if rng.random() < 0.5 else []
    return seconds + (events + stocks if rng.random() < 0.5 else stocks + events) + orders


def snapshot_of(rng, day, number, mode=None):
    """A snapshot of the day's book that wants the number, and that number."""
    book, wanted = day.book_before(number)
    messages = snapshot_messages(rng, book)
    mode = mode if mode is not None else rng.choice([1, 2])
    end = stream(rng, [ended(rng, wanted)])
    tail = any_bytes(rng, rng.randrange(9)) if rng.random() < 0.3 else b""
    return opened(rng, day.session, mode) + stream(rng, messages) + end + tail


def wrong_in_snapshot(rng, book):
    """A message that may not stand in a snapshot of the book."""
    maker = DayMaker(rng, sorted(book.stocks) or [b"ABCDEF"], 60)
    maker.book = book
    return rng.choice([
        executed(rng, 1, 1),
        cancelled(rng, 1, 1),
        executed(rng, 1, 1)[:-3],
        ended(rng, 0),
        ended(rng, 2**31),
        ended(rng, 5)[:-1],
        ended(rng, 5) + b"0",
        maker.stopping("a"),
        maker.stopping("b"),
        maker.stopping("c"),
        maker.stopping("d"),
        maker.stopping("d"),
        maker.stopping(rng.choice("ef")),
    ])


def damaged_snapshot(rng, day, number):
    """A snapshot that is likely to be refused, by 8, 10, 11 or 12."""
    book, wanted = day.book_before(number)
    session = day.session
    messages = snapshot_messages(rng, book)
    end = ended(rng, wanted)
    head = opened(rng, session, rng.choice([1, 2]))
    at = rng.choice([rng.randint(0, len(messages)), len(messages)])
    front, back = stream(rng, messages[:at]), stream(rng, messages[at:] + [end])
    inside = wrong_in_snapshot(rng, book)
    whole = head + front + back
    return rng.choice([
        opened(rng, session, rng.choice([0, 3, 12, MOST])) + front + back,
        damaged_opening(rng, session, 1) + front + back,
        opened(rng, flipped(rng, session), 1) + front + back,
        whole[: rng.randrange(len(whole))],
        head + front + stray(rng),
        head + front + stray(rng) + back,
        head + front + stream(rng, [inside]) + back,
        head + front + stream(rng, [inside]) + back,
        head + front + stream(rng, [inside]) + back,
        head + front + stream(rng, messages[:at][-1:] * 2) + back,
        head + front + stream(rng, messages[:at][-1:] * 2) + back,
        head + stream(rng, messages),
        flipped(rng, whole),
    ])


# Sources


def recovery(rng, session, first, messages):
    return opened(rng, session, first) + stream(rng, messages)


def damaged_recovery(rng, session, first, messages):
    at = rng.randint(0, len(messages))
    head = opened(rng, session, first)
    front, back = stream(rng, messages[:at]), stream(rng, messages[at:])
    whole = head + front + back
    return rng.choice([
        head,
        whole[: rng.randrange(len(whole))],
        head + front + stray(rng) + back,
        whole + stream(rng, messages[:3]),
        whole + stream(rng, messages[:3]) + stray(rng),
        opened(rng, session, MOST) + front + back,
        opened(rng, session, 0) + front + back,
        opened(rng, session, max(1, first - 1)) + front + back,
        damaged_opening(rng, session, first) + front + back,
        opened(rng, flipped(rng, session), first) + front + back,
        flipped(rng, whole),
    ])


def block(session, packet, check_off=0, fill=b""):
    """A block of a day file; the packet has to fit."""
    body = (session + packet + fill)[:510].ljust(510, b"\x00")
    return body + two(check_of(body) + check_off)


def blocks_of(rng, session, first, messages):
    """Good blocks that hold the messages, as many to a block as fit or fewer."""
    blocks = []
    at = 0
    while at < len(messages):
        count = 0
        room = rng.choice([494, 494, 200, 90])
        while at + count < len(messages) and len(messages[at + count]) + 2 <= room:
            room -= len(messages[at + count]) + 2
            count += 1
        count = max(count, 1)
        blocks.append(block(session, data_packet(first + at, messages[at : at + count])))
        at += count
    return blocks


def bad_block(rng, session, first, messages):
    """A block that is not good, or of another session, or that says something else."""
    few = messages[: rng.randint(1, 5)] or [b"12345"]
    packet = data_packet(first, few)
    room = 500 - len(packet)
    far = b"\x00" * rng.randrange(max(1, room)) + b"\x01"
    whole = block(session, packet)
    return rng.choice([
        block(session, packet, rng.randint(1, 65535)),
        block(session, packet, 0, far),
        block(session, heartbeat(first, session)),
        block(session, damaged_packet(rng, first, few)),
        block(flipped(rng, session), packet),
        block(flipped(rng, session), data_packet(first, [flipped(rng, m) for m in few])),
        block(session, data_packet(first, [flipped(rng, m) for m in few])),
        block(session, data_packet(first, [any_bytes(rng, 80)] * 7)),
        block(session, data_packet(first, [bytes(80)] * 6)),
        block(session, data_packet(first, [b"\xffabcT" + b"\x00" * 75] * 6 + [b"12345"] * 2)),
        flipped(rng, whole),
        bytes(512),
        any_bytes(rng, 512),
    ])


def day_file_of(rng, session, first, messages):
    """A day file, its blocks in any order, some of them twice, some of them bad."""
    blocks = blocks_of(rng, session, first, messages)
    if rng.random() < 0.3:
        rng.shuffle(blocks)
    if blocks and rng.random() < 0.3:
        blocks.insert(rng.randint(0, len(blocks)), rng.choice(blocks))
    while rng.random() < 0.3:
        blocks.insert(rng.randint(0, len(blocks)), bad_block(rng, session, first, messages))
    if len(blocks) > 1 and rng.random() < 0.15:
        blocks.pop(rng.randrange(len(blocks)))
    if rng.random() < 0.15:
        # Another session's blocks with the same numbers, behind the first block.
        foreign = blocks_of(rng, flipped(rng, session), first, [flipped(rng, m) for m in messages])
        blocks[1:1] = foreign
    tail = b""
    if rng.random() < 0.2:
        tail = rng.choice([any_bytes(rng, 511), bad_block(rng, session, first, messages)])
    return b"".join(blocks) + tail[: rng.choice([1, 100, 510, 511])]
