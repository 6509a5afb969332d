"""Reads the traces that `./wz_board trace` prints, and follows the chip through them, for the tools of this folder.

The forms are those of docs/FORMATS.md, "Traces". A trace that has another form is a Fault with the number of its line. Whether
the chip allows what stands there is not asked here; `./wz_board judge` says that.
"""
import contextlib
import os
import re
import signal
import sys

# Kinds of events. An event is a tuple of its kind and its values.
SELECT, BYTE, LOOK, LINK, TICK, REST = range(6)

# Status codes of a socket (W5500 datasheet, 4.2, Sn_SR).
CLOSED, INIT, LISTEN, SYNSENT, ESTABLISHED = 0x00, 0x13, 0x14, 0x15, 0x17
FIN_WAIT, CLOSE_WAIT, LAST_ACK, UDP = 0x18, 0x1C, 0x1D, 0x22
STATUSES = {
    CLOSED: "CLOSED",
    INIT: "INIT",
    LISTEN: "LISTEN",
    SYNSENT: "SYNSENT",
    ESTABLISHED: "ESTABLISHED",
    FIN_WAIT: "FIN_WAIT",
    CLOSE_WAIT: "CLOSE_WAIT",
    LAST_ACK: "LAST_ACK",
    UDP: "UDP",
}

# Commands (4.2, Sn_CR).
COMMANDS = {
    0x01: "OPEN",
    0x02: "LISTEN",
    0x04: "CONNECT",
    0x08: "DISCON",
    0x10: "CLOSE",
    0x20: "SEND",
    0x21: "SEND_MAC",
    0x22: "SEND_KEEP",
    0x40: "RECV",
}

# Phases of a frame (2.2).
IDLE, ADDRESS_HIGH, ADDRESS_LOW, CONTROL, DATA = "idle", "address", "address", "control", "data"

LONGEST_LINE = 1 << 17


class Fault(Exception):
    """A line of a trace that is not one, or that a tool cannot show."""

    def __init__(self, line, why):
        super().__init__(f"line {line}: {why}")


def number(text, least, most):
    """A number of one to ten decimal digits in this range, or None."""
    return int(text) if re.fullmatch(r"[0-9]{1,10}", text) and least <= int(text) <= most else None


def address(text):
    """The four bytes of an address, or None."""
    parts = text.split(".")
    if len(parts) != 4 or any(not re.fullmatch(r"0|[1-9][0-9]{0,2}", it) or int(it) > 255 for it in parts):
        return None
    return bytes(map(int, parts))


def link_event(socket, words):
    """A link event of a socket by the words behind its number, or None. Its values: the socket, the name, bytes or a
    count, and the address and port of a peer."""
    name = words[0]
    if name in ("linked", "refused", "timedout", "ended", "shut", "failed", "dropped"):
        return (LINK, socket, name, None, None) if len(words) == 1 else None
    if name == "took" and len(words) == 2:
        count = number(words[1], 0, 4294967295)
        return None if count is None else (LINK, socket, name, count, None)
    if name in ("accepted", "datagram") and len(words) == (3 if name == "accepted" else 4):
        peer = address(words[1]), number(words[2], 0, 65535)
        if None in peer:
            return None
        words = words[:1] + words[3:]
        if name == "accepted":
            return (LINK, socket, name, None, peer)
    elif name == "got":
        peer = None
    else:
        return None
    if len(words) != 2 or len(words[1]) % 2 or not re.fullmatch(r"[0-9A-Fa-f]*", words[1]):
        return None
    return (LINK, socket, name, bytes.fromhex(words[1]), peer)


def parsed(text, version):
    """The event of a line without its end, or None."""
    if text in ("L", "H"):
        return (SELECT, text == "L")
    if text in ("?0", "?1"):
        return (LOOK, text == "?1")
    if text == ".":
        return (REST,)
    if re.fullmatch(r"[0-9A-Fa-f]{2}>[0-9A-Fa-f]{2}", text):
        return (BYTE, int(text[:2], 16), int(text[3:], 16))
    if version == 2 and text.startswith("@t:"):
        units = number(text[3:], 1, 65535)
        return None if units is None else (TICK, units)
    if re.match(r"@[0-7]:", text):
        return link_event(int(text[1]), text[3:].split(":"))
    return None


def without_end(line):
    """A line without its LF or CR LF."""
    line = line.removesuffix("\n")
    return line.removesuffix("\r")


class Trace:
    """A trace that is read line by line: its version and start pointers, and its events with their numbers from 0."""

    def __init__(self, file):
        self.file = file
        head = re.fullmatch(r"w5500 trace ([12]) (0|[1-9][0-9]{0,4}) (0|[1-9][0-9]{0,4})(?: probes)?", self.next_line() or "")
        if not head or max(int(head[2]), int(head[3])) > 65535:
            raise Fault(1, "a trace begins with 'w5500 trace 1 TX RX' or 'w5500 trace 2 TX RX'")
        self.version = int(head[1])
        self.starts = int(head[2]), int(head[3])

    def next_line(self):
        """The first line, or None where there is none."""
        line = self.file.readline(LONGEST_LINE)
        return without_end(line) if line else None

    def __iter__(self):
        seen = {}
        at = 0
        version = self.version
        read = self.file.readline
        while line := read(LONGEST_LINE):
            event = seen.get(line)
            if event is None:
                text = without_end(line)
                event = parsed(text, version)
                if event is None:
                    if version == 2 and re.fullmatch("end [0-9]+", text):
                        self.end(text, at)
                        return
                    raise Fault(at + 2, f"this is no event: '{text[:40]}'")
                if len(line) < 8:
                    seen[line] = event
            yield at, event
            at += 1
        if version == 2:
            raise Fault(at + 1, "a trace of version 2 ends with a line 'end N'")

    def end(self, text, count):
        """Sees that the last line has the right count, and is the last one."""
        if text != f"end {count}":
            raise Fault(count + 2, f"'{text[:40]}' behind {count} events")
        if self.file.readline(LONGEST_LINE):
            raise Fault(count + 3, "a line behind the end")


class Frames:
    """Follows the select line and the frames (2.2). After each byte `phase` is where the next byte of the bus stands."""

    def __init__(self):
        self.low = False
        self.phase = IDLE
        self.begin = 0
        self.at = 0
        self.control = 0
        self.left = 0
        self.heads = 0

    def select(self, low):
        """The select line is set. Setting it to the level that it has changes nothing; whether it changed."""
        if low == self.low:
            return False
        self.low = low
        self.heads = 0
        self.phase = ADDRESS_HIGH if low else IDLE
        return True

    def byte(self, mosi):
        """A byte goes by. Gives the address of a data byte, or -1 for any other one. `control` says what it is."""
        if not self.low:
            return -1
        if self.phase == DATA:
            at = self.at
            self.at = (at + 1) & 0xFFFF
            self.left -= 1
            if self.left == 0:
                self.heads = 0
                self.phase = ADDRESS_HIGH
            return at
        if self.heads == 0:
            self.at = mosi << 8
            self.heads = 1
        elif self.heads == 1:
            self.at |= mosi
            self.heads = 2
            self.phase = CONTROL
        else:
            self.control = mosi
            self.left = (-1, 1, 2, 4)[mosi & 3]
            self.phase = DATA
        return -1


def word(place, at):
    """The two bytes at a place, the high one first, as a number."""
    return place[at] << 8 | place[at + 1]


class Socket:
    """What the tools need to know of a socket: its registers as written, its status, and its bytes in flight."""

    def __init__(self, old=None):
        self.registers = bytearray(0x30)
        self.registers[0x06:0x0C] = b"\xff" * 6
        self.registers[0x16] = 0x80
        self.registers[0x1E:0x20] = b"\x02\x02"
        self.memory = bytearray(16384)
        self.status = CLOSED
        self.port = 0
        self.peer = (bytes(4), 0)
        self.sent = 0
        self.flight = []
        self.ended = False
        self.shut = False
        self.waited = 0
        self.lives = old.lives if old else 0

    def tx_size(self):
        """The size of the TX buffer in bytes, as its register says."""
        return self.registers[0x1F] * 1024

    def in_flight(self):
        """How many bytes the link has not taken."""
        return sum(len(data) for data, _ in self.flight)

    def move(self, status):
        """Another status. In those of no connection nothing is in flight."""
        if status != self.status:
            self.waited = 0
        self.status = status
        if status in (CLOSED, INIT, LISTEN, SYNSENT):
            self.flight = []

    def begin(self, status):
        """OPEN: a new life."""
        self.lives += 1
        self.ended = self.shut = False
        self.pointers((0, 0))
        self.port = word(self.registers, 0x04)
        self.move(status)

    def pointers(self, starts):
        """The positions of both directions begin here."""
        self.sent = starts[0]
        self.registers[0x24:0x26] = starts[0].to_bytes(2, "big")
        self.registers[0x28:0x2A] = starts[1].to_bytes(2, "big")

    def destination(self):
        """What DIPR and DPORT hold."""
        return bytes(self.registers[0x0C:0x10]), word(self.registers, 0x10)

    def send(self):
        """SEND: what stands in the buffer up to TX_WR is in flight. Of UDP, with where it goes."""
        count = (word(self.registers, 0x24) - self.sent) & 0xFFFF
        size = self.tx_size()
        if count == 0 or count > size:
            return
        data = bytes(self.memory[(self.sent + it) % size] for it in range(count))
        self.flight.append((data, self.destination()))
        self.sent = (self.sent + count) & 0xFFFF

    def take(self, count):
        """The link takes so many bytes; of UDP a datagram. Gives them and their destination, or None where fewer are there."""
        if count > self.in_flight() or count == 0:
            return None
        to = self.flight[0][1]
        data = b"".join(it for it, _ in self.flight)
        self.flight = [(data[count:], to)] if count < len(data) else []
        return data[:count], to


class Chip:
    """The sockets and the common registers, as a trace tells of them (4.1 and 4.2; docs/PROFILE.md, "Sockets").

    What happens to a connection is handed on to the methods `became`, `linked`, `took`, `got` and so on of whoever inherits.
    """

    def __init__(self, starts):
        self.starts = starts
        self.frames = Frames()
        self.reset()

    def reset(self):
        """Power-on and a software reset."""
        self.common = bytearray(0x40)
        self.common[0x19:0x1C] = b"\x07\xd0\x08"
        self.sockets = [Socket(old) for old in getattr(self, "sockets", [None] * 8)]

    def event(self, at, event):
        """One event of the trace."""
        kind = event[0]
        if kind == BYTE:
            frames = self.frames
            place = frames.byte(event[1])
            if place >= 0 and frames.control & 4:
                self.write(at, frames.control >> 3, place, event[1])
        elif kind == SELECT:
            self.frames.select(event[1])
        elif kind == LINK:
            self.link(at, event)
        elif kind == TICK:
            self.tick(at, event[1])

    def write(self, at, block, place, value):
        """A byte is written to a block."""
        if block == 0:
            if place == 0 and value & 0x80:
                for n in range(8):
                    self.become(at, n, CLOSED, "reset")
                self.reset()
            elif place < 0x40:
                self.common[place] = value
            return
        n, which = divmod(block, 4)
        socket = self.sockets[n]
        if which == 2:
            size = socket.tx_size()
            if size:
                socket.memory[place % size] = value
        elif which == 1 and place == 1:
            self.command(at, n, value)
        elif which == 1 and place == 0x1F and value != socket.registers[place]:
            socket.memory = bytearray(16384)
            socket.registers[place] = value
        elif which == 1 and place < 0x30:
            socket.registers[place] = value

    def become(self, at, n, status, why):
        """A socket gets another status."""
        socket = self.sockets[n]
        before = socket.status
        if before == status:
            return
        self.became(at, n, before, status, why)
        socket.move(status)

    def command(self, at, n, value):
        """A byte is written to Sn_CR: the rows of the table of a socket's life that begin with a command."""
        socket = self.sockets[n]
        status = socket.status
        name = COMMANDS.get(value)
        if name == "OPEN" and status == CLOSED:
            protocol = socket.registers[0] & 15
            if protocol in (1, 2):
                self.became(at, n, CLOSED, INIT if protocol == 1 else UDP, name)
                socket.begin(INIT if protocol == 1 else UDP)
        elif name == "LISTEN" and status == INIT:
            socket.port = word(socket.registers, 0x04)
            self.become(at, n, LISTEN, name)
        elif name == "CONNECT" and status == INIT:
            socket.port = word(socket.registers, 0x04)
            socket.peer = socket.destination()
            self.become(at, n, SYNSENT, name)
        elif name == "DISCON" and status in (ESTABLISHED, CLOSE_WAIT):
            self.become(at, n, FIN_WAIT if status == ESTABLISHED else LAST_ACK, name)
        elif name == "CLOSE":
            self.become(at, n, CLOSED, name)
        elif name == "SEND" and status in (ESTABLISHED, CLOSE_WAIT, UDP):
            socket.send()

    def link(self, at, event):
        """A link did something: the other rows."""
        _, n, name, what, peer = event
        socket = self.sockets[n]
        status = socket.status
        if name == "accepted" and status == LISTEN or name == "linked" and status == SYNSENT:
            if name == "accepted":
                socket.peer = peer
                socket.registers[0x0C:0x12] = peer[0] + peer[1].to_bytes(2, "big")
            socket.pointers(self.starts)
            self.become(at, n, ESTABLISHED, name)
        elif name in ("refused", "timedout") and status == SYNSENT:
            self.become(at, n, CLOSED, name)
        elif name == "took":
            taken = socket.take(what)
            self.took(at, n, what, taken)
        elif name in ("got", "datagram"):
            self.came(at, n, what, peer)
        elif name == "ended" and status in (ESTABLISHED, FIN_WAIT):
            socket.ended = True
            self.finished(at, n, "peer")
            if status == ESTABLISHED:
                self.become(at, n, CLOSE_WAIT, name)
            elif socket.shut:
                self.become(at, n, CLOSED, name)
        elif name == "shut" and status in (FIN_WAIT, LAST_ACK):
            socket.shut = True
            self.finished(at, n, "chip")
            if status == LAST_ACK or socket.ended:
                self.become(at, n, CLOSED, name)
        elif name == "failed" and status not in (CLOSED, INIT):
            self.become(at, n, CLOSED, name)

    def tick(self, at, units):
        """Time goes by: a socket that waits too long is closed."""
        bound = word(self.common, 0x19) * (self.common[0x1B] + 1)
        for n, socket in enumerate(self.sockets):
            if socket.status in (SYNSENT, FIN_WAIT):
                socket.waited += units
                if socket.waited >= bound:
                    self.become(at, n, CLOSED, "tick")

    def became(self, at, n, before, status, why):
        """A socket is about to get another status."""

    def took(self, at, n, count, taken):
        """The link took bytes; `taken` has them and their destination, or is None where so many were not in flight."""

    def came(self, at, n, data, peer):
        """Bytes came, or a datagram from a peer."""

    def finished(self, at, n, side):
        """One side of a connection, "peer" or "chip", sends no more."""


def opened(name):
    """A trace's text by its name; `-` is standard input. Lines end with LF alone here, so that a CR stays."""
    if name == "-":
        return open(sys.stdin.fileno(), encoding="latin-1", newline="\n", closefd=False)
    return open(name, encoding="latin-1", newline="\n")


@contextlib.contextmanager
def written(name):
    """A file to write bytes to by its name; `-` is standard output. It is there once all of it is written, and not before."""
    if name == "-":
        yield sys.stdout.buffer
        sys.stdout.buffer.flush()
        return
    if os.path.exists(name) and not os.path.isfile(name):
        with open(name, "wb") as out:
            yield out
        return
    part = f"{name}.part"
    try:
        with open(part, "wb") as out:
            yield out
        os.replace(part, name)
    finally:
        with contextlib.suppress(FileNotFoundError):
            os.remove(part)


def run(tool, main):
    """Runs a tool. Where something is wrong, one line on standard error and status 2; a closed pipe ends it without a word."""
    signal.signal(signal.SIGPIPE, signal.SIG_DFL)
    try:
        main()
    except KeyboardInterrupt:
        sys.exit(130)
    except (Fault, OSError) as error:
        sys.stdout.flush()
        said = f"{error.strerror}: {error.filename}" if isinstance(error, OSError) and error.filename else str(error)
        print(f"{tool}: {said}", file=sys.stderr)
        sys.exit(2)
