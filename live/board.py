"""Starts the program on an image and a board file and reads what it prints, for the tries of run.py and for bench/turn_speed."""
import os
import re
import signal
import socket
import subprocess
import sys
import tempfile
import threading
import time

TOP = os.path.join(os.path.dirname(os.path.abspath(__file__)), "..")
EXAMPLES = os.path.join(TOP, "examples")

# How long anything is waited for, in seconds, before a try fails.
PATIENCE = 60


class Unseen(Exception):
    """What a try wanted to see and did not."""


def want(holds, what):
    """Fails the try unless that is so."""
    if not holds:
        raise Unseen(what)


def free_port(kind=socket.SOCK_STREAM):
    """A port of 127.0.0.1 that nobody has."""
    with socket.socket(socket.AF_INET, kind) as it:
        it.bind(("127.0.0.1", 0))
        return it.getsockname()[1]


def hex_text(words):
    """An Intel HEX text of these words from address 0 on."""
    lines = []
    for at, word in enumerate(words):
        record = [2, 2 * at // 256, 2 * at % 256, 0, word % 256, word // 256]
        lines.append(":" + "".join(f"{it:02X}" for it in record + [-sum(record) % 256]))
    return "\n".join(lines + [":00000001FF", ""])


def spi_byte(byte):
    """Instructions that exchange a byte with the chip."""
    return [
        0xE080 | byte // 16 << 8 | byte % 16,  # ldi r24, byte
        0xBD8E,  # out SPDR, r24
        0xB40D,  # in r0, SPSR
        0xFE07,  # sbrs r0, SPIF
        0xCFFD,  # rjmp to the in
    ]


def spi_frame(*octets):
    """Instructions that make a frame of these bytes."""
    body = [word for byte in octets for word in spi_byte(byte)]
    return [0x982A] + body + [0x9A2A]  # cbi PORTB, 2; sbi PORTB, 2


# Instructions that make the SPI a master in mode 0 at half the clock, with the select line high.
SPI_BEGIN = [
    0x9A2A,  # sbi PORTB, 2
    0xE28C,  # ldi r24, 0x2C
    0xB984,  # out DDRB, r24
    0xE580,  # ldi r24, 0x50
    0xBD8C,  # out SPCR, r24
    0xE081,  # ldi r24, 0x01
    0xBD8D,  # out SPSR, r24
]


def example(name, more="", **ports):
    """The text of a board file of examples/, with other lines in front and with ports of this host in place of its own: `p15000=80`."""
    with open(f"{EXAMPLES}/{name}.board", encoding="utf-8") as file:
        text = file.read()
    for old, new in ports.items():
        text, count = re.subn(rf"\b(host|host_port) = {old[1:]}\b", rf"\1 = {new}", text)
        want(count == 1, f"one place of port {old[1:]} in {name}.board")
    return more + text


class Run:
    """A run of an image, an example's name or a list of words, on a board. What it prints is read by a thread of its own as it comes."""

    def __init__(self, program, image, board, out=None):
        self.folder = tempfile.TemporaryDirectory()
        with open(f"{self.folder.name}/board", "w", encoding="utf-8") as file:
            file.write(board)
        path = f"{EXAMPLES}/{image}.hex"
        if isinstance(image, list):
            path = f"{self.folder.name}/hex"
            with open(path, "w", encoding="ascii") as file:
                file.write(hex_text(image))
        self.printed = b""
        self.news = threading.Condition()
        self.start = time.monotonic()
        self.process = subprocess.Popen(
            [program, "run", path, f"{self.folder.name}/board"],
            stdin=subprocess.DEVNULL,
            stdout=out or subprocess.PIPE,
            preexec_fn=dies_with_parent,
        )
        self.reader = threading.Thread(target=self.read, daemon=True)
        self.reader.start()

    def __enter__(self):
        return self

    def __exit__(self, *_):
        if self.process.poll() is None:
            self.process.kill()
            self.process.wait()
        self.folder.cleanup()

    def read(self):
        """Keeps what is printed."""
        while self.process.stdout is not None:
            piece = os.read(self.process.stdout.fileno(), 65536)
            with self.news:
                self.printed += piece
                self.news.notify_all()
            if not piece:
                return

    def prints(self, text):
        """Waits until the run has printed that, and gives the seconds from its start to then."""
        with self.news:
            came = self.news.wait_for(lambda: text.encode() in self.printed, PATIENCE)
        want(came, f"'{text}' printed; it printed {self.printed[-300:]!r}")
        return time.monotonic() - self.start

    def goes_on(self):
        """Whether it has not ended."""
        return self.process.poll() is None

    def ends(self, status, end):
        """Waits for the end, and gives the report: each line's words by the line's name, of sockets by their numbers."""
        try:
            got = self.process.wait(PATIENCE)
        except subprocess.TimeoutExpired as error:
            raise Unseen(f"an end; it printed {self.printed[-300:]!r}") from error
        self.reader.join(PATIENCE)
        lines = self.printed.decode(errors="replace").split("\n")
        report = {}
        for line in lines:
            words = line.split(" ")
            if words[0] == "==":
                name = words[1] if words[1] != "socket" else int(words[2])
                report[name] = " ".join(words[2:])
        want(got == status and report.get("end") == end, f"status {status} and '== end {end}'; it was {got} and '{report.get('end')}'")
        return report

    def threads(self):
        """The processor time of each thread in seconds, that of the firmware's first; none once the run has ended."""
        times = []
        try:
            for thread in sorted(os.listdir(f"/proc/{self.process.pid}/task"), key=int):
                with open(f"/proc/{self.process.pid}/task/{thread}/schedstat", encoding="ascii") as file:
                    times.append(int(file.read().split()[0]) / 1e9)
        except (FileNotFoundError, ProcessLookupError):
            return []
        return times


def dies_with_parent():
    """Ends the program where this script is ended (PR_SET_PDEATHSIG)."""
    import ctypes

    ctypes.CDLL(None).prctl(1, signal.SIGKILL)


def connected(port):
    """A connection to a port of 127.0.0.1, tried again until somebody listens there."""
    end = time.monotonic() + PATIENCE
    while True:
        try:
            it = socket.create_connection(("127.0.0.1", port), PATIENCE)
            it.setsockopt(socket.IPPROTO_TCP, socket.TCP_NODELAY, 1)
            return it
        except ConnectionRefusedError:
            want(time.monotonic() < end, f"a listener on port {port}")
            time.sleep(0.002)


def received(it, count):
    """The next so many bytes of a connection."""
    got = b""
    while len(got) < count:
        piece = it.recv(65536)
        want(piece, f"{count} bytes; the connection ended after {len(got)}")
        got += piece
    return got


def rest_of(it):
    """All that comes up to the end of a connection."""
    got = b""
    while True:
        piece = it.recv(65536)
        if not piece:
            return got
        got += piece


def say(line):
    """Prints a line at once."""
    print(line)
    sys.stdout.flush()
