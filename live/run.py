#!/usr/bin/env python3
"""Tries the program's `run` over real sockets of 127.0.0.1: live/run.py [PROGRAM [NAME..]]

PROGRAM is ./wz_board of this repository unless it is named. Each try starts a run of an example's firmware, is its client or server, and
says what it saw and how long that took. NAMEs choose some of the tries. Ends by itself, with 0 where all of them passed, else with 1.
"""
import os
import random
import socket
import struct
import subprocess
import sys
import threading
import time

from board import PATIENCE, SPI_BEGIN, TOP, Run, Unseen, connected, example, free_port, received, rest_of, say, spi_frame, want

PROGRAM = os.path.abspath(sys.argv[1]) if len(sys.argv) > 1 else f"{TOP}/wz_board"

# How many runs get datagrams, how many each gets, the longest of them, and the longest that a socket of the chip takes.
RUNS = 4
DATAGRAMS = 2500
LONGEST = 1500
TAKEN = 1472

# How many datagrams may wait for their answers. So many fit the 16 KB of the firmware's RX buffer.
WINDOW = 8


def noise(seed, count):
    """So many bytes, the same for the same seed."""
    return random.Random(seed).randbytes(count)


def server(more="", port=0):
    """A run of the echo server on eight sockets."""
    return Run(PROGRAM, "tcp_server", example("tcp_server", more, p15000=port))


def bye(port):
    """Ends the echo server."""
    with connected(port) as it:
        it.sendall(b"bye")
        it.shutdown(socket.SHUT_WR)
        want(rest_of(it) == b"bye", "'bye' sent back")


def totals(report):
    """The bytes that were passed to SEND, taken and received, of all sockets together."""
    lines = [list(map(int, words.split()[3:])) for name, words in report.items() if isinstance(name, int)]
    return [sum(column) for column in zip(*lines)]


def send_in_pieces(it, text, seed):
    """Sends a text in pieces of 1 to 5,000 bytes, and then ends."""
    sizes = random.Random(seed)
    at = 0
    while at < len(text):
        piece = text[at : at + sizes.randint(1, 5000)]
        it.sendall(piece)
        at += len(piece)
    it.shutdown(socket.SHUT_WR)


def echo_whole(port, text, seed):
    """Says a text in pieces while its echo is read, ends, and compares."""
    with connected(port) as it:
        sender = threading.Thread(target=send_in_pieces, args=(it, text, seed), daemon=True)
        sender.start()
        got = rest_of(it)
        sender.join(PATIENCE)
    want(got == text, f"the {len(text)} bytes back; {len(got)} came, equal up to {len(os.path.commonprefix([got, text]))}")


def try_echo():
    """A client says two lines, and each comes back. What the firmware prints is there while the run goes on."""
    port = free_port()
    with Run(PROGRAM, "tcp_echo", example("tcp_echo", p15000=port)) as run:
        first = run.prints("listening on port 5000\n")
        want(run.goes_on(), "a run that goes on")
        with connected(port) as it:
            run.prints("connected: 127.0.0.1:")
            for line in (b"Hello, board\n", b"Good-bye\n"):
                it.sendall(line)
                want(received(it, len(line)) == line, f"{line!r} sent back")
                run.prints(f"echoed {len(line)}\n")
                want(run.goes_on(), "a run that goes on")
            it.shutdown(socket.SHUT_WR)
            want(rest_of(it) == b"", "the firmware's end")
        report = run.ends(0, "break")
    want(report[0] == "0 00 1 22 22 22" and report["faults"] == "0", f"22 bytes both ways; it says {report[0]}")
    return f"two lines back; the first text on the pipe after {first * 1000:.0f} ms, each line while the run went on"


def try_megabyte():
    """1 MB in pieces, byte for byte."""
    port = free_port()
    text = noise(1, 1 << 20)
    with server("events = 67108864\n", port) as run:
        start = time.monotonic()
        echo_whole(port, text, 2)
        took = time.monotonic() - start
        bye(port)
        report = run.ends(0, "break")
    want(totals(report) == [(1 << 20) + 3] * 3, f"1 MB and 3 bytes sent, taken and received; it says {totals(report)}")
    return f"1,048,576 bytes back in {took:.2f} s, {report['bus']} events of the bus, {report['link']} of links"


def try_half_close():
    """A client says all, ends its side, and only then reads."""
    port = free_port()
    text = noise(3, 5000)
    with server(port=port) as run:
        with connected(port) as it:
            it.sendall(text)
            it.shutdown(socket.SHUT_WR)
            time.sleep(0.1)
            got = rest_of(it)
        want(got == text, f"5000 bytes after the client's end; {len(got)} came")
        run.prints(": ended after 5000 bytes\n")
        bye(port)
        run.ends(0, "break")
    return "5,000 bytes came after the client had ended its side, then the firmware's end"


def fill(it):
    """Sends without reading until nothing more is taken, and gives how much that was."""
    it.setblocking(False)
    sent = 0
    calm = 0
    while calm < 20:
        try:
            sent += it.send(b"x" * 65536)
            calm = 0
        except BlockingIOError:
            calm += 1
            time.sleep(0.01)
    return sent


def try_reset():
    """A client that reads nothing resets its connection while the firmware waits for it to take more; the server goes on."""
    port = free_port()
    with server("events = 67108864\n", port) as run:
        it = connected(port)
        it.setsockopt(socket.SOL_SOCKET, socket.SO_RCVBUF, 4096)
        sent = fill(it)
        it.setsockopt(socket.SOL_SOCKET, socket.SO_LINGER, struct.pack("ii", 1, 0))
        it.close()
        run.prints(": lost after ")
        bye(port)
        report = run.ends(0, "break")
    passed, taken, _ = totals(report)
    want(report["faults"] == "1", f"one fault; it says {report['faults']}")
    want(taken < passed, f"bytes on their way at the reset; {passed} were passed to SEND and {taken} taken")
    return f"after {sent} bytes, {passed - taken} on their way; the next client was served"


def try_full():
    """A ninth client waits while all eight sockets are taken, and is served once one is free."""
    port = free_port()
    with server("events = 67108864\n", port) as run:
        run.prints("listening on port 5000\n")
        clients = [connected(port) for _ in range(8)]
        for it in clients:
            it.sendall(b"here")
            want(received(it, 4) == b"here", "an echo on each of eight sockets")
        ninth = connected(port)
        ninth.sendall(b"and here")
        ninth.settimeout(0.3)
        try:
            got = ninth.recv(8)
            raise Unseen(f"no answer while all sockets are taken; {got!r} came")
        except TimeoutError:
            pass
        ninth.settimeout(PATIENCE)
        clients[3].shutdown(socket.SHUT_WR)
        want(rest_of(clients[3]) == b"", "the fourth client's end")
        want(received(ninth, 8) == b"and here", "the ninth client's echo")
        for it in clients + [ninth]:
            it.close()
        bye(port)
        report = run.ends(0, "break")
    return f"no answer for 0.3 s, and an echo once the fourth of eight had ended; {report['link']} events of links"


def try_eight():
    """Eight clients at once on eight sockets, 64 KB each."""
    port = free_port()
    failed = []

    def client(seed):
        try:
            echo_whole(port, noise(seed, 65536), seed)
        except (Unseen, OSError) as error:
            failed.append(f"client {seed}: {error}")

    with server("events = 67108864\n", port) as run:
        run.prints("listening on port 5000\n")
        start = time.monotonic()
        clients = [threading.Thread(target=client, args=(seed,), daemon=True) for seed in range(8)]
        for it in clients:
            it.start()
        for it in clients:
            it.join(PATIENCE)
        took = time.monotonic() - start
        want(not failed, "; ".join(failed))
        bye(port)
        report = run.ends(0, "break")
    want(totals(report) == [8 * 65536 + 3] * 3, f"8 times 64 KB and 3 bytes; it says {totals(report)}")
    used = sum(1 for name in report if isinstance(name, int) and report[name].split()[5] != "0")
    return f"8 times 65,536 bytes back in {took:.2f} s, over {used} sockets"


def try_refused():
    """The firmware connects to where nobody listens."""
    with Run(PROGRAM, "tcp_client", example("tcp_client", p18080=free_port())) as run:
        report = run.ends(0, "break")
        want(run.printed.startswith(b"connecting to 10.0.0.2:80\nrefused\n"), f"'refused'; it printed {run.printed[:80]!r}")
    want(report[0] == "0 00 1 0 0 0", f"a closed socket; it says {report[0]}")
    return "'refused' on the firmware's side"


def try_no_route():
    """The firmware connects to an address that no route leads from."""
    with Run(PROGRAM, "tcp_client", "cycles = 2000000000\n") as run:
        run.ends(0, "break")
        want(run.printed.startswith(b"connecting to 10.0.0.2:80\nno answer\n"), f"'no answer'; it printed {run.printed[:80]!r}")
    return "'no answer' on the firmware's side"


def try_served():
    """The firmware connects to a server of this script."""
    port = free_port()
    with socket.create_server(("127.0.0.1", port)) as listener:
        listener.settimeout(PATIENCE)
        with Run(PROGRAM, "tcp_client", example("tcp_client", p18080=port)) as run:
            it, _ = listener.accept()
            with it:
                want(received(it, 21) == b"Hello from the board\n", "the firmware's line")
                for piece in (b"Hel", b"lo, board\n", b"Good-bye\n"):
                    it.sendall(piece)
                    time.sleep(0.02)
                it.shutdown(socket.SHUT_WR)
                want(rest_of(it) == b"", "the firmware's end")
            report = run.ends(0, "break")
            want(b"connected\nHello, board\nGood-bye\nthe server has ended\n" in run.printed, f"both lines; it printed {run.printed!r}")
    want(report[0] == "0 00 1 21 21 22", f"21 bytes sent and 22 received; it says {report[0]}")
    return "a line to the server, two back"


class Datagrams:
    """Datagrams of 0 to 1,500 bytes, and what came back of them. Those of 1 to 1,472 bytes have an answer, in the order of sending."""

    def __init__(self, it, to, seed):
        self.it = it
        self.to = to
        self.random = random.Random(seed)
        self.waiting = []
        self.answered = self.silent = self.lost = 0

    def size(self, number):
        """The length of a datagram: the ends of the range first, then any."""
        ends = [0, 1, TAKEN, TAKEN + 1, LONGEST]
        return ends[number] if number < len(ends) else self.random.randint(0, LONGEST)

    def send(self, number):
        """Sends the next datagram, which begins with its number where it is long enough."""
        body = (struct.pack(">I", number) + self.random.randbytes(LONGEST))[: self.size(number)]
        self.it.sendto(body, self.to)
        if 1 <= len(body) <= TAKEN:
            self.waiting.append(body)
        else:
            self.silent += 1

    def hear(self):
        """Takes the next answer. One that is skipped was lost; one that nothing waits for was invented."""
        try:
            body, _ = self.it.recvfrom(65536)
        except TimeoutError:
            self.lost += len(self.waiting)
            self.waiting.clear()
            return
        want(len(body) <= TAKEN, f"no answer longer than {TAKEN} bytes; one has {len(body)}")
        want(body in self.waiting, f"answers to what was sent; {len(body)} other bytes came")
        place = self.waiting.index(body)
        self.lost += place
        self.answered += 1
        del self.waiting[: place + 1]


def exchange(seed):
    """Sends datagrams to a run of the firmware that sends each back, and gives what came of them and the seconds that it took."""
    port = free_port(socket.SOCK_DGRAM)
    with socket.socket(socket.AF_INET, socket.SOCK_DGRAM) as it:
        it.bind(("127.0.0.1", 0))
        it.settimeout(2)
        board = example("udp_answer", "events = 67108864\n", p15001=port, p17000=it.getsockname()[1])
        with Run(PROGRAM, "udp_answer", board) as run:
            run.prints("waiting on port 5000\n")
            time.sleep(0.05)
            datagrams = Datagrams(it, ("127.0.0.1", port), seed)
            start = time.monotonic()
            for number in range(DATAGRAMS):
                datagrams.send(number)
                while len(datagrams.waiting) >= WINDOW:
                    datagrams.hear()
            while datagrams.waiting:
                datagrams.hear()
            took = time.monotonic() - start
            it.sendto(b"bye", ("127.0.0.1", port))
            want(it.recvfrom(100)[0] == b"bye", "'bye' sent back")
            report = run.ends(0, "break")
    want(datagrams.lost == 0, f"an answer to each of 1 to {TAKEN} bytes; {datagrams.lost} have none")
    return datagrams, took, int(report["bus"])


def try_datagrams():
    """10,000 datagrams of 0 to 1,500 bytes, in runs of 2,500, to firmware that sends each back."""
    runs = [exchange(seed) for seed in range(RUNS)]
    answered = sum(it.answered for it, _, _ in runs)
    silent = sum(it.silent for it, _, _ in runs)
    want(answered + silent == RUNS * DATAGRAMS, f"{RUNS * DATAGRAMS} datagrams; {answered} were answered and {silent} not to be")
    return (
        f"{answered} answers to {RUNS * DATAGRAMS} datagrams in {sum(took for _, took, _ in runs):.2f} s, {silent} empty or too long, "
        f"none invented; {sum(bus for _, _, bus in runs)} events of the bus"
    )


def try_wiz_server():
    """The server after ioLibrary's loop, on one socket: one client after the other, each once it listens."""
    port = free_port()
    texts = [noise(4, 5000), b"Hello, board\n", b"bye"]
    with Run(PROGRAM, "wiz_server", example("wiz_server", "events = 67108864\n", p15000=port)) as run:
        run.prints("listening on port 5000\n")
        for text in texts:
            echo_whole(port, text, 5)
            run.prints(f"ended after {len(text)} bytes\n" + ("" if text == b"bye" else "listening on port 5000\n"))
        report = run.ends(0, "break")
    count = sum(map(len, texts))
    want(report[0] == f"0 00 3 {count} {count} {count}", f"{count} bytes both ways in three lives; it says {report[0]}")
    return f"{len(texts)} clients after one another, {count} bytes back"


def try_wiz_client():
    """The client after ioLibrary's loop connects to a server of this script until it is refused."""
    port = free_port()
    line = b"Hello from the board\n"
    with socket.create_server(("127.0.0.1", port)) as listener:
        listener.settimeout(PATIENCE)
        with Run(PROGRAM, "wiz_client", example("wiz_client", "events = 67108864\n", p18080=port)) as run:
            for answer in (b"Hello, board\nGood-bye\n", b""):
                it, _ = listener.accept()
                if not answer:
                    listener.close()
                with it:
                    want(received(it, len(line)) == line, "the firmware's line")
                    it.sendall(answer)
                    it.shutdown(socket.SHUT_WR)
                    want(rest_of(it) == b"", "the firmware's end")
            report = run.ends(0, "break")
            end = b"the server has ended\n"
            text = b"connected\nHello, board\nGood-bye\n" + end + b"connected\n" + end + b"refused\n"
            want(run.printed.startswith(text), f"two connections and a refused one; it printed {run.printed!r}")
    want(report[0] == "0 00 3 42 42 22", f"42 bytes sent and 22 received; it says {report[0]}")
    return "two connections, then 'refused' on the firmware's side"


def answer(it, to, body):
    """Sends a datagram again until an answer comes, since the firmware's port may be bound later than its line is printed."""
    end = time.monotonic() + PATIENCE
    while time.monotonic() < end:
        it.sendto(body, to)
        try:
            return it.recvfrom(65536)[0]
        except TimeoutError:
            pass
    raise Unseen("an answer")


def try_wiz_udp():
    """The UDP server after ioLibrary's loop sends datagrams back, a longer one than its buffer in pieces."""
    port = free_port(socket.SOCK_DGRAM)
    with socket.socket(socket.AF_INET, socket.SOCK_DGRAM) as it:
        it.bind(("127.0.0.1", 0))
        it.settimeout(1)
        board = example("wiz_udp", "events = 67108864\n", p15001=port, p17000=it.getsockname()[1])
        with Run(PROGRAM, "wiz_udp", board) as run:
            run.prints("waiting on port 5000\n")
            to = ("127.0.0.1", port)
            for size in (1, 100, 256):
                body = noise(size, size)
                want(answer(it, to, body) == body, f"the {size} bytes back")
            body = noise(6, TAKEN)
            got = answer(it, to, body)
            while len(got) < len(body):
                got += it.recvfrom(65536)[0]
            want(got == body, f"{TAKEN} bytes back in pieces")
            want(answer(it, to, b"bye") == b"bye", "'bye' sent back")
            report = run.ends(0, "break")
    return f"5 datagrams back, the longest of {TAKEN} bytes in 6 pieces; {report['bus']} events of the bus"


def try_endings():
    """Each way in which a run ends by itself, its status and its report."""
    seen = []

    def ends(image, board, status, end):
        with Run(PROGRAM, image, board) as run:
            run.ends(status, end)
        seen.append(f"{end} {status}")

    listens = f"[[listen]]\nchip = 5000\nhost = {free_port()}\n"
    ends("letter", "", 0, "break")
    ends("hello", "", 0, "sleep")
    ends("tcp_echo", example("nobody") + listens, 10, "cycle-limit")
    ends("tcp_echo", "events = 5000\n" + listens, 8, "trace-full")
    ends([0xFFFF], "", 20, "stop Illegal 0 65535")
    ends(SPI_BEGIN + spi_frame(0x00, 0x00, 0x20, 0x00), "", 20, "stop ReservedBlock 4")
    with open("/dev/full", "wb") as full, Run(PROGRAM, "hello", "", full) as run:
        status = run.process.wait(PATIENCE)
        want(status == 6, f"status 6 where nothing can be written; it was {status}")
        seen.append("a full disk 6")
    return ", ".join(seen)


def try_refusals():
    """What refuses to begin."""
    words = [
        (["run", "x"], 2, "fault usage"),
        (["run", "nosuch.hex", "x"], 5, "fault nofile 1"),
        (["run", f"{TOP}/examples/letter.hex", "nosuch.board"], 5, "fault nofile 2"),
        (["run", f"{TOP}/examples/letter.asm", f"{TOP}/examples/nobody.board"], 3, "fault hex BadStart 1"),
        (["run", f"{TOP}/examples/letter.hex", f"{TOP}/examples/letter.hex"], 4, "fault board file 0 BadToml"),
    ]
    for line, status, text in words:
        ran = subprocess.run([PROGRAM] + line, stdout=subprocess.PIPE, timeout=PATIENCE, check=False)
        want((ran.returncode, ran.stdout.decode()) == (status, text + "\n"), f"{text}, {status}; it was {ran.stdout!r}, {ran.returncode}")
    return "statuses " + ", ".join(str(status) for _, status, _ in words)


def try_waiting():
    """Firmware that waits for a client: what both threads use of a processor."""
    port = free_port()
    with Run(PROGRAM, "tcp_echo", example("tcp_echo", "events = 67108864\n", p15000=port).replace("16000000", "1099511627776")) as run:
        run.prints("listening on port 5000\n")
        before = run.threads()
        start = time.monotonic()
        time.sleep(2)
        used = [(after - was) / (time.monotonic() - start) for was, after in zip(before, run.threads())]
        with connected(port) as it:
            it.shutdown(socket.SHUT_WR)
            want(rest_of(it) == b"", "the firmware's end")
        run.ends(0, "break")
    want(len(used) == 2, f"two threads; it has {len(used)}")
    want(used[1] < 0.25, f"a second thread that waits; it uses {used[1]:.0%} of a processor")
    return f"the firmware's thread used {used[0]:.0%} of a processor, that of the links {used[1]:.0%}"


def main():
    tries = {name[4:]: it for name, it in globals().items() if name.startswith("try_")}
    names = sys.argv[2:] or list(tries)
    subprocess.run([PROGRAM, "--help"], stdout=subprocess.DEVNULL, check=False)  # builds it, where it is ./wz_board and not built
    failed = 0
    for name in names:
        start = time.monotonic()
        try:
            said = f"PASS {name}: {tries[name]()}"
        except (Unseen, OSError) as error:
            failed += 1
            said = f"FAIL {name}: wanted {error}" if isinstance(error, Unseen) else f"FAIL {name}: {error}"
        say(f"{said} ({time.monotonic() - start:.2f} s)")
    say(f"{len(names) - failed} passed, {failed} failed")
    sys.exit(1 if failed else 0)


main()
