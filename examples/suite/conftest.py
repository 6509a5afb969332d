"""Makes each board file of this folder a test: it runs the folder's HEX file on it, and compares text, report and status with the text file
beside it. The fixture `run` starts the firmware over sockets of this host. WZ_BOARD names another program than ./wz_board."""
import difflib
import os
import pathlib
import socket
import subprocess
import time

import pytest

HERE = pathlib.Path(__file__).resolve().parent
PROGRAM = os.environ.get("WZ_BOARD", str(HERE.parents[1] / "wz_board"))
STATUS = {"break": 0, "sleep": 0, "trace-full": 8, "cycle-limit": 10, "stop": 20}
MOVING = ("== cycles ", "== bus ", "== trail ")  # these lines change with every edit of the firmware


def kept(text):
    return [line for line in text.splitlines() if not line.startswith(MOVING)]


def pytest_collect_file(file_path, parent):
    if file_path.suffix == ".board":
        return BoardFile.from_parent(parent, path=file_path)


class BoardFile(pytest.File):
    def collect(self):
        yield BoardTest.from_parent(self, name=self.path.stem)


class BoardTest(pytest.Item):
    def runtest(self):
        image = next(self.path.parent.glob("*.hex"))
        trace = self.path.parent / "failed" / f"{self.name}.trace"
        trace.unlink(missing_ok=True)
        ran = subprocess.run([PROGRAM, "sim", image, self.path], capture_output=True)
        wanted, got = kept(self.path.with_suffix(".txt").read_text()), kept(ran.stdout.decode(errors="replace"))
        ends = [line.split()[2] for line in wanted if line.startswith("== end ")]
        status = STATUS[ends[-1]] if ends else 0
        if (got, ran.returncode) != (wanted, status):
            trace.parent.mkdir(exist_ok=True)
            with trace.open("wb") as out:
                subprocess.run([PROGRAM, "trace", image, self.path], stdout=out)
            diff = difflib.unified_diff(wanted, got, f"{self.name}.txt", "the run", lineterm="")
            pytest.fail("\n".join([*diff, f"status {ran.returncode}, wanted {status}; the trace: {trace}"]), pytrace=False)

    def reportinfo(self):
        return self.path, None, self.name


class Running:
    def __init__(self, board, ports):
        self.port = ports
        self.process = subprocess.Popen([PROGRAM, "run", next(HERE.glob("*.hex")), board], stdout=subprocess.PIPE)

    def connect(self, patience=20):
        end = time.monotonic() + patience
        while True:
            try:
                return socket.create_connection(("127.0.0.1", self.port), patience)
            except ConnectionRefusedError:
                assert self.process.poll() is None and time.monotonic() < end, "nobody listens"

    def ends(self, patience=60):
        return kept(self.process.communicate(timeout=patience)[0].decode(errors="replace")), self.process.returncode


@pytest.fixture
def run(tmp_path):
    with socket.create_server(("127.0.0.1", 0)) as free:
        port = free.getsockname()[1]
    board = tmp_path / "live.board"
    board.write_text(f"cycles = 4000000000\n\n[[listen]]\nchip = 5000\nhost = {port}\n")
    running = Running(board, port)
    yield running
    running.process.kill()
