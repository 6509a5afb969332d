"""A real client in Python, by the fixture `run` of conftest.py."""


def test_adds_for_a_real_client(run):
    with run.connect() as client, client.makefile() as lines:
        for said, answer in (("add 5", "5"), ("add 7", "12"), ("hello", "what?"), ("bye", "bye")):
            client.sendall(f"{said}\n".encode())
            assert lines.readline() == f"{answer}\n"
        assert lines.readline() == ""
    text, status = run.ends()
    assert text[:3] == ["listening", "we end", "4 lines, the sum is 12"]
    assert text[-2:] == ["== socket 0 00 1 15 15 22", "== faults 0"]
    assert status == 0
