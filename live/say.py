#!/usr/bin/env python3
"""Says a text to a port of 127.0.0.1, ends, and prints what comes back: live/say.py PORT TEXT. It waits until somebody listens there."""
import socket
import sys

from board import connected, rest_of

if len(sys.argv) != 3:
    sys.exit(__doc__)
with connected(int(sys.argv[1])) as it:
    it.sendall(sys.argv[2].encode())
    it.shutdown(socket.SHUT_WR)
    print(rest_of(it).decode(errors="replace"))
