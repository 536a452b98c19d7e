"""What systemd passes to a service: a socket at which clients connect, and an address to tell that it is ready."""

import contextlib
import os
import socket
from typing import Optional

from rio9 import program

FIRST_SOCKET = 3


def given_listener() -> Optional[socket.socket]:
    """The socket that systemd listens at for this process (sd_listen_fds(3)); None where it gave none."""
    if os.environ.get("LISTEN_PID") != str(os.getpid()):
        return None
    if os.environ.get("LISTEN_FDS") != "1":
        raise program.Failure(
            "one socket is wanted of systemd, and it gave several: write one ListenStream", program.USAGE
        )
    given = socket.socket(fileno=FIRST_SOCKET)
    if given.type != socket.SOCK_STREAM or not given.getsockopt(socket.SOL_SOCKET, socket.SO_ACCEPTCONN):
        raise program.Failure(
            "the socket of systemd takes no connections: write ListenStream and Accept=no", program.USAGE
        )
    os.set_inheritable(FIRST_SOCKET, False)
    return given


def notify(state: str) -> None:
    """Tells systemd how the service is (sd_notify(3)), where it wants to know."""
    path = os.environ.get("NOTIFY_SOCKET")
    if path:
        address = "\0" + path[1:] if path.startswith("@") else path
        with contextlib.suppress(OSError), socket.socket(socket.AF_UNIX, socket.SOCK_DGRAM) as out:
            out.sendto(state.encode(), address)
