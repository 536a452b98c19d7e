"""Starts a server, and ends it in order with a whole record.

    with Server(ServerWords(record="session.record")) as server:
        print(server.address)

The server listens on the loopback at a port that the system chooses, and a relay passes its clients on (rio9.relay).
At the end the relay ends the side of each client. Then the program is kept from opening files, so that each worker
ends with its next client; these few are made here, and what they add to the record is taken off again.
"""

import contextlib
import ctypes
import os
import re
import resource
import signal
import socket
import subprocess
import tempfile
import threading
import time
from dataclasses import dataclass
from typing import Dict, IO, List, Optional, Tuple, Type
from types import TracebackType

from rio9 import program, recorded, side
from rio9.relay import Relay, Teller

STARTS = 10.0  # seconds until a server that was started listens
ENDS = 10.0  # seconds until one that is ended is gone
SETTLES = 1.0  # seconds in which a record that is written out in time has the ends of all sessions
FILLS = 3.0  # seconds in which a server that cannot record ends
PAUSE, PAUSE_OF_A_CLIENT = 0.002, 0.1
LISTENS = "0A"
ONLY_STANDARD_FILES = 3
BACKLOG = 128
LOOPBACK = "127.0.0.1"
LIBRARY, PR_SET_PDEATHSIG = ctypes.CDLL(None), 1


@dataclass(frozen=True)
class ServerWords:
    """What a server is started with. `listen` is where clients connect, at port 0 for one that the system chooses; no
    record is kept where none is named."""

    binary: Optional[str] = None
    size: Tuple[int, int] = (640, 480)
    channels: str = "x8r8g8b8"
    workers: int = program.MOST_WORKERS
    connections: int = program.MOST_CONNECTIONS
    listen: Tuple[str, int] = (LOOPBACK, 0)
    record: Optional[str] = None


def say_nothing(_event: str, _told: Dict[str, object]) -> None:
    """A teller of a server whose clients nobody wants to be told of."""


def is_main_thread() -> bool:
    """Whether this thread lasts as long as its process."""
    return threading.current_thread() is threading.main_thread()


def end_with_parent() -> None:
    """Lets a process that is about to run a program be killed when the thread that made it is gone (prctl(2))."""
    LIBRARY.prctl(PR_SET_PDEATHSIG, signal.SIGKILL)


def listening_port(process: int) -> Optional[int]:
    """The port at which a process listens on the loopback, seen from outside, so that no connection is used up."""
    sockets = set()
    with contextlib.suppress(OSError):
        for name in os.listdir(f"/proc/{process}/fd"):
            with contextlib.suppress(OSError):
                sockets.add(os.readlink(f"/proc/{process}/fd/{name}"))
    with open("/proc/net/tcp", encoding="ascii") as table:
        for words in map(str.split, table):
            if len(words) > 9 and words[3] == LISTENS and f"socket:[{words[9]}]" in sockets:
                return int(words[1].split(":")[1], 16)
    return None


def listener_at(address: Tuple[str, int]) -> socket.socket:
    """A socket at which clients connect."""
    try:
        family = socket.getaddrinfo(*address, type=socket.SOCK_STREAM, flags=socket.AI_PASSIVE)[0][0]
        return socket.create_server(address, family=family, backlog=BACKLOG)
    except OSError as error:
        shown = address_text(address)
        raise program.Failure(
            f"no server can listen at {shown}: {error.strerror or error}; --listen {LOOPBACK}:0 takes a free port",
            program.DOOR_FAULT,
        ) from None


def address_text(address: Tuple[str, int]) -> str:
    """An address as a word."""
    return f"[{address[0]}]:{address[1]}" if ":" in address[0] else f"{address[0]}:{address[1]}"


class Server:
    """A server that runs. It is ready when it has been made: clients can connect at `address`."""

    def __init__(
        self, words: ServerWords, tell: Teller = say_nothing, listener: Optional[socket.socket] = None
    ) -> None:
        self.words, self.tell = words, tell
        self.thread: Optional[threading.Thread] = None
        self.is_whole = False
        path = program.find(words.binary)
        self.listener = listener_at(words.listen) if listener is None else listener
        self.address: Tuple[str, int] = self.listener.getsockname()[:2]
        self.errors: IO[bytes] = tempfile.TemporaryFile()
        self.side, began = side.Side(words.size, words.channels, side.now()), time.monotonic()
        try:
            if words.record is not None:
                self.side.save(words.record)
            self.process = self.start(path)
        except OSError as error:
            self.give_up()
            why = f"{error.strerror or error}: {words.record}; name another file by --record"
            raise program.Failure(f"the record cannot be written: {why}", program.WRITE_FAULT) from None
        except BaseException:
            self.give_up()
            raise
        self.relay = Relay(self.listener, (LOOPBACK, self.port), words.workers, tell)
        self.relay.start = began

    def give_up(self) -> None:
        """Closes what is open of a server that was not started."""
        self.listener.close()
        self.errors.close()

    def start(self, path: str) -> "subprocess.Popen[bytes]":
        """Starts the program, and waits until it listens."""
        command = [path, "serve", *program.display_words(self.words.size, self.words.channels)]
        command += [
            "--listen",
            f"{LOOPBACK}:0",
            "--workers",
            str(self.words.workers),
            "--conns",
            str(self.words.connections),
        ]
        with open(self.words.record or os.devnull, "wb") as out:
            try:
                process = subprocess.Popen(
                    command,
                    stdin=subprocess.DEVNULL,
                    stdout=out,
                    stderr=self.errors,
                    start_new_session=True,
                    restore_signals=False,  # a file that is full is then told, and no signal
                    preexec_fn=end_with_parent if is_main_thread() else None,
                )
            except OSError as error:
                why = f"{path} cannot be run: {error.strerror}; name rio9 by --program or by {program.TOLD_BY}"
                raise program.Failure(why, program.NO_PROGRAM) from None
        end = time.monotonic() + STARTS
        while True:
            port = listening_port(process.pid)
            if port is not None:
                self.port = port
                return process
            if process.poll() is not None or time.monotonic() > end:
                process.kill()
                code = process.wait()
                told = ", ".join(self.lines())
                if not told:
                    told = f"{program.why_status(code)}; name rio9 by --program or by {program.TOLD_BY}"
                raise program.Failure(f"{path} does not listen: {told}", program.status_of(code) or 1)
            time.sleep(PAUSE)

    def lines(self) -> List[str]:
        """What the program wrote on standard error."""
        self.errors.seek(0)
        return self.errors.read().decode(errors="replace").splitlines()

    def __enter__(self) -> "Server":
        self.begin()
        return self

    def __exit__(
        self, kind: Optional[Type[BaseException]], error: Optional[BaseException], trace: Optional[TracebackType]
    ) -> None:
        self.close()

    def begin(self) -> None:
        """Passes clients on in a thread of its own."""
        self.thread = threading.Thread(target=self.pass_on, name="rio9 relay", daemon=True)
        self.thread.start()

    def pass_on(self) -> None:
        """Passes clients on until `stop` is called or the program ends."""
        process = os.pidfd_open(self.process.pid)
        try:
            self.relay.run(process)
        finally:
            os.close(process)

    def stop(self) -> None:
        """Lets the server end in order. A signal's handler may call it."""
        self.relay.stop()

    def close(self) -> int:
        """Ends the server in order, and gives the program's status: 0 where it ended because it was to."""
        if self.thread is not None:
            self.relay.stop()
            self.thread.join()
            self.thread = None
        return self.end()

    def run(self) -> int:
        """Passes clients on in this thread until the server ends, and gives the status."""
        self.pass_on()
        return self.end()

    def end(self) -> int:
        """Ends the program once no client is passed on any more, and makes the record whole."""
        was_asked = self.process.poll() is None
        if was_asked:
            self.end_program()
        code = self.process.wait()
        told = self.lines()
        self.errors.close()
        ended_by_us = was_asked and code in (program.DOOR_FAULT, program.WRITE_FAULT, -signal.SIGTERM)
        for line in filter(self.is_of_clients, told):
            if not (ended_by_us and line.startswith("rio9: ")):
                self.tell("told", {"line": line})
        status = program.DONE if ended_by_us else program.status_of(code)
        self.is_whole = status == program.DONE
        if self.words.record is not None and self.is_whole:
            self.finish(self.words.record)
        return status

    def is_of_clients(self, line: str) -> bool:
        """Whether a line on standard error is about no session that was made here at the end."""
        found = re.match(r"session ([0-9]+):", line)
        return found is None or int(found[1]) <= self.relay.begun

    def end_program(self) -> None:
        """Ends the program. It writes its record out whenever nobody has anything to say. So the record is whole once each
        session has ended there; a program that keeps its last entries back is given its last clients."""
        end = time.monotonic() + SETTLES
        while self.process.poll() is None and time.monotonic() < end:
            if self.words.record is None:
                self.end_at_once()
                return
            if recorded.is_settled(self.words.record, self.relay.begun):
                self.fill_up(os.path.getsize(self.words.record))
                return
            time.sleep(PAUSE)
        self.use_up()

    def end_at_once(self) -> None:
        """Ends a program that keeps no record."""
        self.process.send_signal(signal.SIGTERM)
        try:
            self.process.wait(ENDS)
        except subprocess.TimeoutExpired:
            self.tell("forced", {"seconds": ENDS})
            self.process.send_signal(signal.SIGKILL)

    def fill_up(self, size: int) -> None:
        """Lets the program write no more to its record, which a server that can record no more ends for, once a last client
        has come."""
        end = time.monotonic() + FILLS
        with contextlib.suppress(ProcessLookupError):
            resource.prlimit(self.process.pid, resource.RLIMIT_FSIZE, (size, size))
        while self.process.poll() is None and time.monotonic() < end:
            with contextlib.suppress(OSError), socket.create_connection((LOOPBACK, self.port), PAUSE_OF_A_CLIENT):
                pass
            time.sleep(PAUSE)
        if self.process.poll() is None:
            self.use_up()

    def use_up(self) -> None:
        """Lets each worker end: the program may open no further file, so a worker that is given a client takes no
        other one."""
        limit = (ONLY_STANDARD_FILES, ONLY_STANDARD_FILES)
        end = time.monotonic() + ENDS
        with contextlib.suppress(ProcessLookupError):
            resource.prlimit(self.process.pid, resource.RLIMIT_NOFILE, limit)
        made = 0
        while self.process.poll() is None and time.monotonic() < end:
            with contextlib.suppress(OSError), socket.create_connection((LOOPBACK, self.port), PAUSE_OF_A_CLIENT):
                pass
            made += 1
            if made >= self.words.workers:  # each has had its last client, and the program is about to be gone
                time.sleep(PAUSE)
        if self.process.poll() is None:
            self.tell("forced", {"seconds": ENDS})
            self.process.send_signal(signal.SIGKILL)

    def finish(self, record: str) -> None:
        """Takes off what the end added to the record, and writes the file beside it."""
        recorded.take_off(record, self.relay.begun)
        self.side.entries, self.side.seconds = recorded.seconds_of(record, self.relay.marks, self.relay.signatures)
        self.side.save(record)
