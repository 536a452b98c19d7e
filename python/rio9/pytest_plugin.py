"""The fixture `rio9_server` for pytest: a server of a test's own, its desktop, and pictures that it is to show.

    def test_greeting(rio9_server):
        window = rio9_server.new_window((16, 16, 176, 128), label="notes")
        rio9_server.type("hello\\n")
        rio9_server.wait_for(window="notes", text="hello")
        rio9_server.expect_screen("greeting.png", mask=[(0, 0, 16, 16)])

Golden pictures stand beside the test's file; `--rio9-update` writes them anew. When a test fails its record is kept,
with the file beside it, in a folder of its name below rio9-failed; so are the golden picture, the actual one and one
of their difference. The server is another one with `@pytest.mark.rio9(size=(320, 240), channels="r5g6b5",
workers=4, transport="tcp")`.

If the library of rio9 is there, the desktop is in the test's own process, with no server (rio9.display). A test that
asks for `rio9_server.address` before all else has a server all the same; `--rio9-transport tcp` gives one to each test.
"""

import contextlib
import functools
import re
import shutil
import tempfile
from dataclasses import replace
from pathlib import Path
from typing import TYPE_CHECKING, Any, Dict, Generator, Optional, Protocol, Sequence, Tuple

import pytest

from rio9 import formats, library, program, side
from rio9.client import SECONDS, Address, Client, Failure, connect
from rio9.desktop import Desktop
from rio9.display import Display
from rio9.pictures import Difference, Rectangle, difference_of, image_of_rows
from rio9.server import Server, ServerWords

if TYPE_CHECKING:
    from PIL import Image

UPDATE, FOLDER, TRANSPORT = "--rio9-update", "--rio9-folder", "--rio9-transport"
PROCESS, TCP, EITHER = "process", "tcp", "auto"
FAILED_FOLDER = "rio9-failed"
MARK = "rio9(size, channels, workers, connections, transport): the display of the test, and how it is reached"
RECORD = "session.record"
HAS_FAILED = pytest.StashKey[bool]()


def pytest_addoption(parser: pytest.Parser) -> None:
    """The options that the fixture adds."""
    group = parser.getgroup("rio9")
    group.addoption(UPDATE, action="store_true", help="write golden pictures of rio9 anew")
    group.addoption(
        FOLDER, default=FAILED_FOLDER, metavar="DIR", help="where records and pictures of failed tests are kept"
    )
    group.addoption(
        TRANSPORT,
        default=EITHER,
        choices=(EITHER, PROCESS, TCP),
        help="where a test's desktop is: in its own process, at a server, or in the process if the library is there "
        "(default)",
    )


def pytest_configure(config: pytest.Config) -> None:
    """Makes the mark known."""
    config.addinivalue_line("markers", MARK)


class Ground(Protocol):
    """What a test's desktop stands on."""

    def client(self, name: str, seconds: Optional[float]) -> Client:
        """A session that has attached to the tree of this name."""

    def close(self, kept: Optional[Path]) -> None:
        """Ends it, and keeps its record in a folder, if one is named."""


class Served:
    """A server of the test's own."""

    def __init__(self, words: ServerWords) -> None:
        """Starts it at a free port. A test is skipped if there is no program."""
        self.room = Path(tempfile.mkdtemp(prefix="rio9-"))
        try:
            self.server = Server(replace(words, record=str(self.room / RECORD)))
        except BaseException as error:
            shutil.rmtree(self.room, ignore_errors=True)
            if isinstance(error, program.Failure) and error.status == program.NO_PROGRAM:
                pytest.skip(str(error))
            raise
        self.server.begin()

    def client(self, name: str, seconds: Optional[float]) -> Client:
        """A session that has attached to the tree of this name."""
        return connect(self.server.address, name, seconds)

    def close(self, kept: Optional[Path]) -> None:
        """Ends the server."""
        try:
            self.server.close()
            if kept is not None:
                for path in self.room.iterdir():
                    shutil.copy(path, kept)
        finally:
            shutil.rmtree(self.room, ignore_errors=True)


class Held:
    """A display in the test's process."""

    def __init__(self, words: ServerWords) -> None:
        """Opens it. A test is skipped if there is no library."""
        self.words, self.start = words, side.now()
        try:
            self.display = Display(*words.size, words.channels)
        except library.NoLibrary as error:
            pytest.skip(str(error))

    def client(self, name: str, seconds: Optional[float]) -> Client:
        """A session that has attached to the tree of this name."""
        return self.display.client(name, seconds)

    def screen(self) -> "Image.Image":
        """The display as a picture."""
        width, height = self.display.size()
        room = room_of(height * formats.row_bytes(self.display.bits, 0, width))
        self.display.rows_into(room)
        return image_of_rows(formats.channels_word(self.words.channels), 0, width, height, bytes(room))

    def close(self, kept: Optional[Path]) -> None:
        """Frees the display."""
        if kept is not None:
            (kept / RECORD).write_bytes(self.display.record())
            told = side.Side(self.words.size, self.words.channels, self.start, self.display.entries()[0])
            told.save(str(kept / RECORD))
        self.display.close()


@functools.lru_cache(maxsize=4)
def room_of(length: int) -> bytearray:
    """Room for the rows of a display, which the next picture of that size takes again."""
    return bytearray(length)


@functools.lru_cache(maxsize=None)
def has_library() -> bool:
    """Whether the library of rio9 is there."""
    try:
        library.find()
    except library.NoLibrary:
        return False
    return True


class RunningDesktop(Desktop):
    """The desktop of a test."""

    def __init__(self, words: ServerWords, transport: str, goldens: Path, kept: Path, is_update: bool) -> None:
        super().__init__(self.client)
        self.words, self.goldens, self.kept, self.is_update = words, goldens, kept, is_update
        self.held: Optional[Ground] = None
        self.may_be_served = transport == EITHER
        self.transport = (PROCESS if has_library() else TCP) if transport == EITHER else transport
        if self.transport == TCP or not self.may_be_served:
            self.held = self.begin_ground()

    def begin_ground(self) -> Ground:
        """Begins what the desktop stands on."""
        if self.transport == TCP:
            return Served(self.words)
        return Held(self.words)

    @property
    def ground(self) -> Ground:
        """What the desktop stands on, which begins here if it has not yet."""
        if self.held is None:
            self.held = self.begin_ground()
        return self.held

    @property
    def server(self) -> Server:
        """The desktop's server. A desktop that nothing has been done with yet gets one."""
        if self.held is None and self.may_be_served:
            self.transport = TCP
        if not isinstance(self.ground, Served):
            raise Failure(
                "the desktop is in the process of the test, which has used it, and has no address: ask for the address "
                f'before all else, or mark the test with rio9(transport="{TCP}")'
            )
        return self.ground.server

    @property
    def address(self) -> Address:
        """Where the server listens: a host and a port."""
        return self.server.address

    @property
    def display(self) -> Display:
        """The display, if it is in this process (rio9.display)."""
        if not isinstance(self.ground, Held):
            raise Failure(f"the desktop is at a server, and not in the process of the test: {TRANSPORT} {PROCESS}")
        return self.ground.display

    def client(self, name: str = "", seconds: Optional[float] = SECONDS) -> Client:
        """A further session, which has attached to the tree of this name: the device tree's, or a new window's by
        `new`."""
        return self.ground.client(name, seconds)

    def screen(self) -> "Image.Image":
        """The display as a picture. In the process it is looked at without a session, and so is in no record."""
        return self.ground.screen() if isinstance(self.ground, Held) else super().screen()

    def finish(self, kept: Optional[Path]) -> None:
        """Ends the desktop, and keeps its record in a folder, if one is named."""
        self.close()
        if self.held is not None:
            if kept is not None:
                kept.mkdir(parents=True, exist_ok=True)
            self.held.close(kept)

    def expect_screen(self, name: str, mask: Sequence[Rectangle] = ()) -> None:
        """Fails where the display is not the golden picture of this name, outside of the rectangles of a mask."""
        __tracebackhide__ = True
        golden, actual = self.goldens / name, self.screen()
        if self.is_update:
            golden.parent.mkdir(parents=True, exist_ok=True)
            actual.save(golden)
            return
        self.kept.mkdir(parents=True, exist_ok=True)
        if not golden.exists():
            actual.save(self.kept / f"{golden.stem}-actual.png")
            pytest.fail(f"there is no golden picture {golden}: {UPDATE} writes it; what is shown is in {self.kept}")
        found = difference_of(golden, actual, mask)
        if found is not None:
            self.keep(golden, found)
            pytest.fail(f"the display is not {golden}: {found.told}; golden, actual and difference are in {self.kept}")

    def keep(self, golden: Path, found: Difference) -> None:
        """Keeps the pictures of a difference."""
        for kind, image in (("golden", found.golden), ("actual", found.actual), ("difference", found.shown)):
            image.save(self.kept / f"{golden.stem}-{kind}.png")


@pytest.hookimpl(hookwrapper=True)  # type: ignore[misc]
def pytest_runtest_makereport(item: pytest.Item) -> Generator[None, None, None]:
    """Notes whether a test has failed, and tells where its record is kept."""
    outcome = yield
    report = outcome.get_result()  # type: ignore[attr-defined]
    if report.failed and "rio9_server" in getattr(item, "fixturenames", ()):
        item.stash[HAS_FAILED] = True
        if report.when == "call":
            kept = folder_of(item) / RECORD
            report.sections.append(
                ("rio9", f"The record is kept: rio9d replay {kept} --screen | rio9d picture last.png")
            )


def folder_of(item: pytest.Item) -> Path:
    """Where a test's record and pictures are kept when it fails."""
    name = re.sub(r"[^A-Za-z0-9_.-]+", "-", item.nodeid).strip("-")
    return item.config.rootpath / str(item.config.getoption(FOLDER)) / name


def words_of(item: pytest.Item) -> Tuple[ServerWords, str]:
    """What a test's server is started with, and where its desktop is."""
    words, transport = ServerWords(), str(item.config.getoption(TRANSPORT))
    mark = item.get_closest_marker("rio9")
    if mark is None:
        return words, transport
    told: Dict[str, Any] = dict(mark.kwargs)
    transport = told.pop("transport", transport)
    if transport not in (EITHER, PROCESS, TCP):
        pytest.fail(f"the mark rio9 takes a transport as {PROCESS}, {TCP} or {EITHER}, and not {transport!r}")
    try:
        return replace(words, **told), transport
    except TypeError:
        pytest.fail(f"the mark rio9 takes words as these: {MARK}")


@pytest.fixture
def rio9_server(request: pytest.FixtureRequest) -> Generator[RunningDesktop, None, None]:
    """The desktop of the test: in its process if the library is there, else at a server of its own, at a free port of
    the loopback."""
    item, kept = request.node, folder_of(request.node)
    shutil.rmtree(kept, ignore_errors=True)
    words, transport = words_of(item)
    desktop = RunningDesktop(words, transport, item.path.parent, kept, bool(item.config.getoption(UPDATE)))
    try:
        yield desktop
    finally:
        desktop.finish(kept if HAS_FAILED in item.stash else None)
    for folder in (kept, kept.parent):
        with contextlib.suppress(OSError):
            folder.rmdir()  # which is refused if something is kept there
