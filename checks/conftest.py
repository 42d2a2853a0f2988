"""The ground of the checks: the program under check, desks, servers, nginx and a browser, each of a
test's own and ended with it.

/usr/bin/python3 -m pytest checks -n 4 [--program=PATH] [-k SUBJECT]

Without --program they check what `./desk --which` prints. A trial program is known by its address
sanitizer; a test that is marked `proved` is skipped with it. Where CI=true whatever is skipped
fails. A test that is marked `needs` fails, and names them, where tools are missing; one that is
marked `if_there` is left out, and the last line but one names them. `long(SECONDS)` begins before
the shorter ones, so that the last ones fill the processors. The last line is
`N passed, M failed`."""
from __future__ import annotations

import os
import shutil
import signal
import subprocess
import sys
import tempfile
import threading
from pathlib import Path
from types import FrameType
from typing import TYPE_CHECKING, Any, Callable, Generator, Iterator, Protocol

import pytest

from checks.support.nginx import Nginx
from checks.support.program import Program, copy_of
from checks.support.says import EXCHANGES
from checks.support.server import Server
from checks.support.tools import ROOT, is_there, is_trial, needs

if TYPE_CHECKING:
    from checks.support.browser import Browser

sys.dont_write_bytecode = True
ROOMS = pytest.StashKey[Path]()


# ---- the session


def pytest_addoption(parser: pytest.Parser) -> None:
    parser.addoption("--program", metavar="PATH", help="the program to check, not ./desk's")


def stop(*_: int | FrameType | None) -> None:
    """A signal ends the tests as Ctrl-C does: fixtures end what they began."""
    raise KeyboardInterrupt


def pytest_configure(config: pytest.Config) -> None:
    # (a path that stands by itself could make pytest take the settings of another checkout)
    if config.rootpath != Path(__file__).resolve().parents[1]:
        pytest.exit(f"pytest would take the modules of {config.rootpath}: --program=PATH", 2)
    for line in (
        "needs(*tools): tools that have to be installed",
        "if_there(*things): tools, `root` or `network`, without which it is left out",
        "proved: no trial program will do",
        "long(seconds): begins before shorter ones",
    ):
        config.addinivalue_line("markers", line)
    # (a busy machine's xdist configures a worker in a thread that can't set one)
    if threading.current_thread() is threading.main_thread():
        signal.signal(signal.SIGTERM, stop)
    # nginx is in /usr/sbin.
    os.environ["PATH"] += ":/usr/sbin:/sbin"
    os.environ["PYTHONDONTWRITEBYTECODE"] = "1"
    if not hasattr(config, "workerinput"):
        config.stash[ROOMS] = Path(tempfile.mkdtemp(prefix="desk-checks-")).resolve()
        os.environ["DESK_CHECKS_ROOM"] = str(config.stash[ROOMS])


def pytest_unconfigure(config: pytest.Config) -> None:
    if ROOMS in config.stash:
        lacking = config.stash[ROOMS] / "lacking"
        if lacking.exists():
            print("left out for want of", ", ".join(sorted({*lacking.read_text().split()})))
        shutil.rmtree(config.stash[ROOMS], ignore_errors=True)
        reporter: Any = config.pluginmanager.get_plugin("terminalreporter")
        counts = {name: len(reports) for name, reports in reporter.stats.items()}
        failed = counts.get("failed", 0) + counts.get("error", 0)
        print(f"{counts.get('passed', 0)} passed, {failed} failed")


@pytest.hookimpl(optionalhook=True)  # type: ignore[misc]
def pytest_xdist_make_scheduler(config: pytest.Config, log: Any) -> Any:
    """A process of xdist has two tests at most: its own heaps would put all long ones in one."""
    from xdist.scheduler import LoadScheduling  # type: ignore[import]

    class TwoEach(LoadScheduling):  # type: ignore[misc]
        def _send_tests(self, node: Any, num: int) -> None:
            super()._send_tests(node, min(num, max(0, 2 - len(self.node2pending[node]))))

    return TwoEach(config, log)


def pytest_sessionstart(session: pytest.Session) -> None:
    """The program is found, and built if need be, before the workers begin."""
    option = session.config.option
    if hasattr(session.config, "workerinput") or option.collectonly:
        return
    if option.program is None:
        found = subprocess.run([ROOT / "desk", "--which"], stdout=subprocess.PIPE, check=False)
        option.program = found.stdout.decode().strip()
    # (the workers inherit it)
    os.environ["DESK_CHECKS_PROGRAM"] = str(Path(option.program).resolve())
    if not os.access(option.program, os.X_OK):
        pytest.exit(f"there is no program {option.program}", 2)


def program_of() -> Path:
    return Path(os.environ["DESK_CHECKS_PROGRAM"])


def pytest_report_header(config: pytest.Config) -> str:
    return f"program: {config.option.program or './desk --which'}"


def seconds_of(item: pytest.Item) -> float:
    mark = item.get_closest_marker("long")
    return float(mark.args[0]) if mark else 0.0


def pytest_collection_modifyitems(config: pytest.Config, items: list[pytest.Item]) -> None:
    items.sort(key=seconds_of, reverse=True)
    things = {one: {name for mark in one.iter_markers("if_there") for name in mark.args}
              for one in items}
    lacking = {name for name in set().union(*things.values()) if not is_there(name)}
    if lacking:
        left_out = [one for one in items if things[one] & lacking]
        config.hook.pytest_deselected(items=left_out)
        items[:] = [one for one in items if not things[one] & lacking]
        with open(f"{os.environ['DESK_CHECKS_ROOM']}/lacking", "a", encoding="ascii") as file:
            file.write("".join(f"{name}\n" for name in sorted(lacking)))


def pytest_runtest_setup(item: pytest.Item) -> None:
    EXCHANGES.clear()
    for mark in item.iter_markers("needs"):
        needs(*mark.args)
    if item.get_closest_marker("proved") and is_trial(program_of()):
        pytest.skip("a trial program, and this check needs the proved one")


@pytest.hookimpl(hookwrapper=True)  # type: ignore[misc]
def pytest_runtest_makereport() -> Generator[None, Any, None]:
    """A failure shows what was sent and what came last; nothing is skipped in the gate."""
    report = (yield).get_result()
    if report.skipped and os.environ.get("CI") == "true":
        report.outcome = "failed"
    if report.failed and EXCHANGES:
        report.sections.append(("the last that was sent, and what came", "\n".join(EXCHANGES)))


# ---- fixtures


@pytest.fixture(scope="session")
def program_path() -> Path:
    """The program under check."""
    return program_of()


@pytest.fixture(scope="session")
def session_room() -> Iterator[Path]:
    """A folder of this test process, for what its tests share and don't change."""
    with tempfile.TemporaryDirectory(dir=os.environ["DESK_CHECKS_ROOM"]) as room:
        yield Path(room)


@pytest.fixture
def room() -> Iterator[Path]:
    """A folder of the test's own."""
    with tempfile.TemporaryDirectory(dir=os.environ["DESK_CHECKS_ROOM"]) as room:
        yield Path(room)


@pytest.fixture
def desk(program_path: Path, room: Path) -> Program:
    """The program, whose files are in the test's folder."""
    return Program(program_path, room)


@pytest.fixture(scope="session")
def people_desk(program_path: Path, session_room: Path) -> str:
    """A desk of PEOPLE alone, to be copied."""
    return Program(program_path, session_room).founded("people.db")


class NewDesk(Protocol):
    def __call__(self, name: str = "desk.db") -> str: ...


@pytest.fixture
def new_desk(people_desk: str, room: Path) -> NewDesk:
    """`new_desk(NAME)` is the path of another desk of PEOPLE alone, in the test's folder."""

    def made(name: str = "desk.db") -> str:
        return copy_of(people_desk, room / name)

    return made


@pytest.fixture
def serve(desk: Program) -> Iterator[Callable[..., Server]]:
    """`serve(PATH, COUNT)` is a server of a desk, which ends with the test."""
    begun: list[Server] = []

    def served(path: str, count: int = 1_000_000) -> Server:
        begun.append(Server(desk, path, count))
        return begun[-1]

    yield served
    for one in begun:
        one.kill()


@pytest.fixture
def server(new_desk: NewDesk, serve: Callable[..., Server]) -> Server:
    """A served desk of PEOPLE alone."""
    return serve(new_desk("served.db"))


@pytest.fixture
def nginx(room: Path) -> Iterator[Callable[..., Nginx]]:
    """`nginx(SERVER.port, sites=.., tls=..)` is nginx before a server, which ends with the test."""
    begun: list[Nginx] = []

    def proxied(desk_port: int, **words: object) -> Nginx:
        folder = room / f"nginx{len(begun)}"
        begun.append(Nginx(folder, desk_port, **words))  # type: ignore[arg-type]
        begun[-1].start()
        return begun[-1]

    yield proxied
    for one in begun:
        one.__exit__()


@pytest.fixture(scope="session")
def session_browser(session_room: Path) -> Iterator[Browser]:
    """One chromium for this test process."""
    needs("chromium", "chromedriver")
    from checks.support.browser import Browser

    made = Browser(session_room / "downloads")
    yield made
    made.quit()


@pytest.fixture
def browser(session_browser: Browser) -> Browser:
    """The browser, as one that was never here: no cookies, no stores, no downloads, a wide
    window."""
    session_browser.begin_anew()
    return session_browser
