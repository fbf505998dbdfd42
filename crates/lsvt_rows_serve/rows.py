#!/usr/bin/env python3
"""Writes the scripts of lsvt_rows_serve (`stdin`) and what must be printed of them (`stdout`).

usage: rows.py FOLDER

It is a program of its own: it spells the messages by the tables of sudo_logsrv.proto(5), and works out what each
link is put, what each connection brings and what each log holds by the rules that stand beside them here and in
docs/FORMATS.md. It knows nothing of what the crates answer.
"""
from __future__ import annotations

import hashlib
import sys
from collections.abc import Callable, Iterable

from loads import add_loads
from oracle import messages
from oracle.records import SECOND, Record, cut_at, elapsed, stream_of
from oracle.rows import Rows
from oracle.store import digits_of
from oracle.wire import LARGEST, Frames, frame

SUBMIT = 1_700_000_000 * SECOND
MOST_JOBS = 256  # of a turn
MOST_UNSENT = 65_536  # with so many a link isn't read
MOST_LINKS = 128
MOST_SHOWN = 64
PASSES = 9  # turns that are done of what a link was read before the next step of the script

# ---- messages of the protocol


class Message:
    """A frame of a client, and what it is."""

    of: dict[bytes, Message] = {}

    def __init__(
        self, kind: str, body: bytes, record: Record | None = None, log: int | None = None, point: int | None = None
    ) -> None:
        """A message is known by its bytes from then on."""
        self.kind, self.frame = kind, frame(body)
        self.record, self.log, self.point = record, log, point
        Message.of[body] = self


def accept(info: messages.Info) -> Message:
    """An accept that announces records."""
    return Message("accept", messages.accept(SUBMIT, info))


def ttyout(delay: int, data: bytes) -> Message:
    """Terminal output."""
    record = (delay, "ttyout", data)
    return Message("ttyout", messages.record(record), record)


def restart(log: int, point: int) -> Message:
    """A restart."""
    return Message("restart", messages.restart(digits_of(log), point), log=log, point=point)


WHOLE: messages.Info = {
    "command": "/usr/bin/id", "runargv": ["id", "-u"], "runuser": "root", "runuid": 0, "rungid": 0, "rungroup": "root",
    "submituser": "ann", "submithost": "web1", "submitcwd": "/home/ann", "ttyname": "/dev/pts/0", "lines": 24,
    "columns": 80,
}
NEEDED: messages.Info = {"command": "/bin/id", "runuser": "root", "submituser": "ann", "submithost": "web1"}

HELLO = Message("hello", messages.hello("Sudo 1.9.15"))
ACCEPT = accept(WHOLE)
SHORT = accept(NEEDED)
EXIT = Message("exit", bytes.fromhex("1a020a00"))
FIRST = ttyout(SECOND // 2, b"# ")
SECOND_ONE = ttyout(SECOND, b"id -u")
THIRD = ttyout(0, b"\r\n0\r\n")
TICK = ttyout(1, b"x")
TICK_RECORD = (1, "ttyout", b"x")

# ---- what a server says

H = bytes.fromhex("0000000b0a090a056c737620312001")


def log_id(number: int) -> bytes:
    """The identifier of a log."""
    return frame(messages.log_id(digits_of(number)))


def point(nanoseconds: int) -> bytes:
    """A commit point."""
    return frame(messages.commit_point(nanoseconds))


def error(why: str) -> bytes:
    """An error."""
    return frame(messages.error(why))


ROWS = Rows()
lines, wanted = ROWS.cases, ROWS.wanted
names: dict[bytes, str] = {}


def name_of(data: bytes) -> str:
    """The name of these bytes, which are given once."""
    if data not in names:
        names[data] = f"b{len(names)}"
        lines.append(f"let {names[data]} {data.hex()}")
    return names[data]


def settled(put: bytes, has_exit: bool) -> bytes:
    """Of commit points one after the other only the last, and none of a session without an exit.

    How many there are depends on the turns of the lane: one comes at the end of a turn, and one at an exit.
    """
    framed = []
    while put:
        end = 4 + int.from_bytes(put[:4], "big")
        framed.append(put[:end])
        put = put[end:]
    is_point = [f[4:5] == b"\x12" for f in framed] + [False]
    return b"".join(f for n, f in enumerate(framed) if not (is_point[n] and (is_point[n + 1] or not has_exit)))


def digest(data: bytes) -> str:
    """The number of bytes and their digest."""
    return f"{len(data)} bytes {hashlib.md5(data).hexdigest()}"


def short(data: bytes) -> str:
    """Bytes as they are printed: many by their number and their digest."""
    return data.hex() if len(data) <= 8 * MOST_SHOWN else digest(data)


class Log:
    """What is stored of a log."""

    def __init__(self) -> None:
        """It has no record."""
        self.records: list[Record] = []
        self.staged: list[Record] = []
        self.end, self.cuts = "open", 0

    def elapsed(self) -> int:
        """The nanoseconds of all records."""
        return elapsed(self.records + self.staged)

    def flush(self) -> None:
        """What is staged is committed."""
        self.records, self.staged = self.records + self.staged, []

    def shown(self) -> str:
        """What is printed of it."""
        data = stream_of(self.records, "ttyout")
        what = data.hex() if len(data) <= MOST_SHOWN else digest(data)
        return f"records {len(self.records)} to {elapsed(self.records)}, cuts {self.cuts}, {self.end}, {what}"


class Server:
    """A store, the runs over it, and what becomes of them."""

    def __init__(self, title: str, *conf: str, lanes: int = 1) -> None:
        """A new store of this many lanes, and lines of settings."""
        ROWS.title(title)
        lines.append("server")
        lines.extend(f"conf {line}" for line in conf)
        self.lanes = lanes
        self.logs: dict[int, Log] = {}
        self.begin()

    def begin(self) -> None:
        """No port and no job yet."""
        self.ports: list[Port] = []
        self.order: list[Link] = []

    def port(self) -> Port:
        """One port more."""
        self.ports.append(Port(self, len(self.ports)))
        return self.ports[-1]

    def new_log(self, seq: int) -> int:
        """The number of a new log of a connection: the next one of its home lane."""
        lane = seq % self.lanes
        number = max((n for n in self.logs if self.lane_of(n) == lane), default=lane + 1 - self.lanes) + self.lanes
        self.logs[number] = Log()
        return number

    def lane_of(self, number: int) -> int:
        """The lane of a log."""
        return (number - 1) % self.lanes

    def run(self, status: str = "0 ") -> None:
        """The loop runs on its one port, on one thread: what comes of each step is known."""
        self.give_ports()
        lines.append("run")
        self.show_links(lambda link: link.put)
        self.show_rest(self.order, status)

    def top(
        self, words: str = "serve -f conf", status: str = "0 ", serves: str | None = "*:30343 logs /var/log/sudo-io",
        until: str = "",
    ) -> None:
        """The program runs on its ports, on threads."""
        self.give_ports()
        lines.append(f"top {words}")
        if serves:
            wanted.append(f"serves {serves} last {self.stored()}{until}")
        self.show_links(lambda link: settled(link.put, "exit" in link.jobs))
        self.show_rest(sorted(self.order, key=lambda link: (link.port.place, link.seq)), status)

    def give_ports(self) -> None:
        """The scripts of its ports."""
        for its in self.ports:
            lines.append("port")
            lines.extend(its.lines)

    def show_links(self, shows: Callable[[Link], bytes]) -> None:
        """What was put on each link."""
        for its in self.ports:
            for link in its.links:
                wanted.append(f"link {its.place}.{link.link} read {link.read}, put {short(shows(link))}")

    def show_rest(self, links: Iterable[Link], status: str) -> None:
        """The jobs of the links, the status, and the logs, lane by lane."""
        for link in links:
            wanted.append(f"jobs {link.port.place}.{link.seq}{link.brought()}")
        wanted.append(f"status {status}")
        for number in sorted(self.logs, key=lambda n: (self.lane_of(n), n)):
            wanted.append(f"log {number} {self.logs[number].shown()}")
        self.begin()

    def stored(self) -> int:
        """The last log number that was drawn before this run."""
        made = {link.made for port in self.ports for link in port.links}
        return max((n for n in self.logs if n not in made), default=0)


class Port:
    """A port: the steps of its script, and its links."""

    def __init__(self, server: Server, place: int) -> None:
        """The port at a place."""
        self.server, self.place, self.next = server, place, 1
        self.lines: list[str] = []
        self.links: list[Link] = []

    def step(self, line: str) -> None:
        """A step of the script."""
        self.lines.append(line)

    def open(self, link: int) -> Link:
        """A link is opened."""
        self.step(f"open {link}")
        self.links.append(Link(self, link))
        return self.links[-1]

    def ends(self, line: str) -> None:
        """Stop comes, or a turn fails: each connection ends."""
        self.step(line)
        for link in self.links:
            link.gone()

    def stop(self) -> None:
        """Stop comes."""
        self.ends("stop")

    def fail(self) -> None:
        """A turn of the port fails."""
        self.ends("fail")


class Link:
    """One link and its connection, which is put the server's hello first.

    The 129th open link is closed, and is none.
    """

    def __init__(self, port: Port, link: int) -> None:
        """The link of a number."""
        self.port, self.link, self.server = port, link, port.server
        self.read, self.put, self.frames, self.seq = 0, b"", Frames(), 0
        self.jobs: list[str] = []
        self.log: Log | None = None
        self.made, self.is_dead = 0, False
        self.is_open: bool = sum(other.is_open for other in port.links) < MOST_LINKS
        self.is_gone = not self.is_open
        if self.is_open:
            self.seq, self.put = port.next, H
            port.next += 1

    def bring(self, job: str) -> None:
        """A job comes from this link."""
        if self not in self.server.order:
            self.server.order.append(self)
        self.jobs.append(job)

    def brought(self) -> str:
        """Its jobs as they are printed, those that come again by their number."""
        words, n = "", 0
        while n < len(self.jobs):
            times = 1
            while n + times < len(self.jobs) and self.jobs[n + times] == self.jobs[n]:
                times += 1
            words += f" {self.jobs[n]}" + (f"*{times}" if times > 1 else "")
            n += times
        return words

    # -- steps of the script

    def give(self, *given: bytes | Message) -> None:
        """These arrive at once: they are one turn."""
        data = b"".join(m if isinstance(m, bytes) else m.frame for m in given)
        self.port.step(f"give {self.link} {name_of(data)}")
        self.receive(data)

    def trickle(self, data: bytes, count: int | None = None) -> None:
        """They arrive one byte after the other."""
        count = len(data) if count is None else count
        self.port.step(f"trickle {self.link} {name_of(data)} {count}")
        for k in range(count):
            self.receive(data[k : k + 1])

    def last(self) -> None:
        """Its client ends it."""
        self.port.step(f"last {self.link}")
        self.gone()

    def breaks(self) -> None:
        """Its next read or write fails, and it is given a byte more, so that it is read."""
        self.port.step(f"break {self.link}")
        self.port.step(f"give {self.link} {name_of(b'x')}")
        self.gone()

    # -- what comes of them

    def receive(self, data: bytes) -> None:
        """A turn of what these bytes complete."""
        if not self.is_open:
            return
        self.read += len(data)
        said = self.turn(self.cut(data))
        self.put += said

    def cut(self, data: bytes) -> list[Message | int | str]:
        """The messages that are whole, bytes that are none, and the length of one that is too large."""
        found: list[Message | int | str] = []
        for body in self.frames.feed(data):
            found.append(Message.of.get(body, "malformed"))
        if self.frames.length() > LARGEST:
            found.append(self.frames.length())
            self.frames.rest = b""
        return found

    def turn(self, found: Iterable[Message | int | str]) -> bytes:
        """What is said in a turn of these messages: each in its order, then a point if records came without an exit."""
        said = b""
        for message in found:
            said += self.judge(message)
        if self.log and self.log.staged:
            self.log.flush()
            said += point(self.log.elapsed())
        if self.is_dead and not self.is_gone:
            self.gone()
        return said

    def refuse(self, why: str) -> bytes:
        """An error, which ends the connection."""
        self.is_dead = True
        return error(why)

    def judge(self, message: Message | int | str) -> bytes:
        """What is said to a message."""
        if isinstance(message, int):
            self.bring(f"large:{message}")
            return b"" if self.is_dead else self.refuse("message too large")
        if isinstance(message, str):
            self.bring(message)
            return b"" if self.is_dead else self.refuse("malformed message")
        self.bring(message.kind)
        return b"" if self.is_dead else getattr(self, f"on_{message.kind}")(message)

    def the_log(self) -> Log:
        """The log that it writes."""
        assert self.log
        return self.log

    def on_hello(self, _: Message) -> bytes:
        """Nothing is said."""
        return b""

    def on_accept(self, _: Message) -> bytes:
        """A log is begun."""
        self.made = self.server.new_log(self.seq)
        self.log = self.server.logs[self.made]
        return log_id(self.made)

    def on_ttyout(self, message: Message) -> bytes:
        """A record is staged."""
        assert message.record
        self.the_log().staged.append(message.record)
        return b""

    def on_exit(self, _: Message) -> bytes:
        """The log is complete."""
        log = self.the_log()
        log.flush()
        log.end, self.is_dead = "exit", True
        return point(log.elapsed())

    def on_restart(self, message: Message) -> bytes:
        """The records through the first that ends at the point stay."""
        assert message.log and message.point is not None
        log = self.log = self.server.logs[message.log]
        kept = cut_at(log.records, message.point)
        assert kept
        log.cuts += len(kept) < len(log.records)
        log.records = list(kept)
        return b""

    def gone(self) -> None:
        """Its end is brought, once, and the link is closed. What is staged is stored without a point."""
        if self.is_gone:
            return
        self.is_gone, self.is_open = True, False
        self.bring("gone")
        if self.log:
            self.log.flush()


PLACES = ("[iolog]", "iolog_dir = store", "[logfile]", "path = store/events")
STORE = "*:30343 logs store"

# ---- what comes on two links, one of which brings no message


def no_message_beside() -> None:
    """What comes on two links, one of which brings no message."""
    server = Server("bytes that are no message, beside a session byte by byte", *PLACES)
    port = server.port()
    one, two = port.open(1), port.open(2)
    one.trickle(ACCEPT.frame + EXIT.frame)
    two.give(bytes.fromhex("00200001"))
    assert one.put == H + bytes.fromhex("000000081a06303030303031" "000000021200")
    assert two.put == H + bytes.fromhex("00000013 2211") + b"message too large"
    one.last()
    two.last()
    port.stop()
    server.run()
    assert wanted[-4:-1] == ["jobs 0.1 accept exit gone", "jobs 0.2 large:2097153 gone", "status 0 "]

    server = Server("a message of no field, one that is cut short, and messages behind an exit in one piece")
    port = server.port()
    one, two, three = port.open(1), port.open(2), port.open(3)
    one.give(bytes(4))
    two.give(bytes(3))
    three.give(HELLO, SHORT, FIRST, EXIT, HELLO, bytes(4))
    two.last()
    port.stop()
    server.run()


# ---- ports that fail, settings and words


def ports_that_fail() -> None:
    """Ports that fail. Each port's sessions are of a lane of their own, so that their logs' numbers are known."""
    server = Server("the first turn of the port fails")
    server.port().fail()
    server.run(status="7 port fault")
    server.port().fail()
    server.top(status="7 port fault")

    title = "a port fails while its link is open: what had come is stored, and another port is served to its end"
    server = Server(title, lanes=2)
    first, other = server.port(), server.port()
    one = first.open(1)
    idle(other, 9)
    two = other.open(1)
    one.give(SHORT, FIRST)
    other.step("wake")
    first.fail()
    two.give(HELLO, SHORT)
    two.give(FIRST, EXIT)
    two.last()
    other.stop()
    server.top("serve --lanes 2 -f conf", status="7 port fault")

    server = Server("two ports, each step by step", lanes=2)
    first, other = server.port(), server.port()
    one = first.open(1)
    idle(other, 9)
    two = other.open(1)
    one.give(SHORT)
    other.step("wake")
    first.step("wake")
    two.give(SHORT)
    one.give(FIRST)
    two.give(SECOND_ONE)
    first.stop()
    two.give(THIRD, EXIT)
    idle(other, 8)
    three = other.open(7)
    three.give(SHORT, EXIT)
    other.stop()
    server.top("serve --lanes 2 -f conf")


def idle(port: Port, number: int) -> None:
    """A link that brings nothing: the connection after it is of the next lane."""
    port.open(number).last()


# ---- several lanes


def several_lanes() -> None:
    """Several lanes: a connection's lane is that of its number, or of the log that it asks for."""
    server = Server("two lanes: numbers of logs go by lane, and a restart goes to the lane of its log", lanes=2)
    port = server.port()
    one, two, three = port.open(1), port.open(2), port.open(3)
    for link in (one, two, three):
        link.give(HELLO, SHORT, FIRST)
    assert (one.made, two.made, three.made) == (2, 1, 4)
    for link in (one, two, three):
        link.last()
    idle(port, 4)
    five = port.open(5)
    assert five.seq == 5
    five.give(HELLO, restart(1, SECOND // 2))
    five.give(SECOND_ONE)
    five.give(EXIT)
    port.stop()
    server.top("serve --lanes 2 -f conf")

    for words in ("once -f conf", "load 1 -f conf", "serve --lanes 1 -f conf", "serve --lanes 3 -f conf"):
        server.port()
        server.top(words, status="4 store", serves=None)
    port = server.port()
    one = port.open(1)
    one.give(HELLO, restart(4, SECOND // 2))
    one.give(EXIT)
    two = port.open(2)
    two.give(SHORT, EXIT)
    port.stop()
    server.top("serve --lanes 2")

    server = Server("four lanes and four ports: each port's sessions are of one lane", lanes=4)
    for place in range(4):
        port = server.port()
        for number in range(1, 13):
            if number % 4 != place:
                idle(port, number)
                continue
            link = port.open(number)
            link.give(HELLO, SHORT)
            link.trickle(FIRST.frame + SECOND_ONE.frame + THIRD.frame + EXIT.frame)
        port.stop()
    server.top("serve --lanes 4 -f conf")

    server = Server("eight lanes and two ports", lanes=8)
    for place in range(2):
        port = server.port()
        for number in range(1, 15):
            link = port.open(number)
            if number % 2 == place:
                link.last()
                continue
            link.give(HELLO, SHORT, FIRST)
            link.give(SECOND_ONE, EXIT)
        port.stop()
    server.top("serve --lanes 8 --workers 2 -f conf")

    server = Server("more jobs than an inbox holds, for two lanes at once", lanes=2)
    port = server.port()
    links = [port.open(n) for n in range(1, 5)]
    many = 3000
    lines.append(f"times much {many} {name_of(TICK.frame)}")
    for link in links:
        link.give(SHORT)
        port.step(f"give {link.link} much")
        take(link, many)
        link.put += point(many)
        link.give(EXIT)
    port.stop()
    server.top("serve --lanes 2 -f conf")


def settings_and_words() -> None:
    """Settings and words."""
    refused: tuple[tuple[str, tuple[str, ...], str, str], ...] = (
        ("a line of the settings is refused",
            ("[server]", "listen_address = *:30343", "[relay]", "store_first = maybe"), "serve -f conf",
            "3 settings line 4"),
        ("a word that is none", PLACES, "serve -x", "2 usage"),
        ("more lanes than there may be", PLACES, "serve --lanes 9", "2 usage"),
        ("more workers than there may be", PLACES, "serve --workers 65", "2 usage"),
        ("a check of settings of which a line is refused", (*PLACES, "[relay]", "store_first = maybe"), "check -f conf",
            f"3 settings line {len(PLACES) + 2}"),
        ("a check of settings", PLACES, "check -f conf", "0 "),
        ("a check without a settings file", PLACES, "check", "0 "),
        ("no number of connections", PLACES, "serve --stop-after 0", "2 usage"),
    )
    for title, conf, words, status in refused:
        server = Server(f"{title}: nothing is touched", *conf)
        untouched(server)
        server.top(words, status, serves=None)
    server = Server("the settings can't be read: nothing is touched")
    lines.append("unreadable")
    untouched(server)
    server.top(status="3 settings line 0", serves=None)

    server = Server("where it listens, and after how many links it is to end", "; local", "[Server]",
        "Listen_Address = *:30344")
    server.port().stop()
    server.top("serve --stop-after 2 -f conf", serves="*:30344 logs /var/log/sudo-io", until=" until 2")
    server.port().stop()
    server.top("serve --lanes 1")

    server = Server("bytes that are no message, beside a session byte by byte, on threads", *PLACES)
    port = server.port()
    one, two = port.open(1), port.open(2)
    one.trickle(ACCEPT.frame + EXIT.frame)
    two.give(bytes.fromhex("00200001"))
    one.last()
    two.last()
    port.stop()
    server.top(serves=STORE)


def untouched(server: Server) -> None:
    """A port whose link would be served."""
    port = server.port()
    for line in ("open 1", f"give 1 {name_of(SHORT.frame)}", "stop"):
        port.step(line)


# ---- one fault, one connection


def one_log_fails() -> None:
    """The first link brings more than one step takes, and the sync of its log fails in a later turn."""
    server = Server("a sync of one log fails beside another: its connection alone is shut")
    many = 3000
    lines.append(f"faulty 1 {1 + many}")
    port = server.port()
    one, two = port.open(1), port.open(2)
    one.give(SHORT, TICK)
    two.give(SHORT, TICK)
    lines.append(f"times many {many} {name_of(TICK.frame)}")
    port.step("give 1 many")
    one.read += many * len(TICK.frame)
    whole = many // MOST_JOBS
    assert PASSES < whole and many % MOST_JOBS
    for _ in range(many):
        one.bring("ttyout")
    # The record of the second link comes first in the turn after its port reported it.
    ends = [n * MOST_JOBS - (n >= PASSES + 2) for n in range(1, whole + 1)]
    one.the_log().records += [TICK_RECORD] * ends[-1]
    one.put += b"".join(point(1 + end) for end in ends) + error("device fault")
    two.give(TICK)
    first, one.log = one.the_log(), None
    one.gone()
    two.give(FIRST, EXIT)
    port.stop()
    server.run()

    lines.append("mend")
    port = server.port()
    three = port.open(3)
    three.give(restart(1, first.elapsed()))
    three.give(FIRST)
    three.give(EXIT)
    port.stop()
    server.run()


# ---- many links


def many_links() -> None:
    """More links than are served."""
    server = Server("the 129th open link is closed, and is given nothing; behind one that has ended another is served")
    port = server.port()
    links = [port.open(n) for n in range(1, MOST_LINKS + 2)]
    for link in links:
        link.give(SHORT, TICK)
    assert links[-1].put == b"" and links[-1].read == 0
    links[4].give(EXIT)
    after = port.open(1000)
    after.give(HELLO, SHORT, FIRST)
    for link in links[:4] + links[5:] + [after]:
        link.give(EXIT)
    port.stop()
    server.run()


# ---- a link that takes nothing


def take(link: Link, count: int) -> None:
    """So many records are read of a link, and stored."""
    for _ in range(count):
        link.bring("ttyout")
    link.the_log().records += [TICK_RECORD] * count
    link.read += count * len(TICK.frame)


Then = Callable[[Server, Port, Link, bytes, int, int], None]


def takes_nothing(title: str, then: Then) -> None:
    """Its answers stay unsent, and from so many unsent bytes on it isn't read; a second link is served meanwhile."""
    server = Server(f"a link takes nothing and sends on, and then {title}")
    port = server.port()
    one = port.open(1)
    port.step("room 1 0")
    one.give(HELLO, SHORT)
    answers, read, unsent = log_id(1), 0, len(log_id(1))
    while unsent < MOST_UNSENT:
        read += 1
        answers += point(read)
        unsent = len(answers)
    beyond = 100
    port.step(f"repeat 1 {name_of(TICK.frame)} {read + beyond}")
    one.put = H
    take(one, read)
    two = port.open(2)
    two.give(HELLO, SHORT)
    two.give(FIRST)
    two.give(SECOND_ONE, EXIT)
    then(server, port, one, answers, read, beyond)


def then_fails(server: Server, port: Port, one: Link, answers: bytes, read: int, beyond: int) -> None:
    """What it wasn't read stays unread."""
    port.fail()
    server.run(status="7 port fault")


def then_stops(server: Server, port: Port, one: Link, answers: bytes, read: int, beyond: int) -> None:
    """What it is owed is read."""
    take(one, beyond)
    port.stop()
    server.run()


def then_room(server: Server, port: Port, one: Link, answers: bytes, read: int, beyond: int) -> None:
    """All answers are put, and what had come is a turn."""
    port.step("room 1 1000000")
    take(one, beyond)
    one.put = H + answers + point(read + beyond)
    one.give(EXIT)
    port.stop()
    server.run()


# ---- a link that fails at each byte


def breaks_at_each_byte() -> None:
    """A link that fails at each byte."""
    data = b"".join(m.frame for m in (HELLO, SHORT, FIRST, THIRD, EXIT))
    for count in range(len(data) + 1):
        server = Server(f"a session byte by byte, and its link fails behind {count}")
        port = server.port()
        two, one = port.open(2), port.open(1)
        two.give(HELLO, SHORT)
        one.trickle(data, count)
        if one.is_open:
            one.breaks()
        two.give(FIRST)
        two.give(SECOND_ONE, EXIT)
        port.stop()
        server.run()


def breaks_at_a_write() -> None:
    """A write that fails."""
    sent = (HELLO, SHORT, FIRST, THIRD)
    for count in range(2, len(sent) + 1):
        server = Server(f"a write fails, with the answers to {count} messages unsent")
        port = server.port()
        two, one = port.open(2), port.open(1)
        two.give(HELLO, SHORT)
        port.step("room 1 0")
        for m in sent[:count]:
            one.give(m)
        one.put = H
        port.step("break 1")
        port.step("room 1 3")
        one.gone()
        two.give(FIRST, EXIT)
        port.stop()
        server.run()


# ---- stops


def stops() -> None:
    """Stops."""
    server = Server("Stop while links are open")
    port = server.port()
    one, two, three, four = (port.open(n) for n in (1, 2, 3, 4))
    one.give(HELLO, SHORT, FIRST)
    one.give(SECOND_ONE.frame[:9])
    two.give(SHORT)
    four.give(HELLO.frame[:2])
    port.stop()
    server.run()
    port = server.port()
    one = port.open(1)
    one.give(HELLO, restart(1, SECOND // 2))
    one.give(SECOND_ONE)
    two = port.open(2)
    two.give(SHORT, EXIT)
    one.give(EXIT)
    port.stop()
    server.run()

    server = Server("Stop while more than a turn waits: all of it is stored")
    many = 3000
    port = server.port()
    one = port.open(1)
    one.give(SHORT)
    lines.append(f"times many {many} {name_of(TICK.frame)}")
    port.step("give 1 many")
    take(one, many)
    # Its last turn has its end too, so no point is sent there.
    one.put += b"".join(point(n * MOST_JOBS) for n in range(1, many // MOST_JOBS + 1))
    port.stop()
    server.run()


def main() -> None:
    """Writes all scripts."""
    no_message_beside()
    ports_that_fail()
    settings_and_words()
    several_lanes()
    one_log_fails()
    many_links()
    takes_nothing("a turn of the port fails: it was read up to 65,536 unsent bytes", then_fails)
    takes_nothing("Stop comes: all of it is read", then_stops)
    takes_nothing("takes all: all of it is read and answered", then_room)
    stops()
    breaks_at_a_write()
    breaks_at_each_byte()
    add_loads(ROWS)
    ROWS.write(sys.argv[1])


if __name__ == "__main__":
    main()
