"""Events and their lines, for rows.py: each case and what must be printed of it.

The lines of a whole session were made by an independent program, and stand here with those of other events as
literals. Dates are Python's own. How bytes are written in sudo's form, and in JSON, is worked out here.
"""
from __future__ import annotations

import datetime
import json
import re
from collections.abc import Iterator

from oracle.wire import field as bytes_field, number as number_field

Place = tuple[int, int, int]  # worker, connection and log
Row = tuple[str, list[bytes]]
NOW = 1_700_000_100
START = 1_700_000_000

# What is shown; worker, connection and log; the message; the line in sudo's form; its line of JSON.
EVENTS: list[tuple[Place, bytes, bytes, bytes]] = [
    # A whole session.
    ((0, 1, 1),
     b'\n\xe0\x01\n\x06\x08\x80\xe2\xcf\xaa\x06\x12\x16\n\x07command\x1a\x0b/usr/bin/id\x12\x13\n\x07runargv"\x08'
     b'\n\x02id\n\x02-u\x12\x0f\n\x07runuser\x1a\x04root\x12\n\n\x06runuid\x10\x00\x12\n\n\x06rungid\x10\x00\x12'
     b'\x10\n\x08rungroup\x1a\x04root\x12\x11\n\nsubmituser\x1a\x03ann\x12\x12\n\nsubmithost\x1a\x04web1\x12\x16\n'
     b'\tsubmitcwd\x1a\t/home/ann\x12\x15\n\x07ttyname\x1a\n/dev/pts/0\x12\t\n\x05lines\x10\x18\x12\x0b\n\x07colum'
     b'ns\x10P\x18\x01',
     b'2023-11-14T22:13:20Z : ann : HOST=web1 ; TTY=pts/0 ; PWD=/home/ann ; USER=root ; TSID=000001 ; COMMAND=/usr'
     b'/bin/id -u\n',
     b'{"accept":{"info":{"columns":80,"command":"/usr/bin/id","lines":24,"runargv":["id","-u"],"rungid":0,"rungro'
     b'up":"root","runuid":0,"runuser":"root","submitcwd":"/home/ann","submithost":"web1","submituser":"ann","ttyn'
     b'ame":"/dev/pts/0"},"iolog":"000001","peer":"0.1","server_time":{"nanoseconds":0,"seconds":1700000100},"subm'
     b'it_time":{"nanoseconds":0,"seconds":1700000000}}}\n'),
    # A reason, a user and nothing else.
    ((0, 1, 0),
     b'\x12\x1f\n\x06\x08\x80\xe2\xcf\xaa\x06\x12\x02no\x1a\x11\n\nsubmituser\x1a\x03ann',
     b'2023-11-14T22:13:20Z : ann : no\n',
     b'{"reject":{"info":{"submituser":"ann"},"peer":"0.1","reason":"no","server_time":{"nanoseconds":0,"seconds":'
     b'1700000100},"submit_time":{"nanoseconds":0,"seconds":1700000000}}}\n'),
    # Nothing is told.
    ((7, 18446744073709551615, 0),
     b'\n\x08\n\x06\x08\x80\xe2\xcf\xaa\x06',
     b'2023-11-14T22:13:20Z : unknown : \n',
     b'{"accept":{"info":{},"peer":"7.18446744073709551615","server_time":{"nanoseconds":0,"seconds":1700000100},"'
     b'submit_time":{"nanoseconds":0,"seconds":1700000000}}}\n'),
    # An empty reason is left out.
    ((4294967295, 2, 0),
     b'*\x1c\n\x06\x08\x80\xe2\xcf\xaa\x06\x1a\x12\n\x07command\x1a\x07/bin/ls',
     b'2023-11-14T22:13:20Z : unknown : COMMAND=/bin/ls\n',
     b'{"alert":{"alert_time":{"nanoseconds":0,"seconds":1700000000},"info":{"command":"/bin/ls"},"peer":"42949672'
     b'95.2","reason":"","server_time":{"nanoseconds":0,"seconds":1700000100}}}\n'),
    # An alert of a command.
    ((0, 3, 0),
     b'*4\n\x06\x08\x80\xe2\xcf\xaa\x06\x12\x03a\nb\x1a\x11\n\nsubmituser\x1a\x03ann\x1a\x12\n\x07command\x1a\x07/'
     b'bin/ls',
     b'2023-11-14T22:13:20Z : ann : a#012b ; COMMAND=/bin/ls\n',
     b'{"alert":{"alert_time":{"nanoseconds":0,"seconds":1700000000},"info":{"command":"/bin/ls","submituser":"ann'
     b'"},"peer":"0.3","reason":"a\\nb","server_time":{"nanoseconds":0,"seconds":1700000100}}}\n'),
    # Empty texts are told.
    ((0, 1, 2176782335),
     b'\ne\n\x06\x08\x80\xe2\xcf\xaa\x06\x12\x0e\n\nsubmituser\x1a\x00\x12\x0e\n\nsubmithost\x1a\x00\x12\x10\n\x07'
     b'ttyname\x1a\x05/dev/\x12\r\n\tsubmitcwd\x1a\x00\x12\x0b\n\x07runuser\x1a\x00\x12\x0b\n\x07command\x1a\x00'
     b'\x18\x01',
     b'2023-11-14T22:13:20Z :  : HOST= ; TTY= ; PWD= ; USER= ; TSID=ZZZZZZ ; COMMAND=\n',
     b'{"accept":{"info":{"command":"","runuser":"","submitcwd":"","submithost":"","submituser":"","ttyname":"/dev'
     b'/"},"iolog":"ZZZZZZ","peer":"0.1","server_time":{"nanoseconds":0,"seconds":1700000100},"submit_time":{"nano'
     b'seconds":0,"seconds":1700000000}}}\n'),
    # Of several entries the last counts.
    ((0, 1, 0),
     b'\nL\n\x06\x08\x80\xe2\xcf\xaa\x06\x12\x11\n\nsubmituser\x1a\x03ann\x12\x11\n\nsubmituser\x1a\x03bob\x12\x0f'
     b'\n\x07runuser\x1a\x04root\x12\x0b\n\x07runuser\x10\x01',
     b'2023-11-14T22:13:20Z : bob : \n',
     b'{"accept":{"info":{"runuser":1,"submituser":"bob"},"peer":"0.1","server_time":{"nanoseconds":0,"seconds":17'
     b'00000100},"submit_time":{"nanoseconds":0,"seconds":1700000000}}}\n'),
    # Arguments without a command.
    ((0, 1, 0),
     b'\n\x1d\n\x06\x08\x80\xe2\xcf\xaa\x06\x12\x13\n\x07runargv"\x08\n\x02id\n\x02-u',
     b'2023-11-14T22:13:20Z : unknown : \n',
     b'{"accept":{"info":{"runargv":["id","-u"]},"peer":"0.1","server_time":{"nanoseconds":0,"seconds":1700000100}'
     b',"submit_time":{"nanoseconds":0,"seconds":1700000000}}}\n'),
    # A command without arguments.
    ((0, 1, 0),
     b'\n$\n\x06\x08\x80\xe2\xcf\xaa\x06\x12\r\n\x07command\x1a\x02id\x12\x0b\n\x07runargv"\x00',
     b'2023-11-14T22:13:20Z : unknown : COMMAND=id\n',
     b'{"accept":{"info":{"command":"id","runargv":[]},"peer":"0.1","server_time":{"nanoseconds":0,"seconds":17000'
     b'00100},"submit_time":{"nanoseconds":0,"seconds":1700000000}}}\n'),
]

MORE: list[tuple[Place, bytes, bytes, bytes]] = [
    # One argument is the command itself.
    ((0, 1, 0),
     b'\n\'\n\x06\x08\x80\xe2\xcf\xaa\x06\x12\r\n\x07command\x1a\x02id\x12\x0e\n\x07runargv"\x03\n\x01x',
     b'2023-11-14T22:13:20Z : unknown : COMMAND=id\n',
     b'{"accept":{"info":{"command":"id","runargv":["x"]},"peer":"0.1","server_time":{"nanoseconds":0,"seconds":17'
     b'00000100},"submit_time":{"nanoseconds":0,"seconds":1700000000}}}\n'),
    # Arguments that are no list of texts.
    ((0, 1, 0),
     b'\n(\n\x06\x08\x80\xe2\xcf\xaa\x06\x12\r\n\x07command\x1a\x02id\x12\x0f\n\x07runargv*\x04\n\x02\x01\x02',
     b'2023-11-14T22:13:20Z : unknown : COMMAND=id\n',
     b'{"accept":{"info":{"command":"id","runargv":[1,2]},"peer":"0.1","server_time":{"nanoseconds":0,"seconds":17'
     b'00000100},"submit_time":{"nanoseconds":0,"seconds":1700000000}}}\n'),
    # Arguments that are one text.
    ((0, 1, 0),
     b"\n'\n\x06\x08\x80\xe2\xcf\xaa\x06\x12\r\n\x07command\x1a\x02id\x12\x0e\n\x07runargv\x1a\x03x y",
     b'2023-11-14T22:13:20Z : unknown : COMMAND=id\n',
     b'{"accept":{"info":{"command":"id","runargv":"x y"},"peer":"0.1","server_time":{"nanoseconds":0,"seconds":17'
     b'00000100},"submit_time":{"nanoseconds":0,"seconds":1700000000}}}\n'),
    # Empty arguments and spaces.
    ((0, 1, 0),
     b'\n0\n\x06\x08\x80\xe2\xcf\xaa\x06\x12\x0e\n\x07command\x1a\x03a b\x12\x16\n\x07runargv"\x0b\n\x01a\n\x00\n'
     b'\x01 \n\x01#',
     b'2023-11-14T22:13:20Z : unknown : COMMAND=a b    #043\n',
     b'{"accept":{"info":{"command":"a b","runargv":["a",""," ","#"]},"peer":"0.1","server_time":{"nanoseconds":0,'
     b'"seconds":1700000100},"submit_time":{"nanoseconds":0,"seconds":1700000000}}}\n'),
    # One /dev/ is taken off.
    ((0, 1, 36),
     b'\n&\n\x06\x08\x80\xe2\xcf\xaa\x06\x12\x1a\n\x07ttyname\x1a\x0f/dev//dev/pts/1\x18\x01',
     b'2023-11-14T22:13:20Z : unknown : TTY=/dev/pts/1 ; TSID=000010\n',
     b'{"accept":{"info":{"ttyname":"/dev//dev/pts/1"},"iolog":"000010","peer":"0.1","server_time":{"nanoseconds":'
     b'0,"seconds":1700000100},"submit_time":{"nanoseconds":0,"seconds":1700000000}}}\n'),
    # And none of another.
    ((0, 1, 35),
     b'\n\x1b\n\x06\x08\x80\xe2\xcf\xaa\x06\x12\x0f\n\x07ttyname\x1a\x04/dev\x18\x01',
     b'2023-11-14T22:13:20Z : unknown : TTY=/dev ; TSID=00000Z\n',
     b'{"accept":{"info":{"ttyname":"/dev"},"iolog":"00000Z","peer":"0.1","server_time":{"nanoseconds":0,"seconds"'
     b':1700000100},"submit_time":{"nanoseconds":0,"seconds":1700000000}}}\n'),
    # An exit.
    ((0, 1, 1),
     b'\x1a\n\n\x08\x08\x03\x10\x80\x8c\x8d\x9e\x02',
     b'2023-11-14T22:15:00Z : 0.1 : TSID=000001 ; EXIT=0\n',
     b'{"exit":{"dumped_core":false,"exit_value":0,"iolog":"000001","peer":"0.1","run_time":{"nanoseconds":6000000'
     b'00,"seconds":3},"server_time":{"nanoseconds":0,"seconds":1700000100}}}\n'),
    # An exit of all parts.
    ((3, 12, 46656),
     b'\x1a\x1f\n\x00\x10\x80\x80\x80\x80\xf8\xff\xff\xff\xff\x01\x18\x01"\x04SEGV*\x08a "b"\x01\xff#',
     b'2023-11-14T22:15:00Z : 3.12 : TSID=001000 ; EXIT=-2147483648 ; SIGNAL=SEGV ; ERROR=a "b"#001#377#043 ; CORE\n',
     b'{"exit":{"dumped_core":true,"error":"a \\"b\\"\\u0001\xef\xbf\xbd#","exit_value":-2147483648,"iolog":"00100'
     b'0","peer":"3.12","run_time":{"nanoseconds":0,"seconds":0},"server_time":{"nanoseconds":0,"seconds":17000001'
     b'00},"signal":"SEGV"}}\n'),
    # An exit of no log.
    ((0, 1, 0),
     b'\x1a\x10\n\x02\x10\x01\x10\xff\xff\xff\xff\x07"\x04TERM',
     b'2023-11-14T22:15:00Z : 0.1 : EXIT=2147483647 ; SIGNAL=TERM\n',
     b'{"exit":{"dumped_core":false,"exit_value":2147483647,"peer":"0.1","run_time":{"nanoseconds":1,"seconds":0},'
     b'"server_time":{"nanoseconds":0,"seconds":1700000100},"signal":"TERM"}}\n'),
]

# Both ends of what a valid time can be, and the ends of days, months, years and leap years between.
DATES = [
    0, 86399, 86400, 68169599, 68169600, 68255999, 68256000, 94694399, 94694400, 951782399, 951782400, 951868800,
    1077926400, 1583020800,
    1700000000, 2147483648, 4107455999, 4107542400, 4102444799, 4102444800, 7258118400, 9214560000, 9223372035,
    9223372036,
]
ALL = bytes(range(256))
# Characters whose first byte in UTF-8 is 0xC2, DEL and what stands beside it, and 0xC2 where no character begins.
BROKEN = b"\xc2\xc2\x80\xc2\x7f\xc2a\xc3\x82\xc2\x9f\xc3\x85\xc2\xa0\xe2\x80\x99\xc2"
CONTROLS = "".join(map(chr, range(0x7e, 0x100))).encode() + BROKEN


def time_field(number: int, seconds: int, nanos: int = 0) -> bytes:
    """A time, whose nanoseconds may be more than a second's."""
    seconds, nanos = seconds + nanos // 10**9, nanos % 10**9
    return bytes_field(number, number_field(1, seconds) + number_field(2, nanos))


def rejected(reason: bytes, *entries: tuple[bytes, bytes]) -> bytes:
    """A reject."""
    info = b"".join(bytes_field(3, bytes_field(1, key) + bytes_field(3, text)) for key, text in entries)
    return bytes_field(2, time_field(1, START) + bytes_field(2, reason) + info)


def exited(signal: bytes, error: bytes) -> bytes:
    """An exit."""
    return bytes_field(3, bytes_field(1, b"") + number_field(2, 1) + bytes_field(4, signal) + bytes_field(5, error))


def escaped(b: bytes) -> bytes:
    """In sudo's form each byte that is no printable one of ASCII, and '#', is written as three octal digits."""
    return b"".join(b"#%03o" % x if x < 32 or x > 126 or x == 35 else bytes([x]) for x in b)


def quoted(b: bytes) -> bytes:
    """In JSON bytes that are no UTF-8 are written as the replacement character, and DEL and the C1 controls by their
    numbers.
    """
    text = json.dumps(b.decode("utf-8", "replace"), ensure_ascii=False)
    return re.sub("[\x7f-\x9f]", lambda found: f"\\u{ord(found[0]):04x}", text).encode()


def date(seconds: int) -> bytes:
    """A date as lines have it."""
    return (datetime.datetime(1970, 1, 1) + datetime.timedelta(seconds=seconds)).strftime("%Y-%m-%dT%H:%M:%SZ").encode()


def words(place: Place, message: bytes, at: int = NOW) -> str:
    """The words of a case."""
    return f"{at} {place[0]} {place[1]} {place[2]} {message.hex()}"


def lines() -> Iterator[Row]:
    """Formatters write the line of their kind, also by reference, and so do the calls."""
    for place, message, sudo, json_line in EVENTS + MORE:
        yield "formatted " + words(place, message), [sudo, json_line] * 2
    for place, message, sudo, json_line in MORE:
        yield "sudo-line " + words(place, message), [sudo]
        yield "json-line " + words(place, message), [json_line]


def dates() -> Iterator[Row]:
    """A line has its date; a fraction is dropped, up to the last nanosecond of a valid time."""
    for seconds in DATES:
        for nanos in (0, 854_775_807):
            message = bytes_field(1, time_field(1, seconds, nanos))
            yield "sudo-line " + words((0, 1, 0), message, 0), [date(seconds) + b" : unknown : \n"]


def escapes() -> Iterator[tuple[bytes, bytes, bytes]]:
    """Every byte in each text of a line."""
    unknown = b"unknown : "
    for key, before, after in [(b"submituser", b"", b" : "), (b"submithost", unknown + b"HOST=", b""),
        (b"ttyname", unknown + b"TTY=", b""),
                               (b"submitcwd", unknown + b"PWD=", b""), (b"runuser", unknown + b"USER=", b""),
                               (b"command", unknown + b"COMMAND=", b"")]:
        yield rejected(b"", (key, ALL)), before, after
    yield rejected(ALL), unknown, b""
    yield exited(ALL, b""), b"0.1 : EXIT=1 ; SIGNAL=", b""
    yield exited(b"", ALL), b"0.1 : EXIT=1 ; ERROR=", b""


def cases() -> Iterator[tuple[str, list[Row]]]:
    """Each title, and its cases with the lines that are printed of them."""
    yield "events and their lines", list(lines())
    yield "dates of lines", list(dates())
    sudo = [("sudo-line " + words((0, 1, 0), message, START),
        [date(START) + b" : " + before + escaped(ALL) + after + b"\n"])
            for message, before, after in escapes()]
    at = b'{"nanoseconds":0,"seconds":%d}' % START
    form = b'{"reject":{"info":{%b:%b},"peer":"0.1","reason":%b,"server_time":%b,"submit_time":%b}}\n'
    wanted = form % (quoted(ALL), quoted(ALL), quoted(ALL), at, at)
    yield "each byte in each text of a line", sudo + [("json-line " + words((0, 1, 0), rejected(ALL, (ALL, ALL)),
        START), [wanted])]
    wanted = form % (quoted(CONTROLS), quoted(CONTROLS), quoted(CONTROLS), at, at)
    yield "DEL and the C1 controls in JSON", [
        ("json-line " + words((0, 1, 0), rejected(CONTROLS, (CONTROLS, CONTROLS)), START), [wanted])]
