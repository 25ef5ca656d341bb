"""Stations and lines of IBM Binary Synchronous Communications (GA27-3004), over the proved library libbsc.so.

A station has no socket and no clock. The program tells it what was heard, or that nothing was heard for the time of
a time-out, and gets the octets that are to be sent:

    with bsc.Terminal(bsc.Setup(), bsc.Addresses(b"A", [b"a"])) as terminal:
        terminal.offer(b"HELLO")
        peer.send(terminal.hear(peer.receive()))

Line is a control station, its terminals and what is pending between them, for test benches. What a call refuses is
raised as a Fault, and changed nothing. Numbers that are counted begin with 0. docs/PROTOCOL.md is the line procedure,
and bsc.h says more of each call.

This file needs Python 3.9 and no package. It loads the library that the variable BSC_LIBRARY of the environment names,
or else libbsc.so beside it, in out/ beside it, or where the system looks for libraries.
"""

import ctypes
import operator
import os
from enum import IntEnum
from threading import get_ident
from typing import Dict, List, NamedTuple, Optional, Sequence, Tuple

__all__ = [
    "Addresses", "CONTROL", "Control", "Error", "Fault", "Heard", "Kept", "Kind", "Line", "Pending", "Sending",
    "Setup", "Terminal", "Unit", "decode", "encode",
]

MAX_SENT = 1033
MAX_CHARS = 144
MAX_UNITS = 7
MAX_ADDRESS = 7
MAX_SELECTS = 4

CONTROL = 255
"""The sender of what is pending on a line, if it is the control station."""

ETX = 0x03
ETB = 0x17


class Error(IntEnum):
    """Why a call did nothing: enum bsc_error of bsc.h."""

    NOT_MADE = 1
    OTHER_KIND = 2
    ALREADY_MADE = 3
    OUT_OF_MEMORY = 4
    NO_ROOM = 5
    WRONG_FULL = 6
    WRONG_BLOCK_CHARS = 7
    WRONG_TRIES = 8
    WRONG_WAITS = 9
    WRONG_ADDRESS = 10
    WRONG_SELECTS = 11
    SAME_ADDRESS = 12
    NO_TERMINAL = 13
    TOO_MANY_TERMINALS = 14
    EMPTY_POLL_LIST = 15
    WRONG_POLL_LIST = 16
    NO_SUCH_TERMINAL = 17
    NO_SUCH_ADDRESS = 18
    NO_SUCH_RECORD = 19
    RECORD_TOO_LONG = 20
    WRONG_CHARACTER = 21
    NOT_IN_DOUBT = 22
    COUNT_MISMATCH = 23
    NOTHING_SENT = 24
    NOT_CONTROL = 25
    WRONG_COUNT = 26
    PENDING = 27
    NOT_NEW = 28
    WRONG_KNOWN = 29
    WRONG_DOUBT = 30


class Kind(IntEnum):
    """What octets are heard as: enum bsc_kind of bsc.h."""

    NOISE = 0
    FAILED = 1
    EOT = 2
    CALL = 3
    ENQ = 4
    ACK0 = 5
    ACK1 = 6
    NAK = 7
    WACK = 8
    RVI = 9
    TEXT = 10


class Fault(Exception):
    """A call that was refused, and changed nothing. `number` is the Error; the text says it in English."""

    def __init__(self, number: int) -> None:
        self.number = Error(number)
        text = ctypes.create_string_buffer(64)
        count = _library.bsc_error_text(number, text, 64)
        super().__init__(text.raw[:count].decode("ascii"))


class Setup(NamedTuple):
    """The settings of a station or a line. All stations of a line have the same."""

    full: int = 80
    """The full length of a record in characters, 1 to 144."""
    block_chars: int = 400
    """The most characters that a block may count, 146 to 400."""
    tries: int = 3
    """The limit of failures in a row, 1 to 15."""
    waits: int = 10
    """The limit of WACKs since the last acknowledgement, 1 to 255."""


class Addresses(NamedTuple):
    """The addresses of a terminal: each of 1 to 7 characters from 0x21 to 0x7e, no two the same on a line."""

    poll: bytes
    """It is polled by this address."""
    selects: Sequence[bytes]
    """It is selected by these, 1 to 4."""


class Sending(NamedTuple):
    """How far the sending end of a channel is."""

    offered: int
    """The number of records that were offered."""
    known: int
    """How many of these, the first of them, are known to have arrived."""
    in_doubt: bool
    """Whether it is not known of the next block whether it arrived."""


class Kept(NamedTuple):
    """What is kept of a sending end, beside the records that were offered, for the case that the process ends."""

    known: int
    """How many of the offered records are known to have arrived."""
    doubt: int
    """The number of records of the doubtful block, 1 to 7; 0 if there is no doubt."""


class Pending(NamedTuple):
    """A transmission that was sent, and that nobody has heard yet."""

    sender: int
    """The number of the terminal that sent it, or CONTROL."""
    octets: bytes


class Unit(NamedTuple):
    """A unit of a text: its characters, and whether EM follows them."""

    chars: bytes
    em: bool


class Heard(NamedTuple):
    """What octets are heard as."""

    kind: Kind
    address: bytes = b""
    """Of a call."""
    units: Tuple[Unit, ...] = ()
    """Of a text."""
    end: int = 0
    """Of a text: ETX or ETB."""


# ---- The library ----------------------------------------------------------------------------------------------


class _Handle(ctypes.Structure):
    _fields_ = [("kind", ctypes.c_uint32), ("station", ctypes.c_void_p)]


class _Setup(ctypes.Structure):
    _fields_ = [("full", ctypes.c_uint8), ("block_chars", ctypes.c_uint16), ("tries", ctypes.c_uint8),
                ("waits", ctypes.c_uint8)]


class _Address(ctypes.Structure):
    _fields_ = [("chars", ctypes.c_uint8 * MAX_ADDRESS), ("len", ctypes.c_uint8)]


class _Addresses(ctypes.Structure):
    _fields_ = [("poll", _Address), ("selects", _Address * MAX_SELECTS), ("count", ctypes.c_uint8)]


class _Sending(ctypes.Structure):
    _fields_ = [("offered", ctypes.c_size_t), ("known", ctypes.c_size_t), ("in_doubt", ctypes.c_uint32)]


class _Kept(ctypes.Structure):
    _fields_ = [("known", ctypes.c_size_t), ("doubt", ctypes.c_size_t)]


class _Unit(ctypes.Structure):
    _fields_ = [("chars", ctypes.c_uint8 * MAX_CHARS), ("len", ctypes.c_uint8), ("em", ctypes.c_uint8)]


class _Content(ctypes.Structure):
    _fields_ = [("units", _Unit * MAX_UNITS), ("count", ctypes.c_uint8), ("end", ctypes.c_uint8),
                ("address", ctypes.c_uint8 * MAX_ADDRESS), ("address_len", ctypes.c_uint8)]


_AT = ctypes.c_void_p
_SIZE = ctypes.c_size_t
_OCTETS = [ctypes.c_char_p, _SIZE]
_BUFFER = [_AT, _SIZE, _AT]
_MADE_FOR_TERMINALS = [_AT, _AT, _SIZE, *_OCTETS]

# The parameters of each call after the handle, by the names of bsc.h without "bsc_".
_CALLS = {
    "terminal_new": [_AT, _AT],
    "terminal_hear": [*_OCTETS, *_BUFFER],
    "terminal_silence": _BUFFER,
    "terminal_offer": _OCTETS,
    "terminal_sending": [_AT],
    "terminal_arrivals": [_SIZE, _AT],
    "terminal_arrived": [_SIZE, _SIZE, *_BUFFER],
    "terminal_release": [_SIZE],
    "terminal_ready": [ctypes.c_uint32],
    "terminal_urgent": [],
    "terminal_restart": [],
    "terminal_kept": [_AT],
    "terminal_keep_arrived": [_SIZE, *_OCTETS],
    "terminal_recall": [_AT],
    "terminal_free": [],
    "control_new": _MADE_FOR_TERMINALS,
    "control_hear": [*_OCTETS, *_BUFFER],
    "control_silence": _BUFFER,
    "control_offer": [_SIZE, _SIZE, *_OCTETS],
    "control_sending": [_SIZE, _SIZE, _AT],
    "control_arrivals": [_SIZE, _AT],
    "control_arrived": [_SIZE, _SIZE, *_BUFFER],
    "control_release": [_SIZE, _SIZE, _SIZE],
    "control_urgent": [_SIZE],
    "control_set_polled": [_SIZE, ctypes.c_uint32],
    "control_restart": [],
    "control_kept": [_SIZE, _SIZE, _AT],
    "control_keep_arrived": [_SIZE, *_OCTETS],
    "control_recall": [_SIZE, _SIZE, _AT],
    "control_free": [],
    "line_new": _MADE_FOR_TERMINALS,
    "line_offer_at": [_SIZE, *_OCTETS],
    "line_offer_for": [_SIZE, _SIZE, *_OCTETS],
    "line_carry": _OCTETS,
    "line_lose": [],
    "line_carry_sent": [],
    "line_carry_each": [*_OCTETS, _AT, _SIZE],
    "line_silence": [],
    "line_ready": [_SIZE, ctypes.c_uint32],
    "line_set_polled": [_SIZE, ctypes.c_uint32],
    "line_urgent_at": [_SIZE],
    "line_urgent_for": [_SIZE],
    "line_release_from": [_SIZE],
    "line_release_to": [_SIZE, _SIZE],
    "line_restart_control": [],
    "line_restart_terminal": [_SIZE],
    "line_trusted": [_AT],
    "line_pending": [*_BUFFER, _AT],
    "line_sending_from": [_SIZE, _AT],
    "line_sending_to": [_SIZE, _SIZE, _AT],
    "line_arrivals_from": [_SIZE, _AT],
    "line_arrivals_to": [_SIZE, _SIZE, _AT],
    "line_arrived_from": [_SIZE, _SIZE, *_BUFFER],
    "line_arrived_to": [_SIZE, _SIZE, _SIZE, *_BUFFER],
    "line_free": [],
}


def _load() -> ctypes.PyDLL:
    here = os.path.dirname(os.path.abspath(__file__))
    beside = [os.path.join(here, "libbsc.so"), os.path.join(here, "out", "libbsc.so")]
    named = os.environ.get("BSC_LIBRARY")
    found = named or next((path for path in beside if os.path.exists(path)), "libbsc.so")
    # The calls are short and wait for nothing, so they keep the lock of the interpreter.
    library = ctypes.PyDLL(found)
    library.bsc_error_text.argtypes = [ctypes.c_uint32, _AT, _SIZE]
    library.bsc_error_text.restype = _SIZE
    library.bsc_decode.argtypes = [*_OCTETS, _AT]
    library.bsc_decode.restype = ctypes.c_uint32
    library.bsc_encode.argtypes = [ctypes.c_uint32, _AT, _AT, _SIZE]
    library.bsc_encode.restype = _SIZE
    return library


_library = _load()


def _load_functions() -> Dict[str, Dict[str, object]]:
    """The functions of the library by what they work on and their names there."""
    functions: Dict[str, Dict[str, object]] = {}
    for name, parameters in _CALLS.items():
        function = getattr(_library, "bsc_" + name)
        function.argtypes = [_AT, *parameters]
        function.restype = ctypes.c_uint32
        kind, _, call = name.partition("_")
        functions.setdefault(kind, {})[call] = function
    return functions


_functions = _load_functions()
_SIZE_MAX = ctypes.c_size_t(-1).value


def _size(number: int) -> int:
    """The number, or the greatest one if C has none like it: there is no terminal, address or record of it."""
    number = operator.index(number)
    return number if 0 <= number <= _SIZE_MAX else _SIZE_MAX


def _octets(octets: bytes) -> bytes:
    return octets if type(octets) is bytes else memoryview(octets).tobytes()


def _within(number: int, most: int) -> int:
    """The number, or 0, which is out of the range of each setting, if C has no room for it."""
    number = operator.index(number)
    return number if 0 <= number <= most else 0


def _setup(setup: Setup) -> _Setup:
    full, block_chars, tries, waits = setup
    return _Setup(_within(full, 255), _within(block_chars, 65535), _within(tries, 255), _within(waits, 255))


def _address(address: bytes) -> _Address:
    chars = _octets(address)
    return _Address((ctypes.c_uint8 * MAX_ADDRESS)(*chars[:MAX_ADDRESS]), min(len(chars), 255))


def _addresses(addresses: Addresses) -> _Addresses:
    poll, selects = addresses
    stored = [_address(select) for select in selects]
    return _Addresses(_address(poll), (_Address * MAX_SELECTS)(*stored[:MAX_SELECTS]), min(len(stored), 255))


def decode(octets: bytes) -> Heard:
    """Tells what octets are heard as."""
    content = _Content()
    octets = _octets(octets)
    kind = Kind(_library.bsc_decode(octets, len(octets), ctypes.byref(content)))
    if kind is Kind.CALL:
        return Heard(kind, address=bytes(content.address[:content.address_len]))
    if kind is Kind.TEXT:
        units = (Unit(bytes(unit.chars[:unit.len]), unit.em != 0) for unit in content.units[:content.count])
        return Heard(kind, units=tuple(units), end=content.end)
    return Heard(kind)


def encode(message: Heard) -> bytes:
    """Gives the octets that are sent for a message. Raises a ValueError if it is none."""
    content = _Content(end=message.end, count=min(len(message.units), 255))
    for place, unit in enumerate(message.units[:MAX_UNITS]):
        chars = _octets(unit.chars)
        content.units[place] = _Unit((ctypes.c_uint8 * MAX_CHARS)(*chars[:MAX_CHARS]), min(len(chars), 255), unit.em)
    address = _address(message.address)
    content.address, content.address_len = address.chars, address.len
    sent = ctypes.create_string_buffer(MAX_SENT)
    count = _library.bsc_encode(message.kind, ctypes.byref(content), sent, MAX_SENT)
    if count == 0:
        raise ValueError("not a message")
    return sent.raw[:count]


# ---- Stations and lines ---------------------------------------------------------------------------------------


class _Made:
    """What a handle of the library has. It is freed by close(), at the end of a with statement, or once nothing
    refers to it any more. Only the thread that made it uses it: on another one each call raises a RuntimeError."""

    _kind = ""

    def __init__(self, *arguments: object) -> None:
        self._thread = get_ident()
        self._handle = _Handle()
        self._at = ctypes.byref(self._handle)
        self._functions = _functions[self._kind]
        self._buffer = ctypes.create_string_buffer(MAX_SENT)
        self._octets = memoryview(self._buffer)
        self._len = ctypes.c_size_t()
        self._out = (self._buffer, MAX_SENT, ctypes.byref(self._len))
        self._count = ctypes.c_size_t()
        self._count_at = ctypes.byref(self._count)
        self._call("new", *arguments)

    def _call(self, name: str, *arguments: object) -> None:
        if get_ident() != self._thread:
            raise RuntimeError("made by another thread")
        error = self._functions[name](self._at, *arguments)
        if error:
            raise Fault(error)

    def _filled(self, name: str, *arguments: object) -> bytes:
        """What a call puts into a buffer."""
        self._call(name, *arguments, *self._out)
        return self._octets[:self._len.value].tobytes()

    def _counted(self, name: str, *arguments: object) -> int:
        """The number that a call tells."""
        self._call(name, *arguments, self._count_at)
        return self._count.value

    def _sending(self, name: str, *arguments: object) -> Sending:
        sending = _Sending()
        self._call(name, *arguments, ctypes.byref(sending))
        return Sending(sending.offered, sending.known, sending.in_doubt != 0)

    def _kept(self, *arguments: object) -> Kept:
        kept = _Kept()
        self._call("kept", *arguments, ctypes.byref(kept))
        return Kept(kept.known, kept.doubt)

    def close(self) -> None:
        """Frees it. Each call after that but this one raises a Fault, NOT_MADE."""
        if self._handle.kind != 0:
            self._call("free")

    def __enter__(self):
        return self

    def __exit__(self, *_: object) -> None:
        self.close()

    def __del__(self) -> None:
        # What is no longer referred to may be collected on any thread.
        if getattr(self, "_thread", None) == get_ident():
            self.close()


class _Station(_Made):
    """What a terminal and a control station have in common."""

    def hear(self, octets: bytes) -> bytes:
        """Hears octets as one transmission; octets that spell no message, also none, are noise. Gives what the
        station sends: nothing if it stays quiet. Records that arrived by this are there before the octets that
        acknowledge them are sent, so that they can be stored first."""
        octets = _octets(octets)
        return self._filled("hear", octets, len(octets))

    def silence(self) -> bytes:
        """Tells the station that nothing was heard for the time of a time-out. Gives what it sends."""
        return self._filled("silence")

    def restart(self) -> None:
        """Lets the station begin again, as after the end of its process, with its records and its doubts."""
        self._call("restart")


class Terminal(_Station):
    """A terminal: a station that is polled and selected."""

    _kind = "terminal"

    def __init__(self, setup: Setup, addresses: Addresses) -> None:
        super().__init__(ctypes.byref(_setup(setup)), ctypes.byref(_addresses(addresses)))

    def offer(self, record: bytes) -> None:
        """Offers a record, which is sent when the terminal is polled."""
        record = _octets(record)
        self._call("offer", record, len(record))

    def sending(self) -> Sending:
        """Tells how far the terminal is with the records that were offered."""
        return self._sending("sending")

    def arrivals(self, select: int = 0) -> int:
        """Tells how many records arrived for a selection address."""
        return self._counted("arrivals", _size(select))

    def arrived(self, index: int, select: int = 0) -> bytes:
        """Gives a record that arrived for a selection address."""
        return self._filled("arrived", _size(select), _size(index))

    def records(self, select: int = 0) -> List[bytes]:
        """Gives all records that arrived for a selection address."""
        return [self.arrived(index, select) for index in range(self.arrivals(select))]

    def release(self, count: int) -> None:
        """Ends a doubt: the control station has this number of records of the terminal."""
        self._call("release", _size(count))

    def ready(self, ready: bool = True) -> None:
        """Sets whether the terminal accepts selections; if not, it answers them by NAK."""
        self._call("ready", 1 if ready else 0)

    def urgent(self) -> None:
        """Asks for the line: the terminal replies RVI to the next text that it takes."""
        self._call("urgent")

    def kept(self) -> Kept:
        """Tells what is to be kept of the terminal now. A new one to which the same records are offered, those that
        arrived are given by keep_arrived, and then this is recalled, is the restarted one."""
        return self._kept()

    def keep_arrived(self, record: bytes, select: int = 0) -> None:
        """Adds a record that had arrived for a selection address before."""
        record = _octets(record)
        self._call("keep_arrived", _size(select), record, len(record))

    def recall(self, kept: Kept) -> None:
        """Recalls what was kept."""
        self._call("recall", ctypes.byref(_Kept(*map(_size, kept))))


class _OfTerminals(_Made):
    """What is made for terminals, which are polled in the order of the entries of a poll list."""

    def __init__(self, setup: Setup, terminals: Sequence[Addresses], poll_list: Sequence[int]) -> None:
        stored = (_Addresses * len(terminals))(*map(_addresses, terminals))
        # No terminal has the number 255.
        entries = bytes(entry if 0 <= entry <= 255 else 255 for entry in poll_list)
        super().__init__(ctypes.byref(_setup(setup)), stored, len(terminals), entries, len(entries))


class Control(_OfTerminals, _Station):
    """A control station, which polls and selects the terminals of a line. The first silence has it make its first
    call. Its time-out is tries + 2 times that of a terminal."""

    _kind = "control"

    def offer(self, terminal: int, record: bytes, select: int = 0) -> None:
        """Offers a record for a selection address of a terminal."""
        record = _octets(record)
        self._call("offer", _size(terminal), _size(select), record, len(record))

    def sending(self, terminal: int, select: int = 0) -> Sending:
        """Tells how far the control station is with the records for a selection address of a terminal."""
        return self._sending("sending", _size(terminal), _size(select))

    def arrivals(self, terminal: int) -> int:
        """Tells how many records arrived from a terminal."""
        return self._counted("arrivals", _size(terminal))

    def arrived(self, terminal: int, index: int) -> bytes:
        """Gives a record that arrived from a terminal."""
        return self._filled("arrived", _size(terminal), _size(index))

    def records(self, terminal: int) -> List[bytes]:
        """Gives all records that arrived from a terminal."""
        return [self.arrived(terminal, index) for index in range(self.arrivals(terminal))]

    def release(self, terminal: int, count: int, select: int = 0) -> None:
        """Ends a doubt: the terminal has this number of records for the selection address."""
        self._call("release", _size(terminal), _size(select), _size(count))

    def urgent(self, terminal: int) -> None:
        """Asks a terminal for the line: the control station replies RVI to the next text that it takes from it."""
        self._call("urgent", _size(terminal))

    def set_polled(self, terminal: int, polled: bool = True) -> None:
        """Sets whether a terminal is polled; if not, its entries of the poll list are passed over."""
        self._call("set_polled", _size(terminal), 1 if polled else 0)

    def kept(self, terminal: int, select: int = 0) -> Kept:
        """Tells what is to be kept of what is sent to a selection address of a terminal."""
        return self._kept(_size(terminal), _size(select))

    def keep_arrived(self, terminal: int, record: bytes) -> None:
        """Adds a record that had arrived from a terminal before."""
        record = _octets(record)
        self._call("keep_arrived", _size(terminal), record, len(record))

    def recall(self, terminal: int, kept: Kept, select: int = 0) -> None:
        """Recalls what was kept of what is sent to a selection address of a terminal."""
        self._call("recall", _size(terminal), _size(select), ctypes.byref(_Kept(*map(_size, kept))))


class Line(_OfTerminals):
    """A control station, its terminals, and the transmission that is pending between them. What happens on the line
    is the program's to say. In names, "at" and "from" mean the end of a terminal and the records from it, "for" and
    "to" the end of the control station and the records to a selection address of a terminal."""

    _kind = "line"

    def offer_at(self, terminal: int, record: bytes) -> None:
        """Offers a record at a terminal."""
        record = _octets(record)
        self._call("offer_at", _size(terminal), record, len(record))

    def offer_for(self, terminal: int, record: bytes, select: int = 0) -> None:
        """Offers a record at the control station, for a selection address of a terminal."""
        record = _octets(record)
        self._call("offer_for", _size(terminal), _size(select), record, len(record))

    def carry(self, octets: bytes) -> None:
        """Has what is pending heard as these octets, by all stations that hear it."""
        octets = _octets(octets)
        self._call("carry", octets, len(octets))

    def carry_sent(self) -> None:
        """Has what is pending heard as it was sent."""
        self._call("carry_sent")

    def carry_each(self, hearings: Sequence[Optional[bytes]]) -> None:
        """Has each terminal hear its own item of what the control station sent: octets, or None for nothing."""
        items = [None if item is None else _octets(item) for item in hearings]
        lengths = [_SIZE_MAX if item is None else len(item) for item in items]
        octets = b"".join(item for item in items if item is not None)
        self._call("carry_each", octets, len(octets), (ctypes.c_size_t * len(lengths))(*lengths), len(lengths))

    def lose(self) -> None:
        """Has what is pending lost: nobody hears it."""
        self._call("lose")

    def silence(self) -> None:
        """Has nothing heard for the time of a time-out."""
        self._call("silence")

    def ready(self, terminal: int, ready: bool = True) -> None:
        """Sets whether a terminal accepts selections."""
        self._call("ready", _size(terminal), 1 if ready else 0)

    def set_polled(self, terminal: int, polled: bool = True) -> None:
        """Sets whether the control station polls a terminal."""
        self._call("set_polled", _size(terminal), 1 if polled else 0)

    def urgent_at(self, terminal: int) -> None:
        """Has a terminal ask the control station for the line."""
        self._call("urgent_at", _size(terminal))

    def urgent_for(self, terminal: int) -> None:
        """Has the control station ask a terminal for the line."""
        self._call("urgent_for", _size(terminal))

    def release_from(self, terminal: int) -> None:
        """Ends a terminal's doubt by the number of records that arrived at the control station."""
        self._call("release_from", _size(terminal))

    def release_to(self, terminal: int, select: int = 0) -> None:
        """Ends the control station's doubt by the number of records that arrived at a selection address."""
        self._call("release_to", _size(terminal), _size(select))

    def restart_control(self) -> None:
        """Lets the control station begin again with its records and its doubts."""
        self._call("restart_control")

    def restart_terminal(self, terminal: int) -> None:
        """Lets a terminal begin again with its records and its doubt."""
        self._call("restart_terminal", _size(terminal))

    def trusted(self) -> bool:
        """Tells whether all transmissions so far were heard fairly."""
        trusted = ctypes.c_uint32()
        self._call("trusted", ctypes.byref(trusted))
        return trusted.value != 0

    def pending(self) -> Optional[Pending]:
        """Gives the transmission that nobody has heard yet, or None if nothing is pending."""
        try:
            self._call("pending", *self._out, self._count_at)
        except Fault as fault:
            if fault.number is Error.NOTHING_SENT:
                return None
            raise
        return Pending(self._count.value, self._octets[:self._len.value].tobytes())

    def sending_from(self, terminal: int) -> Sending:
        """Tells how far a terminal is with its records."""
        return self._sending("sending_from", _size(terminal))

    def sending_to(self, terminal: int, select: int = 0) -> Sending:
        """Tells how far the control station is with the records for a selection address of a terminal."""
        return self._sending("sending_to", _size(terminal), _size(select))

    def arrivals_from(self, terminal: int) -> int:
        """Tells how many records arrived at the control station from a terminal."""
        return self._counted("arrivals_from", _size(terminal))

    def arrivals_to(self, terminal: int, select: int = 0) -> int:
        """Tells how many records arrived at a terminal for a selection address."""
        return self._counted("arrivals_to", _size(terminal), _size(select))

    def arrived_from(self, terminal: int, index: int) -> bytes:
        """Gives a record that arrived at the control station from a terminal."""
        return self._filled("arrived_from", _size(terminal), _size(index))

    def arrived_to(self, terminal: int, index: int, select: int = 0) -> bytes:
        """Gives a record that arrived at a terminal for a selection address."""
        return self._filled("arrived_to", _size(terminal), _size(select), _size(index))

    def records_from(self, terminal: int) -> List[bytes]:
        """Gives all records that arrived at the control station from a terminal."""
        return [self.arrived_from(terminal, index) for index in range(self.arrivals_from(terminal))]

    def records_to(self, terminal: int, select: int = 0) -> List[bytes]:
        """Gives all records that arrived at a terminal for a selection address."""
        return [self.arrived_to(terminal, index, select) for index in range(self.arrivals_to(terminal, select))]
