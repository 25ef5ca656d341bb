"""A whole line in one process: plays the events of a script on the line of a configuration, and prints what
`bscline run CONFIG SCRIPT` prints.

    python3 line.py CONFIG SCRIPT

Both are read as far as those of examples/ need it; docs/BSCLINE.md has the forms."""

import ast
import sys
from typing import Callable, Dict, List, Optional, Tuple

import bsc

Config = Tuple[bsc.Setup, List[bsc.Addresses], List[int]]


def read_config(path: str) -> Config:
    """Reads a configuration in which each key has a line of its own."""
    line: Dict[str, object] = {}
    terminals: List[Dict[str, object]] = []
    with open(path, encoding="utf-8") as file:
        for text in file:
            key, equals, value = text.partition("=")
            if text.startswith("[[terminals]]"):
                terminals.append({})
            elif equals and not text.startswith("#"):
                (terminals[-1] if terminals else line)[key.strip()] = ast.literal_eval(value.strip())
    setup = bsc.Setup(**{key: line[key] for key in bsc.Setup._fields if key in line})
    return setup, [addresses(terminal) for terminal in terminals], list(line["poll_list"])


def addresses(terminal: Dict[str, object]) -> bsc.Addresses:
    selects = terminal["select"]
    selects = [selects] if isinstance(selects, str) else selects
    return bsc.Addresses(terminal["poll"].encode(), [select.encode() for select in selects])


def name(octets: bytes) -> str:
    """The name of a transmission."""
    heard = bsc.decode(octets)
    if heard.kind is bsc.Kind.CALL:
        return f"CALL {heard.address.decode()}"
    if heard.kind is bsc.Kind.TEXT:
        return f"TEXT {'ETB' if heard.end == bsc.ETB else 'ETX'} {len(heard.units)}"
    return heard.kind.name


def print_pending(line: bsc.Line) -> None:
    pending = line.pending()
    if pending is None:
        print("quiet")
    elif pending.sender == bsc.CONTROL:
        print("control", name(pending.octets))
    else:
        print("terminal", pending.sender, name(pending.octets))


def print_channel(title: str, sending: bsc.Sending, records: List[bytes]) -> None:
    doubt = ", in doubt" if sending.in_doubt else ""
    print(f"{title}: offered {sending.offered}, known {sending.known}, spooled {len(records)}{doubt}")
    for record in records:
        print(" ", record.hex() or "-")


def print_report(line: bsc.Line, terminals: List[bsc.Addresses]) -> None:
    for number, terminal in enumerate(terminals):
        print_channel(f"from {number}", line.sending_from(number), line.records_from(number))
        for select in range(len(terminal.selects)):
            title = f"to {number}" if len(terminal.selects) == 1 else f"to {number}.{select}"
            print_channel(title, line.sending_to(number, select), line.records_to(number, select))
    print("trusted" if line.trusted() else "not trusted")


def carry(line: bsc.Line) -> None:
    """What is pending is heard as the octets that were sent."""
    pending = line.pending()
    line.carry(b"" if pending is None else pending.octets)


def hearing(word: str) -> Optional[bytes]:
    return None if word == "-" else bytes.fromhex(word)


def release(line: bsc.Line, terminal: str, way: str, select: str = "0") -> None:
    if way == "from":
        line.release_from(int(terminal))
    else:
        line.release_to(int(terminal), int(select))


# What each event does, by its keyword: with the line and the words after it.
EVENTS: Dict[str, Callable[..., None]] = {
    "carry": carry,
    "lose": bsc.Line.lose,
    "silence": bsc.Line.silence,
    "heard": lambda line, *words: line.carry(bytes.fromhex("".join(words))),
    "heard-each": lambda line, *words: line.carry_each([hearing(word) for word in words]),
    "ready": lambda line, terminal: line.ready(int(terminal)),
    "unready": lambda line, terminal: line.ready(int(terminal), False),
    "poll-on": lambda line, terminal: line.set_polled(int(terminal)),
    "poll-off": lambda line, terminal: line.set_polled(int(terminal), False),
    "urgent-at": lambda line, terminal: line.urgent_at(int(terminal)),
    "urgent-for": lambda line, terminal: line.urgent_for(int(terminal)),
    "release": release,
}
TURNS = {"carry", "lose", "silence", "heard", "heard-each"}


def play(line: bsc.Line, text: str) -> None:
    """Plays the event of a line of the script."""
    keyword, _, rest = text.partition(" ")
    if keyword in ("offer-at", "offer-for"):
        terminal, _, record = rest.partition(" ")
        offer = line.offer_at if keyword == "offer-at" else line.offer_for
        offer(int(terminal), record.encode("latin-1"))
    elif keyword == "offer-to":
        terminal, _, rest = rest.partition(" ")
        select, _, record = rest.partition(" ")
        line.offer_for(int(terminal), record.encode("latin-1"), int(select))
    else:
        EVENTS[keyword](line, *rest.split())
    if keyword in TURNS:
        print_pending(line)


def main(config: str, script: str) -> int:
    setup, terminals, poll_list = read_config(config)
    status = 0
    with bsc.Line(setup, terminals, poll_list) as line, open(script, encoding="latin-1", newline="\n") as file:
        for number, text in enumerate(file, 1):
            text = text.rstrip("\r\n")
            try:
                if text and not text.startswith("#"):
                    play(line, text)
            except bsc.Fault as fault:
                print(f"line.py: script line {number}: refused: {fault}", file=sys.stderr)
                status = 3
                break
        print_report(line, terminals)
    return status


if __name__ == "__main__":
    if len(sys.argv) != 3:
        sys.exit("usage: line.py CONFIG SCRIPT")
    sys.exit(main(*sys.argv[1:]))
