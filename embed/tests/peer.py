"""The peer of terminal.c or control.c, which loses the first text or the first call that it hears.

    python3 peer.py control PORT POLL SELECT < records    listens for terminal.c
    python3 peer.py terminal PORT POLL SELECT < records   connects to control.c

It prints the records that arrive, and then how many transmissions it heard and how many silences passed."""

import socket
import sys
import time

import bsc


def receive(stream: socket.socket, count: int) -> bytes:
    octets = b""
    while len(octets) < count:
        more = stream.recv(count - len(octets))
        if not more:
            raise EOFError
        octets += more
    return octets


def record(stream: socket.socket) -> bytes:
    """The octets of the next socket record; none after a time-out."""
    try:
        head = stream.recv(1)
    except socket.timeout:
        return b""
    if not head:
        raise EOFError
    return receive(stream, int.from_bytes(head + receive(stream, 1), "big"))


def listen(port: int) -> socket.socket:
    with socket.create_server(("127.0.0.1", port)) as listener:
        return listener.accept()[0]


def connect(port: int) -> socket.socket:
    for _ in range(100):
        try:
            return socket.create_connection(("127.0.0.1", port))
        except ConnectionRefusedError:
            time.sleep(0.05)
    sys.exit("peer.py: nobody is there")


def main(role: str, port: str, poll: str, select: str) -> None:
    addresses = bsc.Addresses(poll.encode(), [select.encode()])
    records = [text.rstrip(b"\n") for text in sys.stdin.buffer]
    if role == "control":
        station, stream, lost = bsc.Control(bsc.Setup(), [addresses], [0]), listen(int(port)), bsc.Kind.TEXT
        for each in records:
            station.offer(0, each)
    else:
        station, stream, lost = bsc.Terminal(bsc.Setup(), addresses), connect(int(port)), bsc.Kind.CALL
        for each in records:
            station.offer(each)
    stream.settimeout(15 if role == "control" else 3)
    hearings = silences = polls = 0
    sent = station.silence() if role == "control" else b""
    try:
        while polls < 3:
            if sent:
                stream.sendall(len(sent).to_bytes(2, "big") + sent)
            polls = polls + 1 if role == "control" and bsc.decode(sent).kind is bsc.Kind.CALL else 0
            octets = record(stream)
            hearings += octets != b""
            silences += octets == b""
            if bsc.decode(octets).kind is lost:
                octets, lost, sent = b"", None, b""
            else:
                sent = station.hear(octets) if octets else station.silence()
    except (EOFError, ConnectionResetError):
        pass
    for each in station.records(0):
        print(each.decode())
    print(f"heard {hearings}, silences {silences}", file=sys.stderr)
    stream.close()
    station.close()


if __name__ == "__main__":
    main(*sys.argv[1:])
