"""What bsc.py does beside the library: numbers that C has no room for, bytes of other types, faults as exceptions,
threads, and freeing."""

import gc
import threading
import unittest

import bsc

TERMINALS = [bsc.Addresses(b"A", [b"a", b"c"]), bsc.Addresses(b"B", [b"b"])]
HUGE = [-(2**64), 2**64, 2**64 + 1, 2**200]


class Faults(unittest.TestCase):
    def refused(self, number, call, *arguments):
        with self.assertRaises(bsc.Fault) as caught:
            call(*arguments)
        self.assertIs(caught.exception.number, number)
        self.assertTrue(str(caught.exception))

    def line(self, setup=bsc.Setup(), terminals=TERMINALS, poll_list=(0, 1)):
        line = bsc.Line(setup, terminals, poll_list)
        self.addCleanup(line.close)
        return line

    def test_settings(self):
        for huge in HUGE:
            self.refused(bsc.Error.WRONG_FULL, self.line, bsc.Setup(full=huge + 80))
            self.refused(bsc.Error.WRONG_BLOCK_CHARS, self.line, bsc.Setup(block_chars=huge + 400))
            self.refused(bsc.Error.WRONG_TRIES, self.line, bsc.Setup(tries=huge + 256))
            self.refused(bsc.Error.WRONG_WAITS, self.line, bsc.Setup(waits=huge + 256))

    def test_addresses(self):
        for count in (0, 5, 256, 257, 260):
            terminal = bsc.Addresses(b"A", [b"%d" % number for number in range(count)])
            self.refused(bsc.Error.WRONG_SELECTS, bsc.Terminal, bsc.Setup(), terminal)
        for address in (b"", b"12345678", b"1" * 256, b"1" * 257, b"a b"):
            self.refused(bsc.Error.WRONG_ADDRESS, bsc.Terminal, bsc.Setup(), bsc.Addresses(b"A", [address]))
        for entry in HUGE + [-1, 2, 256]:
            self.refused(bsc.Error.WRONG_POLL_LIST, self.line, bsc.Setup(), TERMINALS, [0, entry])
        self.refused(bsc.Error.NO_TERMINAL, self.line, bsc.Setup(), [], [])
        self.refused(bsc.Error.EMPTY_POLL_LIST, self.line, bsc.Setup(), TERMINALS, [])

    def test_numbers(self):
        line = self.line()
        for huge in HUGE + [-1, 2]:
            self.refused(bsc.Error.NO_SUCH_TERMINAL, line.offer_at, huge, b"")
            self.refused(bsc.Error.NO_SUCH_ADDRESS, line.offer_for, 0, b"", huge)
            self.refused(bsc.Error.NO_SUCH_RECORD, line.arrived_from, 0, huge)
            self.refused(bsc.Error.NO_SUCH_TERMINAL, line.ready, huge)
            self.refused(bsc.Error.NO_SUCH_TERMINAL, line.set_polled, huge)
        with bsc.Terminal(bsc.Setup(), TERMINALS[0]) as terminal:
            for huge in HUGE + [-1]:
                self.refused(bsc.Error.WRONG_KNOWN, terminal.recall, bsc.Kept(huge, 0))
                self.refused(bsc.Error.WRONG_DOUBT, terminal.recall, bsc.Kept(0, huge))
                self.refused(bsc.Error.NOT_IN_DOUBT, terminal.release, huge)

    def test_octets(self):
        line = self.line()
        for record in (b"HI", bytearray(b"HI"), memoryview(b"HI")):
            line.offer_at(0, record)
        for record in ("HI", None, 2, [72, 73]):
            with self.assertRaises(TypeError):
                line.offer_at(0, record)
        self.assertEqual(line.sending_from(0), bsc.Sending(3, 0, False))
        self.refused(bsc.Error.RECORD_TOO_LONG, line.offer_at, 0, b"X" * 81)
        self.refused(bsc.Error.WRONG_CHARACTER, line.offer_at, 0, b"\x80")

    def test_events(self):
        line = self.line()
        self.assertIsNone(line.pending())
        self.refused(bsc.Error.NOTHING_SENT, line.carry_sent)
        line.offer_at(0, b"HI\x00")
        line.silence()
        self.refused(bsc.Error.PENDING, line.silence)
        self.assertEqual(line.pending().sender, bsc.CONTROL)
        call = line.pending().octets
        self.assertEqual(bsc.decode(call), bsc.Heard(bsc.Kind.CALL, address=b"A"))
        self.assertEqual(bsc.encode(bsc.decode(call)), call)
        self.refused(bsc.Error.WRONG_COUNT, line.carry_each, [call])
        line.carry_each([call, call])
        self.assertEqual(line.pending().sender, 0)
        text = line.pending().octets
        self.assertEqual(bsc.decode(text).units, (bsc.Unit(b"HI\x00", True),))
        self.assertEqual(bsc.encode(bsc.decode(text)), text)
        self.refused(bsc.Error.NOT_CONTROL, line.carry_each, [None, None])
        line.carry(bytearray(text))
        self.assertEqual(line.records_from(0), [b"HI\x00"])
        with self.assertRaises(ValueError):
            bsc.encode(bsc.Heard(bsc.Kind.TEXT))

    def test_freeing(self):
        line = self.line()
        line.close()
        line.close()
        self.refused(bsc.Error.NOT_MADE, line.silence)
        with bsc.Control(bsc.Setup(), TERMINALS, [0, 1]) as control:
            control.silence()
        self.refused(bsc.Error.NOT_MADE, control.silence)
        for _ in range(100):
            bsc.Line(bsc.Setup(), TERMINALS, [0])
        gc.collect()

    def test_threads(self):
        line = self.line()
        caught = []

        def use():
            try:
                line.silence()
            except RuntimeError as error:
                caught.append(error)

        thread = threading.Thread(target=use)
        thread.start()
        thread.join()
        self.assertEqual(len(caught), 1)
        self.assertIsNone(line.pending())


if __name__ == "__main__":
    unittest.main()
