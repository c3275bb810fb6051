"""Tests library/n2kdec: N2KDEC_PROGRAM is the program, N2KDEC_LIBRARY the library."""
import ast
import asyncio
import collections
import collections.abc
import concurrent.futures
import contextlib
import copy
import dis
import enum
import gc
import hashlib
import io
import itertools
import json
import os
import pathlib
import pickle
import random
import re
import shutil
import subprocess
import sys
import tempfile
import threading
import time
import unittest
import unittest.mock
import warnings
from decimal import Decimal

import n2kdec

ROOT = pathlib.Path(__file__).resolve().parents[2]
sys.path.append(str(ROOT / "tests/random"))
PROGRAM = os.environ["N2KDEC_PROGRAM"]
TABLE, TRIP = ROOT / "tables/n2k.toml", ROOT / "examples/trip.log"
SAMPLE = ROOT / "examples/sample.toml"
# A line of `candump -L` that is a frame for `frame`.
FRAME = re.compile(rb"\((\d+\.\d{6})\) can0 ([01][0-9A-F]{7})#((?:[0-9A-F]{2}){0,8})\n")
RETURN = dis.opmap["RETURN_VALUE"]


def program(*words, log=b""):
    """The program's output, reports and status."""
    return subprocess.run([PROGRAM, *map(str, words)], input=log, capture_output=True, check=False)


class Decoding(unittest.TestCase):
    def test_messages_are_those_of_the_program(self):
        wanted = program("decode", "--in-order", "--table", TABLE, TRIP)
        reports = []
        with TRIP.open("rb") as log:
            got = list(n2kdec.decode(log, table=TABLE, in_order=True, on_report=reports.append))
        self.assertEqual(got, [json.loads(it) for it in wanted.stdout.splitlines()])
        self.assertEqual(reports, wanted.stderr.decode().splitlines()[:-1])

    def test_any_pieces(self):
        log = TRIP.read_bytes()
        wanted = program("decode", "--empty", "--table", TABLE, TRIP).stdout
        for size in (1, 7, 100, len(log)):
            decoder = n2kdec.Decoder(TABLE.read_bytes(), empty=True)
            printed = b""
            for at in range(0, len(log), size):
                decoder.feed(log[at : at + size])
                printed += decoder.take()
            decoder.end()
            self.assertEqual(printed + decoder.take(), wanted)

    def test_numbers_are_exact(self):
        with TRIP.open("rb") as log:
            first = next(n2kdec.decode(log, table=TABLE, decimals=True))
        self.assertEqual(str(first["fields"]["Latitude"]), "54.8552841")
        self.assertIsInstance(first["fields"]["Latitude"], Decimal)

    def test_a_message_comes_with_its_last_line(self):
        lines = TRIP.read_bytes().splitlines(True)
        fed = []

        def one_by_one():
            for line in lines:
                fed.append(line)
                yield line

        for count, message in enumerate(n2kdec.decode(one_by_one(), table=TABLE), 1):
            wanted = program("decode", "--table", TABLE, log=b"".join(fed)).stdout.splitlines()
            self.assertEqual(json.loads(wanted[count - 1]), message)
            if count == 5:
                break
        self.assertLess(len(fed), len(lines))

    def test_a_state_goes_both_ways(self):
        lines = TRIP.read_bytes().splitlines(True)
        whole = program("decode", "--table", TABLE, TRIP).stdout
        for cut in (1, 17, 60):
            first, rest = b"".join(lines[:cut]), b"".join(lines[cut:])
            with n2kdec.Decoder(TABLE) as decoder:
                decoder.feed(first)
                printed, state = decoder.take(), decoder.save()
            with tempfile.TemporaryDirectory() as folder:
                saved = pathlib.Path(folder, "state")
                saved.write_bytes(state)
                self.assertEqual(printed + program("decode", "--table", TABLE, "--resume", saved, log=rest).stdout, whole)
                program("decode", "--table", TABLE, "--save", saved, log=first)
                self.assertEqual(saved.read_bytes(), state)
            with n2kdec.Decoder(TABLE, state=state) as decoder:
                decoder.feed(rest)
                decoder.end()
                self.assertEqual(printed + decoder.take(), whole)
                summary = "lines %d messages %d bad %d unknown %d broken %d open %d" % decoder.counts
            self.assertEqual(summary.encode(), program("decode", "--table", TABLE, TRIP).stderr.splitlines()[-1])

    def test_a_decoder_has_counts_and_state_at_the_end(self):
        log = (ROOT / "examples/two-sources.log").read_bytes().rstrip(b"\n")
        with n2kdec.Decoder(SAMPLE) as decoder:
            self.assertEqual(len(list(decoder.decode(io.BytesIO(log)))), 2)
            self.assertEqual(decoder.counts, (4, 2, 0, 0, 0, 0))
            self.assertEqual(json.loads(decoder.save())["lines"], 4)

    def test_sources(self):
        log = (ROOT / "examples/two-sources.log").read_bytes()
        wanted = [json.loads(it) for it in program("decode", "--table", SAMPLE, log=log).stdout.splitlines()]
        path = ROOT / "examples/two-sources.log"
        for source in (log, bytearray(log), memoryview(log), [log[:50], log[50:]], iter([log]), io.BufferedReader(io.BytesIO(log)),
                       path, str(path)):
            self.assertEqual(list(n2kdec.decode(source, table=SAMPLE)), wanted)
        for source in (io.StringIO("x"), ["x"], [1]):
            with self.assertRaises(TypeError):
                list(n2kdec.decode(source, table=SAMPLE))
        with self.assertRaises(FileNotFoundError):
            list(n2kdec.decode("no such log", table=SAMPLE))

    def wanted(self, log=None):
        """The messages of the trip, or of another log."""
        return [json.loads(it) for it in program("decode", "--table", TABLE, *([] if log else [TRIP]), log=log or b"").stdout.splitlines()]

    def test_nothing_is_lost_after_a_break(self):
        log, wanted = TRIP.read_bytes() * 30, self.wanted(TRIP.read_bytes() * 30)
        with tempfile.TemporaryDirectory() as folder:
            tape = pathlib.Path(folder, "tape")
            tape.write_bytes(log)
            sources = (lambda: log, lambda: TRIP, lambda: str(tape), lambda: io.BytesIO(log), lambda: iter([log[:100_000], log[100_000:]]))
            for stops in (1, 10, 47, 500):
                for make in sources:
                    source = make()
                    with n2kdec.Decoder(TABLE) as decoder:
                        seen = []
                        for message in decoder.decode(source):
                            seen.append(message)
                            if len(seen) == stops:
                                break
                        # The messages of a stream, which itself continues, and of the remaining input.
                        if not decoder.ended:
                            seen += decoder.decode(source if hasattr(source, "read") or hasattr(source, "__next__") else b"")
                        self.assertEqual(seen, wanted[: len(seen)])
                        self.assertEqual(len(seen), 48 if source is TRIP else len(wanted))
                        self.assertEqual(decoder.counts.messages, len(seen))

    def test_nothing_is_lost_where_the_body_raises(self):
        wanted, seen = self.wanted(), []
        with n2kdec.Decoder(TABLE) as decoder, TRIP.open("rb") as log:
            for _ in range(3):
                with self.assertRaises(OSError), open("/dev/full", "wb", buffering=0) as disk:
                    for message in decoder.decode(log):
                        seen.append(message)
                        disk.write(json.dumps(message).encode())
                with self.assertRaisesRegex(n2kdec.Error, "not all was handed on"):
                    decoder.save()
            self.assertEqual(seen, wanted[:3])
            messages = decoder.decode(log)
            seen += [next(messages), next(messages)]
            with self.assertRaisesRegex(n2kdec.Error, "not all was handed on"):
                decoder.save()
            seen += decoder.messages()
            state = decoder.save()
            seen += messages
            self.assertEqual((seen, decoder.counts.messages), (wanted, 48))
        with n2kdec.Decoder(TABLE, state=state) as decoder:
            self.assertEqual(decoder.counts.messages, 48)

    def test_what_waits_of_a_cut_line_is_told_and_fed_again(self):
        log, whole = TRIP.read_bytes(), program("decode", "--table", TABLE, TRIP).stdout
        for cut in (1, 50, log.index(b"\n") + 1, 3000):
            with n2kdec.Decoder(TABLE) as decoder:
                decoder.feed(log[:cut])
                pending, printed, state = decoder.pending, decoder.take(), decoder.save()
            self.assertEqual(pending, cut - log.rfind(b"\n", 0, cut) - 1)
            with n2kdec.Decoder(TABLE, state=state) as decoder:
                self.assertEqual(decoder.pending, 0)
                decoder.feed(log[cut - pending :])
                decoder.end()
                self.assertEqual((printed + decoder.take(), decoder.pending), (whole, 0))

    def test_what_was_left_is_taken_as_asked(self):
        printed = program("decode", "--table", TABLE, TRIP).stdout
        with n2kdec.Decoder(TABLE) as decoder:
            next(decoder.decode(TRIP.read_bytes()))
            self.assertIsInstance(next(decoder.decode(decimals=True))["fields"]["SID"], int)
            self.assertEqual(b"".join(printed.splitlines(True)[2:]), decoder.take())
        with n2kdec.Decoder(TABLE) as decoder:
            next(decoder.decode(TRIP.read_bytes()))
            numbers = [message["fields"]["Depth"] for message in decoder.messages(decimals=True) if message["pgn"] == 128267]
            self.assertEqual(numbers, [Decimal("3.42"), Decimal("4.22")])
        with n2kdec.Decoder(TABLE) as decoder:
            decoder.feed(TRIP.read_bytes())
            with self.assertRaisesRegex(n2kdec.Error, "not all was handed on"):
                decoder.save()
            decoder.messages()
            decoder.save()

    def test_a_report_is_not_lost_where_it_is_not_taken(self):
        log = (ROOT / "examples/ten-lines-eight-bad.log").read_bytes()
        wanted = program("decode", "--table", SAMPLE, log=log).stderr.decode().splitlines()[:-1]
        reports = []

        def first(report):
            reports.append(report)
            raise OSError

        with n2kdec.Decoder(SAMPLE) as decoder:
            with self.assertRaises(OSError):
                next(decoder.decode(log, on_report=first))
            self.assertEqual(reports + decoder.reports(), wanted)

    def test_the_table_of_the_package_is_the_shipped_one(self):
        self.assertEqual(list(n2kdec.decode(TRIP)), self.wanted())
        with n2kdec.Decoder() as decoder:
            self.assertEqual(json.loads(decoder.save())["table"], hashlib.sha256(TABLE.read_bytes()).hexdigest())

    def test_frames_of_python_can(self):
        """A frame, made by hand, gives the same as its candump line; other lines of candump are skipped."""
        Frame = collections.namedtuple("Frame", "timestamp arbitration_id data is_extended_id is_error_frame is_remote_frame is_fd",
                                       defaults=(True, False, False, False))
        data = bytes.fromhex("01D6A93D3200FFFF")
        frames = [Frame(1751608800.114, 0x09F80203, data), Frame(1751608800.5, 0x123, b"x", False), Frame(1.0, 4, bytes(8), True, True),
                  Frame(2.0, 0x09F80203, b"", True, False, True), Frame(3.0, 0x09F80203, data, True, False, False, True),
                  Frame(-1.0, 0x09F80203, data)]
        log = (b"(1751608800.114000) can0 09F80203#01D6A93D3200FFFF\n(1751608800.500000) can0 123#78\n"
               b"(1.000000) can0 20000004#0000000000000000\n(2.000000) can0 09F80203#R\n"
               b"(3.000000) can0 09F80203##001D6A93D3200FFFF\n(-1.000000) can0 09F80203#01D6A93D3200FFFF\n")
        reports = []
        messages = list(n2kdec.decode(iter(frames), on_report=reports.append))
        wanted = program("decode", "--table", TABLE, log=log)
        self.assertEqual(messages, [json.loads(it) for it in wanted.stdout.splitlines()])
        self.assertEqual((len(messages), messages[0]["timestamp"], messages[0]["fields"]["SOG"]), (1, "2025-07-04T06:00:00.114Z", 0.5))
        with n2kdec.Decoder() as decoder:
            # What is no frame is refused, and the next is taken.
            source = iter([frames[0]._replace(timestamp=None), frames[0]._replace(arbitration_id="x"), frames[0]])
            for _ in range(2):
                with self.assertRaises((TypeError, ValueError)):
                    list(decoder.decode(source))
            self.assertEqual((list(decoder.decode(source)), decoder.received), (messages, 1))
        self.assertEqual(reports, ["line 6 bad B2 stamp"])
        self.assertEqual(reports, wanted.stderr.decode().splitlines()[:-1])
        # Debian's python3-can warns as it is imported by Python 3.11.
        with warnings.catch_warnings():
            warnings.simplefilter("ignore")
            try:
                import can
            except ImportError:
                print("left out for want of python3-can: frames of its bus", file=sys.stderr)
                return
        with can.Bus("n2kdec", interface="virtual") as bus, can.Bus("n2kdec", interface="virtual") as other:
            other.send(can.Message(timestamp=1751608800.114, arbitration_id=0x09F80203, data=data))
            [message] = n2kdec.decode([bus.recv(10)])
            self.assertEqual(message["fields"], messages[0]["fields"])

    def test_frames_without_text(self):
        """`frame` gives the same as the candump line, to the millisecond."""
        data = bytes.fromhex("01D6A93D3200FFFF")
        times = (0, 0.9996, 1751608800.1149996, 253402300799.0, 1.0000004)
        with n2kdec.Decoder() as frames, n2kdec.Decoder() as lines:
            for time in times:
                frames.frame(0x09F80203, data, time)
                lines.feed(f"({time:.6f}) can0 09F80203#{data.hex()}\n".encode())
            self.assertEqual((frames.take(), frames.counts, frames.received), (lines.take(), lines.counts, len(times)))
            for wrong in ((1 << 29, data, 0), (-1, data, 0), (4, bytes(9), 0), (4, data, -1), (4, data, 253402300800)):
                with self.assertRaises(n2kdec.ArgumentError) as raised:
                    frames.frame(*wrong)
                self.assertEqual(raised.exception.status, 9)
            for wrong in ((1.5, data, 0), ("4", data, 0), (4, 8, 0), (4, data, None)):
                with self.assertRaises(TypeError):
                    frames.frame(*wrong)
            frames.feed(b"(1.0")
            with self.assertRaises(n2kdec.Error) as refused:
                frames.frame(0x09F80203, data, 1)
            self.assertEqual((refused.exception.status, frames.pending, frames.counts.lines), (10, 4, len(times)))
            frames.feed(b") can0 09F80203#\n")
            self.assertEqual(frames.counts.lines, len(times) + 1)

    def test_a_library_of_another_version_is_refused(self):
        for version, is_right in ((10000, False), (20100, False), (10100, True), (10200, True)):
            with tempfile.TemporaryDirectory() as folder:
                name = str(pathlib.Path(folder, "libn2kdec.so.1"))
                code = f"int n2k_version(void) {{ return {version}; }}\n"
                calls = "open open_sharing feed end take frame take_reports save counts waiting close table status_text".split()
                code += "".join(f"int n2k_{call}(void) {{ return 0; }}\n" for call in calls)
                subprocess.run(["cc", "-shared", "-fPIC", "-o", name, "-x", "c", "-"], input=code.encode(), check=True)
                loads = subprocess.run([sys.executable, "-c", "import n2kdec; n2kdec._load()"], env={**os.environ, "N2KDEC_LIBRARY": name},
                                       stderr=subprocess.PIPE, text=True, check=False)
                self.assertEqual(loads.returncode == 0, is_right, loads.stderr)
                self.assertTrue(is_right or "this package needs 1.1.0 or a later 1.x" in loads.stderr, loads.stderr)

    def test_a_pipe_is_read_as_it_comes(self):
        line = (ROOT / "examples/cog-and-sog.log").read_bytes()
        reads, writes = os.pipe()
        with os.fdopen(reads, "rb") as stream, os.fdopen(writes, "wb", buffering=0) as pipe:
            messages = n2kdec.decode(stream, table=SAMPLE)
            for _ in range(3):
                pipe.write(line)
                self.assertEqual(next(messages)["pgn"], 129026)

    def test_reports_come_or_are_dropped(self):
        log = (ROOT / "examples/ten-lines-eight-bad.log").read_bytes()
        wanted = program("decode", "--table", SAMPLE, log=log).stderr.decode().splitlines()[:-1]
        reports = []
        with n2kdec.Decoder(SAMPLE) as decoder:
            list(decoder.decode(log, on_report=reports.append))
        self.assertEqual(reports, wanted)
        with n2kdec.Decoder(SAMPLE) as decoder:
            list(decoder.decode(log))
            self.assertEqual(decoder.reports(), [])

    def test_bytes_are_fed_in_pieces(self):
        log = TRIP.read_bytes() * 200
        count = 0
        for message in n2kdec.decode(log, table=TABLE):
            count += 1
            self.assertEqual(message["pgn"], 129025)
            break
        with n2kdec.Decoder(TABLE) as decoder:
            next(decoder.decode([log]))
            self.assertLess(decoder.counts.lines, 2000)

    def test_an_error_and_a_decoder_beside_pickle(self):
        for call in (lambda: n2kdec.Decoder(b"format = 1\nx = 1\n"), lambda: n2kdec.Decoder(SAMPLE, window=31)):
            with self.assertRaises(n2kdec.ArgumentError) as caught:
                call()
            error = pickle.loads(pickle.dumps(caught.exception))
            self.assertEqual((str(error), error.status), (str(caught.exception), caught.exception.status))
        with n2kdec.Decoder(SAMPLE) as decoder:
            for copies in (copy.copy, copy.deepcopy, pickle.dumps):
                with self.assertRaisesRegex(TypeError, "save its state"):
                    copies(decoder)

    def test_what_is_refused_is_raised_at_once(self):
        with self.assertRaises(n2kdec.Error):
            n2kdec.decode(b"", table=b"[")
        with self.assertRaises(FileNotFoundError):
            n2kdec.decode(b"", table="no such table")

    def test_decoders_go_from_thread_to_thread_in_random_pieces_and_frames_and_from_states(self):
        """N2KDEC_RUNS is the number of passes over a log: eight decoders, each step by another one of four threads.

        N2KDEC_LOGS is a folder of other logs.
        """
        logs = [TRIP, ROOT / "examples/two-sources.log", ROOT / "examples/repeat-breaks.log", ROOT / "examples/ten-lines-eight-bad.log"]
        if "N2KDEC_LOGS" in os.environ:
            logs = sorted(pathlib.Path(os.environ["N2KDEC_LOGS"]).glob("*.log"))
        wanted = {log: program("decode", "--table", SAMPLE, log) for log in logs}

        def differs(seed):
            """Yields None after each step, and at the end whether something differs."""
            chance, log = random.Random(seed), logs[seed % len(logs)]
            data, most, at = log.read_bytes(), 1 << chance.randrange(1, 14), 0
            decoder, printed, reports = n2kdec.Decoder(SAMPLE), b"", []
            while at < len(data):
                line = FRAME.match(data, at)
                if line and not decoder.pending and chance.random() < 0.5:
                    decoder.frame(int(line[2], 16), bytes.fromhex(line[3].decode()), float(line[1]))
                    at = line.end()
                else:
                    piece = data[at : at + chance.randrange(1, most + 1)]
                    at += len(piece)
                    decoder.feed(piece)
                yield None
                printed, reports = printed + decoder.take(), reports + decoder.reports()
                if chance.random() < 0.2:
                    again, state = decoder.pending, decoder.save()
                    # The other half is closed as it is dropped.
                    if chance.random() < 0.5:
                        decoder.close()
                    decoder = n2kdec.Decoder(SAMPLE, state=state)
                    yield None
                    decoder.feed(data[at - again : at])
            decoder.end()
            yield None
            printed, reports = printed + decoder.take(), reports + decoder.reports()
            reports.append("lines %d messages %d bad %d unknown %d broken %d open %d" % decoder.counts)
            yield (printed, reports) != (wanted[log].stdout, wanted[log].stderr.decode().splitlines())

        count, results = int(os.environ.get("N2KDEC_RUNS", 12)), []
        new = iter(range(count))
        idle = [differs(seed) for seed in itertools.islice(new, 8)]
        with contextlib.ExitStack() as stack:
            pools = [stack.enter_context(concurrent.futures.ThreadPoolExecutor(1)) for _ in range(4)]
            for turn in itertools.count():
                steps = [pools[(at + turn) % 4].submit(next, run) for at, run in enumerate(idle)]
                for at, step in reversed(list(enumerate(steps))):
                    if step.result() is not None:
                        results.append(step.result())
                        idle[at : at + 1] = [differs(seed) for seed in itertools.islice(new, 1)]
                if not idle:
                    break
        self.assertEqual(results, [False] * count)

    def test_asyncio_calls_it_in_threads(self):
        log, reports = TRIP.read_bytes(), []

        async def printed(decoder):
            lines = []
            for at in range(0, len(log), 1000):
                await asyncio.to_thread(decoder.feed, log[at : at + 1000])
                lines.append(await asyncio.to_thread(decoder.take))
            await asyncio.to_thread(decoder.end)
            return b"".join([*lines, await asyncio.to_thread(decoder.take)])

        async def of_three():
            return await asyncio.gather(*map(printed, (n2kdec.Decoder(SAMPLE) for _ in range(3))))

        self.assertEqual(asyncio.run(of_three()), 3 * [program("decode", "--table", SAMPLE, TRIP).stdout])

    def test_a_loop_goes_from_thread_to_thread(self):
        messages = n2kdec.decode(TRIP)
        with concurrent.futures.ThreadPoolExecutor(1) as one, concurrent.futures.ThreadPoolExecutor(1) as other:
            seen = [pool.submit(next, messages).result() for _, pool in zip(range(10), itertools.cycle((one, other)))]
        self.assertEqual(seen + list(messages), self.wanted())

    def test_a_decoder_is_closed_where_it_is_dropped(self):
        held = [n2kdec.Decoder(SAMPLE)]
        handle = held[0]._handle
        self.assertTrue(handle.live)
        thread = threading.Thread(target=held.clear)
        thread.start()
        thread.join()
        self.assertFalse(handle.live)

    def test_a_decoder_is_closed_where_it_is_dropped_after_an_interrupt(self):
        held, number = [n2kdec.Decoder(SAMPLE)], 0
        while Interrupts.is_interrupted(number := number + 1, lambda: held[0].counts):
            handle = held[0]._handle
            # An interrupted call may leave a cycle of references.
            thread = threading.Thread(target=lambda: (held.clear(), gc.collect()))
            thread.start()
            thread.join()
            self.assertFalse(handle.live, number)
            held.append(n2kdec.Decoder(SAMPLE))
        self.assertGreater(number, 50)

    def test_a_cancelled_task_closes_its_decoder(self):
        """The call goes on in its thread, and at its end the decoder is closed."""
        begun, goes_on = threading.Event(), threading.Event()

        class Slow:
            """The library's calls, of which n2k_feed waits."""
            def __getattr__(self, name):
                return getattr(n2kdec._loaded(), name)

            def n2k_feed(self, *arguments):
                begun.set()
                goes_on.wait(60)
                return n2kdec._loaded().n2k_feed(*arguments)

        async def fed(decoder):
            with decoder:
                await asyncio.to_thread(decoder.feed, TRIP.read_bytes())

        async def cancelled():
            decoder = n2kdec.Decoder(SAMPLE)
            decoder._calls = Slow()
            task = asyncio.create_task(fed(decoder))
            await asyncio.to_thread(begun.wait, 60)
            task.cancel()
            try:
                with self.assertRaises(asyncio.CancelledError):
                    await task
                with self.assertRaisesRegex(RuntimeError, "another thread is calling this decoder"):
                    decoder.feed(b"")
                self.assertTrue(decoder._handle.live)
            finally:
                goes_on.set()
            return decoder

        # `run` waits for the thread.
        decoder = asyncio.run(cancelled())
        self.assertEqual((decoder.received, decoder._handle.live), (len(TRIP.read_bytes()), False))
        for call in (lambda: decoder.feed(b"x"), decoder.take, decoder.end):
            with self.assertRaisesRegex(n2kdec.Error, "no decoder is open"):
                call()

    def test_a_call_within_a_call_does_not_end_it_for_other_threads(self):
        """A signal's handler makes such a call."""
        with n2kdec.Decoder(SAMPLE) as decoder, concurrent.futures.ThreadPoolExecutor(1) as other:
            with decoder._turn:
                for call in (lambda: decoder.counts, decoder.close):
                    call()
                    with self.assertRaisesRegex(RuntimeError, "another thread is calling this decoder"):
                        other.submit(lambda: decoder.counts).result()
            with self.assertRaisesRegex(n2kdec.Error, "no decoder is open"):
                other.submit(lambda: decoder.counts).result()

    def test_two_calls_at_once_are_refused(self):
        """A thread feeds without end: calls of another one are refused, or come between."""
        line, refused, taken, end = TRIP.read_bytes().splitlines(True)[0], 0, 0, time.monotonic() + 60
        decoder, stops, fed = n2kdec.Decoder(SAMPLE), threading.Event(), []

        def feed():
            while not stops.is_set():
                try:
                    decoder.feed(line * 100)
                    fed.append(100)
                except RuntimeError:
                    pass

        interval = sys.getswitchinterval()
        sys.setswitchinterval(1e-6)
        thread = threading.Thread(target=feed)
        thread.start()
        try:
            while (refused < 20 or taken < 20) and time.monotonic() < end:
                try:
                    taken += decoder.counts.lines >= 0
                except RuntimeError as error:
                    self.assertEqual(str(error), "another thread is calling this decoder: make one call at a time")
                    refused += 1
        finally:
            stops.set()
            thread.join()
            sys.setswitchinterval(interval)
        self.assertEqual((min(refused, 20), min(taken, 20), decoder.counts.lines), (20, 20, sum(fed)))

    def test_threads_that_call_again_when_refused_get_each_message_once(self):
        log = TRIP.read_bytes() * 100
        calls = (n2kdec.Decoder.messages, lambda it: it.take().splitlines())
        interval = sys.getswitchinterval()
        sys.setswitchinterval(1e-5)
        self.addCleanup(sys.setswitchinterval, interval)
        for call in calls:
            decoder, got = n2kdec.Decoder(in_order=True), []

            def again(call, *arguments):
                while True:
                    try:
                        return call(decoder, *arguments)
                    except RuntimeError:
                        pass

            def feed():
                for at in range(0, len(log), 3000):
                    again(n2kdec.Decoder.feed, log[at : at + 3000])

            def take(call=call):
                while feeder.is_alive():
                    got.extend(again(call))

            feeder = threading.Thread(target=feed)
            threads = [feeder, *(threading.Thread(target=take) for _ in range(4))]
            for thread in threads:
                thread.start()
            for thread in threads:
                thread.join()
            got.extend(call(decoder))
            self.assertEqual(len(got), decoder.counts.messages)

    def test_the_module_is_typed_and_of_python_3_9(self):
        files = list((ROOT / "library/n2kdec").glob("*.py"))
        for file in files:
            ast.parse(file.read_text(encoding="utf-8"), feature_version=(3, 9))
        if not shutil.which("mypy"):
            self.skipTest("mypy is not here")
        self.assertTrue((ROOT / "library/n2kdec/py.typed").is_file())
        checked = subprocess.run(["mypy", "--strict", "--python-version", "3.9", "--cache-dir", os.devnull, ROOT / "library/n2kdec"],
                                 stdout=subprocess.PIPE, text=True, check=False)
        self.assertEqual((checked.returncode, checked.stdout.splitlines()[-1:]), (0, [f"Success: no issues found in {len(files)} source files"]))

    def test_its_version_is_the_programs(self):
        self.assertEqual(f"n2kdec {n2kdec.__version__}\n", program("--version").stdout.decode())

    def test_errors_have_the_words_of_the_program(self):
        tables = {b"[": "table 1 NotToml", b"format = 7\n": "table 2 Format", b"format = 1\nx = 1\n": "table 3 Key"}
        with tempfile.TemporaryDirectory() as folder:
            table = pathlib.Path(folder, "table")
            for toml, words in tables.items():
                table.write_bytes(toml)
                with self.assertRaises(ValueError) as caught:
                    n2kdec.Decoder(toml)
                self.assertEqual(str(caught.exception), f"n2kdec: {words}")
                self.assertEqual(program("decode", "--table", table).stderr.decode(), f"{caught.exception}\n")
            with n2kdec.Decoder(SAMPLE) as decoder:
                state = decoder.save()
            for other in (b"", b"{}", state.replace(b'"format":2', b'"format":3')):
                with self.assertRaises(n2kdec.Error) as caught:
                    n2kdec.Decoder(SAMPLE, state=other)
                table.write_bytes(other)
                self.assertEqual(program("decode", "--table", SAMPLE, "--resume", table).stderr.decode(), f"{caught.exception}\n")
            table.write_bytes(state)
            with self.assertRaises(n2kdec.Error) as caught:
                n2kdec.Decoder(SAMPLE, state=state, window=500)
            self.assertEqual(str(caught.exception), "n2kdec: state 7 WindowDiffers")
            told = program("decode", "--table", SAMPLE, "--resume", table, "--window", "500").stderr.decode()
            self.assertEqual(told, f"{caught.exception}\n")
        for window in (0, 31, 1_000_001, -1, 1 << 40):
            with self.assertRaises(ValueError) as caught:
                n2kdec.Decoder(SAMPLE, window=window)
            self.assertIsInstance(caught.exception, n2kdec.Error)
            self.assertEqual(str(caught.exception), f"a window has 32 to 1,000,000 lines, and not {window:,}")

    def test_a_closed_decoder_is_refused(self):
        decoder = n2kdec.Decoder(SAMPLE)
        decoder.end()
        for call in (lambda: decoder.feed(b"x"), decoder.end):
            with self.assertRaisesRegex(n2kdec.Error, "the log has ended"):
                call()
        decoder.close()
        decoder.close()
        for call in (lambda: decoder.feed(b"x"), decoder.end, decoder.take, decoder.reports, decoder.save,
                     lambda: decoder.counts, lambda: decoder.pending):
            with self.assertRaisesRegex(n2kdec.Error, "no decoder is open"):
                call()

    def test_a_million_lines(self):
        trip = TRIP.read_bytes()
        log = trip * (1_000_000 // trip.count(b"\n") + 1)
        by_program, by_module = [], []
        with tempfile.TemporaryDirectory() as folder:
            tape, printed = pathlib.Path(folder, "tape"), pathlib.Path(folder, "printed")
            tape.write_bytes(log)
            for _ in range(3):
                begun = time.monotonic()
                with printed.open("wb") as output:
                    subprocess.run([PROGRAM, "decode", "--table", TABLE, tape], stdout=output, stderr=subprocess.DEVNULL, check=False)
                with printed.open("rb") as lines:
                    count = sum(1 for line in lines if json.loads(line))
                by_program.append(time.monotonic() - begun)
                begun = time.monotonic()
                with tape.open("rb") as lines:
                    self.assertEqual(sum(1 for _ in n2kdec.decode(lines, table=TABLE)), count)
                by_module.append(time.monotonic() - begun)
        print(f"{log.count(10)} lines, {count} messages: {min(by_module):.1f} s, the program and json.loads {min(by_program):.1f} s",
              file=sys.stderr)
        self.assertLess(min(by_module), 3 * min(by_program))


class Interrupts(unittest.TestCase):
    """KeyboardInterrupt before each of Python's instructions in the module, one run for each."""

    LOG = (ROOT / "examples/two-sources.log").read_bytes() + b"bad\nx\n" + (ROOT / "examples/two-sources.log").read_bytes()

    def setUp(self):
        # Small chunks and rooms, so that a short log has many, and a room grows.
        self.addCleanup(setattr, n2kdec, "_PIECE", n2kdec._PIECE)
        n2kdec._PIECE = 150
        wanted = program("decode", "--table", SAMPLE, log=self.LOG)
        self.messages = [json.loads(it) for it in wanted.stdout.splitlines()]
        self.reports = wanted.stderr.decode().splitlines()[:-1]

    @staticmethod
    def is_interrupted(number, run, file=n2kdec.__file__):
        """Runs a function with KeyboardInterrupt before the instruction of this number; False if it has fewer."""
        count = 0

        def trace(frame, event, _):
            nonlocal count
            if frame.f_code.co_filename != file:
                return None
            frame.f_trace_opcodes, frame.f_trace_lines = True, False
            # Python 3.11 and later run no handler before a function returns: its result has been passed on by then.
            is_return = frame.f_code.co_code[frame.f_lasti] == RETURN and frame.f_code.co_name in ("take", "messages", "reports")
            if event == "opcode" and not is_return:
                count += 1
                if count == number:
                    sys.settrace(None)
                    raise KeyboardInterrupt
            return trace

        sys.settrace(trace)
        try:
            run()
        except KeyboardInterrupt:
            return True
        finally:
            sys.settrace(None)
        return False

    def at_each_instruction(self, begin, resume, step=1):
        """Each message and report comes once, or twice if it was being passed on; a state contains only what was passed
        on."""
        number, repeats, saves = 0, 0, 0
        while True:
            number += step
            messages, reports = [], []
            with n2kdec.Decoder(SAMPLE) as decoder:
                if not self.is_interrupted(number, lambda: begin(decoder, messages, reports)):
                    break
                try:
                    decoder.save()
                except n2kdec.Error:
                    pass
                else:
                    saves += 1
                    self.assertEqual(decoder.counts.messages, len(messages), number)
                resume(decoder, messages, reports)
            for got, wanted in ((messages, self.messages), (reports, self.reports)):
                twice = [at for at in range(1, len(got)) if got[:at] + got[at + 1 :] == wanted and got[at] == got[at - 1]]
                self.assertTrue(got == wanted or twice, f"interrupt {number}: {got}")
                repeats += got != wanted
        print(f"{number // step} interrupts, {repeats} repeats, {saves} states", file=sys.stderr)
        self.assertGreater(number, 500)
        self.assertGreater(saves, 50)

    def test_of_a_loop(self):
        """A stream is passed again; for a named file the decoder keeps the rest."""
        def begin_with(source):
            def begin(decoder, messages, reports):
                decoder.source = source()
                for message in decoder.decode(decoder.source, on_report=reports.append):
                    messages.append(message)
            return begin

        def resume(decoder, messages, reports):
            messages.extend(decoder.decode(on_report=reports.append))
            if not decoder.ended and (decoder.received == 0 or not isinstance(decoder.source, str)):
                messages.extend(decoder.decode(decoder.source, on_report=reports.append))
            if not decoder.ended:
                decoder.end()
                messages.extend(decoder.decode(on_report=reports.append))

        self.at_each_instruction(begin_with(lambda: io.BytesIO(self.LOG)), resume)
        self.at_each_instruction(begin_with(lambda: iter([self.LOG[:200], b"", self.LOG[200:]])), resume, 3)
        with tempfile.TemporaryDirectory() as folder, warnings.catch_warnings():
            # After an interrupt between opening a file and the next step, Python closes the file.
            warnings.simplefilter("ignore", ResourceWarning)
            tape = pathlib.Path(folder, "tape")
            tape.write_bytes(self.LOG)
            self.at_each_instruction(begin_with(lambda: str(tape)), resume, 3)

    def test_of_calls(self):
        def run(decoder, messages, reports):
            while decoder.received < len(self.LOG):
                decoder.feed(self.LOG[decoder.received : decoder.received + 130])
                reports += decoder.reports()
                messages += decoder.messages()
            if not decoder.ended:
                decoder.end()
            reports += decoder.reports()
            messages += [json.loads(line) for line in decoder.take().splitlines()]

        self.at_each_instruction(run, run, 3)


class Ended(unittest.TestCase):
    def test_more_is_refused_and_changes_nothing(self):
        log, more = (ROOT / "examples/two-sources.log").read_bytes(), TRIP.read_bytes()
        wanted = [json.loads(it) for it in program("decode", "--table", SAMPLE, log=log).stdout.splitlines()]
        with n2kdec.Decoder(SAMPLE) as decoder:
            first = next(decoder.decode(log))
            decoder.end()
            for call in (lambda: decoder.decode(more), lambda: decoder.decode(TRIP), lambda: decoder.decode(b""),
                         lambda: decoder.feed(more), decoder.end):
                with self.assertRaisesRegex(n2kdec.Error, "the log has ended"):
                    call()
            self.assertEqual((decoder.received, decoder.counts.lines, decoder.ended), (len(log), log.count(b"\n"), True))
            with self.assertRaisesRegex(n2kdec.Error, "not all was handed on"):
                decoder.save()
            self.assertEqual([first, *decoder.messages()], wanted)
            self.assertEqual(json.loads(decoder.save())["lines"], log.count(b"\n"))

    def test_decode_without_a_source_does_not_end_the_log(self):
        log = (ROOT / "examples/two-sources.log").read_bytes()
        wanted = [json.loads(it) for it in program("decode", "--table", SAMPLE, log=log).stdout.splitlines()]
        for cut in range(0, len(log), 40):
            with n2kdec.Decoder(SAMPLE) as decoder:
                decoder.feed(log[:cut])
                messages = list(decoder.decode())
                self.assertFalse(decoder.ended)
                messages += decoder.decode(log[cut:])
                self.assertTrue(decoder.ended)
                self.assertEqual((messages, list(decoder.decode())), (wanted, []))


class Tables(unittest.TestCase):
    MESSAGE = {"pgn": 127251, "src": 36, "fields": {"SID": 125, "Rate": 0.00509634375}}

    def test_a_table_is_accepted_where_one_is_read(self):
        wanted = list(n2kdec.decode(TRIP, table=TABLE, in_order=True))
        for read in (TABLE, str(TABLE), TABLE.read_bytes(), None):
            table = n2kdec.Table(read)
            decoder, encoder = n2kdec.Decoder(table, in_order=True), n2kdec.Encoder(table, nearest=True)
            self.assertEqual(n2kdec.encode(self.MESSAGE, table), n2kdec.encode(self.MESSAGE, TABLE))
            self.assertEqual(n2kdec.frames(self.MESSAGE, table), n2kdec.frames(self.MESSAGE, TABLE))
            handle = table._handle
            n2kdec._encode._kept.cache_clear()
            del table
            gc.collect()
            # The encoder opens others with it.
            self.assertTrue(handle.live)
            self.assertEqual(encoder.encode({**self.MESSAGE, "fields": {"Rate": 0.005}}), n2kdec.Encoder(nearest=True).encode({**self.MESSAGE, "fields": {"Rate": 0.005}}))
            del encoder
            gc.collect()
            self.assertFalse(handle.live)
            self.assertEqual(list(decoder.decode(TRIP)), wanted)

    def test_a_state_continues_with_a_shared_table(self):
        log, table = TRIP.read_bytes(), n2kdec.Table(SAMPLE)
        with tempfile.TemporaryDirectory() as folder:
            half = len(log) // 2 + log[len(log) // 2:].index(b"\n") + 1
            program("decode", "--in-order", "--table", SAMPLE, "--save", f"{folder}/state", log=log[:half])
            wanted = pathlib.Path(folder, "state").read_bytes()
        with n2kdec.Decoder(table, in_order=True) as decoder:
            messages = list(decoder.decode(log[:half]))
            self.assertEqual(decoder.save(), wanted)
        with n2kdec.Decoder(table, state=wanted, in_order=True) as decoder:
            self.assertEqual([*messages, *decoder.decode(log[half:])], list(n2kdec.decode(log, table=SAMPLE, in_order=True)))
        with self.assertRaisesRegex(n2kdec.ArgumentError, "state 4 TableDiffers"):
            n2kdec.Decoder(n2kdec.Table(), state=wanted, in_order=True)

    def test_what_is_refused(self):
        for read, error in ((b"[", "table 1 NotToml"), (b"format = 9", "table 2 Format")):
            with self.assertRaisesRegex(n2kdec.ArgumentError, error):
                n2kdec.Table(read)
        with self.assertRaises(FileNotFoundError):
            n2kdec.Table("no such table")
        table = n2kdec.Table(SAMPLE)
        with self.assertRaisesRegex(n2kdec.ArgumentError, "and not 31"):
            n2kdec.Decoder(table, window=31)
        for copies in (copy.copy, copy.deepcopy, pickle.dumps):
            with self.assertRaisesRegex(TypeError, "read it again"):
                copies(table)

    def test_threads_open_decoders_at_once(self):
        interval = sys.getswitchinterval()
        self.addCleanup(sys.setswitchinterval, interval)
        sys.setswitchinterval(1e-5)
        wanted, tables = list(n2kdec.decode(TRIP, table=SAMPLE)), [n2kdec.Table(SAMPLE)]
        with concurrent.futures.ThreadPoolExecutor(8) as pool:
            found = [pool.submit(lambda table: list(n2kdec.decode(TRIP, table=table)), tables[0]) for _ in range(100)]
            tables.clear()
            for it in found:
                self.assertEqual(it.result(), wanted)

    def test_a_forked_child_opens_a_decoder(self):
        # Another thread opens decoders during each fork.
        script = """
import os, sys, threading, time
import n2kdec
table = n2kdec.Table(sys.argv[1])
def open_decoders():
    while True:
        n2kdec.Decoder(table).close()
threading.Thread(target=open_decoders, daemon=True).start()
for _ in range(50):
    child = os.fork()
    if not child:
        n2kdec.Decoder(table).close()
        os._exit(0)
    for _ in range(1000):
        ended, status = os.waitpid(child, os.WNOHANG)
        if ended:
            break
        time.sleep(0.01)
    else:
        os.kill(child, 9)
        sys.exit("a child hangs")
    if status:
        sys.exit(f"a child ended with status {status}")
print("50 children", flush=True)
os._exit(0)
"""
        ran = subprocess.run([sys.executable, "-W", "ignore", "-c", script, SAMPLE], capture_output=True, text=True)
        self.assertEqual((ran.returncode, ran.stdout, ran.stderr), (0, "50 children\n", ""))

    def test_a_thousand_decoders_read_it_once(self):
        begun = time.perf_counter()
        table = n2kdec.Table()
        read = time.perf_counter() - begun
        begun = time.perf_counter()
        for _ in range(1000):
            n2kdec.Decoder(table).close()
        opened = time.perf_counter() - begun
        print(f"a table is read in {1e3 * read:.1f} ms, and 1,000 decoders open with it in {1e3 * opened:.1f} ms", file=sys.stderr)
        self.assertLess(opened, 100 * read)


class Encoding(unittest.TestCase):
    """Expected bytes are those of the examples in the rules, made by hand."""

    HEADING = {"pgn": 127250, "fields": {"Heading": 1.5708, "Reference": "Magnetic"}}
    DEPTH = {"pgn": 128267, "src": 5, "fields": {"SID": 1, "Depth": 3.4, "Offset": -0.5}}

    @staticmethod
    def depth(value):
        return {"pgn": 128267, "fields": {"Depth": value}}

    def refused(self, message, text, **options):
        with self.assertRaises(n2kdec.EncodeError) as caught:
            n2kdec.encode(message, **options)
        error = pickle.loads(pickle.dumps(caught.exception))
        code, word, *name = text.split(" ", 2)
        self.assertEqual((str(error), error.code, error.word, error.field), (text, code, word, json.loads(name[0]) if name else None))
        self.assertTrue(isinstance(error, ValueError) and isinstance(error, n2kdec.Error))
        with self.assertRaises(n2kdec.EncodeError):
            n2kdec.frames(message, **options)

    def test_worked_examples(self):
        self.assertEqual(n2kdec.encode(self.HEADING), "1970-01-01T00:00:00.000Z,6,127250,0,255,8,ff,5c,3d,ff,7f,ff,7f,fd")
        self.assertEqual(n2kdec.encode(self.DEPTH, TABLE), "1970-01-01T00:00:00.000Z,6,128267,5,255,8,01,54,01,00,00,0c,fe,ff")
        # Priority 6, PGN 127250 (1F112) and 128267 (1F50B).
        self.assertEqual(n2kdec.frames(self.HEADING), [(0x19F11200, bytes.fromhex("ff5c3dff7fff7ffd"))])
        self.assertEqual(n2kdec.frames(self.DEPTH), [(0x19F50B05, bytes.fromhex("01540100000cfeff"))])
        self.refused(self.depth(3.401), 'B17 value "Depth"')
        self.refused({"pgn": 128267, "fields": {"Dept": 3.4}}, 'B16 field "Dept"')
        self.refused({"pgn": 127250, "fields": {"Heading": 6.5535}}, 'B17 value "Heading"')
        nearest = n2kdec.Encoder(nearest=True)
        self.assertEqual((nearest.encode(self.depth(3.401)), n2kdec.encode(self.depth(3.401), nearest=True)), 2 * (n2kdec.encode(self.depth(3.4)),))
        stamped = {**self.HEADING, "timestamp": "2026-01-02T03:04:05.678Z", "prio": 2, "dst": 255, "description": "Vessel Heading"}
        self.assertEqual(n2kdec.encode(stamped), "2026-01-02T03:04:05.678Z,2,127250,0,255,8,ff,5c,3d,ff,7f,ff,7f,fd")

    def test_each_refusal(self):
        text = json.dumps(self.DEPTH)
        self.refused(text + 65_536 * "x", "B1 long")
        for wrong in ("[]", "", "  ", "\n", "\r", "# comment", "{", b"\xff", "\ud800", '{"pgn":1,"pgn":1}', f"{text}\n{text}", '{"a\nb":1}', '"a\rb"'):
            self.refused(wrong, "B13 json")
        for fields in ({"\ud800": 1}, {"Depth": "\ud800"}):
            self.refused({"pgn": 128267, "fields": fields}, "B13 json")
        for wrong in ({}, {"pgn": 128267}, {"fields": {}}, {**self.DEPTH, "source": 1}, {**self.DEPTH, "prio": 8}, {**self.DEPTH, "src": True},
                      {**self.DEPTH, "timestamp": "1,2"}, {**self.DEPTH, "pgn": 131072}):
            self.refused(wrong, "B14 member")
        self.refused({"pgn": 1, "fields": {}}, "B8 unknown")
        self.refused({**self.DEPTH, "dst": 9}, "B12 address")
        self.refused({**self.DEPTH, "description": "Depth"}, "B15 description")
        self.refused({"pgn": 128267, "fields": {'a" é\n': 1}}, 'B16 field "a\\" é\\n"')
        for wrong in (True, "3.4", [3.4], {"a": 3.4}, -1, 1e300, Decimal("1E+999999"), 3.401, Decimal("3.4000000000000000000001")):
            self.refused(self.depth(wrong), 'B17 value "Depth"')
        self.refused({"pgn": 128267, "description": "Unmatched", "fields": {"Data": "00 " * 8 + "00"}}, "B9 size")
        self.refused({"pgn": 128267, "description": "Unmatched", "fields": {"Data": "00"}}, 'B18 data "Data"')

    def test_numbers_are_those_of_python(self):
        class Half(float):
            def __repr__(self):
                return "half"

        wanted = n2kdec.encode('{"pgn":128267,"fields":{"Depth":340e-2}}')
        for number in (3.4, Decimal("3.4"), Decimal("3.40"), Decimal("34E-1"), Half(3.4)):
            self.assertEqual(n2kdec.encode(self.depth(number)), wanted)
        for number in (3, Decimal(3), Decimal("3E0"), 3.0, Decimal("0.3E+1"), enum.IntEnum("Depth", {"three": 3}).three):
            self.assertEqual(n2kdec.encode(self.depth(number)), n2kdec.encode('{"pgn":128267,"fields":{"Depth":3.00}}'))
        self.assertEqual(n2kdec.encode(self.depth(-0.0)), n2kdec.encode(self.depth(0)))
        # 1e-05 and 1e+16 of `repr`.
        self.refused(self.depth(0.00001), 'B17 value "Depth"')
        self.refused(self.depth(1e16), 'B17 value "Depth"')
        self.assertEqual(n2kdec.encode(self.depth(0.00001), nearest=True), n2kdec.encode(self.depth(0)))
        # 64 bits: the greatest value that is shown, and a float that has lost its last digits.
        table = b'format = 1\n[[pgn]]\nnumber = 127251\nkind = "single"\ndescription = "x"\nfields = [{ name = "N", kind = "number", at = 0, bits = 64 }]\n'
        encoder = n2kdec.Encoder(table)
        for number in (2**64 - 3, Decimal(2**64 - 3)):
            self.assertEqual(encoder.encode({"pgn": 127251, "fields": {"N": number}}).split(",", 6)[6], "fd,ff,ff,ff,ff,ff,ff,ff")
        with self.assertRaisesRegex(n2kdec.EncodeError, '^B17 value "N"$'):
            encoder.encode({"pgn": 127251, "fields": {"N": float(2**64 - 3)}})

    def test_what_is_no_json(self):
        for wrong in (float("nan"), float("inf"), -float("inf"), Decimal("NaN"), Decimal("sNaN"), Decimal("-Infinity")):
            for value in (wrong, [wrong], {"a": wrong}):
                with self.assertRaisesRegex(ValueError, "leave the field out") as caught:
                    n2kdec.encode(self.depth(value))
                self.assertNotIsInstance(caught.exception, n2kdec.EncodeError)
        for wrong in (b"\1\2", bytearray(1), {1}, object(), 1j):
            with self.assertRaisesRegex(TypeError, type(wrong).__name__):
                n2kdec.encode(self.depth(wrong))
        for wrong in ({1: 2}, {b"Depth": 3.4}, {None: 1}):
            with self.assertRaisesRegex(TypeError, "the name of a field is a str"):
                n2kdec.encode({"pgn": 128267, "fields": wrong})
        for wrong in (None, 1, [("pgn", 128267)]):
            with self.assertRaisesRegex(TypeError, "a message is a dict or JSON text"):
                n2kdec.encode(wrong)
        for wrong in (-1, 8):
            with self.assertRaisesRegex(ValueError, "a sequence is 0 to 7"):
                n2kdec.frames(self.DEPTH, sequence=wrong)

    def test_kinds_of_messages(self):
        """Any mapping, and JSON text in several lines."""
        class Mapping(collections.abc.Mapping):
            def __getitem__(self, name):
                return Encoding.DEPTH[name]

            def __iter__(self):
                return iter(Encoding.DEPTH)

            def __len__(self):
                return len(Encoding.DEPTH)

        wanted, text = n2kdec.encode(self.DEPTH), json.dumps(self.DEPTH, indent=1)
        for message in (Mapping(), text, f"\r\n{text}\n\n", text.replace("\n", "\r\n"), text.encode(), bytearray(text.encode()), memoryview(text.encode())):
            self.assertEqual(n2kdec.encode(message), wanted)
        self.assertEqual(n2kdec.encode({**self.DEPTH, "fields": {**self.DEPTH["fields"], "Range": None}}), wanted)

    def test_what_decode_gives_becomes_the_same_again(self):
        for options in ({}, {"decimals": True}, {"empty": True}):
            for message in n2kdec.decode(TRIP, in_order=True, **options):
                [again] = n2kdec.decode(n2kdec.encode(message).encode(), whole=True, **options)
                self.assertEqual(again, message)
        plain = b"2011-11-24-22:42:04.388,2,127251,36,255,8,7d,0b,7d,02,00,ff,ff,ff"
        [message] = n2kdec.decode(plain, table=SAMPLE)
        self.assertEqual(n2kdec.encode(message, SAMPLE), plain.decode())

    def test_frames_of_a_fast_packet(self):
        """A product of 20 bytes: the total 14, then six and seven bytes a frame; each message has the next sequence."""
        table = (b'format = 3\n[[pgn]]\nnumber = 130820\nkind = "fast"\ndescription = "x"\nfields = [{ name = "T", kind = "text", at = 0, bits = 160, short = true }]\n'
                 b'[[pgn]]\nnumber = 126208\nkind = "fast"\ndescription = "y"\nfields = [{ name = "B", kind = "bytes", at = 0, bits = 64, short = true }]\n')
        encoder, message = n2kdec.Encoder(table), {"pgn": 130820, "src": 4, "prio": 7, "fields": {"T": "ABCDEFGHIJKLMNOPQRST"}}
        for sequence in (*range(8), 0):
            first = 32 * sequence
            wanted = [(0x1DFF0404, bytes([first]) + b"\x14ABCDEF"), (0x1DFF0404, bytes([first + 1]) + b"GHIJKLM"), (0x1DFF0404, bytes([first + 2]) + b"NOPQRST")]
            self.assertEqual(encoder.frames(message), wanted)
            self.assertEqual(n2kdec.frames(message, table, sequence=sequence), wanted)
            self.assertEqual(encoder.frames(message, sequence=sequence), wanted)
        self.assertEqual(n2kdec.frames(message, table)[0][1][0], 0)
        # Another source begins at 0, and so does another destination, 17, in the place of the low byte of 126208 (1ED00).
        self.assertEqual(encoder.frames({**message, "src": 5})[0], (0x1DFF0405, b"\0\x14ABCDEF"))
        for dst, count, data in ((255, 1, "0006010203040506"), (17, 2, "0007010203040506"), (17, 2, "2008010203040506")):
            its = bytes(range(1, int(data[2:4]) + 1)).hex(" ")
            found = encoder.frames({"pgn": 126208, "dst": dst, "fields": {"B": its}})
            self.assertEqual((len(found), found[0]), (count, (0x19ED0000 | dst << 8, bytes.fromhex(data))))

    def test_frames_without_data(self):
        of = '[[pgn]]\nnumber = {}\nkind = "{}"\ndescription = "x"\nfields = [{{ name = "A", kind = "number", at = 0, bits = 8, match = 1 }}]\n'
        encoder = n2kdec.Encoder(f"format = 1\n{of.format(130820, 'fast')}{of.format(130821, 'single')}".encode())
        for pgn, data in ((130820, "0000ffffffffffff"), (130821, ""), (130820, "2000ffffffffffff")):
            found = encoder.frames({"pgn": pgn, "description": "Unmatched", "fields": {"Data": ""}})
            self.assertEqual(found, [(6 << 26 | pgn << 8, bytes.fromhex(data))])

    def random_lines(self, count):
        """Lines of JSON that the program prints of random messages of the shipped table."""
        import encoded_again
        import tomllib
        chance, definitions = random.Random(109), tomllib.loads(TABLE.read_text(encoding="utf-8"))["pgn"]
        plain = []
        for definition in chance.choices(definitions, k=count):
            pgn = definition["number"]
            dst = 255 if pgn >> 8 & 255 >= 240 else chance.randrange(256)
            plain.append(encoded_again.plain(chance, pgn, dst, encoded_again.data_of(chance, definition)))
        printed = program("decode", "--whole", "--table", TABLE, log="".join(f"{it}\n" for it in plain).encode()).stdout
        return printed.decode().split("\n")[:-1]

    @unittest.skipIf(sys.version_info < (3, 11), "tests/random needs Python 3.11")
    def test_random_messages(self):
        """The lines, reports and frames of the program, and the same messages again."""
        lines = self.random_lines(5000)
        wanted = program("encode", "--table", TABLE, log="".join(f"{it}\n" for it in lines).encode())
        plain = wanted.stdout.decode().splitlines()
        self.assertEqual((len(lines), wanted.stderr.decode()), (len(plain), f"lines {len(lines)} messages {len(lines)} bad 0 unknown 0 broken 0 open 0\n"))
        encoder = n2kdec.Encoder()
        self.assertEqual([encoder.encode(it) for it in lines], plain)
        self.assertEqual([encoder.encode(json.loads(it, parse_float=Decimal)) for it in lines], plain)
        self.assertEqual([encoder.encode(it) for it in n2kdec.decode(wanted.stdout, whole=True, decimals=True)], plain)
        frames = [f"{identifier:08X}#{data.hex().upper()}" for it in lines for identifier, data in encoder.frames(it)]
        by_program = program("frames", "--candump", "can0", "--table", TABLE, log=wanted.stdout).stdout.decode().splitlines()
        self.assertEqual(frames, [it.split(" ")[2] for it in by_program])

    def test_threads(self):
        """Eight threads call an encoder, and the functions, at once: refusals and lines are those of their own messages."""
        encoder, interval = n2kdec.Encoder(), sys.getswitchinterval()
        self.addCleanup(sys.setswitchinterval, interval)
        sys.setswitchinterval(1e-5)
        depths = [Decimal(it) / 1000 for it in range(400)]

        def encoded(call, depth):
            try:
                return call(self.depth(depth))
            except n2kdec.EncodeError as error:
                return str(error)

        wanted = [f"1970-01-01T00:00:00.000Z,6,128267,0,255,8,ff,{it // 10:02x},00,00,00,ff,7f,ff" if it % 10 == 0 else 'B17 value "Depth"'
                  for it in range(400)]
        with concurrent.futures.ThreadPoolExecutor(8) as pool:
            for call in (encoder.encode, n2kdec.encode):
                for found in [pool.submit(lambda: [encoded(call, it) for it in depths]) for _ in range(16)]:
                    self.assertEqual(found.result(), wanted)
            message = {"pgn": 126996, "fields": {"Model ID": "x"}}
            sequences = list(pool.map(lambda _: encoder.frames(message)[0][1][0] >> 5, range(800)))
            self.assertEqual(collections.Counter(sequences), dict.fromkeys(range(8), 100))

    def test_a_table_that_changes_is_read_again(self):
        with tempfile.TemporaryDirectory() as folder:
            table = pathlib.Path(folder, "table.toml")
            for resolution, data in (("0.01", "54"), ("0.02", "aa"), ("0.1", "22")):
                table.write_text('format = 1\n[[pgn]]\nnumber = 128267\nkind = "single"\ndescription = "x"\n'
                                 f'fields = [{{ name = "Depth", kind = "number", at = 0, bits = 32, resolution = "{resolution}" }}]\n', encoding="utf-8")
                for name in (table, str(table), os.path.relpath(table)):
                    self.assertEqual(n2kdec.encode(self.depth(3.4), name).split(",")[6], data)
            table.write_bytes(b"[")
            with self.assertRaisesRegex(n2kdec.ArgumentError, "table 1 NotToml"):
                n2kdec.encode(self.DEPTH, table)
            with self.assertRaises(FileNotFoundError):
                n2kdec.encode(self.DEPTH, folder + "/none")
        for wrong in (b"[", b"format = 9\n"):
            with self.assertRaises(n2kdec.ArgumentError):
                n2kdec.Encoder(wrong)

    def test_few_tables_stay_in_memory(self):
        table = SAMPLE.read_bytes()
        closed, gone = [], n2kdec._encode._Coder.__del__
        with unittest.mock.patch.object(n2kdec._encode._Coder, "__del__", lambda it: (closed.append(it), gone(it))):
            for number in range(20):
                with self.assertRaises(n2kdec.EncodeError):
                    n2kdec.encode(self.DEPTH, table + b"# %d\n" % number)
            self.assertGreaterEqual(len(closed), 16)
            self.assertFalse(any(it._handle.live for it in closed))

    def test_an_interrupted_call_leaves_no_line_behind(self):
        encoder, number = n2kdec.Encoder(SAMPLE), 0
        message = {"pgn": 127251, "src": 36, "fields": {"SID": 125, "Rate": 0.00509634375}}
        wanted, other = encoder.encode(message), encoder.encode({**message, "src": 37})
        while Interrupts.is_interrupted(number := number + 1, lambda: encoder.encode({**message, "src": 37}), n2kdec._encode.__file__):
            self.assertEqual(encoder.encode(message), wanted)
        self.assertGreater(number, 100)
        self.assertEqual(encoder.encode({**message, "src": 37}), other)

    def test_python_can_sends_it(self):
        with warnings.catch_warnings():
            warnings.simplefilter("ignore")
            try:
                import can
            except ImportError:
                print("left out for want of python3-can: frames sent to its bus", file=sys.stderr)
                return
        product = {"pgn": 126996, "src": 9, "fields": {"Model ID": "A model", "Product Code": 7}}
        encoder = n2kdec.Encoder()
        with can.Bus("n2kdec", interface="virtual") as bus, can.Bus("n2kdec", interface="virtual") as other:
            for message in (self.HEADING, product, self.DEPTH, product):
                for identifier, data in encoder.frames(message):
                    bus.send(can.Message(arbitration_id=identifier, data=data))
            received = [other.recv(10) for _ in range(2 + 2 * 20)]
        messages = list(n2kdec.decode(received, in_order=True))
        self.assertEqual([(it["pgn"], it["src"], it["fields"]) for it in messages],
                         [(it["pgn"], it.get("src", 0), it["fields"]) for it in (self.HEADING, product, self.DEPTH, product)])


if __name__ == "__main__":
    unittest.main(verbosity=1)
