"""Tests of objects that threads share while processes are forked, and of signals while a call waits."""

import os
import signal
import tempfile
import threading
import time
import unittest

from support import PACKETS, capture, ethernet, file_header, fragment, ipv6, ipv6_chain, record, write

from wolfaren import CaptureError, Defragmenter, Filter, Statistics, packets, statistics_of

LONG = ipv6_chain([60] * 8000)
CHILDREN = 20


def status_of(child):
    """Returns the status of a child, or None if it doesn't end within ten seconds, and is killed."""
    end = time.monotonic() + 10
    while time.monotonic() < end:
        ended, status = os.waitpid(child, os.WNOHANG)
        if ended:
            return status
        time.sleep(0.005)
    os.kill(child, signal.SIGKILL)
    os.waitpid(child, 0)
    return None


class Forks(unittest.TestCase):
    def children(self, use, is_whole):
        """Forks while threads use an object. Returns the statuses of children that use it too, 0 if they find it whole."""
        stop = threading.Event()

        def repeat():
            while not stop.is_set():
                use()
        threads = [threading.Thread(target=repeat, daemon=True) for _ in range(4)]
        for it in threads:
            it.start()
        statuses = []
        for _ in range(CHILDREN):
            child = os.fork()
            if child == 0:
                use()
                os._exit(0 if is_whole() else 1)
            statuses.append(status_of(child))
        stop.set()
        for it in threads:
            it.join()
        return statuses

    def test_statistics(self):
        shared = Statistics()
        found = self.children(lambda: shared.add(LONG), lambda: Statistics.from_json(shared.to_json()) == shared)
        self.assertEqual(found, [0] * CHILDREN)

    def test_defragmenter(self):
        shared, piece = Defragmenter(), ipv6(44, fragment(17, 0, 1) + bytes(60000))
        found = self.children(lambda: shared.add(piece), lambda: shared.add(PACKETS[0]) == PACKETS[0])
        self.assertEqual(found, [0] * CHILDREN)


class Signalled(Exception):
    pass


class Signals(unittest.TestCase):
    def setUp(self):
        folder = tempfile.TemporaryDirectory()
        self.addCleanup(folder.cleanup)
        self.pipe = f"{folder.name}/pipe"
        self.folder = folder.name
        os.mkfifo(self.pipe)

    def stopped(self, call, handler):
        """Makes a call while a signal arrives every 0.2 seconds. Returns what it returns or raises, and its seconds."""
        before = signal.signal(signal.SIGALRM, handler)
        signal.setitimer(signal.ITIMER_REAL, 0.2, 0.2)
        began = time.monotonic()
        try:
            found = call()
        except (Signalled, CaptureError) as error:
            found = error
        finally:
            signal.setitimer(signal.ITIMER_REAL, 0)
            signal.signal(signal.SIGALRM, before)
        return found, time.monotonic() - began

    def calls(self):
        return [lambda: list(packets(self.pipe)), lambda: statistics_of(self.pipe),
                lambda: Filter("fault").write(self.pipe, f"{self.folder}/out")]

    def write_later(self, pieces):
        """Opens the pipe to write after half a second, writes the pieces half a second apart, and closes it."""
        def go():
            time.sleep(0.5)
            with open(self.pipe, "wb", buffering=0) as it:
                for piece in pieces:
                    it.write(piece)
                    time.sleep(0.5)
        thread = threading.Thread(target=go, daemon=True)
        thread.start()
        return thread

    def raising(self, *_):
        raise Signalled

    def test_silent_pipe(self):
        """What the handler of a signal raises ends a call that waits for a writer, or for the bytes of one."""
        for call in self.calls():
            found, seconds = self.stopped(call, self.raising)
            self.assertIsInstance(found, Signalled)
            self.assertLess(seconds, 2)
        head = file_header() + record(ethernet(PACKETS[0]))
        for start in [b"", head[:3], head, head + head[24:60]]:
            for call in self.calls():
                writer = os.open(self.pipe, os.O_RDWR)
                os.write(writer, start)
                found, seconds = self.stopped(call, self.raising)
                os.close(writer)
                self.assertIsInstance(found, Signalled)
                self.assertLess(seconds, 2)
        self.assertEqual(os.listdir(self.folder), ["pipe"])

    def test_handled(self):
        """A call waits on if the handler raises nothing."""
        content = capture([ethernet(it) for it in PACKETS[:4]])
        for call, wanted in zip(self.calls(), [4, 4, (4, 1)]):
            ticks = []
            thread = self.write_later([content[:3], content[3:70], content[70:]])
            found, _ = self.stopped(call, lambda *_: ticks.append(1))
            thread.join()
            self.assertGreater(len(ticks), 4)
            self.assertEqual({list: len, Statistics: lambda it: it.packets}.get(type(found), tuple)(found), wanted)

    def test_after_a_signal(self):
        """The next call isn't concerned."""
        self.stopped(self.calls()[1], self.raising)
        path = write(self.folder, "a.pcap", capture([ethernet(PACKETS[0])]))
        self.assertEqual(statistics_of(path).packets, 1)


if __name__ == "__main__":
    unittest.main()
