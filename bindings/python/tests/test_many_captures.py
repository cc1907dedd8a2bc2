"""Tests of `wolfaren.distributed` on a local cluster of worker processes, and of the lines in docs/many-captures.md."""

import os
import re
import signal
import subprocess
import sys
import tempfile
import threading
import time
import unittest

from support import PACKETS, ROOT, capture, ethernet, file_header, ipcap, ipv6_chain, record, write

from wolfaren import CaptureError
from wolfaren.distributed import statistics_of_many, table

WORKERS = 3


def write_captures(folder, count):
    """Writes captures with different packets, and returns their paths."""
    frames = [ethernet(it) for it in PACKETS[:4]]
    return [write(folder, f"{i}.pcap", capture([*frames[:1 + i % 4], ethernet(ipv6_chain([60] * i))])) for i in range(count)]


def has_open(process, path):
    """Whether a process has a file open."""
    files = f"/proc/{process}/fd"
    return path in [os.path.realpath(f"{files}/{it}") for it in os.listdir(files)]


class Cluster(unittest.TestCase):
    @classmethod
    def setUpClass(cls):
        from distributed import Client, LocalCluster
        cls.scratch = tempfile.TemporaryDirectory()
        cls.cluster = LocalCluster(n_workers=WORKERS, threads_per_worker=1, processes=True, dashboard_address=None,
                                   local_directory=cls.scratch.name)
        cls.client = Client(cls.cluster)

    @classmethod
    def tearDownClass(cls):
        cls.client.close()
        cls.cluster.close()
        cls.scratch.cleanup()

    def setUp(self):
        folder = tempfile.TemporaryDirectory()
        self.addCleanup(folder.cleanup)
        self.folder = folder.name

    def test_damaged_capture(self):
        paths = write_captures(self.folder, 40)
        with open(paths[7], "rb") as it:
            content = it.read()
        write(self.folder, "7.pcap", content[:-1])
        paths.append(f"{self.folder}/none.pcap")
        statistics, damaged = statistics_of_many(paths, self.client)
        self.assertEqual(statistics.to_json() + "\n", ipcap("stat", "--json", *paths, status=1))
        self.assertEqual(sorted(damaged), [paths[7], paths[40]])
        self.assertRegex(damaged[paths[7]], "can't read packet 5: ")
        self.assertEqual(damaged[paths[40]], "No such file or directory")

    def test_table(self):
        paths = write_captures(self.folder, 12)
        found = table(paths, ["chain", "src"]).compute(scheduler=self.client)
        self.assertEqual(found.chain.value_counts().to_dict(), dict(statistics_of_many(paths, self.client).statistics.chains))
        with_none = [*paths, f"{self.folder}/none"]
        self.assertEqual(len(table(with_none, ["number"]).compute(scheduler=self.client)), len(found))
        with self.assertRaisesRegex(CaptureError, "No such file"):
            table(with_none, ["number"], on_error="raise").compute(scheduler=self.client)

    def test_no_captures(self):
        statistics, damaged = statistics_of_many([], self.client)
        self.assertEqual((statistics.packets, damaged), (0, {}))

    def test_killed_worker(self):
        """A worker is killed while it reads a capture from a pipe. Another one reads that capture from its start."""
        paths = write_captures(self.folder, 30)
        pipe, found = f"{self.folder}/pipe", []
        os.mkfifo(pipe)
        inputs = [*paths[:20], pipe, *paths[20:]]
        many = threading.Thread(target=lambda: found.append(statistics_of_many(inputs, self.client)), daemon=True)
        many.start()
        begun = os.open(pipe, os.O_WRONLY)
        os.write(begun, file_header() + record(ethernet(PACKETS[0])))
        (reader,) = [it for it in self.client.run(os.getpid).values() if has_open(it, pipe)]
        os.kill(reader, signal.SIGKILL)
        os.close(begun)
        while os.path.exists(f"/proc/{reader}"):
            time.sleep(0.05)
        with open(pipe, "wb") as again, open(paths[3], "rb") as content:
            again.write(content.read())
        many.join(40)
        ((statistics, damaged),) = found
        self.assertEqual(damaged, {})
        self.assertEqual(statistics.to_json() + "\n", ipcap("stat", "--json", *paths, paths[3]))


class Document(unittest.TestCase):
    def test_lines(self):
        """The commands for GNU parallel and for Dask print what `ipcap stat` does for all captures."""
        with open(f"{ROOT}/docs/many-captures.md", encoding="utf-8") as it:
            blocks = re.findall(r"^```(\w+)\n(.*?)^```$", it.read(), re.M | re.S)
        run = {"sh": ["bash", "-e"], "python": [sys.executable]}
        self.assertEqual({language for language, _ in blocks}, set(run))
        with tempfile.TemporaryDirectory() as folder:
            wanted = ipcap("stat", "--json", *write_captures(folder, 12))
            environment = {**os.environ, "DASK_TEMPORARY_DIRECTORY": folder}
            for language, code in blocks:
                script = write(folder, f"script-{language}", code.encode())
                ran = subprocess.run([*run[language], script], cwd=folder, env=environment, capture_output=True, text=True,
                                     check=False)
                self.assertEqual((ran.returncode, ran.stdout), (0, wanted), f"{code}{ran.stderr}")

    def test_table(self):
        """The line that asks a table how many sources each chain has."""
        with open(f"{ROOT}/docs/many-captures.md", encoding="utf-8") as it:
            (line,) = re.findall(r"`(table\(.*?compute\(\))`", it.read())
        code = f"import glob\nfrom wolfaren.distributed import table\nprint(({line}).to_dict())"
        packet = PACKETS[2]
        with tempfile.TemporaryDirectory() as folder:
            write(folder, "a.pcap", capture([ethernet(it) for it in [packet, packet, packet[:12] + bytes(4) + packet[16:]]]))
            ran = subprocess.run([sys.executable, "-c", code], cwd=folder, capture_output=True, text=True, check=False)
        self.assertEqual((ran.returncode, ran.stdout), (0, "{'IPv4 -> 6': 2}\n"), ran.stderr)


if __name__ == "__main__":
    unittest.main()
