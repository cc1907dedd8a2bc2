"""Who makes packets whole: Linux, from fragments that arrive on an interface of its own, and the library."""

import ctypes
import fcntl
import mmap
import os
import shutil
import socket
import struct
import subprocess

from packets import DESTINATION, HOP_BY_HOP, LOCAL_RECEIVER, NUMBER, RECEIVER, ROUTING, Fragment, Seen, bytes_of, seen_of

ABI = os.path.join(os.path.dirname(__file__), "../../scripts/abi")
TUNSETIFF, IFF_TUN, IFF_NO_PI = 0x400454CA, 0x0001, 0x1000
IPV6_FLOWINFO = 11
PARTS = {socket.IPV6_HOPOPTS: HOP_BY_HOP, socket.IPV6_RTHDR: ROUTING, socket.IPV6_DSTOPTS: DESTINATION}
INTERFACES = ("fragments", "others")
# Linux gives up no packet for others, or for memory while the test runs, and receives those of any source.
SETTINGS = {"ipv4/ipfrag_high_thresh": 1 << 30, "ipv4/ipfrag_max_dist": 0, "ipv6/ip6frag_high_thresh": 1 << 30,
            **{f"ipv4/conf/{it}/rp_filter": 0 for it in ("all", *INTERFACES)}}
# in seconds: no packet is given up for its age
LONG = 3600
ROOM = 1 << 17


def missing():
    """Returns the reason why Linux can't be asked here, or nothing."""
    if commands := [it for it in ("unshare", "ip") if not shutil.which(it)]:
        return f"{', '.join(commands)} missing"
    made = f"ip tuntap add fragments mode tun && ip addr add {RECEIVER[6]}/64 dev fragments"
    tried = subprocess.run(["unshare", "-rn", "sh", "-c", made], capture_output=True, text=True, check=False)
    return "no network namespace: " + tried.stderr.strip().replace("\n", "; ") if tried.returncode else ""


def set_ip(*commands):
    for words in commands:
        subprocess.run(["ip", *words.split()], check=True)


def set_to(name, value):
    with open(f"/proc/sys/net/{name}", "w", encoding="ascii") as it:
        it.write(str(value))


class Linux:
    """A kernel's receiver in a network namespace of its own, which this process must be in."""

    def __init__(self):
        self.devices = [os.open("/dev/net/tun", os.O_RDWR) for _ in INTERFACES]
        for device, name in zip(self.devices, INTERFACES):
            fcntl.ioctl(device, TUNSETIFF, struct.pack("16sH22x", name.encode(), IFF_TUN | IFF_NO_PI))
            set_ip(f"addr add {LOCAL_RECEIVER}/64 dev {name} nodad", f"link set {name} mtu 65535 up")
        set_ip(f"addr add {RECEIVER[4]}/24 dev {INTERFACES[0]}", f"addr add {RECEIVER[6]}/64 dev {INTERFACES[0]} nodad")
        for name, value in SETTINGS.items():
            set_to(name, value)
        self.set_timeout(LONG)
        # packets are received in the order in which one processor takes them
        os.sched_setaffinity(0, [min(os.sched_getaffinity(0))])
        self.sockets = {4: socket.socket(socket.AF_INET, socket.SOCK_RAW, NUMBER), 6: socket.socket(socket.AF_INET6, socket.SOCK_RAW, NUMBER)}
        for it in self.sockets.values():
            it.setsockopt(socket.SOL_SOCKET, socket.SO_RCVBUF, 1 << 20)
            it.settimeout(10)
        for option in (socket.IPV6_RECVHOPLIMIT, socket.IPV6_RECVHOPOPTS, socket.IPV6_RECVRTHDR, socket.IPV6_RECVDSTOPTS, IPV6_FLOWINFO):
            self.sockets[6].setsockopt(socket.IPPROTO_IPV6, option, 1)

    def set_timeout(self, seconds):
        """Sets after how many seconds a packet is given up. For one of which fragments are there, nothing changes."""
        set_to("ipv4/ipfrag_time", seconds)
        set_to("ipv6/ip6frag_time", seconds)

    def receive(self, version):
        data, ancillary, _, _ = self.sockets[version].recvmsg(ROOM, 1024)
        if version == 4:
            return data
        flow = hops = None
        headers = []
        for _, kind, value in ancillary:
            if kind == IPV6_FLOWINFO:
                (flow,) = struct.unpack(">I", value)
            elif kind == socket.IPV6_HOPLIMIT:
                (hops,) = struct.unpack("i", value)
            else:
                headers.append((PARTS[kind], value))
        return Seen(6, flow, hops, tuple(headers), data)

    def send(self, fragment):
        os.write(self.devices[fragment.context], bytes_of(fragment))

    def judge(self, fragments):
        """Returns what is received of fragments."""
        for it in fragments:
            self.send(it)
        return self.received(fragments[0].version)

    def received(self, version):
        """Returns what has been received: everything before a packet that is sent now."""
        end = bytes_of(Fragment(version, 0, 0, False, b"end"))
        end = end if version == 4 else end[:4] + struct.pack(">HB", 3, NUMBER) + end[7:40] + b"end"
        os.write(self.devices[0], end)
        found = []
        while (one := self.receive(version)) != seen_of(end):
            found.append(one)
        return found


class Added(ctypes.Structure):
    """A struct wolfaren_added of wolfaren.h."""

    _fields_ = [("slot", ctypes.c_size_t), ("outcome", ctypes.c_uint8), ("loss", ctypes.c_uint8)]


class Rewritten(ctypes.Structure):
    """A struct wolfaren_rewritten of wolfaren.h."""

    _fields_ = [("len", ctypes.c_size_t), ("refusal", ctypes.c_uint8), ("keeps_checksums", ctypes.c_uint8)]


NOT_FRAGMENT, WHOLE = 0, 2
# of `settings.timeout` in struct wolfaren_defragmenter
TIMEOUT_AT = 112 + 16


class Library:
    """The library's defragmenter, with as many slots as a list of fragments has packets at most."""

    SLOTS = 4096

    def __init__(self, folder):
        name, _ = subprocess.run([ABI, "--names"], capture_output=True, text=True, check=True).stdout.split()
        self.calls = ctypes.CDLL(os.path.abspath(f"{folder}/{name}"))
        self.calls.wolfaren_defragmenter_size.restype = ctypes.c_size_t
        self.calls.wolfaren_defragmenter_init.restype = ctypes.c_void_p
        self.calls.wolfaren_defragmenter_packet.restype = ctypes.c_bool
        self.size = self.calls.wolfaren_defragmenter_size(ctypes.c_size_t(self.SLOTS))
        self.memory = mmap.mmap(-1, self.size, mmap.MAP_PRIVATE | mmap.MAP_ANONYMOUS)
        start = ctypes.addressof(ctypes.c_char.from_buffer(self.memory))
        seed = (ctypes.c_uint64 * 2)(*struct.unpack("QQ", os.urandom(16)))
        made = self.calls.wolfaren_defragmenter_init(ctypes.c_void_p(start), ctypes.c_size_t(self.size), seed)
        self.defragmenter = ctypes.c_void_p(made)

    def judge(self, fragments):
        """Returns what a receiver sees of the packets that fragments make whole."""
        return [seen_of(packet) for it in fragments if (packet := self.add(it)) is not None]

    def set_timeout(self, seconds):
        """Sets after how many seconds a packet is given up."""
        ctypes.c_uint64.from_address(self.defragmenter.value + TIMEOUT_AT).value = seconds * 10 ** 9

    def add(self, fragment, seconds=0.0):
        """Adds a fragment that arrives at this time. Returns the packet that is whole after it, or nothing."""
        added, packet = Added(), bytes_of(fragment)
        self.calls.wolfaren_defragmenter_add(self.defragmenter, ctypes.c_uint32(fragment.context), packet, ctypes.c_size_t(len(packet)),
                                             ctypes.c_uint64(round(seconds * 1e9)), ctypes.byref(added))
        if added.outcome == NOT_FRAGMENT:
            return packet
        return self.written(added.slot) if added.outcome == WHOLE else None

    def rewritten(self, packet, name, *change):
        """Returns the packet that a call writes, whose arguments after the packet and before `may_be_invalid` are the change."""
        out, done, call = ctypes.create_string_buffer(ROOM), Rewritten(), self.calls[name]
        call.restype = ctypes.c_bool
        change = [ctypes.c_size_t(it) if isinstance(it, int) else it for it in change]
        if not call(packet, ctypes.c_size_t(len(packet)), *change, ctypes.c_bool(False), out, ctypes.c_size_t(ROOM), ctypes.byref(done)):
            raise ValueError(f"{name}: refused for reason {done.refusal}")
        return out.raw[:done.len]

    def written(self, slot):
        out, length = ctypes.create_string_buffer(ROOM), ctypes.c_size_t()
        if not self.calls.wolfaren_defragmenter_packet(self.defragmenter, ctypes.c_size_t(slot), out, ctypes.c_size_t(ROOM), ctypes.byref(length)):
            raise ValueError("a whole packet that isn't written")
        return out.raw[:length.value]
