"""Commands, processes, sockets and captures in the boxes of the laboratory, each of which is a network namespace."""
import ctypes
import os
import re
import signal
import socket
import subprocess
import time

import packets

BASE = "/run/interop"
RESULTS = f"{BASE}/results"
CLONE_NEWNET = 0x40000000
LIBC = ctypes.CDLL(None, use_errno=True)
HOME = os.open("/proc/self/ns/net", os.O_RDONLY)


class Inside:
    """The namespace of a box, for the sockets and children that are made in it."""

    def __init__(self, box):
        self.box = box

    def __enter__(self):
        there = os.open(f"/run/netns/{self.box}", os.O_RDONLY)
        if LIBC.setns(there, CLONE_NEWNET):
            raise OSError(ctypes.get_errno(), f"setns {self.box}")
        os.close(there)

    def __exit__(self, *_):
        LIBC.setns(HOME, CLONE_NEWNET)


def open_socket(box, *words):
    with Inside(box):
        return socket.socket(*words)


def start(box, words, **outputs):
    """A process in a box; its outputs are thrown away if none are named."""
    outputs.setdefault("stdout", subprocess.DEVNULL)
    outputs.setdefault("stderr", subprocess.DEVNULL)
    with Inside(box):
        return subprocess.Popen(words, stdin=subprocess.DEVNULL, **outputs)


def _begin_shell(command):
    return subprocess.Popen(["sh", "-c", command], stdout=subprocess.PIPE, stderr=subprocess.STDOUT, stdin=subprocess.DEVNULL, start_new_session=True)


def shell(box, command, seconds=60):
    """The exit code and the output of a shell's command in a box (None: outside of all)."""
    if box:
        with Inside(box):
            process = _begin_shell(command)
    else:
        process = _begin_shell(command)
    try:
        output, _ = process.communicate(timeout=seconds)
    except subprocess.TimeoutExpired:
        os.killpg(process.pid, signal.SIGKILL)
        output, _ = process.communicate()
        return 124, output.decode(errors="replace")
    return process.returncode, output.decode(errors="replace")


def must(box, command):
    """A command that has to end with 0."""
    code, output = shell(box, command)
    if code:
        raise RuntimeError(f"{box}: {command}: {output}")
    return output


def ip(box, *lines):
    """Commands of `ip` in a box."""
    must(box, "set -e\n" + "\n".join(f"ip {line}" for line in lines))


def load_rules(box, lines):
    """Rules of nftables, line by line."""
    path = f"/tmp/{box}.nft"
    with open(path, "w") as file:
        file.write("\n".join(lines) + "\n")
    must(box, f"nft -f {path}")


class Capture:
    """tcpdump on a device of a box: `with Capture(box, device, file) as capture: ..`, then capture.packets()."""

    def __init__(self, box, device, path, side="inout", words=""):
        self.path = f"{RESULTS}/{path}"
        command = ["tcpdump", "-i", device, "-w", self.path, "-U", "--immediate-mode", "-n", "-s", "0", "-B", "16384", "-Q", side, "-Z", "root"]
        self.process = start(box, command + words.split(), stderr=subprocess.PIPE)
        line = self.process.stderr.readline()
        while line and b"listening on" not in line:
            line = self.process.stderr.readline()

    def stop(self):
        """Ends it; how many packets the kernel dropped."""
        time.sleep(0.3)
        self.process.send_signal(signal.SIGINT)
        output = self.process.stderr.read().decode()
        self.process.wait()
        dropped = re.search(r"(\d+) packets dropped by kernel", output)
        return int(dropped[1]) if dropped else 0

    def __enter__(self):
        return self

    def __exit__(self, *_):
        self.stop()

    def packets(self):
        """The IP packets, as bytes."""
        return [data for _, data in packets.ip_packets(self.path)]

    def of_version(self, version):
        """The packets of IPv4 or of IPv6, parsed."""
        return [packets.parse(data) for data in self.packets() if data[0] >> 4 == version]
