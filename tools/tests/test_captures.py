"""The reader of captures."""
import struct

from shared import captures, FAR, Folder, ip4, packets, SHARED, udp


class Reading(Folder):
    def test_classic_and_blocks_alike(self):
        path = self.file("one.pcap")
        captures.write(path, [(5_000_000_001, b"abc"), (6_000_000_000, b"defg")])
        found = [(it.number, it.time, it.link, it.bytes) for it in captures.records(path)]
        self.assertEqual(found, [(0, 5_000_000_001, 101, b"abc"), (1, 6_000_000_000, 101, b"defg")])
        block = lambda kind, body: struct.pack("<II", kind, 12 + len(body)) + body + struct.pack("<I", 12 + len(body))  # noqa: E731
        ticks = struct.pack("<IIIII", 0, 1, 705032705, 3, 3) + b"abc\0"
        text = block(0x0A0D0D0A, struct.pack("<IHHq", 0x1A2B3C4D, 1, 0, -1))
        text += block(1, struct.pack("<HHIHHB3xI", 101, 0, 0, 9, 1, 9, 0)) + block(6, ticks)
        with open(self.file("one.pcapng"), "wb") as file:
            file.write(text)
        found = [(it.number, it.time, it.link, it.bytes) for it in captures.records(self.file("one.pcapng"))]
        self.assertEqual(found, [(0, 5_000_000_001, 101, b"abc")])
        with self.assertRaisesRegex(captures.CaptureError, "cut"):
            with open(self.file("cut.pcap"), "wb") as file, open(path, "rb") as whole:
                file.write(whole.read()[:-1])
            list(captures.records(self.file("cut.pcap")))

    def test_a_capture_that_is_broken_is_named(self):
        path = self.file("broken.pcapng")
        block = lambda kind, body: struct.pack("<II", kind, 12 + len(body)) + body + struct.pack("<I", 12 + len(body))  # noqa: E731
        with open(path, "wb") as file:
            file.write(block(0x0A0D0D0A, struct.pack("<IHHq", 0x1A2B3C4D, 1, 0, -1)) + block(6, struct.pack("<IIIII", 0, 0, 0, 0, 0)))
        for path in (path, self.file("text", "nothing")):
            with self.assertRaisesRegex(captures.CaptureError, path):
                list(captures.records(path))

    def test_a_block_that_is_shorter_than_any(self):
        path = self.file("short.pcapng")
        front = struct.pack("<IIIHHqI", 0x0A0D0D0A, 28, 0x1A2B3C4D, 1, 0, -1, 28)
        for size in range(12):
            for text, place in ((front + struct.pack("<III", 6, size, size), 28), (front[:4] + struct.pack("<I", size) + front[8:], 0)):
                with open(path, "wb") as file:
                    file.write(text)
                with self.assertRaisesRegex(captures.CaptureError, f"^{path}: the block at byte {place} says that it has {size} bytes$"):
                    list(captures.records(path))

    def test_frames(self):
        data = ip4(FAR, SHARED, 17, udp(53, 1232))
        for link, front in ((101, b""), (1, b"\0" * 12 + b"\x08\0"), (1, b"\0" * 12 + b"\x81\0\0\1\x08\0"), (113, b"\0" * 14 + b"\x08\0")):
            self.assertEqual(packets.strip(link, front + data), data)
