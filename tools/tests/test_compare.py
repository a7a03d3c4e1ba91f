"""`compare.py`."""
import random
import struct

from shared import a_table, AFTR, B4, captures, FAR, Folder, ip4, ip6, packets, ran, SHARED, udp


class Comparing(Folder):
    def a_run(self, count=400):
        chosen, records = random.Random(7), []
        for at in range(count):
            ends = 1232 + chosen.randrange(4), chosen.randrange(1, 65536)
            data = udp(*ends, bytes(chosen.randrange(256) for _ in range(chosen.randint(4, 60))))
            if at % 2:
                records.append(ip6(B4, AFTR, 4, ip4(SHARED, FAR, 17, data, number=at)))
            else:
                records.append(ip4(FAR, SHARED, 17, udp(ends[1], ends[0], data[8:]), number=at))
        return self.run_program(records, a_table())

    def compared(self, names, theirs, *words):
        captures.write(self.file("theirs.pcap"), theirs)
        return ran("compare.py", names[1], self.file("theirs.pcap"), "--verdicts", names[2], *words)

    def test_a_shuffled_copy_is_the_same(self):
        names = self.a_run()
        packets_sent = [(it.time, it.bytes) for it in captures.records(names[1])]
        random.Random(1).shuffle(packets_sent)
        code, out, _ = self.compared(names, packets_sent)
        self.assertEqual((code, out), (0, "400 packets of ours, 400 of theirs: 400 the same, 0 differs, 0 missing there, 0 not ours\n"))

    def test_twenty_planted_differences(self):
        names = self.a_run()
        sent = [(it.time, bytearray(it.bytes)) for it in captures.records(names[1])]
        # the number of a packet (even: in a tunnel, odd: out), the byte that is changed, and the field that it is of
        changes = [
            (0, 1, "label"), (2, 7, "ttl"), (4, 23, "source"), (6, 39, "destination"), (8, 41, "in-tos"), (10, 45, "in-id"),
            (12, 48, "in-ttl"), (14, 50, "in-checksum"), (16, 55, "in-source"), (18, 63, "in-port-destination"), (20, 70, "in-payload"),
            (1, 1, "tos"), (3, 5, "id"), (5, 8, "ttl"), (7, 10, "checksum"), (9, 15, "source"), (11, 19, "destination"), (13, 30, "payload"),
        ]
        for at, place, _ in changes:
            sent[at][1][place] ^= 1
        theirs = [it for at, it in enumerate(sent) if at != 30] + [(0, ip4(FAR, "203.0.113.9", 17, udp(9, 9, b"another")))]
        code, out, _ = self.compared(names, theirs)
        self.assertEqual(code, 1)
        for at, _, field in changes:
            with self.subTest(packet=at):
                self.assertRegex(out, rf"(?m)^differs: packet {at} \(record {at}: {at} 0 (up|down) 1\) and their packet {at}: {field} ")
        self.assertIn("missing there: packet 30 (record 30: 30 0 down 1)", out)
        self.assertRegex(out, r"not ours: their packet 399: source 198.51.100.7 destination 203.0.113.9")
        self.assertIn("381 the same, 18 differs, 1 missing there, 1 not ours", out)

    def test_what_is_ignored(self):
        names = self.a_run(40)
        sent = [(it.time, bytearray(it.bytes)) for it in captures.records(names[1])]
        for at, (_, data) in enumerate(sent):
            data[5 if at % 2 else 2] ^= 7
            if at % 2 == 0:
                data[7] = 9
        code, out, _ = self.compared(names, sent, "--ignore", "ip-id,flow-label,ttl-outer")
        self.assertEqual((code, out.split(": ")[1][:11]), (0, "40 the same"))

    def test_an_ignored_field_leaves_out_its_checksum(self):
        names = self.a_run(2)
        for word, change in (("id", {"number": 2}), ("ttl", {"ttl": 9}), ("id,ttl", {"number": 2, "ttl": 9})):
            mine, other = (ip4(FAR, SHARED, 17, udp(53, 1232), **it) for it in ({}, change))
            inside = ",".join(f"in-{it}" for it in word.split(","))
            for fields, front in ((word, b""), (inside, ip6(AFTR, B4, 4, mine)[:40])):
                with self.subTest(fields=fields):
                    captures.write(names[1], [(0, front + mine)])
                    captures.write(self.file("theirs.pcap"), [(0, front + other)])
                    code, out, _ = ran("compare.py", names[1], self.file("theirs.pcap"), "--ignore", fields)
                    self.assertEqual((code, out.split(": ")[1][:10]), (0, "1 the same"), out)

    def test_frames_that_are_filled_up(self):
        names = self.a_run(40)
        with open(self.file("frames.pcap"), "wb") as file:
            file.write(struct.pack("<IHHiIII", 0xA1B2C3D4, 2, 4, 0, 0, 262144, 1))
            for it in captures.records(names[1]):
                frame = b"\2" * 12 + (b"\x86\xdd" if it.bytes[0] >> 4 == 6 else b"\x08\0") + it.bytes
                frame += b"\0" * (60 - len(frame)) + b"last"
                file.write(struct.pack("<IIII", 0, 0, len(frame), len(frame)) + frame)
        code, out, _ = ran("compare.py", names[1], self.file("frames.pcap"))
        self.assertEqual((code, out.split(": ")[1][:11]), (0, "40 the same"), out)

    def test_a_length_that_is_none_leaves_the_packet_whole(self):
        for data in (b"", b"\x45\0\0\x13" + b"x" * 20, b"\x60" + b"x" * 20, b"\x45\0\0\x40" + b"x" * 20):
            self.assertEqual(packets.unpadded(data), data)

    def test_bytes_that_no_field_names(self):
        ours, theirs = self.file("ours.pcap"), self.file("theirs.pcap")
        piece = ip6(AFTR, B4, 44, struct.pack("!BBHI", 4, 0, 1, 7) + b"x" * 16)
        captures.write(ours, [(0, piece)])
        captures.write(theirs, [(0, piece[:41] + b"\1" + piece[42:])])
        code, out, _ = ran("compare.py", ours, theirs)
        self.assertEqual((code, out.splitlines()[0]), (1, "differs: packet 0 and their packet 0: bytes that no field names"))

    def test_a_link_type_that_is_not_read(self):
        names = self.a_run(4)
        with open(names[1], "rb") as file:
            ours = file.read()
        for link in (9, 105, 127, 0x14000001):
            with open(self.file("other.pcap"), "wb") as file:
                file.write(ours[:20] + struct.pack("<I", link) + ours[24:])
            code, out, error = ran("compare.py", names[1], self.file("other.pcap"))
            self.assertEqual((code, out, error), (2, "", f"compare.py: {self.file('other.pcap')}: link type {link} is not read\n"))

    def test_unknown_fields(self):
        names = self.a_run(4)
        for word in ("ip_id", "in-label,hops", ""):
            code, out, error = self.compared(names, [], "--ignore", word)
            self.assertEqual((code, out), (2, ""))
            self.assertIn(f"'{word.split(',')[-1]}' is no field", error)
        code, _, error = self.compared(names, [], "--ignore", "in-label,options,in-options,fragment,fragment-id,ttl,in-ttl,ttl-outer")
        self.assertEqual(code, 1, error)

    def test_verdicts_of_another_run(self):
        names = self.a_run(40)
        other = self.file("other", "".join(f"{at} 0 up 1\n" for at in range(39)) + "39 0 up 2\nunfinished 3\n")
        code, out, error = ran("compare.py", names[1], names[1], "--verdicts", other)
        self.assertEqual((code, out), (2, ""))
        self.assertIn(f"tells of 41 packets, and {names[1]} has 40: give the VERDICTS of the run that wrote {names[1]}", error)
        for wrong in (names[1], names[3], self.file("none")):
            code, out, error = ran("compare.py", names[1], names[1], "--verdicts", wrong)
            self.assertEqual((code, out, error.count("\n")), (2, "", 1))
            self.assertIn(wrong, error)
