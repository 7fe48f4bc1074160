"""Runs the desk program against a small scripted centre.

    python3 desk_test.py --desk FILE --trial FILE
"""
import argparse
import os
import re
import resource
import shutil
import signal
import socket
import sqlite3
import subprocess
import tempfile
import threading
import time
import unittest

HERE = os.path.dirname(os.path.abspath(__file__))
CARD = "6222021234561234"
MASKED = "622202******1234"
# Field 55 with the card in tags 5A and 57, a cryptogram and a value of 128 bytes.
CHIP = "5A08" + CARD + "5713" + CARD + "D2612201123456789F" + "0F9F2608A1B2C3D4E5F60718" + "9F108180" + "5C" * 128
WITH_CHIP = "sale 12000 %s chip %s" % (CARD, CHIP)
PROMPT = "sale 000002: the centre approves 120.00 yuan, card %s, chip; card-agrees or card-declines" % MASKED
# A sale of 120.00 yuan that a prepaid card covers in part.
PART_PAID = "paid by the card 50.00 yuan, still to pay 70.00 yuan"
# Key material of a sign-on, field 62.
KEYS = bytes(range(0xC1, 0xC1 + 24))
# Seconds: where the centre answers everything, and where it is silent.
LONG, SHORT = "20", "0.6"
SENT_FRONT = bytes.fromhex("6000030000603200320001")
ANSWER_FRONT = bytes.fromhex("6000000003603200320001")
PROGRAMS = {}

# Field: digits or bytes, bytes of its length, count where it is fixed.
FIELDS = {2: ("d", 1, 0), 3: ("d", 0, 6), 4: ("d", 0, 12), 11: ("d", 0, 6), 13: ("d", 0, 4), 22: ("d", 0, 3), 25: ("d", 0, 2),
          37: ("b", 0, 12), 38: ("b", 0, 6), 39: ("b", 0, 2), 41: ("b", 0, 8), 42: ("b", 0, 15), 48: ("d", 2, 0), 49: ("b", 0, 3),
          54: ("b", 2, 0), 55: ("b", 2, 0), 60: ("d", 2, 0), 61: ("d", 2, 0), 62: ("b", 2, 0), 64: ("b", 0, 8)}


def read_message(data):
    """The type and fields of a message: digits as text, other fields as bytes."""
    bits = int.from_bytes(data[2:10], "big")
    fields, at = {"type": data[:2].hex()}, 10
    for n in (n for n in range(1, 65) if bits >> (64 - n) & 1):
        form, prefix, count = FIELDS[n]
        if prefix:
            count = int(data[at:at + prefix].hex())
            at += prefix
        size = (count + 1) // 2 if form == "d" else count
        part = data[at:at + size]
        fields[n] = part.hex()[:count] if form == "d" else part
        at += size
    return fields


def write_message(fields):
    bitmap, out = 0, b""
    for n in sorted(n for n in fields if n != "type"):
        form, prefix, _ = FIELDS[n]
        value = fields[n]
        bitmap |= 1 << (64 - n)
        if prefix:
            out += bytes.fromhex(str(len(value)).rjust(2 * prefix, "0"))
        out += bytes.fromhex(value + "0" * (len(value) % 2)) if form == "d" else value
    return bytes.fromhex(fields["type"]) + bitmap.to_bytes(8, "big") + out


def mac_of(data):
    """The MAC of the key pad's stand-in over a message without field 64."""
    folded = [0] * 8
    for i, byte in enumerate(data):
        folded[i % 8] ^= byte
    changed = [byte ^ (0xA5 + i) & 0xFF for i, byte in enumerate(folded)]
    return bytes(changed[1:] + changed[:1])


def answer_to(asked, code="00", digit="1", good=True, part=None):
    """The answer to a message other than a sign-on; to a card request with a part, code 10, this amount in fen, and a balance in field 54."""
    code = "10" if part is not None else code
    answer = {"type": "%04d" % (int(asked["type"]) + 10), 11: asked[11], 41: asked[41], 42: asked[42], 60: asked[60]}
    if asked["type"] == "0500":
        return write_message({**answer, 48: asked[48][:30] + digit + asked[48][31:]})
    answer[39] = code.encode()
    if asked["type"] == "0320":
        return write_message(answer)
    if code == "00" and asked["type"] != "0400":
        answer.update({4: asked[4], 13: "1116", 37: b"%012d" % int(asked[11]), 38: b"A%05d" % int(asked[11])})
    if part is not None:
        answer.update({4: "%012d" % part, 13: "1116", 37: b"%012d" % int(asked[11]), 38: b"A%05d" % int(asked[11]), 54: b"1002156C000000000000"})
    data = write_message({**answer, 64: bytes(8)})[:-8]
    return data + (mac_of(data) if good else bytes(8))


def sign_on_answer(asked, batch, code="00", keys=KEYS):
    """The answer to a sign-on, with the centre's batch number, six digits; keys None for none."""
    answer = {"type": "0810", 11: asked[11], 39: code.encode(), 41: asked[41], 42: asked[42], 60: "00" + batch + "003"}
    return write_message(answer if keys is None else {**answer, 62: keys})


def check_of(keys):
    """The line that the trial build's key pad notes for keys: how many bytes, and FNV-1a of them."""
    check = 14695981039346656037
    for byte in keys:
        check = (check ^ byte) * 1099511628211 % (1 << 64)
    return "%d %016x" % (len(keys), check)


def totals(debit, debits, credit=0, credits=0):
    """The line of the totals; amounts are in fen."""
    return "totals debit %d.%02d yuan in %d credit %d.%02d yuan in %d" % (*divmod(debit, 100), debits, *divmod(credit, 100), credits)


def settled(batch, *sums):
    """The six lines of a settlement: (amount in fen, count) of sales, completions, refunds, sale voids and completion voids; those left out are 0."""
    sums = [*sums, *[(0, 0)] * (5 - len(sums))]
    debit, credit = ([sum(part) for part in zip(*side)] for side in (sums[:2], sums[2:]))
    words = ("sales", "completions", "refunds", "sale voids", "completion voids")
    return ["batch %s: %s %d.%02d yuan in %d" % (batch, word, *divmod(amount, 100), count) for word, (amount, count) in zip(words, sums)] + [
        "settled batch %s: debit %d.%02d yuan in %d, credit %d.%02d yuan in %d" % (batch, *divmod(debit[0], 100), debit[1],
                                                                                   *divmod(credit[0], 100), credit[1])]


def frame(message, front=ANSWER_FRONT):
    return (len(front) + len(message)).to_bytes(2, "big") + front + message


class Centre(threading.Thread):
    """Answers each message but a sign-on by the next word of its script; with 'good' once the script is at its end.

    good, silent, close, bad-mac, twice NN, noise, foreign, broken-length, code NN, digit N, late, part N and part-bad-mac N (so many fen).

    A sign-on has a script of its own: good, silent, close, code NN, batch NNNNNN, keys N (so many bytes), no-keys, foreign (an answer to
    something else and no other), unfit-then-good. It brings the batch number `batch` or, where that is None, the one that it asks with.
    """

    def __init__(self, *script, sign_ons=(), batch=None):
        super().__init__(daemon=True)
        self.script, self.asked, self.frames, self.connections = list(script), [], [], 0
        self.sign_on_script, self.batch, self.signed, self.order = list(sign_ons), batch, [], []
        self.server = socket.create_server(("127.0.0.1", 0))
        self.address = "127.0.0.1:%d" % self.server.getsockname()[1]
        self.start()

    def run(self):
        while True:
            try:
                connection, _ = self.server.accept()
            except OSError:
                return
            self.connections += 1
            threading.Thread(target=self.serve, args=(connection,), daemon=True).start()

    def serve(self, connection):
        with connection, connection.makefile("rb") as reader:
            try:
                while self.take(connection, reader):
                    pass
            except OSError:
                pass

    def take(self, connection, reader):
        data = reader.read(int.from_bytes(reader.read(2), "big"))
        if len(data) < 11:
            return False
        asked = read_message(data[11:])
        self.order.append(asked["type"])
        if asked["type"] == "0800":
            self.signed.append(asked)
            return self.reply_to_sign_on(connection, asked)
        self.frames.append(data)
        self.asked.append(asked)
        return self.reply(connection, asked)

    def reply_to_sign_on(self, connection, asked):
        word, _, rest = (self.sign_on_script.pop(0) if self.sign_on_script else "good").partition(" ")
        batch = rest if word == "batch" else self.batch or asked[60][2:8]
        if word == "foreign":
            asked = {**asked, 11: "999999"}
        if word == "unfit-then-good":
            connection.sendall(frame(sign_on_answer(asked, batch, keys=KEYS[1:])) + frame(sign_on_answer(asked, "000000")))
        if word not in ("silent", "close"):
            keys = bytes(range(int(rest))) if word == "keys" else None if word == "no-keys" else KEYS
            connection.sendall(frame(sign_on_answer(asked, batch, code=rest if word == "code" else "00", keys=keys)))
        return word != "close"

    def reply(self, connection, asked):
        word, _, rest = (self.script.pop(0) if self.script else "good").partition(" ")
        if word == "close":
            return False
        if word == "silent":
            return True
        if word == "late":
            time.sleep(1.5 * float(SHORT))
        answer = answer_to(asked, code=rest if word in ("code", "twice") else "00", digit=rest if word == "digit" else "1",
                           good=not word.endswith("bad-mac"), part=int(rest) if word.startswith("part") else None)
        if word == "noise":
            connection.sendall(frame(answer_to(asked, code="51"), SENT_FRONT) + frame(b"\x02\x10") + frame(b""))
        if word == "broken-length":
            connection.sendall(b"\xff\xff")
        if word == "foreign":
            connection.sendall(frame(answer_to({**asked, 11: "999999"})))
        connection.sendall(frame(answer) * (2 if word == "twice" else 1))
        return True

    def types(self):
        """The types of all messages but sign-ons; `order` has those too."""
        return [asked["type"] for asked in self.asked]

    def wait_for(self, count, sign_ons=0):
        """The types of all messages but sign-ons, sorted, once so many have been read; a killed desk's last one may take a moment."""
        end = time.monotonic() + 5
        while (len(self.asked) < count or len(self.signed) < sign_ons) and time.monotonic() < end:
            time.sleep(0.01)
        return sorted(self.types())

    def stop(self):
        """Ends the thread first: one that is still accepting could accept for the next centre, which gets the same descriptor."""
        self.server.shutdown(socket.SHUT_RDWR)
        self.join()
        self.server.close()


class DeskTest(unittest.TestCase):
    def setUp(self):
        self.folder = tempfile.mkdtemp()
        self.store = os.path.join(self.folder, "store")
        self.centres = []
        self.time_out = LONG

    def tearDown(self):
        for centre in self.centres:
            centre.stop()
        shutil.rmtree(self.folder)

    def centre(self, *script, **options):
        self.centres.append(Centre(*script, **options))
        return self.centres[-1]

    def arguments(self, centre, *options, program="desk"):
        address = centre.address if centre else "127.0.0.1:9"
        return [PROGRAMS[program], "--store", self.store, "--centre", address, "--timeout", self.time_out, *options]

    def desk(self, centre, *commands, options=(), kill=None, keys=None, status=0, file_size=None):
        """Runs the desk with commands; its lines. No output of any run may show the card, the chip or keys. The trial build is run where it is
        to be killed, or to note keys in a file."""
        environment = dict(os.environ, **({"DESK_KILL": kill} if kill else {}), **({"DESK_KEYS": keys} if keys else {}))
        limit = (lambda: resource.setrlimit(resource.RLIMIT_FSIZE, (file_size, file_size))) if file_size else None
        ran = subprocess.run(self.arguments(centre, *options, program="trial" if kill or keys else "desk"), text=True, capture_output=True,
                             input="".join(c + "\n" for c in commands), env=environment, preexec_fn=limit, timeout=60)
        self.assertEqual(ran.returncode, status, ran.stdout + ran.stderr)
        self.shows_no_secret(ran.stdout + ran.stderr)
        self.error = ran.stderr
        return ran.stdout.splitlines()

    def shows_no_secret(self, text):
        self.assertNotIn(CARD, text)
        for secret in (CHIP, KEYS.hex().upper()):
            for at in range(0, len(secret) - 16, 2):
                self.assertNotIn(secret[at:at + 16], text.upper())

    def test_sale_approved(self):
        centre = self.centre(batch="000007")
        lines = self.desk(centre, "# a comment", "", "sale 12000 " + CARD, "counts", "totals", "state", "journal", "doubtful")
        self.assertEqual(lines, [
            "signed on, batch 000007", "last request: none", "ready, batch 000007",
            "sale 000002: approved 120.00 yuan, card %s, reference 000000000002, authorisation A00002" % MASKED,
            "totals debit 120.00 yuan in 1 credit 0.00 yuan in 0",
            "counts sent 1 approved 1 declined 0 reversed 0 given-up 0 unanswered 0",
            "totals debit 120.00 yuan in 1 credit 0.00 yuan in 0",
            "state batch 000007 next-trace 000003 signed-on entries 1 resting",
            "sale 000002: 120.00 yuan, card %s, date 1116, reference 000000000002, authorisation A00002" % MASKED,
            "journal 1 entries", "doubtful: 0"])
        self.assertEqual(centre.frames[0][:11], SENT_FRONT)
        self.assertEqual(centre.frames[0][-8:], mac_of(centre.frames[0][11:-8]))
        self.assertEqual((centre.asked[0][2], centre.asked[0][60]), (CARD, "22000007000001"))

    def test_every_kind(self):
        lines = self.desk(self.centre(), "authorise 500 " + CARD, "complete 500 %s A00002 1116" % CARD, "complete-void 3",
                          "authorise-void 500 %s A00002 1116" % CARD, "sale 700 " + CARD, "sale-void 6",
                          "refund 300 %s 000000000006 1116" % CARD, "totals", "journal")
        self.assertEqual([line.split(":")[0] for line in lines[3:17:2]],
                         ["authorise 000002", "complete 000003", "complete-void 000004", "authorise-void 000005", "sale 000006",
                          "sale-void 000007", "refund 000008"])
        self.assertTrue(all(": approved " in line for line in lines[3:17:2]))
        self.assertEqual(lines[4:17:2], [totals(0, 0), totals(500, 1), totals(500, 1, 500, 1), totals(500, 1, 500, 1), totals(1200, 2, 500, 1),
                                         totals(1200, 2, 1200, 2), totals(1200, 2, 1500, 3)])
        self.assertEqual(lines[17], lines[16])
        self.assertTrue(lines[22].startswith("sale 000006: 7.00 yuan") and lines[22].endswith(", voided"))

    def test_totals_are_shown(self):
        """After each approval and at each start, as they stand; a decline and a reversal leave them, a settlement begins anew."""
        self.time_out = SHORT
        centre = self.centre("good", "good", "code 51", "silent", "good")
        after_sale, after_void = totals(12000, 1), totals(12000, 1, 12000, 1)
        lines = self.desk(centre, "sale 12000 " + CARD, "sale-void 2", "sale 700 " + CARD, "totals", "sale 700 " + CARD, "totals")
        self.assertEqual([line.split(" ")[2] if line.startswith("sale") else line for line in lines[3:]],
                         ["approved", after_sale, "approved", after_void, "declined", after_void, "reversed", after_void])
        self.desk(centre, "sale 5 " + CARD, kill="after-answer:2", status=-signal.SIGKILL)
        self.assertEqual([line for line in self.desk(centre) if line.startswith("totals")], [after_void])
        self.desk(centre, "sale 5 " + CARD, kill="after-answer-store:2", status=-signal.SIGKILL)
        lines = self.desk(centre, "totals", "settle", "totals", "authorise 100 " + CARD)
        approved = "last request: sale 000010: approved 0.05 yuan, card %s, reference 000000000010, authorisation A00010" % MASKED
        self.assertEqual(lines[:11], ["signed on, batch 000001", approved, totals(12005, 2, 12000, 1), "ready, batch 000001",
                                      totals(12005, 2, 12000, 1), *settled("000001", (12005, 2), (0, 0), (0, 0), (12000, 1))])
        self.assertEqual([lines[11], lines[12], lines[14]], [totals(0, 0), "signed on, batch 000002", totals(0, 0)])
        self.assertEqual(self.desk(centre, "settle")[2:4], [totals(0, 0), "ready, batch 000002"])
        self.assertEqual(self.desk(centre)[2:], ["ready, batch 000003"])

    def test_declined(self):
        lines = self.desk(self.centre("code 51"), "sale 12000 " + CARD)
        self.assertEqual(lines[3], "sale 000002: declined (51) 120.00 yuan, card " + MASKED)

    def test_silent_then_reversed(self):
        self.time_out = SHORT
        for word in ("silent", "close", "broken-length", "late"):
            with self.subTest(word):
                centre = self.centre(word)
                lines = self.desk(centre, "sale 12000 " + CARD, "sale 100 " + CARD)
                self.assertRegex(lines[-3], r"^sale \d{6}: reversed 120.00 yuan, card %s$" % re.escape(MASKED))
                self.assertIn(": approved 1.00 yuan", lines[-2])
                self.assertEqual(centre.types(), ["0200", "0400", "0200"])
                self.assertEqual((centre.asked[1][39], centre.asked[1][11]), (b"98", centre.asked[0][11]))
                self.assertEqual(centre.connections, 2)

    def test_bad_mac(self):
        centre = self.centre("bad-mac", "bad-mac", "code 96", "good")
        lines = self.desk(centre, "sale 12000 " + CARD)
        self.assertEqual(lines[3], "sale 000002: reversed 120.00 yuan, card " + MASKED)
        self.assertEqual(centre.types(), ["0200", "0400", "0400", "0400"])
        self.assertEqual(centre.asked[1][39], b"A0")

    def test_part_paid(self):
        """What the card has paid and what is still to pay, at the sale and at the next start; entry, totals and void have the part."""
        centre = self.centre("part 5000")
        approved = "sale 000002: approved 50.00 yuan of 120.00 yuan, card %s, reference 000000000002, authorisation A00002" % MASKED
        lines = self.desk(centre, "sale 12000 " + CARD, "journal", "counts")
        self.assertEqual(lines[3:], [
            approved, PART_PAID, totals(5000, 1),
            "sale 000002: 50.00 yuan, card %s, date 1116, reference 000000000002, authorisation A00002" % MASKED, "journal 1 entries",
            "counts sent 1 approved 1 declined 0 reversed 0 given-up 0 unanswered 0"])
        lines = self.desk(centre, "sale-void 2", "journal", "settle")
        self.assertEqual(lines[1:4], ["last request: " + approved, PART_PAID, totals(5000, 1)])
        self.assertEqual(lines[5:7], ["sale-void 000004: approved 50.00 yuan, card %s, reference 000000000004, authorisation A00004" % MASKED,
                                      totals(5000, 1, 5000, 1)])
        self.assertTrue(lines[7].startswith("sale 000002: 50.00 yuan") and lines[7].endswith(", voided"), lines)
        self.assertEqual(lines[-6:], settled("000001", (5000, 1), (0, 0), (0, 0), (5000, 1)))
        self.assertEqual([(asked["type"], asked.get(4), asked[60]) for asked in centre.asked],
                         [("0200", "000000012000", "22000001000001"), ("0200", "000000005000", "23000001000"), ("0500", None, "00000001201")])

    def test_part_that_is_the_whole(self):
        """Code 10 with the amount asked is an ordinary approval; one fen fewer is a part."""
        lines = self.desk(self.centre("part 12000", "part 11999"), *["sale 12000 " + CARD] * 2)
        self.assertEqual(lines[3:5], ["sale 000002: approved 120.00 yuan, card %s, reference 000000000002, authorisation A00002" % MASKED,
                                      totals(12000, 1)])
        self.assertEqual(lines[6:], ["paid by the card 119.99 yuan, still to pay 0.01 yuan", totals(23999, 2)])

    def test_part_that_is_none(self):
        """Amounts out of range are waited out, a bad MAC is reversed, each for the amount asked; 10 to another kind is a decline."""
        self.time_out = SHORT
        centre = self.centre("part 0", "good", "part 12001", "good", "part-bad-mac 5000", "good", "part 300")
        lines = self.desk(centre, *["sale 12000 " + CARD] * 3, "authorise 500 " + CARD, "totals")
        self.assertEqual(lines[3:], ["sale %06d: reversed 120.00 yuan, card %s" % (trace, MASKED) for trace in (2, 3, 4)]
                         + ["authorise 000005: declined (10) 5.00 yuan, card " + MASKED, totals(0, 0)])
        self.assertEqual([(asked[39], asked[4], asked[60]) for asked in centre.asked if asked["type"] == "0400"],
                         [(reason, "000000012000", "22000001000001") for reason in (b"98", b"98", b"A0")])

    def test_part_paid_with_a_chip(self):
        """The card's consent pays the part; its decline and its silence reverse the amount asked, and nothing is paid."""
        prompt = PROMPT.replace("120.00 yuan", "50.00 yuan of 120.00 yuan")
        for words in (("card-agrees",), ("card-declines",), ()):
            with self.subTest(words):
                self.store = os.path.join(self.folder, "-".join(("store", *words)))
                centre = self.centre("part 5000")
                lines = self.desk(centre, WITH_CHIP, *words)
                self.assertEqual(lines[3], prompt)
                if words == ("card-agrees",):
                    approved = "sale 000002: approved 50.00 yuan of 120.00 yuan, card %s, chip, reference 000000000002, authorisation A00002" % MASKED
                    self.assertEqual(lines[4:], [approved, PART_PAID, totals(5000, 1)])
                    self.assertEqual(self.desk(centre)[1:4], ["last request: " + approved, PART_PAID, totals(5000, 1)])
                else:
                    self.reversed_by_the_card(centre, lines[4:])
                    self.assertEqual(self.desk(centre)[1:], ["last request: " + lines[4], "ready, batch 000001"])

    def test_killed_about_a_part(self):
        """The next start tells the part and what is still to pay where the approval was stored, else a reversal of the amount asked."""
        for point, command, words, is_paid in (
                ("after-answer:2", "sale 12000 " + CARD, (), False), ("before-answer-store:2", "sale 12000 " + CARD, (), False),
                ("during-store:5", "sale 12000 " + CARD, (), False), ("after-answer-store:2", "sale 12000 " + CARD, (), True),
                ("after-told:1", "sale 12000 " + CARD, (), True), ("after-answer-store:2", WITH_CHIP, (), False),
                ("after-told:1", WITH_CHIP, (), False), ("before-answer-store:3", WITH_CHIP, ("card-agrees",), False),
                ("after-answer-store:3", WITH_CHIP, ("card-agrees",), True), ("after-answer-store:3", WITH_CHIP, ("card-declines",), False)):
            with self.subTest((point, words, "chip" in command)):
                self.store = os.path.join(self.folder, "-".join((point, *words, str("chip" in command))))
                centre = self.centre("part 5000")
                self.desk(centre, command, *words, kill=point, status=-signal.SIGKILL)
                centre.wait_for(1)
                lines = self.desk(centre)
                if is_paid:
                    self.assertTrue(lines[1].startswith("last request: sale 000002: approved 50.00 yuan of 120.00 yuan, card " + MASKED), lines)
                    self.assertEqual(lines[2:], [PART_PAID, totals(5000, 1), "ready, batch 000001"])
                else:
                    chip = ", chip" if "chip" in command else ""
                    self.assertEqual(lines[1:], ["last request: sale 000002: reversed 120.00 yuan, card %s%s" % (MASKED, chip), "ready, batch 000001"])
                    self.assertEqual([asked[4] for asked in centre.asked], ["000000012000"] * 2)

    def test_chip_agrees(self):
        centre = self.centre()
        lines = self.desk(centre, "card-agrees", WITH_CHIP, "state", "counts", "card-agrees", "card-agrees", "state", "counts", "journal",
                          "authorise 500 %s chip %s" % (CARD, CHIP.lower()), "card-agrees")
        approved = "sale 000002: approved 120.00 yuan, card %s, chip, reference 000000000002, authorisation A00002" % MASKED
        self.assertEqual(lines[3:], [
            "refused (14): nothing is awaited, pending or to be uploaded", PROMPT,
            "state batch 000001 next-trace 000003 signed-on entries 0 card-awaited",
            "counts sent 1 approved 0 declined 0 reversed 0 given-up 0 unanswered 0", approved, totals(12000, 1),
            "refused (14): nothing is awaited, pending or to be uploaded",
            "state batch 000001 next-trace 000003 signed-on entries 1 resting",
            "counts sent 1 approved 1 declined 0 reversed 0 given-up 0 unanswered 0",
            "sale 000002: 120.00 yuan, card %s, date 1116, reference 000000000002, authorisation A00002" % MASKED, "journal 1 entries",
            "authorise 000003: the centre approves 5.00 yuan, card %s, chip; card-agrees or card-declines" % MASKED,
            "authorise 000003: approved 5.00 yuan, card %s, chip, reference 000000000003, authorisation A00003" % MASKED, totals(12000, 1)])
        self.assertEqual([(asked["type"], asked[22], asked[55]) for asked in centre.asked],
                         [("0200", "052", bytes.fromhex(CHIP)), ("0100", "052", bytes.fromhex(CHIP))])
        self.assertEqual(self.desk(centre)[1:3], ["last request: " + lines[-2], totals(12000, 1)])

    def reversed_by_the_card(self, centre, lines):
        """The request is reversed with reason 06, its fields as they were sent."""
        self.assertEqual(lines, ["sale 000002: reversed 120.00 yuan, card %s, chip" % MASKED])
        sent, back = centre.asked[:2]
        self.assertEqual((sent["type"], back["type"], back[39], back[22]), ("0200", "0400", b"06", "052"))
        self.assertEqual({n: back[n] for n in back if n not in ("type", 39, 64)}, {n: sent[n] for n in sent if n not in ("type", 64)})

    def test_chip_declines(self):
        centre = self.centre("good", "silent", "good")
        self.time_out = SHORT
        lines = self.desk(centre, WITH_CHIP, "card-declines", "card-declines", "counts", "totals")
        self.reversed_by_the_card(centre, lines[4:5])
        self.assertEqual((lines[3], lines[5]), (PROMPT, "refused (14): nothing is awaited, pending or to be uploaded"))
        self.assertEqual(lines[6:], ["counts sent 1 approved 0 declined 0 reversed 1 given-up 0 unanswered 0",
                                     "totals debit 0.00 yuan in 0 credit 0.00 yuan in 0"])
        self.assertEqual(centre.types(), ["0200", "0400", "0400"])

    def test_chip_declined_by_the_centre_or_not_answered(self):
        self.time_out = SHORT
        centre = self.centre("code 51", "silent", "good", "bad-mac", *["silent"] * 3)
        lines = self.desk(centre, *[WITH_CHIP] * 3, "doubtful")
        doubtful = "sale 000004: given up 120.00 yuan, card %s, chip; ask the centre" % MASKED
        self.assertEqual(lines[3:], ["sale 000002: declined (51) 120.00 yuan, card %s, chip" % MASKED,
                                     "sale 000003: reversed 120.00 yuan, card %s, chip" % MASKED, doubtful, "doubtful: 1", doubtful])
        self.assertEqual([asked.get(39) for asked in centre.asked], [None, None, b"98", None, b"A0", b"A0", b"A0"])
        self.assertTrue(all(asked[55] == bytes.fromhex(CHIP) for asked in centre.asked))

    def test_chip_and_other_commands_while_its_word_is_awaited(self):
        centre = self.centre()
        refused = "refused (11): an answer or the card's word is awaited"
        lines = self.desk(centre, WITH_CHIP, "sale 100 " + CARD, WITH_CHIP, "sale-void 1", "settle", "sign-on", "what", "", "# a comment",
                          "card-agrees", "settle")
        self.assertEqual(lines[4:9] + [lines[9][:5]], [refused] * 5 + ["error"])
        self.assertIn(": approved 120.00 yuan", lines[10])
        self.assertEqual(lines[11:], [totals(12000, 1), *settled("000001", (12000, 1))])
        self.assertEqual(centre.types(), ["0200", "0500"])

    def test_silent_card(self):
        """At the end of input, at quit and when its time is out; the desk goes on then."""
        for last in ((), ("quit",)):
            with self.subTest(last):
                self.store = os.path.join(self.folder, "silent %d" % len(last))
                centre = self.centre()
                lines = self.desk(centre, WITH_CHIP, *last)
                self.assertEqual(lines[3], PROMPT)
                self.reversed_by_the_card(centre, lines[4:])
        self.store = os.path.join(self.folder, "silent")
        centre = self.centre()
        with subprocess.Popen(self.arguments(centre, "--card-timeout", "1.5"), stdin=subprocess.PIPE, stdout=subprocess.PIPE,
                              stderr=subprocess.PIPE, text=True) as desk:
            desk.stdin.write(WITH_CHIP + "\ncard-a")
            desk.stdin.flush()
            lines = [desk.stdout.readline().rstrip("\n") for _ in range(5)]
            out, error = desk.communicate("grees\nsale 100 %s\n" % CARD)
        self.assertEqual(lines[3], PROMPT)
        self.reversed_by_the_card(centre, lines[4:])
        self.assertEqual(error, "signing on\nwaiting for the card, at most 1 s\nreversal, sending 1 of 3\n")
        self.assertEqual(out.splitlines()[0], "refused (14): nothing is awaited, pending or to be uploaded")
        self.assertIn("sale 000003: approved 1.00 yuan", out)

    def test_card_in_time(self):
        """Its word comes in pieces and after other lines, within its time."""
        with subprocess.Popen(self.arguments(self.centre(), "--card-timeout", "20"), stdin=subprocess.PIPE, stdout=subprocess.PIPE,
                              stderr=subprocess.DEVNULL, text=True) as desk:
            for piece in (WITH_CHIP[:50], WITH_CHIP[50:] + "\nst", "ate\n\ncard-", "agrees"):
                desk.stdin.write(piece)
                desk.stdin.flush()
                time.sleep(0.2)
            out, _ = desk.communicate()
        self.assertEqual([line.split(":")[0] for line in out.splitlines()[3:]],
                         ["sale 000002", "state batch 000001 next-trace 000003 signed-on entries 0 card-awaited", "sale 000002",
                          totals(12000, 1)])
        self.assertIn(": approved 120.00 yuan", out.splitlines()[5])

    def test_killed_while_the_card_is_awaited(self):
        """The next start makes the reversal with reason 06; before the approval is stored, with 98."""
        for point, words, reason in (
                ("before-answer-store:2", (), b"98"), ("during-store:5", (), b"98"), ("after-answer-store:2", (), b"06"),
                ("after-told:1", (), b"06"), ("before-call:3", ("card-agrees",), b"06"), ("before-answer-store:3", ("card-agrees",), b"06"),
                ("during-store:6", ("card-agrees",), b"06"), ("before-answer-store:3", ("card-declines",), b"06"),
                ("after-answer-store:3", ("card-declines",), b"06"), ("after-answer-store:3", ("card-agrees",), None)):
            with self.subTest((point, words)):
                self.store = os.path.join(self.folder, "-".join((point, *words)))
                centre = self.centre()
                self.desk(centre, WITH_CHIP, *words, kill=point, status=-signal.SIGKILL)
                lines = self.desk(centre, "counts")
                if reason:
                    centre.wait_for(2)
                    self.assertEqual([(a["type"], a.get(39), a[22], a[55]) for a in sorted(centre.asked, key=lambda a: a["type"])],
                                     [("0200", None, "052", bytes.fromhex(CHIP)), ("0400", reason, "052", bytes.fromhex(CHIP))])
                    self.assertEqual(lines[1], "last request: sale 000002: reversed 120.00 yuan, card %s, chip" % MASKED)
                else:
                    self.assertEqual(centre.types(), ["0200"])
                    self.assertIn(": approved 120.00 yuan, card %s, chip, reference" % MASKED, lines[1])
                self.assertEqual([line for line in lines if line.startswith("totals")], [] if reason else [totals(12000, 1)])

    def test_chip_does_not_outlast_its_request(self):
        """Field 55 stands in the store while its request is out, and in none of its files once that has ended."""
        secret = bytes.fromhex(CHIP)[:30]
        for word, stands in (("card-agrees", False), ("card-declines", False), (None, True)):
            with self.subTest(word):
                self.store = os.path.join(self.folder, str(word))
                centre = self.centre()
                if word:
                    self.desk(centre, WITH_CHIP, word)
                else:
                    self.desk(centre, WITH_CHIP, kill="after-told:1", status=-signal.SIGKILL)
                data = b""
                for name in os.listdir(self.folder):
                    if name.startswith(str(word)):
                        with open(os.path.join(self.folder, name), "rb") as file:
                            data += file.read()
                self.assertEqual(secret in data, stands)

    def test_bad_chip(self):
        centre = self.centre()
        front = "sale 100 %s chip " % CARD
        not_hexadecimal = [front + word for word in ("5A0", "5g", "0x5A", "--", "5A 00", "00" * 301, "5A-")]
        out_of_form = [front + word for word in ("-", "5A", "9F", "8201", "8180", "82817F" + "00" * 127, "82008200", "00" * 300, CHIP + "5A00")]
        counts = ["sale 100 %s chip" % CARD, "sale 100 %s chop 8200" % CARD, "refund 1 %s 000000000005 1116 chip 8200" % CARD,
                  "sale-void 1 chip 8200", "sale 100 chip 8200"]
        lines = self.desk(centre, *not_hexadecimal, *out_of_form, *counts)
        self.assertEqual(lines[3:3 + len(not_hexadecimal)].count("error: the chip's data are hexadecimal, at most 300 bytes"),
                         len(not_hexadecimal) - 1)
        self.assertEqual(lines[3 + len(not_hexadecimal):-len(counts)],
                         ["refused (23): the chip's data are out of form"] * len(out_of_form))
        self.assertTrue(all(line.startswith("error: ") for line in lines[-len(counts):]), lines)
        self.assertEqual(centre.asked, [])

    def test_noise_and_answers_to_something_else(self):
        centre = self.centre("noise", "foreign", "twice 00")
        lines = self.desk(centre, *["sale 100 " + CARD] * 4)
        self.assertTrue(all(": approved 1.00 yuan" in line for line in lines[3:11:2]), lines)
        self.assertEqual((centre.types(), centre.connections), (["0200"] * 4, 1))

    def test_waiting_bytes_are_dropped_before_sending(self):
        """The second copy of a reversal's answer is none to the next sending, although its trace is the same."""
        centre = self.centre("bad-mac", "twice 96", "good")
        self.assertIn(": reversed 1.00 yuan", self.desk(centre, "sale 100 " + CARD)[3])
        self.assertEqual((centre.types(), centre.connections), (["0200", "0400", "0400"], 1))

    def test_doubtful_requests_outlast_the_batch(self):
        self.time_out = SHORT
        centre = self.centre(*["silent"] * 4, "silent")
        lines = self.desk(centre, "sale 12000 " + CARD, "refund 300 %s 000000000005 1116" % CARD, "settle", options=("--sendings", "3"))
        doubtful = ["sale 000002: given up 120.00 yuan, card %s; ask the centre" % MASKED,
                    "refund 000003: unanswered 3.00 yuan, card %s; ask the centre" % MASKED]
        self.assertEqual(lines[3:5], doubtful)
        self.assertEqual(centre.types(), ["0200", "0400", "0400", "0400", "0220", "0500"])
        self.assertEqual(self.desk(centre, "doubtful", "counts"),
                         ["signed on, batch 000002", "last request: " + doubtful[1], "ready, batch 000002", "doubtful: 2", *doubtful,
                          "counts sent 0 approved 0 declined 0 reversed 0 given-up 0 unanswered 0"])

    def test_settlement(self):
        self.time_out = SHORT
        centre = self.centre("good", "silent")
        lines = self.desk(centre, "sale 12000 " + CARD, "settle", "sale 100 " + CARD, "state", "settle", "state")
        self.assertEqual(lines[5:], [
            "settlement not answered; settle again", "refused (13): the batch is settling or uploading; settle first",
            "state batch 000001 next-trace 000004 signed-on entries 1 settling", *settled("000001", (12000, 1)),
            "state batch 000002 next-trace 000005 signed-off entries 0 resting"])

    def test_upload(self):
        self.time_out = SHORT
        centre = self.centre("good", "good", "digit 2", "silent", "good", "good", *["silent"] * 5)
        lines = self.desk(centre, "sale 12000 " + CARD, "sale 100 " + CARD, "settle", "state", "settle", "state")
        self.assertEqual(lines[7:], [
            "upload not answered; settle again", "state batch 000001 next-trace 000010 signed-on entries 2 uploading",
            *settled("000001", (12100, 2)), "state batch 000002 next-trace 000011 signed-off entries 0 resting"])
        self.assertEqual(centre.types(), ["0200", "0200", "0500"] + ["0320"] * 9)

    def test_settlement_goes_on_at_the_next_start(self):
        self.desk(self.centre(), "sale 100 " + CARD, "settle", kill="after-send:3", status=-signal.SIGKILL)
        lines = self.desk(self.centre(), "counts")
        self.assertEqual(lines[:7], ["signed on, batch 000001", *settled("000001", (100, 1))])
        self.assertEqual(lines[8], "ready, batch 000002")

    def test_settlement_report(self):
        """All kinds in one batch, a part and an authorisation among them: closed at once, after an upload, and by either at the next start."""
        requests = [*["sale 100 " + CARD] * 5, *["complete 300 %s A00002 1116" % CARD] * 4, *["refund 70 %s 000000000002 1116" % CARD] * 3,
                    "sale-void 2", "sale-void 3", "complete-void 7", "authorise 90000 " + CARD]
        report = ["batch 000001: sales 4.40 yuan in 5", "batch 000001: completions 12.00 yuan in 4", "batch 000001: refunds 2.10 yuan in 3",
                  "batch 000001: sale voids 1.40 yuan in 2", "batch 000001: completion voids 3.00 yuan in 1",
                  "settled batch 000001: debit 16.40 yuan in 9, credit 6.50 yuan in 6"]
        self.assertEqual(settled("000001", (440, 5), (1200, 4), (210, 3), (140, 2), (300, 1)), report)
        for digit, kill, later in (("1", None, ()), ("2", None, ()), ("1", "after-send:18", ()), ("1", "after-send:18", ("digit 2",)),
                                   ("2", "after-send:25", ())):
            with self.subTest((digit, kill, later)):
                self.store = os.path.join(self.folder, "-".join((digit, str(kill), *later)))
                centre = self.centre("part 40", *["good"] * 15, "digit " + digit)
                lines = self.desk(centre, *requests, "settle", "totals", kill=kill, status=-signal.SIGKILL if kill else 0)
                if kill:
                    self.assertFalse([line for line in lines if line.startswith(("batch", "settled"))])
                    lines = self.desk(self.centre(*later), "totals")
                at = lines.index(report[0])
                self.assertEqual(lines[at:at + 6], report)
                self.assertEqual([line for line in lines[at + 6:] if not line.startswith("last request")],
                                 [*["ready, batch 000002"] * bool(kill), totals(0, 0)])

    def test_signs_on_at_start(self):
        """The request's fields, the centre's batch number, and that it is not adopted once a card request has left."""
        centre = self.centre(batch="000057")
        self.assertEqual(self.desk(centre, "state"), ["signed on, batch 000057", "last request: none", "ready, batch 000057",
                                                      "state batch 000057 next-trace 000002 signed-on entries 0 resting"])
        self.assertEqual(centre.signed, [{"type": "0800", 11: "000001", 41: b"LIB00001", 42: b"WHISTLAUREL0001", 60: "00000001003"}])
        self.desk(centre, "sale 100 " + CARD)
        centre.batch = "000090"
        self.assertEqual(self.desk(centre, "state")[-1], "state batch 000057 next-trace 000005 signed-on entries 1 resting")
        self.assertEqual([asked[60] for asked in centre.signed], ["00000001003", "00000057003", "00000057003"])

    def test_signs_on_again_after_closing(self):
        """The batch is closed, so signed off: a sale or a settlement is told 10, signs on and goes, once, in the centre's next batch."""
        centre = self.centre(sign_ons=("batch 000057", "batch 000090", "batch 000120"))
        lines = self.desk(centre, "sale 100 " + CARD, "settle", "state", "sale 200 " + CARD, "settle", "settle")
        self.assertEqual([line for line in lines if not line.startswith("totals")], [
            "signed on, batch 000057", "last request: none", "ready, batch 000057",
            "sale 000002: approved 1.00 yuan, card %s, reference 000000000002, authorisation A00002" % MASKED,
            *settled("000057", (100, 1)),
            "state batch 000058 next-trace 000004 signed-off entries 0 resting", "signed on, batch 000090",
            "sale 000005: approved 2.00 yuan, card %s, reference 000000000005, authorisation A00005" % MASKED,
            *settled("000090", (200, 1)), "signed on, batch 000120", *settled("000120")])
        self.assertEqual(centre.order, ["0800", "0200", "0500", "0800", "0200", "0500", "0800", "0500"])

    def test_sign_on_declined(self):
        """The desk starts signed off, tries again with each call that is told 10, and sends nothing else. No other code signs off."""
        centre = self.centre(sign_ons=("code 96", "code 97", "good", "code 98"))
        declined = "not signed on: the centre has declined (%d); the next request tries again"
        lines = self.desk(centre, "state", "totals", "sale 100 " + CARD, "sign-on", "sign-on", "state", "sale 100 " + CARD)
        self.assertEqual(lines[:-2], [
            declined % 96, "last request: none", "ready, batch 000001", "state batch 000001 next-trace 000002 signed-off entries 0 resting",
            totals(0, 0), declined % 97, "refused (10): signed off", "signed on, batch 000001",
            "still signed on: the centre has declined (98)", "state batch 000001 next-trace 000005 signed-on entries 0 resting"])
        self.assertIn("sale 000005: approved", lines[-2])
        self.assertEqual(centre.order, ["0800"] * 4 + ["0200"])

    def test_sign_on_not_answered(self):
        """By silence, a closed connection, and answers that are refused and leave the sign-on awaited until the time is out."""
        self.time_out = SHORT
        refused = "'s answer was refused (%d): %s"
        for word, why in (("silent", " has not answered"), ("close", " has not answered"),
                          ("foreign", refused % (22, "the answer does not match")), ("batch 000000", refused % (22, "the answer does not match")),
                          ("no-keys", refused % (22, "the answer does not match")), ("keys 23", refused % (24, "the keys are out of form")),
                          ("keys 0", refused % (24, "the keys are out of form")), ("keys 85", refused % (24, "the keys are out of form"))):
            with self.subTest(word):
                self.store = os.path.join(self.folder, word)
                centre, began = self.centre(sign_ons=(word,), batch="000057"), time.monotonic()
                lines = self.desk(centre, "state", "sale 100 " + CARD)
                self.assertGreaterEqual(time.monotonic() - began, float(SHORT))
                self.assertEqual(lines[:5], [
                    "not signed on: the centre%s; the next request tries again" % why, "last request: none", "ready, batch 000001",
                    "state batch 000001 next-trace 000002 signed-off entries 0 resting", "signed on, batch 000057"])
                self.assertIn("sale 000003: approved", lines[5])
                self.assertEqual((centre.order, centre.connections), (["0800", "0800", "0200"], 2))

    def test_sign_on_takes_a_good_answer_after_unfit_ones(self):
        centre = self.centre(sign_ons=("unfit-then-good",))
        self.assertEqual(self.desk(centre)[0], "signed on, batch 000001")
        self.assertEqual(centre.order, ["0800"])

    def test_centre_that_cannot_be_reached(self):
        """The desk starts at once and shows what it has; a card request does not leave."""
        self.desk(self.centre(), "sale 100 " + CARD)
        began = time.monotonic()
        lines = self.desk(None, "totals", "journal", "sale 100 " + CARD, "settle", "sign-on", "state")
        self.assertLess(time.monotonic() - began, float(LONG) / 2)
        not_reached = "not signed on: the centre cannot be reached; the next request tries again"
        self.assertEqual([lines[0], *lines[2:5], *lines[6:]], [
            not_reached, totals(100, 1), "ready, batch 000001", totals(100, 1), "journal 1 entries", not_reached, "refused (10): signed off",
            not_reached, "refused (10): signed off", not_reached, "state batch 000001 next-trace 000007 signed-off entries 1 resting"])

    def test_silent_sign_on_over_a_pending_reversal(self):
        """With one sending allowed the reversal still leaves once, after the next sign-on and before the sale that asked for it."""
        self.time_out = SHORT
        centre = self.centre("silent", sign_ons=("good", "silent", "code 96", "good"))
        self.desk(centre, "sale 12000 " + CARD, kill="after-send:2", options=("--sendings", "1"), status=-signal.SIGKILL)
        centre.wait_for(1)
        pending = "last request: sale 000002: pending 120.00 yuan, card " + MASKED
        lines = self.desk(centre, "state", "counts")
        self.assertEqual(lines, ["not signed on: the centre has not answered; the next request tries again", pending, "ready, batch 000001",
                                 "state batch 000001 next-trace 000004 signed-off entries 0 pending",
                                 "counts sent 1 approved 0 declined 0 reversed 0 given-up 0 unanswered 0"])
        lines = self.desk(centre, "sale 100 " + CARD)
        self.assertEqual(lines[:5], ["not signed on: the centre has declined (96); the next request tries again", pending, "ready, batch 000001",
                                     "signed on, batch 000001", "sale 000002: reversed 120.00 yuan, card " + MASKED])
        self.assertIn("sale 000006: approved 1.00 yuan", lines[5])
        self.assertEqual(self.error.splitlines(), ["signing on", "signing on", "reversal, sending 1 of 1"])
        self.assertEqual(centre.order, ["0800", "0200", "0800", "0800", "0800", "0400", "0200"])

    def test_sign_on_over_settlement_and_upload(self):
        """Where it fails, what was left of the batch stays as it is, and the next settle signs on and goes on."""
        self.time_out = SHORT
        centre = self.centre("good", "good", "silent", "digit 2", "good", *["silent"] * 2, sign_ons=("good", "silent", "good", "code 96", "silent"))
        self.desk(centre, "sale 100 " + CARD, "sale 200 " + CARD, "settle", options=("--sendings", "1"))
        lines = self.desk(centre, "sale 100 " + CARD, "settle", kill="after-send:5", status=-signal.SIGKILL)
        self.assertEqual([lines[0], *lines[-3:]], ["not signed on: the centre has not answered; the next request tries again",
                                                   "ready, batch 000001", "signed on, batch 000001",
                                                   "refused (13): the batch is settling or uploading; settle first"])
        self.assertEqual(lines[1], "settlement not answered; settle again")
        centre.wait_for(6)
        lines = self.desk(centre, "settle", "state", "settle", "state")
        self.assertEqual(lines[:2], ["not signed on: the centre has declined (96); the next request tries again",
                                     "upload not answered; settle again"])
        self.assertEqual(lines[-11:], [
            "not signed on: the centre has not answered; the next request tries again", "refused (10): signed off",
            "state batch 000001 next-trace 000010 signed-off entries 2 uploading", "signed on, batch 000001", *settled("000001", (300, 2)),
            "state batch 000002 next-trace 000012 signed-off entries 0 resting"])
        self.assertEqual(centre.order, ["0800", "0200", "0200", "0500", "0800", "0800", "0500", "0320", "0320", "0800", "0800", "0800", "0320",
                                        "0320"])

    def test_killed_while_a_sign_on_is_out(self):
        """The next start signs on anew, and the reversal underneath leaves as often as it may."""
        for point, left in (("before-call:1", 0), ("before-store:1", 0), ("during-store:2", 0), ("after-store:1", 0), ("after-send:1", 1),
                            ("after-answer:1", 1), ("before-answer-store:1", 1), ("during-store:3", 1), ("after-answer-store:1", 1)):
            with self.subTest(point):
                self.store = os.path.join(self.folder, point)
                centre = self.centre("silent")
                self.desk(centre, "sale 12000 " + CARD, kill="after-send:2", options=("--sendings", "1"), status=-signal.SIGKILL)
                centre.wait_for(1)
                self.assertEqual(self.desk(centre, kill=point, status=-signal.SIGKILL), [])
                lines = self.desk(centre, "counts")
                self.assertEqual(lines, ["signed on, batch 000001", "last request: sale 000002: reversed 120.00 yuan, card " + MASKED,
                                         "ready, batch 000001", "counts sent 1 approved 0 declined 0 reversed 1 given-up 0 unanswered 0"])
                self.assertEqual(centre.wait_for(2, sign_ons=2 + left), ["0200", "0400"])
                self.assertEqual(len(centre.signed), 2 + left)
                self.assertEqual(len({asked[11] for asked in centre.signed}), 2 + left)

    def test_keys_reach_the_key_pad(self):
        """Those of each sign-on that succeeds, as they came, and no others. Neither the store nor a line holds them."""
        self.time_out = SHORT
        noted = os.path.join(self.folder, "noted")
        centre = self.centre(sign_ons=("keys 24", "keys 40", "keys 56", "keys 60", "keys 84", "code 96", "keys 23", "batch 000000", "good"))
        self.desk(centre, *["sign-on"] * 8, keys=noted)
        with open(noted) as file:
            self.assertEqual(file.read().splitlines(), [check_of(bytes(range(size))) for size in (24, 40, 56, 60, 84)] + [check_of(KEYS)])
        self.desk(centre)
        for name in os.listdir(self.folder):
            with open(os.path.join(self.folder, name), "rb") as file:
                self.assertNotIn(KEYS[:8], file.read())

    def test_killed_at_each_point(self):
        approved = "approved 120.00 yuan, card %s, reference 000000000002, authorisation A00002" % MASKED
        reversed_ = "reversed 120.00 yuan, card " + MASKED
        for point, told, ending in (
                ("after-power:1", False, None), ("before-call:2", False, None), ("before-store:2", False, None),
                ("during-store:4", False, None), ("after-store:2", False, reversed_), ("after-send:2", False, reversed_),
                ("after-answer:2", False, reversed_), ("before-answer-store:2", False, reversed_), ("during-store:5", False, reversed_),
                ("after-answer-store:2", False, approved), ("after-told:1", True, approved)):
            with self.subTest(point):
                self.store = os.path.join(self.folder, point)
                centre = self.centre()
                lines = self.desk(centre, "sale 12000 " + CARD, kill=point, status=-signal.SIGKILL)
                self.assertEqual([line for line in lines if line.startswith("sale")], ["sale 000002: " + approved] if told else [])
                lines = self.desk(centre, "counts")
                self.assertEqual(lines[:-1], ["signed on, batch 000001", "last request: " + ("sale 000002: " + ending if ending else "none"),
                                              *[totals(12000, 1)] * (ending == approved), "ready, batch 000001"])
                left = ["0200"] * (ending is not None and point != "after-store:2") + ["0400"] * (ending == reversed_)
                self.assertEqual(centre.wait_for(len(left)), left)

    def test_killed_while_a_reversal_is_sent(self):
        self.time_out = SHORT
        centre = self.centre("silent", "silent", "silent", "silent")
        self.desk(centre, "sale 12000 " + CARD, kill="after-send:4", status=-signal.SIGKILL)
        lines = self.desk(centre)
        self.assertEqual(lines[1], "last request: sale 000002: given up 120.00 yuan, card %s; ask the centre" % MASKED)
        self.assertEqual(centre.types(), ["0200", "0400", "0400", "0400"])

    def test_named_points_only_in_the_trial_build(self):
        with open(PROGRAMS["desk"], "rb") as program:
            self.assertFalse(re.search(b"DESK_(KILL|KEYS)", program.read()))

    def test_second_desk_on_the_same_store(self):
        centre = self.centre()
        with subprocess.Popen(self.arguments(centre), stdin=subprocess.PIPE, stdout=subprocess.PIPE, stderr=subprocess.DEVNULL,
                              text=True) as first:
            self.assertEqual([first.stdout.readline() for _ in range(3)],
                             ["signed on, batch 000001\n", "last request: none\n", "ready, batch 000001\n"])
            self.assertEqual(self.desk(centre, "sale 1 " + CARD, status=3), [])
            self.assertEqual(self.error, "desk: %s: the store is in use by another desk or program\n" % self.store)
            out, _ = first.communicate("sale 100 %s\n" % CARD)
            self.assertIn("sale 000002: approved 1.00 yuan", out)
        self.assertEqual(first.returncode, 0)

    def test_store_writes_what_changed(self):
        """A call writes the image and the changed entries, a refused one nothing. Triggers count what is written."""
        centre = self.centre()
        self.desk(centre, "sale 100 " + CARD, "sale 200 " + CARD)
        self.change("CREATE TABLE written (what)")
        self.change("CREATE TRIGGER entry AFTER INSERT ON journal BEGIN INSERT INTO written VALUES (new.place); END")
        self.change("CREATE TRIGGER image AFTER INSERT ON state BEGIN INSERT INTO written VALUES ('image'); END")
        self.desk(centre, "sale 300 " + CARD, "sale 0 " + CARD, "sale-void 3", "sale-void 3")
        self.assertEqual(self.change("SELECT what FROM written"),
                         [("image",), ("image",), ("image",), ("image",), ("image",), (2,), ("image",), ("image",), (1,), (3,)])
        self.assertEqual(self.change("SELECT version FROM format"), [(5,)])
        self.assertEqual(os.stat(self.store).st_mode & 0o077, 0)

    def change(self, sql, *values):
        with sqlite3.connect(self.store) as store:
            rows = store.execute(sql, values).fetchall()
        store.close()
        return rows

    def overwrite(self, data, at=0):
        with open(self.store, "r+b") as file:
            file.seek(at)
            file.write(data)

    def refused_store(self, message):
        """The desk ends with 3 and one line, sends nothing, and leaves the file as it is."""
        with open(self.store, "rb") as file:
            before = file.read()
        centre = self.centre()
        self.assertEqual(self.desk(centre, "sale 100 " + CARD, status=3), [])
        self.assertEqual(self.error.count("\n"), 1)
        self.assertIn(message, self.error)
        self.assertEqual(centre.order, [])
        with open(self.store, "rb") as file:
            self.assertEqual(file.read(), before)

    def test_damaged_store(self):
        for name, damage, message in (
                ("no database", lambda: self.overwrite(b"no database " * 1000), "the store is damaged"),
                ("cut", lambda: os.truncate(self.store, 9000), "the store is damaged"),
                ("page", lambda: self.overwrite(b"\xff" * 4096, os.path.getsize(self.store) - 4096), "its integrity check fails"),
                ("entry", lambda: self.change("UPDATE journal SET entry = ?", bytes.fromhex(
                    "16000000 000002 000000012001 10 62220212345612340000 1116 413030303032 303030303030303030303032 00000000")),
                 "have changed since they were stored"),
                ("lost entry", lambda: self.change("DELETE FROM journal"), "have changed since they were stored"),
                ("gap", lambda: self.change("UPDATE journal SET place = 5"), "its journal has gaps"),
                ("no image", lambda: self.change("DELETE FROM state"), "it holds no image"),
                ("format", lambda: self.change("UPDATE format SET version = 4"), "another format"),
                ("other file", lambda: self.change("DROP TABLE format"), "no store of a desk")):
            with self.subTest(name):
                self.store = os.path.join(self.folder, name)
                self.desk(self.centre(), "sale 12000 " + CARD)
                damage()
                self.refused_store(message)

    def test_store_that_cannot_be_opened(self):
        self.store = os.path.join(self.folder, "no", "folder")
        self.assertEqual(self.desk(None, status=3), [])
        self.assertIn("cannot be read or written", self.error)

    def test_full_disk(self):
        """Files may not grow past their size at the first sale. The desk ends within 200 sales; the next start knows each that was told."""
        centre = self.centre()
        self.assertEqual(self.desk(centre, status=3, file_size=1000), [])
        self.desk(centre, "sale 100 " + CARD)
        lines = self.desk(centre, *["sale 100 " + CARD] * 200, status=3, file_size=os.path.getsize(self.store))
        self.assertRegex(self.error, r"\Asigning on\ndesk: .*cannot be read or written.*\n\Z")
        told = [line for line in lines if ": approved" in line and line.startswith("sale")]
        self.assertEqual(len(lines), 4 + 2 * len(told))
        lines = self.desk(centre, "journal", "counts")
        self.assertIn("reversed", lines[1])
        self.assertIn("journal %d entries" % (1 + len(told)), lines)

    def test_settings_stay(self):
        settings = ("--limit", "10", "--sendings", "2", "--refund", "500", "--terminal", "LIB00002", "--merchant", "WHISTLAUREL0002")
        self.desk(None, options=settings)
        self.desk(None, options=settings)
        self.desk(None)
        for name, value in (("--limit", "11"), ("--sendings", "3"), ("--refund", "501"), ("--terminal", "LIB00001"),
                            ("--merchant", "WHISTLAUREL0001"), ("--merchant", "whistlaurel0002")):
            self.desk(None, options=(name, value), status=2)
            self.assertEqual(self.error, "desk: %s is not the setting with which the store was made\n" % name)
        lines = self.desk(self.centre(), "refund 501 %s 000000000005 1116" % CARD)
        self.assertEqual(lines[3], "refused (17): a refund is above the setting")

    def test_bad_options(self):
        for options in (("--limit", "0"), ("--limit", "301"), ("--sendings", "10"), ("--refund", "x"), ("--terminal", "short"),
                        ("--merchant", "\x7f" * 15), ("--batch", "1"), ("--limit",),
                        ("--what", "1"), ("--store", "again")):
            with self.subTest(options):
                self.desk(None, options=options, status=2)
                self.assertRegex(self.error, r"\Adesk: .*\n\Z")
        for arguments in ([], ["--store", self.store], ["--store", "", "--centre", "127.0.0.1:1"],
                          ["--store", ":memory:", "--centre", "127.0.0.1:1"],
                          ["--store", self.store, "--centre", "127.0.0.1"], ["--store", self.store, "--centre", "127.0.0.1:0"],
                          ["--store", self.store, "--centre", "127.0.0.1:9", "--timeout", "0"],
                          ["--store", self.store, "--centre", "127.0.0.1:9", "--timeout", "nan"],
                          ["--store", self.store, "--centre", "127.0.0.1:9", "--card-timeout", "0"]):
            with self.subTest(arguments):
                ran = subprocess.run([PROGRAMS["desk"], *arguments], text=True, capture_output=True, input="")
                self.assertEqual((ran.returncode, ran.stdout), (2, ""))
                self.assertRegex(ran.stderr, r"\Adesk: .*\n\Z")
        self.assertFalse(os.path.exists(self.store))

    def test_bad_commands(self):
        commands = ["what", CARD, "sale", "sale 100", "sale 100 %s 1" % CARD, "sale -1 " + CARD, "sale 1e3 " + CARD,
                    "sale 100 " + CARD + "x", "sale 100 " + CARD * 2, "sale-void x", "refund 1 %s 12 1116" % CARD,
                    "refund 1 %s 000000000005 116" % CARD, "settle now", "quit now",
                    "sale 100 %s" % CARD + " x" * 50, "x" * 10000, "sale 9" + "9" * 19 + " " + CARD, "sa\0le"]
        lines = self.desk(self.centre(), *commands)
        self.assertEqual(len(lines), 3 + len(commands))
        self.assertTrue(all(line.startswith("error: ") for line in lines[3:]), lines)
        self.assertEqual(self.desk(self.centre(), "sale 0 " + CARD, "sale 1 123456789012", "sale-void 1", "quit", "counts")[3:], [
            "refused (15): the amount is 0 or above 99999999.99 yuan", "refused (16): card, month, day or text is out of form",
            "refused (19): no sale or completion of this batch has that trace"])

    def test_help_names_every_command(self):
        words = [line.split()[0] for line in self.desk(None, "help")[3:]]
        self.assertEqual(words, ["sale", "sale-void", "refund", "authorise", "authorise-void", "complete", "complete-void",
                                 "card-agrees", "card-declines", "sign-on", "settle", "counts", "totals", "state", "journal", "doubtful", "help",
                                 "quit", "#"])

    def test_progress_while_it_waits(self):
        self.time_out = "1.5"
        self.desk(self.centre("silent"), "sale 100 " + CARD, options=("--sendings", "1"))
        self.assertEqual(self.error, "signing on\nwaiting for the centre, at most 1 s\nreversal, sending 1 of 1\n")

    def test_output_that_cannot_be_written(self):
        with open("/dev/full", "w") as full:
            ran = subprocess.run(self.arguments(None), stdout=full, stderr=subprocess.PIPE, text=True, input="counts\n")
        self.assertEqual((ran.returncode, ran.stderr), (1, "signing on\ndesk: standard output cannot be written\n"))


class HeaderTest(unittest.TestCase):
    def test_every_constant_is_held(self):
        """header_test.c names every constant of the header."""
        with open(os.path.join(HERE, "..", "..", "include", "whistlaurel.h")) as header:
            code = re.sub(r"/\*.*?\*/", "", header.read(), flags=re.S)
        with open(os.path.join(HERE, "header_test.c")) as test:
            held = set(re.findall(r"\bWHISTLAUREL_\w+", test.read()))
        self.assertEqual(set(re.findall(r"\bWHISTLAUREL_\w+", code)) - {"WHISTLAUREL_H"} - held, set())


def main():
    parser = argparse.ArgumentParser()
    parser.add_argument("--desk", required=True)
    parser.add_argument("--trial", required=True)
    options, rest = parser.parse_known_args()
    PROGRAMS.update(desk=os.path.abspath(options.desk), trial=os.path.abspath(options.trial))
    unittest.main(argv=["desk_test.py", *rest])


if __name__ == "__main__":
    main()
