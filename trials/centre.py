"""A centre to test a desk against: a server with a ledger of its own, and faults by a seed.

    python3 trials/centre.py --port 0 --seed 7 --faults 0.3

Its first line says on which port it listens; then a line for each event, card numbers masked. End it by an interrupt.
"""

import argparse
import heapq
import itertools
import random
import selectors
import socket
import sys
import time

sys.dont_write_bytecode = True

import history
import iso

DEBIT = ("20", "22")
CREDIT = ("21", "23", "25")
DECLINES = ("51", "54", "61", "91")
DECLINED_SHARE = 0.12
PREPAID = "6299"        # how the number of a prepaid card begins
LOADED_SHARE = 0.5      # of sales with an empty prepaid card, before which it has been loaded again
WHOLE_SHARE = 0.1       # of sales that a prepaid card covers, which are answered 10 all the same

# What can happen to any message. "lost": the ledger does not take it; "kept": it still holds what is to be reversed.
LINE_FAULTS = ("silence", "silence, lost", "drop", "drop, lost", "torn", "late", "late elsewhere", "delay", "duplicate", "noise",
               "raw noise", "foreign", "foreign, silence", "pieces")
REQUEST_FAULTS = LINE_FAULTS + ("wrong MAC", "wrong MAC", "no MAC", "unfit")
FAULTS = {
    "request": REQUEST_FAULTS,
    "prepaid": REQUEST_FAULTS + ("wrong MAC", "no MAC", "unfit", "unfit", "unfit") * 4,     # a request with a prepaid card
    "reversal": LINE_FAULTS + ("wrong MAC", "no MAC", "code 96", "code 96, kept", "code 10, kept"),
    "settlement": LINE_FAULTS + ("digit 2",) * 24 + ("digit 3", "digit 7"),
    "item": LINE_FAULTS + ("code 30", "code 10"),
    "end": LINE_FAULTS + ("code 96", "code 10"),
    "sign-on": LINE_FAULTS + ("code 05", "code 96", "code 10, keys") * 3 + ("other batch",) * 6 + (
        "no keys", "no keys", "odd keys", "odd keys", "batch 000000", "no 60", "no 39", "wrong MAC", "other form"),
}
OTHER_SHARE = 0.2       # of sign-ons in an open batch to which a centre with faults brings another number
JUMP_SHARE = 0.4        # of sign-ons between batches to which it brings another number than the next
ODD_LENGTHS = (0, 1, 23, 25, 41, 83, 85, 255, 300)      # of field 62


def part_of(message):
    """What a message of the desk is: request, reversal, settlement, item, end or sign-on."""
    if message[0] == "0320":
        return "end" if iso.code_of(message) == "202" else "item"
    return {"0400": "reversal", "0500": "settlement", "0800": "sign-on"}.get(message[0], "request")


def following(batch, steps=1):
    """The batch number so many steps after a batch number, both as six digits."""
    return f"{(int(batch) - 1 + steps) % 999999 + 1:06d}"


class Entry:
    """A request that the ledger has decided on."""

    def __init__(self, request, code, amount):
        self.request = request
        self.code = code
        self.amount = amount            # in fen, as it was approved
        self.is_held = amount > 0
        self.is_voided = False
        self.date = self.reference = self.authorisation = None


class Ledger:
    """What the centre decided on each request, by (field 41, batch, trace), what became of it, and what is left on prepaid cards."""

    def __init__(self, generator, record):
        self.generator = generator
        self.record = record
        self.entries = {}
        self.balances = {}      # by card number

    def decide(self, request):
        """Takes a card request: its entry, approved, in part or as a whole, or declined."""
        entry = Entry(request, *self._decision(request))
        self.entries.setdefault(key_of(request), entry)
        if entry.is_held:
            number = len(self.entries)
            entry.date = f"{self.generator.randint(1, 12):02d}{self.generator.randint(1, 28):02d}"
            entry.reference = f"{number:012d}"
            entry.authorisation = f"A{number:05d}" if self.generator.random() < 0.95 else None
            self._void_original(request, True)
            self._charge(entry, entry.amount)
            self.record(history.Held(request[11], entry.amount))
        return entry

    def reverse(self, message):
        """Takes a reversal: its code. Only where nothing is held does it say 25 or 12."""
        entry = self.entries.get(key_of(message))
        if entry is None or not entry.is_held:
            return self.generator.choice(("00", "25", "25", "12"))
        entry.is_held = False
        self._void_original(entry.request, False)
        self._charge(entry, -entry.amount)
        self.record(history.Released(message[11]))
        return "00"

    def sums(self, terminal, batch):
        """The first 30 digits of field 48 as this ledger has them."""
        held = [entry for key, entry in self.entries.items() if key[:2] == (terminal, batch) and entry.is_held]
        digits = ""
        for side in (DEBIT, CREDIT):
            amounts = [entry.amount for entry in held if iso.kind_of(entry.request) in side]
            digits += f"{sum(amounts):012d}{len(amounts):03d}"
        return digits

    def balance(self, card):
        """What is left on a prepaid card, None for another card."""
        return self.balances.get(card)

    def _decision(self, request):
        """Code, and amount that is approved, 0 for a decline. To all but a sale 10 is one code of a decline among others."""
        kind, asked = iso.kind_of(request), int(request[4])
        fault = self._fault_of(request)
        if fault:
            return fault, 0
        if self.generator.random() < DECLINED_SHARE:
            return self.generator.choice(DECLINES if kind == "22" else DECLINES + ("10",) * 4), 0
        if kind == "22" and request[2].startswith(PREPAID):
            return self._prepaid_decision(request, asked)
        return "00", asked

    def _prepaid_decision(self, request, asked):
        """A sale above the balance is approved for what is left, where it asks for that."""
        balance = self._loaded_balance(request[2])
        if balance >= asked:
            return "10" if self.generator.random() < WHOLE_SHARE else "00", asked
        if balance > 0 and iso.part_code_of(request) == "001":
            return "10", balance
        return "51", 0

    def _loaded_balance(self, card):
        if card not in self.balances or self.balances[card] == 0 and self.generator.random() < LOADED_SHARE:
            self.balances[card] = self.generator.choice((1, 11999, self.generator.randint(1, 200000), self.generator.randint(1, 200000)))
        return self.balances[card]

    def _charge(self, entry, amount):
        """A sale takes an amount from its prepaid card, and a void gives it back; where they are reversed the amount is negative."""
        kind, card = iso.kind_of(entry.request), entry.request[2]
        if kind in ("22", "23") and card in self.balances:
            self.balances[card] -= amount if kind == "22" else -amount

    def _fault_of(self, request):
        """The code for which a request cannot be approved, None where it can."""
        kind = iso.kind_of(request)
        if key_of(request) in self.entries:
            return "94"
        if kind in ("21", "23"):
            original = self._original(request)
            if original is None or not original.is_held or original.amount != int(request[4]):
                return "25"
            if original.is_voided:
                return "12"
        if kind in ("11", "20") and not self._has_authorisation(request):
            return "25"
        return None

    def _original(self, request):
        return self.entries.get((request[41], request[61][:6], request[61][6:12]))

    def _has_authorisation(self, request):
        return any(entry.is_held and iso.kind_of(entry.request) == "10" and entry.authorisation == request[38] for entry in self.entries.values())

    def _void_original(self, request, is_voided):
        if iso.kind_of(request) in ("21", "23"):
            self._original(request).is_voided = is_voided


def key_of(message):
    """Under which the ledger has a message: field 41, batch, trace."""
    return message[41], iso.batch_of(message), message[11]


class Connection:
    """A desk's connection."""

    def __init__(self, line):
        self.line = line
        self.buffer = b""
        self.is_open = True
        self.waiting = None     # what is to be done after the packet of which a piece has left

    def send(self, data):
        """Whether the bytes left."""
        try:
            self.line.sendall(data)
        except OSError:
            return False
        return True


class Centre:
    """The server. One thread: each turn handles what has arrived and what has become due."""

    def __init__(self, seed, faults, timeout, record, port=0, batch=None):
        self.generator = random.Random(f"centre {seed}")
        self.faults = faults
        self.timeout = timeout
        self.record = record
        self.ledger = Ledger(self.generator, record)
        self.first_batch = batch    # what it brings while no request has come; None for the number that the sign-on has
        self.batch = None           # of the latest card request or settlement
        self.is_closed = False
        self.connections = []
        self.timers = []
        self.order = itertools.count()
        self.selector = selectors.DefaultSelector()
        self.listener = socket.create_server(("127.0.0.1", port))
        self.port = self.listener.getsockname()[1]
        self.watch(self.listener, self._accept)

    def watch(self, file, callback):
        """Calls back in a turn in which the file can be read. Connections come first, older before newer."""
        self.selector.register(file, selectors.EVENT_READ, (1, next(self.order), callback))

    def unwatch(self, file):
        self.selector.unregister(file)

    def turn(self, wait):
        """Handles what is ready and due, after waiting for it at most so many seconds; whether a file was ready."""
        if self.timers:
            wait = min(wait, self.timers[0][0] - time.monotonic())
        ready = [key for key, _ in self.selector.select(max(0, wait))]
        for key in sorted(ready, key=lambda key: key.data[:2]):
            if key.fileobj.fileno() >= 0:
                key.data[2]()
        while self.timers and self.timers[0][0] <= time.monotonic():
            heapq.heappop(self.timers)[2]()
        return bool(ready)

    def close(self):
        for connection in list(self.connections):
            self._drop(connection)
        self.unwatch(self.listener)
        self.listener.close()
        self.selector.close()

    def _accept(self):
        line, _ = self.listener.accept()
        if self.generator.random() < self.faults / 20:
            line.close()
            self.record(history.Unread())
            return
        line.setsockopt(socket.IPPROTO_TCP, socket.TCP_NODELAY, 1)
        connection = Connection(line)
        self.connections.append(connection)
        self.selector.register(line, selectors.EVENT_READ, (0, next(self.order), lambda: self._read(connection)))

    def _drop(self, connection):
        if connection.is_open:
            connection.is_open = False
            self.connections.remove(connection)
            self.selector.unregister(connection.line)
            connection.line.close()

    def _read(self, connection):
        try:
            data = connection.line.recv(4096)
        except OSError:
            data = b""
        if not data:
            self._drop(connection)
            return
        connection.buffer += data
        try:
            content, connection.buffer = iso.first_packet(connection.buffer)
            while content is not None:
                self._take(connection, content)
                content, connection.buffer = iso.first_packet(connection.buffer)
        except iso.MessageError as error:
            self.record(history.Noise(str(error)))
            self._drop(connection)

    def _take(self, connection, content):
        front = iso.REQUEST_TPDU + iso.HEADER
        if content[:len(front)] != front:
            raise iso.MessageError(f"TPDU and header are {content[:len(front)].hex()}")
        data = content[len(front):]
        message = iso.read(data)
        if 64 in message and message[64] != iso.mac(data):
            self.record(history.Noise(f"a wrong MAC in message {message[11]} of type {message[0]}"))
        self.record(history.Received(message))
        if part_of(message) in ("request", "settlement") and iso.batch_of(message) != self.batch:
            self.batch, self.is_closed = iso.batch_of(message), False
        self._handle(connection, message)

    def _handle(self, connection, message):
        part = part_of(message)
        faults = FAULTS["prepaid" if part == "request" and message[2].startswith(PREPAID) else part]
        fault = self.generator.choice(faults) if self.generator.random() < self.faults else "plain"
        answer = None
        if not fault.endswith("lost"):
            answer = {"request": self._card_answer, "reversal": self._reversal_answer, "settlement": self._settlement_answer,
                      "item": self._upload_answer, "end": self._upload_answer, "sign-on": self._sign_on_answer}[part](message, fault)
        self._deliver(connection, answer, fault)

    def _card_answer(self, message, fault):
        entry = self.ledger.decide(message)
        answer = {number: message[number] for number in (2, 3, 4, 11, 25, 41, 42, 49, 60)}
        answer.update({0: _answer_type(message), 12: "101500", 32: "48020000", 39: entry.code, 44: bytes(range(10)), 64: bytes(8)})
        balance = self.ledger.balance(message[2])
        if balance is not None and self.generator.random() < 0.5:
            answer[54] = f"1002156C{max(balance, 0):012d}"
        if entry.is_held:
            answer.update({4: f"{entry.amount:012d}", 13: entry.date, 37: entry.reference})
            if entry.authorisation:
                answer[38] = entry.authorisation
            if 55 in message and self.generator.random() < 0.5:
                answer[55] = iso.element("91", self.generator.randbytes(10)) + iso.element("9F36", bytes(2))
        elif entry.code == "10":
            answer.update({13: "0101", 37: "000000999999"})
        if fault == "unfit" and entry.is_held:
            self._spoil(answer, self.generator.choice((4,) * (8 if entry.code == "10" else 1) + (13, 37, 55)), int(message[4]))
        return answer

    def _spoil(self, answer, number, asked):
        """Makes an approval unfit: an amount that it cannot have or none, a field 55 out of form, or a field left out."""
        if number == 4 and self.generator.random() < 0.8:
            answer[4] = f"{self.generator.choice((0, asked + 1) if answer[39] == '10' else (0, asked + 1, asked - 1)):012d}"
        elif number == 55:
            answer[55] = self.generator.choice((b"\x91", b"\x91\x0A\x00", iso.element("91", b"") * 2, b"\x9F\x36\x81\x02\x00\x00"))
        else:
            del answer[number]

    def _reversal_answer(self, message, fault):
        code = "" if fault.endswith("kept") else self.ledger.reverse(message)
        answer = {number: message[number] for number in (2, 3, 4, 11, 25, 41, 42, 49, 60)}
        answer.update({0: _answer_type(message), 13: "0101", 39: fault[5:7] if fault.startswith("code") else code, 64: bytes(8)})
        return answer

    def _settlement_answer(self, message, fault):
        agrees = message[48][:30] == self.ledger.sums(message[41], iso.batch_of(message))
        digit = fault[-1] if fault.startswith("digit") else "1" if agrees else "2"
        answer = {number: message[number] for number in (11, 41, 42, 49, 60)}
        answer.update({0: _answer_type(message), 48: message[48][:30] + digit + message[48][31:], 63: b"CUP"})
        return answer

    def _upload_answer(self, message, fault):
        answer = {number: message[number] for number in (11, 41, 42, 60)}
        answer.update({0: _answer_type(message), 39: fault[-2:] if fault.startswith("code") else "00"})
        return answer

    def _sign_on_answer(self, message, fault):
        code = fault[5:7] if fault.startswith("code") else "00"
        answer = {number: message[number] for number in (11, 41, 42)}
        answer.update({0: _answer_type(message), 39: code, 60: "00" + self._batch_to_bring(message, fault) + "003"})
        if code == "00" or fault.endswith("keys"):
            lengths = ODD_LENGTHS if fault == "odd keys" else iso.KEY_LENGTHS
            answer[62] = self.generator.randbytes(self.generator.choice(lengths))
        if fault == "wrong MAC":
            answer[64] = bytes(8)
        elif fault == "other form":
            answer[60] = "99" + iso.batch_of(answer) + "987"
        left_out = {"no keys": 62, "no 60": 60, "no 39": 39}.get(fault)
        return {number: value for number, value in answer.items() if number != left_out}

    def _batch_to_bring(self, message, fault):
        """The centre's batch number: its first one, that of the open batch, or one for the next, which no batch had before; now and then
        another one for an open batch, which the desk must not adopt."""
        if fault == "batch 000000":
            return "000000"
        if self.batch is None:
            return self.first_batch or iso.batch_of(message)
        share = self.generator.random() if self.faults else 1
        if self.is_closed:
            return following(self.batch, self.generator.randint(2, 40) if share < JUMP_SHARE else 1)
        if fault == "other batch" or share < OTHER_SHARE:
            return f"{self.generator.randint(1, 999999):06d}"
        return self.batch

    def _deliver(self, connection, answer, fault):
        if connection.waiting is not None:
            connection.waiting.append(lambda: self._deliver(connection, answer, fault))
        elif fault.startswith("drop"):
            self._drop(connection)
        elif fault == "torn":
            connection.send(self._packet(answer, True)[:self.generator.randint(1, 40)])
            self._drop(connection)
        elif fault in ("late", "late elsewhere"):
            wait = self.timeout * self.generator.uniform(1.1, 2.5)
            self._later(wait, lambda: self._send_late(connection, answer, fault))
        elif fault == "delay":
            self._later(self.timeout * self.generator.uniform(0.05, 0.6), lambda: self._send(connection, answer, True, fault))
        elif fault == "pieces":
            self._send_pieces(connection, answer)
        elif not fault.startswith("silence"):
            self._send_now(connection, answer, fault)

    def _send_now(self, connection, answer, fault):
        if fault in ("noise", "raw noise"):
            connection.send(self._noise(fault))
        if fault.startswith("foreign"):
            connection.send(self._packet(self._foreign(answer), True))
        if fault == "no MAC":
            answer = {number: value for number, value in answer.items() if number != 64}
        if fault != "foreign, silence":
            self._send(connection, answer, fault not in ("wrong MAC", "no MAC"), fault)
        if fault == "duplicate":
            wait = self.generator.choice((0, 0.05, 0.5)) * self.timeout
            self._later(wait, lambda: self._send_late(connection, answer, "late elsewhere"))

    def _send(self, connection, answer, mac_is_good, manner):
        if connection.waiting is not None:
            connection.waiting.append(lambda: self._send(connection, answer, mac_is_good, manner))
        elif connection.is_open and connection.send(self._packet(answer, mac_is_good)):
            self._note_sent(answer, mac_is_good, manner)

    def _send_late(self, connection, answer, fault):
        """To the connection that asked, or to the newest one."""
        if fault == "late elsewhere" and self.connections:
            connection = self.connections[-1]
        self._send(connection, answer, True, fault)

    def _send_pieces(self, connection, answer):
        data = self._packet(answer, True)
        cut = self.generator.randint(1, len(data) - 1)
        connection.send(data[:cut])
        connection.waiting = []
        self._later(self.timeout * 0.05, lambda: self._send_rest(connection, data[cut:], answer))

    def _send_rest(self, connection, data, answer):
        """The last piece, then what had to wait for it: a packet's bytes stand together."""
        waiting, connection.waiting = connection.waiting, None
        if connection.is_open and connection.send(data):
            self._note_sent(answer, True, "pieces")
        for action in waiting:
            action()

    def _note_sent(self, answer, mac_is_good, manner):
        self.record(history.Answered(answer, mac_is_good, manner))
        closes = answer[0] == "0510" and answer[48][30] == "1"
        closes = closes or answer[0] == "0330" and iso.code_of(answer) == "202" and answer[39] == "00"
        if closes and iso.batch_of(answer) == self.batch:
            self.is_closed = True

    def _packet(self, answer, mac_is_good):
        data = iso.sealed(answer) if 64 in answer else iso.write(answer)
        if not mac_is_good and 64 in answer:
            place = self.generator.randint(1, 8)
            data = data[:-place] + bytes([data[-place] ^ 1 << self.generator.randint(0, 7)]) + data[len(data) - place + 1:]
        return iso.packet(iso.ANSWER_TPDU, data)

    def _noise(self, fault):
        noise = self.generator.randbytes(self.generator.randint(1, 60))
        if fault == "raw noise":
            return noise
        front = self.generator.choice((iso.ANSWER_TPDU, iso.REQUEST_TPDU))
        return iso.packet(front, noise)

    def _foreign(self, answer):
        """An approval of something else."""
        foreign = dict(answer)
        number = self.generator.choice((0, 11, 41, 42) if answer[0] == "0810" else (0, 11, 41, 42, 60))
        if number == 0:
            foreign[0] = self.generator.choice([kind for kind in ("0110", "0210", "0230", "0330", "0410", "0810") if kind != answer[0]])
        elif number == 60:
            foreign[60] = answer[60][:2] + following(iso.batch_of(answer)) + answer[60][8:]
        else:
            foreign[number] = {11: following(answer[11]), 41: "LIB99999", 42: "WHISTLAUREL9999"}[number]
        if foreign[0] in ("0110", "0210", "0230"):
            foreign = {4: "000000000100", 13: "0101", 37: "000000999999", **foreign}
        if 39 in foreign:
            foreign[39] = "00"
        return foreign

    def _later(self, wait, action):
        heapq.heappush(self.timers, (time.monotonic() + wait, next(self.order), action))


def _answer_type(message):
    return f"{int(message[0]) + 10:04d}"


def main():
    parser = argparse.ArgumentParser(description="A centre to test a desk against.")
    parser.add_argument("--port", type=int, default=0, help="0 takes a free one")
    parser.add_argument("--seed", default="0", help="of the faults")
    parser.add_argument("--faults", type=float, default=0.0, help="share of messages that meet a fault, 0 to 1")
    parser.add_argument("--timeout", type=float, default=15.0, help="the desk's time-out in seconds, by which delays are measured")
    options = parser.parse_args()
    centre = Centre(options.seed, options.faults, options.timeout, lambda event: print(history.shown(event), flush=True), options.port)
    print(f"listening on {centre.port}", flush=True)
    try:
        while True:
            centre.turn(3600)
    except KeyboardInterrupt:
        centre.close()
    return 0


if __name__ == "__main__":
    sys.exit(main())
