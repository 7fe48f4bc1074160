"""The trial: a desk, a centre, and the plug pulled at any moment.

    python3 trials/trial.py --desk target/desk/desk-trial --seed 1 --rounds 100
    python3 trials/trial.py --self-test

trials/README.md says what is compared and what the figures mean. Exit status 0 without a difference, 1 with one, 2 for bad usage.
"""

import argparse
import collections
import glob
import itertools
import os
import random
import signal
import subprocess
import sys
import tempfile
import time

sys.dont_write_bytecode = True

import history
import iso
import planted
from centre import PREPAID, Centre
from comparer import ASKED, KINDS, NOT_SIGNED_ON, RESULT, SIGNED_ON, STILL_SIGNED_ON, SUM, Comparer

POINTS = ("before-call", "before-store", "during-store", "after-store", "after-send", "after-answer", "before-answer-store",
          "after-answer-store", "after-told", "after-power")
# The passages that fall about the card's word where the first command of a life is a sale with a chip, after a sign-on.
CARD_POINTS = ("before-call:3", "before-answer-store:3", "during-store:6", "after-answer-store:3", "after-told:1", "after-told:2")
CARD_ROUNDS = 0.25          # of the rounds that end at a point
# How often a sign-on passes each point. The passages of one that a life begins with are left out in all but a share of the rounds.
SIGN_ON_PASSAGES = {"after-power": 0, "after-told": 0, "during-store": 2}
SIGN_ON_ROUNDS = 0.2
ROUNDS_A_STORE = 25
COMMANDS_A_ROUND = 14
LINES = (0.3, 1, 1, 2.5)    # a good line, the usual one, a bad one: multiples of the share of faults
HANGS_AFTER = 15.0
MERCHANT = "WHISTLAUREL0001"
CHIP_SHARE = 0.4            # of sales and pre-authorisations
# What is given while the card's word is awaited; a void of a trace that never was leaves nothing, whenever it is read. () is silence.
AGREES, DECLINES = ("card-agrees",), ("card-declines",)
CARD_TURNS = (AGREES,) * 10 + (DECLINES,) * 4 + (("state", *AGREES), ("sale-void 999999", *AGREES), ("sign-on", *AGREES), ("counts", *DECLINES),
                                                ("sale-void 999999", *DECLINES), ("state",), ())


class Hung(Exception):
    """The desk neither writes nor sends nor ends."""


class Desk:
    """A desk process. Its lines and its end become events."""

    def __init__(self, arguments, point, centre, record):
        self.centre = centre
        self.record = record
        self.point = point
        self.lines = collections.deque()
        self.buffers = {}
        self.errors = collections.deque(maxlen=10)
        self.is_killed = False
        self.is_ended = False
        environment = {name: value for name, value in os.environ.items() if name != "DESK_KILL"}
        if point:
            environment["DESK_KILL"] = point
        self.process = subprocess.Popen(arguments, stdin=subprocess.PIPE, stdout=subprocess.PIPE, stderr=subprocess.PIPE, env=environment)
        for file, taker in ((self.process.stdout, self._take_line), (self.process.stderr, self._take_error)):
            os.set_blocking(file.fileno(), False)
            self.buffers[file] = b""
            centre.watch(file, lambda file=file, taker=taker: self._read(file, taker))

    def give(self, text):
        """Gives a command; a desk that has ended does not take it."""
        self.record(history.Command(text))
        try:
            os.write(self.process.stdin.fileno(), text.encode() + b"\n")
        except BrokenPipeError:
            pass

    def line(self, deadline=None):
        """The next line; None when the desk has ended or the deadline has passed."""
        quiet_since = time.monotonic()
        while not self.lines and not self.is_ended:
            now = time.monotonic()
            if deadline is not None and now >= deadline:
                return None
            if self.centre.turn(min(0.5, deadline - now) if deadline is not None else 0.5):
                quiet_since = time.monotonic()
            if not self.buffers:
                self._end()
            if time.monotonic() - quiet_since > HANGS_AFTER:
                raise Hung(f"the desk was quiet for {HANGS_AFTER:.0f} s")
        return self.lines.popleft() if self.lines else None

    def kill(self):
        if not self.is_ended:
            self.process.kill()
            self.is_killed = True
            self.wait()

    def wait(self):
        """Waits for the end."""
        while not self.is_ended:
            self.line()

    def close(self):
        """Ends the process whatever it does, without an event."""
        self.process.kill()
        self.process.wait()
        for file in list(self.buffers):
            self._forget(file)
        self.process.stdin.close()

    def _read(self, file, taker):
        """What the desk wrote as an error before a line is taken before that line: the two come by two pipes."""
        data = self._data(file)
        if file is self.process.stdout and self.process.stderr in self.buffers:
            self._split(self.process.stderr, self._data(self.process.stderr) or b"", self._take_error)
        if data is None:
            return
        self._split(file, data, taker)
        if not data:
            self._forget(file)

    @staticmethod
    def _data(file):
        """What stands in a pipe, b"" at its end, None where nothing does."""
        try:
            return os.read(file.fileno(), 65536)
        except BlockingIOError:
            return None

    def _split(self, file, data, taker):
        *lines, self.buffers[file] = (self.buffers[file] + data).split(b"\n")
        for line in lines:
            taker(line.decode("utf-8", "replace"))

    def _take_line(self, text):
        self.record(history.Line(text))
        self.lines.append(text)

    def _take_error(self, text):
        self.record(history.Error(text))
        self.errors.append(text)

    def _forget(self, file):
        self.centre.unwatch(file)
        del self.buffers[file]
        file.close()

    def _end(self):
        """All that the desk sent is taken before its end is noted."""
        while self.centre.turn(0):
            pass
        status = self.process.wait()
        self.is_ended = True
        if status == -signal.SIGKILL:
            self.record(history.Killed("random" if self.is_killed else self.point))
        else:
            self.record(history.Ended(status, " / ".join(self.errors)))


class Store:
    """One store, from its making to an ordered end: rounds that end in a kill, then one without faults."""

    def __init__(self, options, number, folder, figures):
        self.options = options
        self.name = f"seed {options.seed}, store {number}"
        self.generator = random.Random(f"trial {options.seed} {number}")
        self.figures = figures
        self.limit = self.generator.choice((6, 12, 20, 40))
        self.sendings = self.generator.choice((1, 2, 3, 3, 4))
        self.refund = self.generator.choice((5000, 100000))
        first_batch = self.generator.choice(("000001", "000077", "999998"))
        self.comparer = Comparer(self.limit, self.sendings, self.refund, "LIB00001", MERCHANT)
        self.centre = Centre(f"{options.seed} {number}", options.faults, options.timeout, self.comparer.take, batch=first_batch)
        self.file = os.path.join(folder, f"store-{number}")
        self.cards = [self._card(front) for front in ("62", "62", "62", PREPAID, PREPAID, PREPAID)]
        self.desk = None

    def run(self, rounds):
        """Runs so many rounds and the ordered end; gives the differences."""
        try:
            for _ in range(rounds):
                self._round()
                if self.comparer.differences:
                    break
            else:
                self._last_round()
        except Hung as hung:
            self.comparer.take(history.Ended(-1, f"{hung}; its standard error: {' / '.join(self.desk.errors)}"))
        finally:
            if self.desk:
                self.desk.close()
            self.centre.close()
        self.figures.update(self.comparer.figures)
        return self.comparer.differences

    def _round(self):
        """A life of the desk."""
        manner = self.generator.choices(("point", "random", "quit"), (60, 32, 8))[0]
        is_aimed = manner == "point" and not self.comparer.is_busy() and self.generator.random() < CARD_ROUNDS
        point = self.generator.choice(CARD_POINTS) if is_aimed else self._point() if manner == "point" else ""
        kill_at = self._kill_time() if manner == "random" and self.generator.random() < 0.2 else None
        self.centre.faults = self.options.faults * self.generator.choice(LINES)
        self._start(point)
        self.figures["rounds"] += 1
        if self._is_ready(kill_at):
            count = self.generator.randint(1, 9) if manner != "point" else COMMANDS_A_ROUND
            for place in range(count):
                is_last = manner == "random" and place == count - 1
                text = self._settle_command() if is_last and self.generator.random() < 0.15 else self._some_command()
                if is_aimed and place == 0:
                    text = self._chip_sale()
                if not self._command(text, self._kill_time() if is_last else None):
                    break
        if manner == "quit" and not self.desk.is_ended:
            self.desk.give("quit")
            self.desk.wait()
        self.desk.kill()
        self._count_kill()
        self._show_files()

    def _last_round(self):
        self.centre.faults = 0
        self._start("")
        self._is_ready(None)
        for _ in range(4):
            for text in ("doubtful", "counts", "totals", "state", "journal", "settle"):
                self._command(text, None)
            if not self.comparer.is_settling:
                break
        for text in ("doubtful", "totals"):
            self._command(text, None)
        self.desk.give("quit")
        self.desk.wait()
        self._show_files()
        if self.comparer.is_settling:
            self.comparer.take(history.Ended(-1, "the batch was not closed by a centre without faults"))
        self.comparer.finish()

    def _start(self, point):
        arguments = [self.options.desk, "--store", self.file, "--centre", f"127.0.0.1:{self.centre.port}",
                     "--limit", str(self.limit), "--sendings", str(self.sendings), "--refund", str(self.refund),
                     "--terminal", "LIB00001", "--merchant", MERCHANT, "--timeout", str(self.options.timeout),
                     "--card-timeout", str(2 * self.options.timeout)]
        self.comparer.take(history.Started(point))
        if self.desk:
            self.desk.close()
        self.desk = Desk(arguments, point, self.centre, self.comparer.take)

    def _show_files(self):
        """Shows the comparer what stands in the store."""
        names = sorted(glob.glob(glob.escape(self.file) + "*"))
        data = b""
        for name in names:
            with open(name, "rb") as file:
                data += file.read()
        self.comparer.take(history.Stored(data))

    def _is_ready(self, kill_at):
        """Waits for the line that says so; whether the desk lives and is ready."""
        while True:
            line = self.desk.line(kill_at)
            if line is None:
                self.desk.kill()
                return False
            if line.startswith("ready, "):
                return True

    def _command(self, text, kill_at):
        """Gives a command and waits for its last line; whether the desk lives then."""
        if self.desk.is_ended:
            return False
        pending = self.comparer.pending
        self.desk.give(text)
        left = None
        while left != 0:
            line = self.desk.line(kill_at)
            if line is None:
                self.desk.kill()
                return False
            left = _lines_left(text, line, left, pending)
        if ASKED.fullmatch(line) and not self._await_card(kill_at):
            return False
        if kill_at is not None:
            self.desk.line(kill_at)
            self.desk.kill()
            return False
        return True

    def _await_card(self, kill_at):
        """Gives the card's word, after other commands or not at all, and waits until the request has ended; whether the desk lives then. Its
        time may be out before a command is read: then the end is told first."""
        is_silent = kill_at is not None and self.generator.random() < 0.5
        turn = collections.deque(() if is_silent else self.generator.choice(CARD_TURNS))
        given, has_ended = None, False
        while turn or given or not has_ended:
            if turn and not given:
                given = turn.popleft()
                self.desk.give(given)
            line = self.desk.line(kill_at)
            is_end = line is not None and RESULT.fullmatch(line) is not None
            for _ in range(_lines_after(line) if is_end else 0):
                line = line and self.desk.line(kill_at)
            if line is None:
                self.desk.kill()
                return False
            has_ended = has_ended or is_end
            if not is_end or given and given.startswith("card-"):
                given = None
        return True

    def _count_kill(self):
        last = next(event for event in reversed(self.comparer.events) if isinstance(event, (history.Killed, history.Ended)))
        if isinstance(last, history.Killed):
            self.figures["random kills" if last.how == "random" else "kills at points"] += 1
            if last.how != "random":
                self.figures[f"at {last.how.split(':')[0]}"] += 1

    def _point(self):
        """A point and the passage of it, an early one where the desk has something to end at its start. Power returns once in a life."""
        name = self.generator.choice(POINTS)
        if self.comparer.is_settling:
            most = 4 + len(self.comparer.entries())
        else:
            most = 4 if self.comparer.is_busy() else 12
        passage = 1 if name == "after-power" else min(self.generator.randint(1, most), self.generator.randint(1, most))
        if self.generator.random() >= SIGN_ON_ROUNDS:
            passage += SIGN_ON_PASSAGES.get(name, 1)
        return f"{name}:{passage}"

    def _kill_time(self):
        """Soon, since most of what the desk does takes a few milliseconds, or within two time-outs."""
        most = self.generator.choice((0.003, 0.012, 2 * self.options.timeout))
        return time.monotonic() + self.generator.uniform(0, most)

    def _some_command(self):
        if self.comparer.is_settling:
            return self.generator.choice(("settle", "settle", "settle", "sale 100 6222021234561234", "journal", "sign-on"))
        weights = {"sale": 45, "authorise": 8, "sale-void": 14, "refund": 9, "complete": 8, "complete-void": 5, "authorise-void": 3, "settle": 5,
                   "sign-on": 8, "counts": 2, "totals": 2, "state": 3, "journal": 3, "doubtful": 2, "card-agrees": 1, "card-declines": 1}
        word = self.generator.choices(list(weights), list(weights.values()))[0]
        if len(self.comparer.entries()) >= self.limit and self.generator.random() < 0.6:
            word = "settle"
        if word == "settle":
            return self._settle_command()
        return " ".join([word, *self._words_of(word)]) if word in KINDS else word

    def _chip_sale(self):
        card = self.generator.choice(self.cards)
        return f"sale {self._amount()} {card} chip {self._chip(card)}"

    def _settle_command(self):
        """The journal is shown, and compared, before each settlement."""
        self._command("journal", None)
        return "settle"

    def _words_of(self, word):
        if word in ("sale", "authorise"):
            card = self.generator.choice(self.cards)
            return [str(self._amount()), card, *(["chip", self._chip(card)] if self.generator.random() < CHIP_SHARE else [])]
        if word in ("sale-void", "complete-void"):
            return [self._original({"sale-void": "22", "complete-void": "20"}[word])]
        request = self._earlier("22" if word == "refund" else "10")
        text = "000000000001" if word == "refund" else "A99999"
        if request:
            text = request.approval[37] if word == "refund" else request.approval.get(38, text)
        amount = self.generator.choice((self.refund, self.refund + 1, self._amount() % self.refund + 1)) if word == "refund" else self._amount()
        return [str(amount), request.message[2] if request else self.cards[0], text, request.approval[13] if request else "0315"]

    def _original(self, kind):
        """The trace of an entry that may be voided; now and then one that may not."""
        entries = [request.trace for request in self.comparer.entries() if request.kind == kind]
        voided = self.comparer.voided()
        free = [trace for trace in entries if trace not in voided]
        if self.generator.random() < 0.15 or not free:
            return self.generator.choice(entries + ["000001", "999999"])
        return self.generator.choice(free)

    def _earlier(self, kind):
        """An approved request of a kind, of any batch."""
        requests = [request for request in self.comparer.requests.values()
                    if request.word == "approved" and request.approval and request.kind == kind]
        return self.generator.choice(requests) if requests else None

    def _amount(self):
        return self.generator.choice((1, 12000, 9999999999, self.generator.randint(1, 300000), self.generator.randint(1, 300000)))

    def _chip(self, card):
        """A field 55 in hexadecimal, with the card in it; now and then one that is out of form."""
        number = bytes.fromhex(card + "F" * (len(card) % 2))
        cryptogram = self.generator.randbytes(8)
        parts = [iso.element("5A", number), iso.element("57", number + b"\xD2\x61\x22"), iso.element("9F26", cryptogram), iso.element("95", bytes(5)),
                 iso.element("9F10", self.generator.randbytes(self.generator.choice((0, 7, 32, 127, 128, 170)))), iso.element("9A", b"\x26\x11\x16")]
        self.generator.shuffle(parts)
        chip = b"".join(parts)
        if self.generator.random() < 0.06:
            twice = chip + min(parts, key=len)
            chip = self.generator.choice((b"", twice, chip[:-len(parts[-1])] + b"\x9F", chip + b"\x8E\x81\x03" + bytes(3), bytes(300)))
        return chip.hex().upper() or "-"

    def _card(self, front):
        length = self.generator.choice((13, 16, 16, 16, 19, 19))
        return front + "".join(self.generator.choice("0123456789") for _ in range(length - len(front)))


def _lines_left(command, line, left, pending):
    """How many lines a command's answer has still to come after this one; None while that is not known. Where a request was pending at the
    command, its end is told after the sign-on, before the command's own lines."""
    word = command.split()[0]
    if line.startswith("refused (14)") and not word.startswith("card-"):
        return left     # of a card's word that came too late
    result = RESULT.fullmatch(line)
    if result and result.group(2) == pending:
        return 0 if word == "sign-on" else None
    if any(pattern.fullmatch(line) for pattern in (SIGNED_ON, NOT_SIGNED_ON, STILL_SIGNED_ON)):
        return None if word != "sign-on" or pending and SIGNED_ON.fullmatch(line) else 0
    if SUM.fullmatch(line):
        return None
    if word == "journal":
        return 0 if line.startswith("journal ") or line.startswith("error") else None
    if left:
        return left - 1
    if line.startswith("doubtful: "):
        return int(line.split()[1])
    return _lines_after(line)


def _lines_after(line):
    """How many lines belong to a line that says how a request ended: after an approval the totals, in part also what is still to pay."""
    result = RESULT.fullmatch(line)
    if result is None or result.group(3) != "approved":
        return 0
    return 1 if result.group(6) is None else 2


def show_difference(store, difference):
    print(f"difference ({difference.name}), {store.name}: {difference.words}")
    print(f"  entry limit {store.limit}, L {store.sendings}, largest refund {store.refund}, time-out {store.options.timeout}")
    for line in difference.events:
        print(f"    {line}")


def show_figures(figures, differences, seconds):
    names = ("rounds", "random kills", "kills at points", "messages", "card requests", "approved", "declined", "reversed", "given up",
             "unanswered", "approved in part", "reversals", "settlements", "closings", "upload items", "upload ends", "refusals", "journals compared",
             "totals compared", "reports compared", "doubtful lists compared", "chip requests", "cards asked", "cards agreed", "cards declined",
             "cards silent", "kills in the wait for a card", "sign-ons", "sign-ons before a reversal", "signed on", "not signed on", "still signed on",
             "numbers adopted", "left pending")
    for name in names:
        print(f"{name}: {figures[name]}")
    print("kills at each point: " + ", ".join(f"{point} {figures[f'at {point}']}" for point in POINTS))
    print(f"seconds: {seconds:.0f}")
    print(f"differences: {differences}")


def run(options):
    """Runs the trial; the exit status."""
    figures = collections.Counter()
    differences = 0
    began = shown = time.monotonic()
    with tempfile.TemporaryDirectory() as folder:
        for number in itertools.count(options.first):
            if figures["rounds"] >= options.rounds:
                break
            store = Store(options, number, folder, figures)
            found = store.run(min(ROUNDS_A_STORE, options.rounds - figures["rounds"]))
            differences += len(found)
            for difference in found[:5]:
                show_difference(store, difference)
            if time.monotonic() - shown > 4:
                shown = time.monotonic()
                kills = figures["random kills"] + figures["kills at points"]
                print(f"{figures['rounds']} of {options.rounds} rounds, {kills} kills, {differences} differences", file=sys.stderr, flush=True)
    show_figures(figures, differences, time.monotonic() - began)
    untried = [name for name in ("random kills", "kills at points", "approved", "approved in part", "reversed", "closings", "cards agreed",
                                 "cards declined", "signed on", "not signed on", "numbers adopted") if not figures[name]]
    if untried and options.rounds >= 50:
        print(f"nothing was tried of: {', '.join(untried)}")
        return 1
    return 1 if differences else 0


def main():
    parser = argparse.ArgumentParser(description="Runs a desk against a centre, kills it again and again, and compares.")
    parser.add_argument("--desk", help="the desk program, its trial build")
    parser.add_argument("--seed", type=int, default=1)
    parser.add_argument("--rounds", type=int, default=100, help="lives of the desk")
    parser.add_argument("--first", type=int, default=1, help="number of the first store, to repeat a later one")
    parser.add_argument("--faults", type=float, default=0.3, help="share of messages that meet a fault")
    parser.add_argument("--timeout", type=float, default=0.2, help="the desk's time-out in seconds")
    parser.add_argument("--self-test", action="store_true", help="show that each planted fault is found")
    options = parser.parse_args()
    if options.self_test:
        return planted.self_test()
    if not options.desk or not os.access(options.desk, os.X_OK):
        parser.error("--desk names the desk program")
    options.desk = os.path.abspath(options.desk)
    return run(options)


if __name__ == "__main__":
    sys.exit(main())
