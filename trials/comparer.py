"""Compares what the desk says with what reached and left the centre, event by event, against documents 01 and 02.

The desk's word on a request is its result line, the centre's word its ledger, the card's word a command. A difference is a sentence that these
cannot fulfil together.
"""

import collections
import re
from typing import NamedTuple

import history
import iso
from centre import CREDIT, DEBIT, following, part_of

KINDS = {"authorise": "10", "authorise-void": "11", "complete": "20", "complete-void": "21", "sale": "22", "sale-void": "23", "refund": "25"}
WORDS = {kind: word for word, kind in KINDS.items()}
CHIP_KINDS = ("10", "22")
CARD_WORDS = ("card-agrees", "card-declines")
DOUBTFUL = ("given up", "unanswered")
SUMS = {"sales": "22", "completions": "20", "refunds": "25", "sale voids": "23", "completion voids": "21"}      # of a settlement report, in its order

_WORD = "(" + "|".join(sorted(KINDS, key=len, reverse=True)) + ")"
_YUAN = r"(\d+\.\d\d) yuan"
_PART = rf"{_YUAN}(?: of {_YUAN})?"
_WHY = r"the centre(?: has declined \((..)\)|'s answer was refused \(\d+\): .+| has not answered| cannot be reached)"
RESULT = re.compile(rf"{_WORD} (\d{{6}}): (approved|declined|reversed|given up|unanswered|pending)(?: \((..)\))? {_PART}, "
                    r"card (\d{6}\*+\d{4})(, chip)?(.*)")
PAID = re.compile(rf"paid by the card {_YUAN}, still to pay {_YUAN}")
ASKED = re.compile(rf"{_WORD} (\d{{6}}): the centre approves {_PART}, card (\d{{6}}\*+\d{{4}}), chip; card-agrees or card-declines")
APPROVED_TAIL = re.compile(r", reference (.{12}), authorisation (.{6})")
SUM = re.compile(rf"batch (\d{{6}}): ({'|'.join(SUMS)}) {_YUAN} in (\d+)")
SETTLED = re.compile(rf"settled batch (\d{{6}}): debit {_YUAN} in (\d+), credit {_YUAN} in (\d+)")
READY = re.compile(r"ready, batch (\d{6})")
SIGNED_ON = re.compile(r"signed on, batch (\d{6})")
NOT_SIGNED_ON = re.compile(rf"not signed on: {_WHY}; the next request tries again")
STILL_SIGNED_ON = re.compile(rf"still signed on: {_WHY}")
COUNTS = re.compile(r"counts sent (\d+) approved (\d+) declined (\d+) reversed (\d+) given-up (\d+) unanswered (\d+)")
TOTALS = re.compile(rf"totals debit {_YUAN} in (\d+) credit {_YUAN} in (\d+)")
STATE = re.compile(r"state batch (\d{6}) next-trace (\d{6}) (signed-on|signed-off) entries (\d+) (.+)")
JOURNAL_ENTRY = re.compile(rf"{_WORD} (\d{{6}}): {_YUAN}, card (\d{{6}}\*+\d{{4}}), date (\d{{4}}), reference (.{{12}}), "
                           r"authorisation (.{6})(, voided)?")
JOURNAL_END = re.compile(r"journal (\d+) entries")
DOUBTFUL_HEAD = re.compile(r"doubtful: (\d+)")
REFUSED = re.compile(r"refused \((\d+)\): .+")
SENDING = re.compile(r"reversal, sending (\d+) of \d+")
PLAIN_CARD = re.compile(r"(?<!\d)\d{13,19}(?!\d)|[0-9A-Fa-f]{20,}")

CARD_FIELDS = {0, 2, 3, 4, 11, 22, 25, 41, 42, 49, 60, 64}
EXTRA_FIELDS = {"11": {38, 61}, "20": {38, 61}, "21": {37, 38, 61}, "23": {37, 38, 61}, "25": {37, 61}}
BATCH_FIELDS = {"settlement": {0, 11, 41, 42, 48, 49, 60}, "item": {0, 2, 3, 4, 11, 37, 38, 41, 42, 49, 60}, "end": {0, 11, 41, 42, 60},
                "sign-on": {0, 11, 41, 42, 60}}
BATCH_CODES = {"settlement": "201", "item": "201", "end": "202", "sign-on": "003"}
KEY_PIECE = 8       # bytes of keys that must not be found together


class Difference(NamedTuple):
    name: str
    words: str
    events: list    # as text: those of the trace, then the latest


class Request:
    """A card request, as far as desk and centre have said something of it."""

    def __init__(self, trace, batch, losses, message=None):
        self.trace = trace
        self.batch = batch
        self.losses_before = losses     # kills and unread connections before its command
        self.message = message          # None where it never reached the centre
        self.approval = None            # the approval that left, fit to be taken
        self.wrong_mac_left = False
        self.codes = set()              # of declines that left
        self.reversal = None            # as it came first
        self.reversals = 0
        self.reversal_ended = False     # an answer that ends the reversal left
        self.is_held = False
        self.held_amount = 0            # in fen, as the ledger took it
        self.is_asked = False           # the desk said that the centre approves and the card has the last word
        self.card_word = None           # the card's word that was given then
        self.word = None
        self.line = None

    @property
    def kind(self):
        return iso.kind_of(self.message)

    @property
    def has_chip(self):
        return 55 in (self.message or self.reversal or {})

    @property
    def asked_amount(self):
        return int((self.message or self.reversal)[4])

    @property
    def amount(self):
        """In fen, for which the centre approves it; without an approval what it asks for."""
        return int(self.approval[4]) if self.approval else self.asked_amount

    @property
    def is_part(self):
        """Whether the centre approves a part of what it asks for."""
        return self.approval is not None and self.amount < self.asked_amount


class Batch:
    """A batch at and after its settlement."""

    def __init__(self):
        self.sums = None                # first 30 digits of the settlement's field 48
        self.may_close = False          # an answer that closes it left
        self.may_upload = False         # an answer that starts the upload left
        self.items = collections.Counter()
        self.answered_items = set()
        self.first_items = []
        self.losses = 0                 # kills and unread connections since its settlement left


class SignOn:
    """A sign-on that reached the centre."""

    def __init__(self, message):
        self.trace = message[11]
        self.batch = iso.batch_of(message)      # of the terminal as it left
        self.codes = set()                      # of answers that left, other than 00
        self.is_over = False                    # the desk has said how it ended
        self.brought = None                     # the batch number of a 00 that left before, fit to be taken
        self.may_adopt = False                  # as that left nothing was known for which the number must not be adopted
        self.must_adopt = False                 # and nothing could be unknown


class Comparer:
    """Takes the events of one terminal, from a fresh store on. Traces do not start again within a trial."""

    def __init__(self, limit, sendings, refund, terminal, merchant):
        self.limit = limit
        self.sendings = sendings
        self.refund = refund
        self.names = {41: terminal, 42: merchant, 49: "156"}
        self.requests = {}
        self.batches = collections.defaultdict(Batch)
        self.batch = "000001"           # of a fresh terminal
        self.last_trace = 0             # of the latest card request, settlement, upload's end or sign-on
        self.last_sent = 0              # the same, sign-ons aside
        self.sign_on = None             # the latest that reached the centre
        self.sign_on_out = None         # the same, until the desk says how it ended or is started again
        self.adoptions = {}             # by batch number, the trace of the sign-on that brought it
        self.has_signed_on = False      # a 00 that signs on has left since power returned or the batch was closed
        self.is_signed_on = False       # the desk's lines say so
        self.keys = []                  # pieces of each field 62 that left, as bytes and in hexadecimal
        self.pending = None             # trace of a request whose reversal the desk has left pending, signed off
        self.word_due = None            # the same, where a message has left that its word comes before
        self.may_be_unseen = False      # a card request may have left the terminal of which nothing has been seen
        self.announced = 0              # sendings of a reversal that the desk has announced since a request ended
        self.is_settling = False
        self.command = None             # the words of the command that is under way
        self.command_has_sent = False
        self.settle_asked = False       # in this batch
        self.losses = 0                 # kills and unread connections
        self.losses_before = 0          # the same, before the latest card command
        self.asked = None               # the request whose card has the last word now
        self.card_words = 0             # card's words given in this life and not refused
        self.late_word = None           # trace of a request that ended otherwise than its card's word, given last
        self.rest_due = None            # the request approved in part of which the next line says what is paid and still to pay
        self.totals_due = None          # trace of the approved request after which the totals come next
        self.report = []                # lines of a settlement report under way
        self.is_starting = False        # the desk has not said yet that it is ready
        self.totals_at_start = 0        # how often the totals were shown before that
        self.listing = None             # lines of a journal or doubtful list under way
        self.listing_left = 0
        self.figures = collections.Counter()
        self.differences = []
        self.events = []

    def take(self, event):
        """Takes the next event."""
        self.events.append(event)
        name = type(event).__name__.lower()
        getattr(self, f"_take_{name}")(event)

    def entries(self):
        """Requests of the open batch that the desk called approved, in the journal's order."""
        return [request for request in self._open_batch() if request.word == "approved" and request.message]

    def voided(self):
        """Traces of the open batch's entries that an approved void names."""
        return {request.message[61][6:12] for request in self.entries() if request.kind in ("21", "23")}

    def is_busy(self):
        """Whether a request has not ended yet, or a settlement."""
        return self.is_settling or bool(self._without_word())

    def finish(self):
        """Compares what is left when the desk has ended in order."""
        for request in self.requests.values():
            if request.word is None:
                self._differ("untold", f"the desk never said how request {request.trace} ended", request.trace)
            self._compare_holding(request)

    # What happens to the desk.

    def _take_started(self, _event):
        self.command = None
        self.listing = None
        self.asked = self.late_word = self.totals_due = self.rest_due = None
        self.card_words = self.totals_at_start = 0
        self.report = []
        self.is_starting = True
        self.has_signed_on = self.is_signed_on = False
        self.pending = self.word_due = None
        self._end_of_sign_on()

    def _take_killed(self, _event):
        self.totals_due = self.word_due = self.rest_due = None
        if self.command and self.command[0] in KINDS and not self.command_has_sent:
            self.may_be_unseen = True
        self.figures["kills"] += 1
        if self.asked:
            self.figures["kills in the wait for a card"] += 1
        self._note_loss()

    def _take_ended(self, event):
        self._look_for_rest(None)
        self._look_for_totals()
        self._look_for_settled()
        if event.status != 0:
            self._differ("exit", f"the desk ended with status {event.status}: {event.words}")

    def _take_unread(self, _event):
        self._note_loss()

    def _take_stored(self, event):
        if self._holds_keys(event.data):
            self._differ("keys stored", "a file of the store holds keys that a sign-on brought")

    def _take_noise(self, event):
        self._differ("noise", f"the desk sent {event.words}")

    def _take_command(self, event):
        self._look_for_rest(None)
        self._look_for_totals()
        self._look_for_settled()
        self.command = event.text.split()
        self.command_has_sent = False
        self.listing = [] if self.command[0] in ("journal", "doubtful") else None
        if self.command[0] in KINDS:
            self.losses_before = self.losses
        if self.command[0] == "settle" and not self.asked:
            self.settle_asked = True
        if self.command[0] in CARD_WORDS:
            self.card_words += 1
            if self.asked:
                self.asked.card_word = self.asked.card_word or self.command[0]

    def _look_for_totals(self):
        """Something else comes where the totals are due."""
        if self.totals_due:
            self._differ("totals line", f"{self.totals_due} is called approved, and the totals do not follow", self.totals_due)
        self.totals_due = None

    def _look_for_settled(self):
        """Something else comes where a settlement report goes on, or its batch is called settled. A kill may cut a report off."""
        if self.report:
            self._differ("report line", f"after {self.report[-1].group(0)!r} the report does not go on")
        self.report = []

    def _look_for_rest(self, match):
        """The line after an approval in part says what is paid and what is still to pay; no other line does."""
        request, self.rest_due = self.rest_due, None
        told = match and (_fen(match.group(1)), _fen(match.group(2)))
        due = request and (request.amount, request.asked_amount - request.amount)
        if told != due:
            trace = request.trace if request else None
            self._differ("still to pay", f"paid and still to pay are {due} fen after {trace}, and the desk says {told}", trace)

    def _note_loss(self):
        """A sending may be lost that the terminal counts. Signed off none is: nothing but a sign-on leaves."""
        if not self.has_signed_on:
            return
        self.losses += 1
        if self.batch and self.batches[self.batch].sums:
            self.batches[self.batch].losses += 1

    # What the centre decides and answers.

    def _take_held(self, event):
        self.requests[event.trace].is_held = True
        self.requests[event.trace].held_amount = event.amount

    def _take_released(self, event):
        self.requests[event.trace].is_held = False

    def _take_answered(self, event):
        answer = event.answer
        trace = answer[11]
        self.figures["answers"] += 1
        if answer[0] == "0810":
            self._note_sign_on_answer(answer)
        elif answer[0] == "0510":
            self._note_settlement_answer(answer)
        elif answer[0] == "0330":
            self._note_upload_answer(answer)
        elif answer[0] == "0410":
            if answer[39] in ("25", "12") or answer[39] == "00" and event.mac_is_good:
                self.requests[trace].reversal_ended = True
        else:
            self._note_card_answer(self.requests[trace], answer, event.mac_is_good)

    def _note_card_answer(self, request, answer, mac_is_good):
        if answer[39] != "00" and (answer[39] != "10" or request.kind != "22"):
            request.codes.add(answer[39])
        elif _amount_fits(request.message, answer) and 13 in answer and 37 in answer and not iso.chip_fault(answer.get(55, b"")):
            if mac_is_good:
                request.approval = answer
            else:
                request.wrong_mac_left = True

    def _note_sign_on_answer(self, answer):
        """Only a 00 with batch number and keys signs on, and only the sign-on that is awaited. The number is adopted at rest in a batch in which
        no card request has left."""
        keys, sign_on = answer.get(62, b""), self.sign_on
        pieces = [keys[place:place + KEY_PIECE] for place in range(0, len(keys) - KEY_PIECE + 1, KEY_PIECE)]
        self.keys += [(piece, piece.hex().encode()) for piece in pieces]
        if answer[11] != sign_on.trace or sign_on.is_over:
            return
        if answer.get(39, "00") != "00":
            sign_on.codes.add(answer[39])
        elif 39 in answer and 60 in answer and iso.batch_of(answer) != "000000" and len(keys) in iso.KEY_LENGTHS:
            sign_on.brought = iso.batch_of(answer)
            sign_on.may_adopt = not self.is_settling and not self._open_batch()
            sign_on.must_adopt = sign_on.may_adopt and not self.may_be_unseen and not self.settle_asked
            self.has_signed_on = True

    def _note_settlement_answer(self, answer):
        batch = self.batches[iso.batch_of(answer)]
        digit = answer[48][30]
        batch.may_close = batch.may_close or digit == "1"
        batch.may_upload = batch.may_upload or digit in "23"

    def _note_upload_answer(self, answer):
        batch = self.batches[iso.batch_of(answer)]
        if iso.code_of(answer) == "201":
            batch.answered_items.add(answer[11])
        elif answer[39] == "00":
            batch.may_close = True

    # What the desk sends.

    def _take_received(self, event):
        message = event.message
        self.figures["messages"] += 1
        part = part_of(message)
        for fault in faults_of_form(message, part, self.names):
            self._differ("form", f"{part} {message.get(11)}: {fault}", message.get(11))
        if part != "sign-on" and not self.has_signed_on:
            self._differ("signed off", f"{part} {message[11]} left, and no 00 to a sign-on had left the centre", message[11])
        getattr(self, f"_receive_{part.replace('-', '_')}")(message)

    def _receive_sign_on(self, message):
        trace = message[11]
        self.figures["sign-ons"] += 1
        if self._without_word():
            self.figures["sign-ons before a reversal"] += 1
        self._look_at_new_trace(message, "sign-on")
        if self.asked:
            self._differ("sign-on while awaited", f"sign-on {trace} left while the card of {self.asked.trace} was asked", trace)
        if self.is_signed_on and not self.is_starting and self.command != ["sign-on"]:
            self._differ("sign-on not asked for", f"sign-on {trace} left without the command, and the desk was signed on", trace)
        self._note_batch(iso.batch_of(message))
        self.sign_on = self.sign_on_out = SignOn(message)

    def _receive_request(self, message):
        trace = message[11]
        self.figures["card requests"] += 1
        self._look_at_new_trace(message, "card request")
        self._look_for_open_requests(message, "card request")
        self.last_sent = self.last_trace
        self._note_batch(iso.batch_of(message))
        if self.is_settling:
            self._differ("request while settling", f"card request {trace} left after the settlement of its batch", trace)
        self._compare_with_command(message)
        if self._refusals():
            self._differ("not refused", f"card request {trace} left, and the command breaks rule {self._refusals()[0]}", trace)
        if 55 in message:
            self.figures["chip requests"] += 1
        if trace not in self.requests:
            self.requests[trace] = Request(trace, self.batch, self.losses_before, message)
        if iso.kind_of(message) in ("21", "23"):
            self._compare_with_original(message)

    def _receive_reversal(self, message):
        trace = message[11]
        self.figures["reversals"] += 1
        request = self._request(trace, iso.batch_of(message))
        request.reversals += 1
        if request.reversals > self.sendings:
            self._differ("reversal too often", f"the reversal of {trace} left {request.reversals} times, L is {self.sendings}", trace)
        if int(trace) < self.last_sent:
            self._differ("reversal after a later request", f"the reversal of {trace} was open when {self.last_sent:06d} left", trace)
        if request.word is not None:
            self._differ("reversal after its end", f"a reversal of {trace} left after the desk had said: {request.line}", trace)
        self._compare_reversal(request, message)
        self.last_trace = max(self.last_trace, int(trace))
        self.last_sent = max(self.last_sent, int(trace))
        self._note_batch(iso.batch_of(message))

    def _request(self, trace, batch):
        """The request of a trace. One of which nothing was seen yet is made; it must not be older than the number of its batch."""
        if trace not in self.requests:
            self.requests[trace] = Request(trace, batch, self.losses_before)
            if int(trace) < self.adoptions.get(batch, 0):
                self._differ("batch number", f"batch {batch} was adopted after request {trace} had left", trace)
        return self.requests[trace]

    def _receive_settlement(self, message):
        self.figures["settlements"] += 1
        self._look_at_new_trace(message, "settlement")
        self._look_for_open_requests(message, "settlement")
        self.last_sent = self.last_trace
        self._note_batch(iso.batch_of(message))
        if not self.settle_asked:
            self._differ("settlement not asked for", f"settlement {message[11]} left without the command", message[11])
        self.is_settling = True
        self._compare_settlement(message)

    def _receive_item(self, message):
        trace = message[11]
        batch = self.batches[iso.batch_of(message)]
        self.figures["upload items"] += 1
        if not batch.may_upload:
            self._differ("upload not asked for", f"upload item {trace} left, no answer had asked for an upload", trace)
        if trace not in batch.items and batch.first_items and trace < batch.first_items[-1] and not batch.losses:
            self._differ("upload order", f"upload item {trace} left after {batch.first_items[-1]}", trace)
        if trace not in batch.items:
            batch.first_items.append(trace)
        batch.items[trace] += 1
        if batch.items[trace] > 1 + self.sendings:
            self._differ("upload too often", f"upload item {trace} left {batch.items[trace]} times, L is {self.sendings}", trace)
        self._compare_item(message)

    def _receive_end(self, message):
        number = iso.batch_of(message)
        batch = self.batches[number]
        self.figures["upload ends"] += 1
        self._look_at_new_trace(message, "upload's end")
        self.last_sent = self.last_trace
        if not batch.may_upload:
            self._differ("upload not asked for", f"the upload's end {message[11]} left, no answer had asked for an upload", message[11])
        for request in self._due(number):
            sendings = batch.items[request.trace] + batch.losses
            if request.trace not in batch.answered_items and sendings < 1 + self.sendings:
                self._differ("upload ended early", f"upload item {request.trace} left {batch.items[request.trace]} times without an answer, "
                             f"then the end", request.trace)

    # Comparisons of messages.

    def _look_at_new_trace(self, message, name):
        trace = int(message[11])
        if trace <= self.last_trace:
            self._differ("trace used again", f"{name} {message[11]} is not above {self.last_trace:06d}", message[11])
        self.last_trace = max(self.last_trace, trace)

    def _look_for_open_requests(self, message, name):
        """None may be open. The word on one that was pending may stand in a line that is taken next, after this message."""
        for request in self._without_word():
            if request.trace == self.pending and not self.word_due:
                self.word_due = self.pending
                continue
            what = "while its reversal was open" if request.reversals else "before it was ended"
            self._differ(f"{name} while open", f"{name} {message[11]} left, and {request.trace} had no end: {what}", request.trace)

    def _compare_with_command(self, message):
        trace, kind = message[11], iso.kind_of(message)
        command = self.command or [""]
        if self.command_has_sent:
            self._differ("sent twice", f"one command sent a second card request, {trace}", trace)
        self.command_has_sent = True
        if KINDS.get(command[0]) != kind:
            self._differ("not commanded", f"card request {trace} of kind {kind} left at the command {command[0] or 'none'}", trace)
            return
        if kind in ("21", "23"):
            given = {61: message[61][:6] + command[1].zfill(6) + message[61][12:]}
        else:
            given = {4: command[1].zfill(12), 2: command[2], 55: keyed_chip(command)}
            given.update(zip({"25": (37, 61), "11": (38, 61), "20": (38, 61)}.get(kind, ()), command[3:]))
            if 61 in given:
                given[61] = "0" * 12 + given[61]
        for number, value in given.items():
            if message.get(number) != value:
                self._differ("not as commanded", f"field {number} of card request {trace} differs from the command", trace)

    def _compare_with_original(self, message):
        trace, named = message[11], message[61][6:12]
        original = self.requests.get(named)
        if original is None or original.word != "approved" or not original.approval:
            self._differ("void", f"void {trace} names {named}, which the desk never called approved", trace)
            return
        wanted = {2: original.message[2], 4: original.approval[4], 37: original.approval[37], 38: original.approval.get(38, " " * 6),
                  61: original.batch + named + original.approval[13]}
        for number, value in wanted.items():
            if message.get(number) != value:
                self._differ("void", f"field {number} of void {trace} is not that of its original {named}", trace)
        if original.kind != {"21": "20", "23": "22"}[iso.kind_of(message)] or named in self.voided():
            self._differ("void", f"void {trace} names {named}, which is of another kind or voided", trace)

    def _compare_reversal(self, request, message):
        first = request.reversal or {**(request.message or message), 39: message[39]}
        request.reversal = request.reversal or message
        for number in set(first) | set(message):
            if number not in (0, 37, 38, 61, 64) and first.get(number) != message.get(number):
                self._differ("reversal", f"field {number} of the reversal of {request.trace} differs from its request or first sending",
                             request.trace)
        if iso.kind_of(message) == "25":
            self._differ("reversal", f"a refund is reversed: {request.trace}", request.trace)
        if message[39] == "A0" and not request.wrong_mac_left:
            self._differ("reversal", f"reason A0 for {request.trace}, and no approval with a wrong MAC had left", request.trace)
        if message[39] == "06" and not (request.has_chip and request.approval):
            self._differ("reason 06", f"reason 06 for {request.trace}, and no approval of a request with a chip had left", request.trace)
        if message[39] != "06" and request.is_asked:
            self._differ("reason 06", f"reason {message[39]} for {request.trace}, and the card had the last word", request.trace)

    def _compare_settlement(self, message):
        number, sums = iso.batch_of(message), message[48][:30]
        batch = self.batches[number]
        words = f"settlement {message[11]} of batch {number} carries {sums}"
        self._compare_sums("settlement", words, sums, number, message[11])
        if batch.sums not in (None, sums):
            self._differ("settlement", f"{words}, the one before it {batch.sums}", message[11])
        batch.sums = sums
        for request in self.requests.values():
            if request.batch == number:
                self._compare_holding(request)

    def _compare_sums(self, name, words, sums, number, trace=None):
        """The sums that the desk has for a batch: with its approved requests, and with what of the centre's ledger it has ended."""
        told = _sums((request.kind, request.amount) for request in self._due(number))
        if sums != told:
            self._differ(name, f"{words}, the desk's approved requests give {told}", trace)
        held = _sums((request.kind, request.held_amount) for request in self._held(number))
        if sums != held:
            self._differ(f"{name} and ledger", f"{words}, the centre's ledger without doubtful requests gives {held}", trace)

    def _compare_report(self, number):
        """The five lines right before a batch is called settled: in their order, each with the desk's approved requests of its kind, and with
        what of the centre's ledger it has ended."""
        report, self.report = self.report, []
        self.figures["reports compared"] += 1
        if [match.group(1, 2) for match in report] != [(number, words) for words in SUMS]:
            self._differ("report line", f"batch {number} is called settled, and the desk says before {[match.group(0) for match in report]}")
        for match in report:
            kind, sum_told = SUMS[match.group(2)], (_fen(match.group(3)), int(match.group(4)))
            told = _sum(request.amount for request in self._due(number) if request.kind == kind)
            if sum_told != told:
                self._differ("report", f"the desk says {match.group(0)!r}, its approved requests give {told}")
            held = _sum(request.held_amount for request in self._held(number) if request.kind == kind)
            if sum_told != held:
                self._differ("report and ledger", f"the desk says {match.group(0)!r}, the centre's ledger without doubtful requests gives {held}")

    def _compare_item(self, message):
        trace = message[11]
        request = self.requests.get(trace)
        if request not in self._due(iso.batch_of(message)):
            self._differ("upload", f"upload item {trace} is no approved debit or credit of batch {iso.batch_of(message)}", trace)
            return
        approval = request.approval or {}
        wanted = {2: request.message[2], 3: request.message[3], 4: f"{request.amount:012d}", 37: approval.get(37),
                  38: approval.get(38, " " * 6), 60: request.kind + request.batch + "201"}
        for number, value in wanted.items():
            if message.get(number) != value:
                self._differ("upload", f"field {number} of upload item {trace} differs from its request or approval", trace)

    def _compare_holding(self, request):
        """A fee that the centre holds is approved or doubtful at the desk, and what the desk calls approved is held."""
        if request.is_held and request.word != "approved" and request.word not in DOUBTFUL:
            self._differ("held", f"the centre holds {request.trace}, and the desk says: {request.line}", request.trace)
        if request.word == "approved" and not request.is_held:
            self._differ("not held", f"the desk called {request.trace} approved, and the centre does not hold it", request.trace)

    # What the desk says.

    def _take_line(self, event):
        text = event.text
        self._look_for_card(text)
        if self.late_word and not text.startswith("refused (14)"):
            self._differ("consent lost", f"the card agreed, and {self.late_word} ended otherwise", self.late_word)
        self.late_word = None
        paid = PAID.fullmatch(text)
        self._look_for_rest(paid)
        if paid:
            return
        if not TOTALS.fullmatch(text):
            self._look_for_totals()
        self._look_for_word(text)
        if not SUM.fullmatch(text) and not SETTLED.fullmatch(text):
            self._look_for_settled()
        if text.startswith("last request: "):
            self._compare_last(text)
        if self.listing is not None:
            self._take_listed(text)
            return
        for pattern, method in ((RESULT, self._take_result), (ASKED, self._take_asked), (SUM, self.report.append), (SETTLED, self._take_settled),
                                (READY, self._take_ready), (COUNTS, self._take_counts), (TOTALS, self._take_totals), (STATE, self._take_state),
                                (REFUSED, self._take_refused), (SIGNED_ON, self._take_signed_on), (NOT_SIGNED_ON, self._take_not_signed_on),
                                (STILL_SIGNED_ON, self._take_still_signed_on)):
            match = pattern.fullmatch(text.removeprefix("last request: "))
            if match:
                method(match)
                return
        if text not in ("last request: none", "settlement not answered; settle again", "upload not answered; settle again"):
            self._differ("line", f"the desk wrote what the agreement does not have: {text}")

    def _take_error(self, event):
        """The desk announces each sending of a reversal, so the terminal has counted no more than it has announced."""
        self._look_for_card(event.text)
        match = SENDING.fullmatch(event.text)
        if match and int(match.group(1)) > self.announced + 1:
            self._differ("sendings", f"the desk says {event.text!r}, and has announced {self.announced} before")
        self.announced += match is not None

    def _look_for_card(self, text):
        if PLAIN_CARD.search(text):
            self._differ("card shown", "a line shows a run of 13 to 19 digits, or a chip's data")
        if self._holds_keys(text.encode("utf-8", "replace")):
            self._differ("keys shown", "a line shows keys that a sign-on brought")

    def _holds_keys(self, data):
        """Whether bytes hold keys of the centre, as they stand or in hexadecimal."""
        small = data.lower()
        return any(piece in data or digits in small for piece, digits in self.keys)

    def _look_for_word(self, text):
        """The word on a request that was pending comes first, where a message has left that it comes before."""
        match = RESULT.fullmatch(text)
        if self.word_due and not (match and match.group(2) == self.word_due):
            self._differ("left while open", f"a message left, and {self.word_due} had no end", self.word_due)
        self.word_due = None

    def _take_signed_on(self, match):
        number, sign_on = match.group(1), self._end_of_sign_on()
        self.figures["signed on"] += 1
        self.is_signed_on = True
        if sign_on is None or sign_on.brought is None:
            self._differ("signed on", f"the desk says {match.group(0)!r}, and no answer that signs on left")
            return
        if number == sign_on.batch != sign_on.brought and sign_on.must_adopt:
            self._differ("batch number", f"sign-on {sign_on.trace} brought batch {sign_on.brought}, which was not adopted", sign_on.trace)
        self._note_batch(number)

    def _take_not_signed_on(self, match):
        self.figures["not signed on"] += 1
        if self.is_signed_on:
            self._differ("signed off", f"the desk was signed on, and says {match.group(0)!r}")
        self.has_signed_on = self.is_signed_on = False
        self._take_failed_sign_on(match)

    def _take_still_signed_on(self, match):
        self.figures["still signed on"] += 1
        if not self.is_signed_on:
            self._differ("signed on", f"the desk was signed off, and says {match.group(0)!r}")
        self._take_failed_sign_on(match)

    def _take_failed_sign_on(self, match):
        """It adopts nothing; the code is one that the centre has given."""
        code, sign_on = match.group(1), self._end_of_sign_on()
        if sign_on:
            sign_on.may_adopt = False
        if code and not (sign_on and code in {_shown(left) for left in sign_on.codes}):
            self._differ("sign-on declined", f"the desk says {match.group(0)!r}, which is not what the centre said")

    def _end_of_sign_on(self):
        """The sign-on of which the desk says how it ended, None where it has not reached the centre."""
        sign_on, self.sign_on_out = self.sign_on_out, None
        if sign_on:
            sign_on.is_over = True
        return sign_on

    def _compare_last(self, text):
        match = RESULT.fullmatch(text.removeprefix("last request: "))
        latest = max(self.requests, default="000000")
        if latest > (match.group(2) if match else "000000"):
            self._differ("last request", f"the latest request is {latest}, and the desk says {text!r}", latest)

    def _take_asked(self, match):
        """The centre approves, and the card has the last word."""
        word_of_kind, trace, yuan, of, card = match.groups()
        request = self._request(trace, self.batch)
        self.figures["cards asked"] += 1
        if not request.has_chip or request.approval is None:
            self._differ("asked", f"the card of {trace} is asked, and no approval of a request with a chip left", trace)
        if request.word or request.reversals or request.is_asked:
            self._differ("asked", f"the card of {trace} is asked again, or after its reversal or end", trace)
        if request.message and (word_of_kind, yuan, of, card) != self._as_told(request, request.amount):
            self._differ("result line", f"kind, amount or card of the line is not that of request {trace}: {match.group(0)}", trace)
        request.is_asked = True
        self.asked = request

    def _as_told(self, request, amount):
        """Kind, amount, of which amount where it is a part, and card, as a line tells them."""
        message, asked = request.message or request.reversal, request.asked_amount
        return WORDS[iso.kind_of(message)], _yuan(amount), _yuan(asked) if amount < asked else None, history.masked(message[2])

    def _take_result(self, match):
        word_of_kind, trace, word, code, yuan, of, card, chip, tail = match.groups()
        line = match.group(0)
        request = self._request(trace, self.batch)
        if word == "approved" and request.is_part:
            self.rest_due = request
        if request.line not in (None, line):
            self._differ("word changed", f"the desk said {request.line!r} and later {line!r}", trace)
        if request.line is not None:
            return
        if request.message or request.reversal:
            amount = request.amount if word == "approved" else request.asked_amount
            if (word_of_kind, yuan, of, card) != self._as_told(request, amount) or bool(chip) != request.has_chip:
                self._differ("result line", f"kind, amount, card or chip of the line is not that of request {trace}: {line}", trace)
        if word == "pending":
            self._take_pending(request)
            return
        request.word, request.line = word, line
        self.figures[word] += 1
        self.pending = None if trace == self.pending else self.pending
        self._compare_result(request, word, code, tail)
        self.announced = 0
        self._compare_consent(request, word)
        if word == "approved" and not self.is_starting:
            self.totals_due = trace
        self.figures["approved in part"] += self.rest_due is request

    def _take_pending(self, request):
        """A reversal is left pending at a start that could not sign on, and nowhere else."""
        self.figures["left pending"] += 1
        self.pending = request.trace
        if not self.is_starting or self.is_signed_on:
            self._differ("pending", f"{request.trace} is called pending, and the desk is signed on or has begun", request.trace)

    def _compare_consent(self, request, word):
        """What a chip's card has agreed to is approved, and nothing else."""
        if word == "approved" and request.has_chip and request.card_word != "card-agrees":
            self._differ("consent", f"{request.trace} is called approved, and the card did not agree", request.trace)
        if word == "declined" and request.is_asked:
            self._differ("consent", f"{request.trace} is called declined, and the centre had approved it", request.trace)
        if self.asked is request:
            self.figures["cards agreed" if word == "approved" else "cards declined" if request.card_word else "cards silent"] += 1
            self.asked = None
            if word != "approved" and request.card_word == "card-agrees":
                self.late_word = request.trace

    def _compare_result(self, request, word, code, tail):
        trace = request.trace
        if word == "approved":
            self._compare_approval(request, tail)
        elif word == "declined" and code not in request.codes:
            self._differ("declined", f"declined ({code}) is not what the centre said on {trace}: {sorted(request.codes)}", trace)
        elif word == "reversed" and not request.reversal_ended:
            self._differ("reversed", f"{trace} is called reversed, and no answer that ends the reversal left", trace)
        elif word == "given up" and request.reversals + self.losses - request.losses_before < self.sendings:
            self._differ("given up early", f"{trace} is given up after {request.reversals} sendings and "
                         f"{self.losses - request.losses_before} losses, L is {self.sendings}", trace)
        elif word == "given up" and self.announced < self.sendings:
            self._differ("sendings", f"{trace} is given up after {self.announced} sendings that were announced, L is {self.sendings}", trace)
        elif word == "unanswered" and request.message and request.kind != "25":
            self._differ("unanswered", f"{trace} is called unanswered and is no refund", trace)
        if word in ("approved", "declined", "unanswered") and request.reversals:
            self._differ("word and reversal", f"{trace} is called {word}, and its reversal had left", trace)
        self._compare_holding(request)

    def _compare_approval(self, request, tail):
        match = APPROVED_TAIL.fullmatch(tail)
        if request.approval is None:
            self._differ("approved", f"{request.trace} is called approved, and no approval with a good MAC left", request.trace)
        elif not match or match.groups() != (_shown(request.approval[37]), _shown(request.approval.get(38, " " * 6))):
            self._differ("result line", f"reference or authorisation of {request.trace} is not the centre's: {request.line}", request.trace)
        if len(self.entries()) > self.limit:
            self._differ("journal full", f"{request.trace} is approved beyond the entry limit", request.trace)

    def _take_settled(self, match):
        number = match.group(1)
        batch = self.batches[number]
        digits = _sums_of_words(match.groups()[1:])
        self._compare_report(number)
        if digits != batch.sums:
            self._differ("settled line", f"the desk says {match.group(0)!r}, its settlement carried {batch.sums}")
        if not batch.may_close:
            self._differ("closed", f"batch {number} is called settled, and no answer that closes it left")
        if number != self.batch:
            self._differ("closed", f"batch {number} is called settled, the open one is {self.batch}")
        self._open(following(number), False)
        self.has_signed_on = self.is_signed_on = False

    def _take_ready(self, match):
        self._note_batch(match.group(1))
        self.may_be_unseen = False
        for request in self._without_word():
            if request.trace != self.pending:
                self._differ("untold", f"the desk is ready and has not said how request {request.trace} ended", request.trace)
        if self.is_starting and self.totals_at_start != bool(self.entries()):
            self._differ("totals line", f"the batch has {len(self.entries())} entries, and the start shows the totals {self.totals_at_start} times")
        self.is_starting = False

    def _take_counts(self, match):
        words = collections.Counter(request.word for request in self._open_batch())
        told = [sum(words.values())] + [words[word] for word in ("approved", "declined", "reversed", *DOUBTFUL)]
        if [int(number) for number in match.groups()] != told:
            self._differ("counts", f"the desk says {match.group(0)!r}, its result lines give {told}")

    def _take_totals(self, match):
        """They come after each approval, once at a start where the batch has an entry, and at the command."""
        self.figures["totals compared"] += 1
        if self.is_starting:
            self.totals_at_start += 1
        elif not self.totals_due and self.command != ["totals"]:
            self._differ("totals line", f"nobody asked for the totals, and the desk says {match.group(0)!r}")
        self.totals_due = None
        self._compare_sums("totals", f"the desk says {match.group(0)!r}", _sums_of_words(match.groups()), self.batch)

    def _take_state(self, match):
        number, next_trace, signed, entries, phase = match.groups()
        phases = ("card-awaited",) if self.asked else ("pending",) if self.pending else ("resting", "settling", "uploading")
        if (number != self.batch or int(next_trace) <= self.last_trace or int(entries) != len(self.entries())
                or (signed == "signed-on") != self.is_signed_on or phase not in phases):
            self._differ("state", f"the desk says {match.group(0)!r}; batch {self.batch}, latest trace {self.last_trace}, "
                         f"{len(self.entries())} entries, {'signed on' if self.is_signed_on else 'signed off'}, {' or '.join(phases)}")

    def _take_refused(self, match):
        self.figures["refusals"] += 1
        number = int(match.group(1))
        if number == 14:
            self.card_words -= 1
            if self.asked or self.card_words < 0:
                self._differ("refused", f"a card's word is refused, and one is awaited or none was given: {match.group(0)}")
            return
        first = (self._refusals() or [0])[0]
        if first != 23 and self.asked:
            first = 11
        elif first != 23 and not self.is_signed_on:
            first = 10
        if number != first and not (number == 13 and self.settle_asked and first not in (10, 11, 23)):
            command = history.shown(history.Command(" ".join(self.command or [])))
            self._differ("refused", f"the {command} breaks rules {self._refusals()}, and the desk says: {match.group(0)}")
        if self.command_has_sent:
            self._differ("refused", f"a refused command had sent a message: {match.group(0)}")

    def _refusals(self):
        """Numbers of the rules that the card command under way breaks, first checked first, as far as a trial breaks any; 11 to 14 aside."""
        word, *data = self.command or [""]
        numbers = []
        chip = keyed_chip(self.command or [])
        if chip is not None and (not 1 <= len(chip) <= 255 or iso.chip_fault(chip)):
            numbers.append(23)
        if word == "refund" and int(data[0]) > self.refund:
            numbers.append(17)
        if word in KINDS and len(self.entries()) >= self.limit:
            numbers.append(18)
        if word in ("sale-void", "complete-void"):
            original = next((entry for entry in self.entries() if entry.trace == data[0].zfill(6)), None)
            if original is None or original.kind != {"sale-void": "22", "complete-void": "20"}[word]:
                numbers.append(19)
            elif original.trace in self.voided():
                numbers.append(20)
        return numbers

    def _take_listed(self, text):
        head = DOUBTFUL_HEAD.fullmatch(text)
        if head and not self.listing:
            self.listing_left = int(head.group(1)) + 1
            self.listing = ["doubtful"]
        elif self.listing[:1] != ["doubtful"] and JOURNAL_END.fullmatch(text):
            self._compare_journal(int(text.split()[1]))
            return
        else:
            self.listing.append(text)
        if self.listing[:1] == ["doubtful"]:
            self.listing_left -= 1
            if self.listing_left == 0:
                self._compare_doubtful()

    def _compare_journal(self, count):
        shown, self.listing = self.listing, None
        matches = [JOURNAL_ENTRY.fullmatch(text) for text in shown]
        listed = [match and match.groups() for match in matches]
        told = [self._as_listed(request) for request in self.entries()]
        self.figures["journals compared"] += 1
        if listed != told or count != len(listed):
            self._differ("journal", f"the journal shows {listed}, the desk's approved requests are {told}")

    def _as_listed(self, request):
        approval = request.approval or {}
        return (WORDS[request.kind], request.trace, _yuan(request.amount), history.masked(request.message[2]), approval.get(13),
                _shown(approval.get(37, "")), _shown(approval.get(38, " " * 6)), ", voided" if request.trace in self.voided() else None)

    def _compare_doubtful(self):
        shown, self.listing = self.listing[1:], None
        told = [request.line for request in self.requests.values() if request.word in DOUBTFUL]
        self.figures["doubtful lists compared"] += 1
        if sorted(shown) != sorted(told):
            self._differ("doubtful", f"the desk lists {sorted(shown)}, it called doubtful {sorted(told)}")

    # Sums and lists.

    def _note_batch(self, number):
        """The desk goes by this batch number now: the batch was closed, or a sign-on has brought the number."""
        if number == self.batch:
            return
        sign_on = self.sign_on
        if sign_on and sign_on.may_adopt and number == sign_on.brought:
            self.figures["numbers adopted"] += 1
            self.adoptions[number] = int(sign_on.trace)
            self._open(number, self.settle_asked)
            return
        if not self.batches[self.batch].may_close or number != following(self.batch):
            self._differ("batch number", f"batch {self.batch} became {number}, without being closed and with no number that it may adopt")
        self._open(number, False)

    def _open(self, number, settle_asked):
        if self.is_settling:
            self.figures["closings"] += 1
        self.batch, self.is_settling, self.settle_asked = number, False, settle_asked
        if self.sign_on:
            self.sign_on.may_adopt = self.sign_on.must_adopt = False

    def _open_batch(self):
        return [request for trace, request in sorted(self.requests.items()) if request.batch == self.batch]

    def _without_word(self):
        return [request for request in self.requests.values() if request.word is None]

    def _due(self, number):
        return [request for trace, request in sorted(self.requests.items())
                if request.batch == number and request.word == "approved" and request.message and request.kind in DEBIT + CREDIT]

    def _held(self, number):
        """What the centre's ledger holds of a batch, without what the desk calls doubtful or has not ended."""
        return [request for request in self.requests.values()
                if request.batch == number and request.is_held and request.word not in (None, *DOUBTFUL)]

    def _differ(self, name, words, trace=None):
        of_trace = [history.shown(event) for event in self.events if trace and trace in history.shown(event)]
        latest = [history.shown(event) for event in self.events[-25:]]
        self.differences.append(Difference(name, words, of_trace[-25:] + ["--- latest:"] + latest))


def keyed_chip(command):
    """The field 55 that a command's words hold, None for none."""
    if command[3:4] != ["chip"]:
        return None
    return b"" if command[4] == "-" else bytes.fromhex(command[4])


def faults_of_form(message, part, names):
    """In which ways a message of the desk is not what the documents say of such a message."""
    faults, wanted = ([], BATCH_FIELDS[part]) if part in BATCH_FIELDS else _card_form(message, part)
    if part == "settlement" and message.get(48, "")[30:] != "0" * 32:
        faults.append("the digit of field 48 or what follows it is not zero")
    if set(message) != wanted:
        faults.append(f"fields {sorted(set(message) ^ wanted)} are too many or missing")
    if part in BATCH_CODES and (message[60][8:] != BATCH_CODES[part] or part != "item" and iso.kind_of(message) != "00"):
        faults.append(f"field 60 is {message[60]}")
    faults += [f"field {number} is {message[number]}" for number, value in names.items() if message.get(number, value) != value]
    return faults


def _card_form(message, part):
    kind = iso.kind_of(message)
    if kind not in WORDS:
        return [f"kind {kind} is not listed"], set(message)
    kind_type = "0100" if kind in ("10", "11") else "0220" if kind == "25" else "0200"
    has_chip = 55 in message
    wanted = {3: "030000" if kind == "10" else "000000" if kind in DEBIT else "200000", 22: "052" if has_chip else "012",
              25: "06" if kind in ("10", "11", "20", "21") else "00", 0: "0400" if part == "reversal" else kind_type}
    faults = [f"field {number} is {message.get(number)}" for number, value in wanted.items() if message.get(number) != value]
    if (iso.code_of(message), iso.part_code_of(message)) != ("000", "001" if kind == "22" else ""):
        faults.append(f"field 60 is {message[60]}")
    if part == "reversal" and message.get(39) not in ("98", "A0", "06"):
        faults.append(f"the reason is {message.get(39)}")
    if has_chip and kind not in CHIP_KINDS:
        faults.append(f"field 55 stands in kind {kind}")
    if part == "request" and kind in ("11", "20", "25") and message.get(61, "")[:12] != "0" * 12:
        faults.append("field 61 has a batch or a trace")
    return faults, CARD_FIELDS | ({55} if has_chip else set()) | ({39} if part == "reversal" else EXTRA_FIELDS.get(kind, set()))


def _amount_fits(request, answer):
    """Field 4 of an approval: with 00 the amount asked, with 10 from 1 to that."""
    if answer[39] == "00":
        return answer.get(4) == request[4]
    return 1 <= int(answer.get(4, "0")) <= int(request[4])


def _fen(yuan):
    return int(yuan.replace(".", ""))


def _yuan(fen):
    return f"{fen // 100}.{fen % 100:02d}"


def _sum(amounts):
    """The sum of amounts in fen, and how many they are."""
    amounts = list(amounts)
    return sum(amounts), len(amounts)


def _sums(amounts):
    """The first 30 digits of field 48 for amounts in fen with their kinds."""
    amounts = list(amounts)
    digits = ""
    for side in (DEBIT, CREDIT):
        fen = [amount for kind, amount in amounts if kind in side]
        digits += f"{sum(fen):012d}{len(fen):03d}"
    return digits


def _sums_of_words(words):
    debit, debit_count, credit, credit_count = words
    return f"{_fen(debit):012d}{int(debit_count):03d}{_fen(credit):012d}{int(credit_count):03d}"


def _shown(text):
    """A text of the centre as the desk shows it."""
    return text.replace(" ", "_")
