"""The self-test of the comparer: one sound history, and the same with one planted fault at a time, each of which must be found.

Before it the form of field 55 and the lengths of fields 54, 60 and 62 are tried on examples. The n-th request, settlement or upload's end has trace 10 n;
sign-ons have traces between these.
"""

import iso
from comparer import SUMS, WORDS, Comparer
from history import Answered, Command, Ended, Error, Held, Killed, Line, Received, Released, Started, Stored, masked

LATER, THIRD = "000005", "000006"       # the batch after the first closing, and the one after the second
TERMINAL, MERCHANT, BATCH, CARD, DATE = "LIB00001", "WHISTLAUREL0001", "000001", "6222021234561234", "0315"
LIMIT, SENDINGS, REFUND = 12, 3, 1000
CHIP = iso.element("5A", bytes.fromhex(CARD)) + iso.element("9F26", bytes(8)) + iso.element("9F10", bytes(128))
CHIPS_IN_FORM = ("8200", "9F2600", "8F018F", "9F0201019F030102", "1F000101", "DFFF00", "8281" + "80" + "00" * 128, "70048202000082" + "00", CHIP.hex())
KEYS = bytes(range(100, 184))
KEY_EXAMPLES = (*range(300), 999, 1000, 9999)
CHIPS_OUT_OF_FORM = ("82", "9F", "9F26", "820100" + "9F", "8202" + "00", "8280", "828100", "82817F" + "00" * 127, "8281", "82820001" + "00",
                     "82FF", "82008200", "9F2601009F260100", "5A0082005A00")


def self_test():
    """Prints each fault and whether it was found; the exit status."""
    failures = sum(bool(iso.chip_fault(bytes.fromhex(chip))) for chip in CHIPS_IN_FORM)
    failures += sum(not iso.chip_fault(bytes.fromhex(chip)) for chip in CHIPS_OUT_OF_FORM)
    print(f"form of field 55: {len(CHIPS_IN_FORM) + len(CHIPS_OUT_OF_FORM)} examples, {failures or 'no'} failures")
    unlike = sum(is_read({0: "0810", 62: bytes(length)}) != (length in iso.KEY_LENGTHS) for length in KEY_EXAMPLES)
    print(f"length of field 62: {len(KEY_EXAMPLES)} examples, {unlike or 'no'} failures")
    failures += unlike
    lengths = [(54, " " * length, length == 20) for length in range(100)] + [(60, "0" * length, length in (11, 14)) for length in range(100)]
    unlike = sum(is_read({0: "0210", number: value}) != is_allowed for number, value, is_allowed in lengths)
    print(f"lengths of fields 54 and 60: {len(lengths)} examples, {unlike or 'no'} failures")
    failures += unlike
    found = names_found(sound())
    print(f"sound history: {'no difference' if not found else 'DIFFERENCES ' + ', '.join(sorted(found))}")
    failures += bool(found)
    for words, name, change in planted_faults():
        found = names_found(change(sound()))
        is_found = name in found
        print(f"{words}: {'found' if is_found else 'NOT FOUND'} ({', '.join(sorted(found)) or 'no difference'})")
        failures += not is_found
    print(f"self-test: {len(planted_faults())} planted faults, {failures} failures")
    return 1 if failures else 0


def is_read(message):
    try:
        return iso.read(iso.write(message)) == message
    except iso.MessageError:
        return False


def names_found(labelled):
    """The names of the differences that the comparer finds in a history."""
    comparer = Comparer(LIMIT, SENDINGS, REFUND, TERMINAL, MERCHANT)
    for _, event in labelled:
        comparer.take(event)
    comparer.finish()
    return {difference.name for difference in comparer.differences}


def sound():
    """A history as (label, event), without a fault: each way in which a request can end, the card's words, sign-ons, an upload, approvals in
    part, all kinds in one batch, a settlement report that is cut off."""
    return [
        ("start", Started("")), ("", sign_on(1)), ("", signed_on(1, "000001")), ("", on("000001")), ("", Line("last request: none")),
        ("", Line("ready, batch 000001")),
        # 1: approved.
        ("", Command(f"sale 12000 {CARD}")), ("request 1", request("22", 1, 12000)), ("held 1", held(1, 12000)),
        ("answer 1", approval("22", 1, 12000)), ("line 1", result("22", 1, "approved", 12000)), ("totals 1", totals(12000, 1, 0, 0)),
        # 2: lost on the way, reversed.
        ("", Command(f"sale 8000 {CARD}")), ("request 2", request("22", 2, 8000)), ("", sending(1)), ("reversal 2", reversal("22", 2, 8000)),
        ("ended 2", reversal_answer("22", 2, 8000, "25")), ("line 2", result("22", 2, "reversed", 8000)),
        # 3: voids 1. The desk is killed before it tells, and tells after its start. The centre brings another batch number.
        ("", Command(f"sale-void {six(1)}")), ("request 3", void(3, 1, 12000)), ("held 3", held(3, 12000)),
        ("answer 3", approval("23", 3, 12000)), ("", Killed("after-answer-store:9")), ("", Started("")), ("sign-on 31", sign_on(31)),
        ("", signed_on(31, "000007")), ("on 31", on("000001")), ("line 3", last(result("23", 3, "approved", 12000))),
        ("totals 3", totals(12000, 1, 12000, 1)), ("", Line("ready, batch 000001")),
        # 4: held by the centre, its reversal given up.
        ("", Command(f"sale 5000 {CARD}")), ("request 4", request("22", 4, 5000)), ("held 4", held(4, 5000)),
        ("", sending(1)), ("reversal 4 a", reversal("22", 4, 5000)), ("sending 4 b", sending(2)), ("reversal 4 b", reversal("22", 4, 5000)),
        ("", sending(3)), ("reversal 4 c", reversal("22", 4, 5000)),
        ("line 4", result("22", 4, "given up", 5000)),
        # 5: a refund without an answer.
        ("command 5", Command(f"refund 700 {CARD} 000000000001 {DATE}")), ("request 5", request("25", 5, 700)), ("held 5", held(5, 700)),
        ("line 5", result("25", 5, "unanswered", 700)),
        # 6: declined.
        ("", Command(f"sale 300 {CARD}")), ("request 6", request("22", 6, 300)), ("answer 6", card_answer("22", 6, 300, "51")),
        ("line 6", result("22", 6, "declined", 300, "51")),
        # 7: approved with a wrong MAC, reversed.
        ("", Command(f"sale 900 {CARD}")), ("request 7", request("22", 7, 900)), ("held 7", held(7, 900)),
        ("answer 7", approval("22", 7, 900, False)), ("", sending(1)), ("reversal 7", reversal("22", 7, 900, "A0")), ("released 7", Released(six(7))),
        ("ended 7", reversal_answer("22", 7, 900, "00")), ("line 7", result("22", 7, "reversed", 900)),
        *sound_chips(),
        *sound_sign_ons(),
        *sound_settlement(),
        *((label, later(event)) for label, event in sound_parts()),
        *((label, later(event, THIRD)) for label, event in sound_kinds()),
        *sound_cut_report(),
        ("", Command("quit")), ("quit", Ended(0, "")),
    ]


def sound_chips():
    return [
        # 8: the card agrees.
        ("command 8", Command(f"sale 2500 {CARD} chip {CHIP.hex()}")), ("request 8", chip_request("22", 8, 2500)), ("held 8", held(8, 2500)),
        ("answer 8", approval("22", 8, 2500)), ("asked 8", asked("22", 8, 2500)), ("word 8", Command("card-agrees")),
        ("line 8", result("22", 8, "approved", 2500, chip=True)), ("totals 8", totals(14500, 2, 12000, 1)),
        # 9: the card declines.
        ("", Command(f"authorise 600 {CARD} chip {CHIP.hex()}")), ("request 9", chip_request("10", 9, 600)), ("held 9", held(9, 600)),
        ("answer 9", approval("10", 9, 600)), ("asked 9", asked("10", 9, 600)), ("word 9", Command("card-declines")),
        ("", sending(1)), ("reversal 9", chip_reversal("10", 9, 600)), ("released 9", Released(six(9))),
        ("ended 9", reversal_answer("10", 9, 600, "00")), ("line 9", result("10", 9, "reversed", 600, chip=True)),
        # 10: the desk is killed while it waits for the card. It cannot sign on, and leaves the reversal pending.
        ("", Command(f"sale 400 {CARD} chip {CHIP.hex()}")), ("request 10", chip_request("22", 10, 400)), ("held 10", held(10, 400)),
        ("answer 10", approval("22", 10, 400)), ("asked 10", asked("22", 10, 400)), ("", Killed("random")), ("stored", Stored(bytes(500))),
        ("", Started("")), ("sign-on 101", sign_on(101)), ("off 101", off("has not answered")),
        ("pending 10", last(result("22", 10, "pending", 400, chip=True))), ("totals 10", totals(14500, 2, 12000, 1)),
        ("ready 10", Line("ready, batch 000001")),
        # Refused: a tag twice; a card's word when none is awaited.
        ("command 23", Command(f"sale 100 {CARD} chip 82008200")), ("refused 23", Line("refused (23): the chip's data are out of form")),
        ("", Command("card-agrees")), ("refused 14", Line("refused (14): nothing is awaited, pending or to be uploaded")),
    ]


def sound_sign_ons():
    """Signed off, with the reversal of 10 pending: answers that do not sign on, one that does, and another code while signed on."""
    return [
        ("", Command("state")), ("state 10", Line("state batch 000001 next-trace 000102 signed-off entries 3 pending")),
        ("command 102", Command(f"sale 100 {CARD}")), ("sign-on 102", sign_on(102)), ("answer 102", signed_on(102, "000009", {39: "05"})),
        ("off 102", off("has declined (05)")), ("refused 10", Line("refused (10): signed off")),
        ("", Command("sign-on")), ("sign-on 103", sign_on(103)), ("answer 103", signed_on(103, "000009")), ("on 103", on("000001")),
        ("sending 10", sending(1)), ("reversal 10", chip_reversal("22", 10, 400)), ("released 10", Released(six(10))),
        ("ended 10", reversal_answer("22", 10, 400, "00")), ("line 10", result("22", 10, "reversed", 400, chip=True)),
        ("", Command("sign-on")), ("sign-on 104", sign_on(104)), ("answer 104", signed_on(104, "000009", {39: "96"})),
        ("still 104", Line("still signed on: the centre has declined (96)")),
    ]


def sound_settlement():
    return [
        ("", Command("counts")), ("counts", Line("counts sent 10 approved 3 declined 1 reversed 4 given-up 1 unanswered 1")),
        ("", Command("totals")), ("totals", totals(14500, 2, 12000, 1)),
        ("", Command("journal")), ("entry 1", entry("22", 1, 12000, ", voided")), ("entry 3", entry("23", 3, 12000)),
        ("entry 8", entry("22", 8, 2500)), ("entries", Line("journal 3 entries")),
        ("", Command("doubtful")), ("", Line("doubtful: 2")), ("doubtful 4", result("22", 4, "given up", 5000)),
        ("doubtful 5", result("25", 5, "unanswered", 700)),
        # The centre holds 4 and 5 too: an upload.
        ("", Command("settle")), ("settlement", settlement(11, 14500, 2, 12000, 1)), ("digit", settlement_answer(11, 14500, 2, 12000, 1, "2")),
        ("item 1", item("22", 1, 12000)), ("", upload_answer("22", 1, "201")), ("item 3", item("23", 3, 12000)),
        ("accepted 3", upload_answer("23", 3, "201")), ("", item("22", 8, 2500)), ("", upload_answer("22", 8, "201")),
        ("end", upload_end(12)), ("closing", upload_answer("00", 12, "202")),
        *report(11, BATCH, (14500, 2), (0, 0), (0, 0), (12000, 1), (0, 0)),
        ("settled", Line("settled batch 000001: debit 145.00 yuan in 2, credit 120.00 yuan in 1")),
        ("", Command("totals")), ("closed totals", totals(0, 0, 0, 0)),
        # 13: signed off, the desk signs on for it and adopts the number that the centre brings.
        ("command 13", Command(f"sale 800 {CARD}")), ("sign-on 121", sign_on(121, "000002")), ("answer 121", signed_on(121, "000005")),
        ("on 121", on("000005")), ("request 13", request("22", 13, 800, "000005")), ("", card_answer("22", 13, 800, "51", batch="000005")),
        ("line 13", result("22", 13, "declined", 800, "51")),
    ]


def sound_parts():
    """Sales that are answered 10, in the later batch."""
    return [
        # 14: approved in part.
        ("", Command(f"sale 5000 {CARD}")), ("request 14", request("22", 14, 5000)), ("held 14", held(14, 2000)), ("answer 14", part("22", 14, 2000)),
        ("line 14", result("22", 14, "approved", 2000, of=5000)), ("rest 14", rest(2000, 3000)), ("totals 14", totals(2000, 1, 0, 0)),
        # 15: voids 14.
        ("", Command(f"sale-void {six(14)}")), ("request 15", void(15, 14, 2000)), ("", held(15, 2000)), ("", approval("23", 15, 2000)),
        ("line 15", result("23", 15, "approved", 2000)), ("", totals(2000, 1, 2000, 1)),
        # 16: the card agrees.
        ("", Command(f"sale 900 {CARD} chip {CHIP.hex()}")), ("", chip_request("22", 16, 900)), ("", held(16, 400)), ("", part("22", 16, 400)),
        ("asked 16", asked("22", 16, 400, of=900)), ("word 16", Command("card-agrees")),
        ("line 16", result("22", 16, "approved", 400, of=900, chip=True)), ("rest 16", rest(400, 500)), ("totals 16", totals(2400, 2, 2000, 1)),
        # 17: the card declines.
        ("", Command(f"sale 700 {CARD} chip {CHIP.hex()}")), ("", chip_request("22", 17, 700)), ("", held(17, 300)), ("", part("22", 17, 300)),
        ("", asked("22", 17, 300, of=700)), ("", Command("card-declines")), ("", sending(1)), ("reversal 17", chip_reversal("22", 17, 700)),
        ("", Released(six(17))), ("", reversal_answer("22", 17, 700, "00")), ("line 17", result("22", 17, "reversed", 700, chip=True)),
        # 18: a wrong MAC.
        ("", Command(f"sale 600 {CARD}")), ("", request("22", 18, 600)), ("held 18", held(18, 100)), ("", part("22", 18, 100, False)),
        ("", sending(1)), ("reversal 18", reversal("22", 18, 600, "A0")), ("released 18", Released(six(18))),
        ("ended 18", reversal_answer("22", 18, 600, "00")), ("line 18", result("22", 18, "reversed", 600)),
        # 19: 10 for all of it.
        ("", Command(f"sale 800 {CARD}")), ("", request("22", 19, 800)), ("", held(19, 800)), ("answer 19", part("22", 19, 800)),
        ("line 19", result("22", 19, "approved", 800)), ("", totals(3200, 3, 2000, 1)),
        # 20: the desk is killed before it tells.
        ("", Command(f"sale 1000 {CARD}")), ("", request("22", 20, 1000)), ("", held(20, 999)), ("", part("22", 20, 999)),
        ("", Killed("after-answer-store:9")), ("", Started("")), ("", sign_on(201)), ("", signed_on(201, LATER)), ("", on(LATER)),
        ("line 20", last(result("22", 20, "approved", 999, of=1000))), ("rest 20", rest(999, 1)), ("totals 20", totals(4199, 4, 2000, 1)),
        ("", Line(f"ready, batch {LATER}")),
        # 21: a refund is declined by 10.
        ("", Command(f"refund 700 {CARD} 000000000001 {DATE}")), ("", request("25", 21, 700)), ("", card_answer("25", 21, 700, "10")),
        ("line 21", result("25", 21, "declined", 700, "10")),
        ("", Command("journal")), ("entry 14", entry("22", 14, 2000, ", voided")), ("", entry("23", 15, 2000)), ("entry 16", entry("22", 16, 400)),
        ("", entry("22", 19, 800)), ("", entry("22", 20, 999)), ("", Line("journal 5 entries")),
        ("", Command("settle")), ("settlement 22", settlement(22, 4199, 4, 2000, 1)), ("", settlement_answer(22, 4199, 4, 2000, 1, "2")),
        ("item 14", item("22", 14, 2000)), ("", upload_answer("22", 14, "201")), ("", item("23", 15, 2000)), ("", upload_answer("23", 15, "201")),
        ("item 16", item("22", 16, 400)), ("", upload_answer("22", 16, "201")), ("", item("22", 19, 800)), ("", upload_answer("22", 19, "201")),
        ("", item("22", 20, 999)), ("", upload_answer("22", 20, "201")), ("", upload_end(23)), ("", upload_answer("00", 23, "202")),
        *report(22, LATER, (4199, 4), (0, 0), (0, 0), (2000, 1), (0, 0)),
        ("", Line(f"settled batch {LATER}: debit 41.99 yuan in 4, credit 20.00 yuan in 1")),
    ]


def sound_kinds():
    """Each kind that has a sum and a pre-authorisation, in the third batch, which is closed at once."""
    return [
        ("", Command(f"sale 1000 {CARD}")), ("", sign_on(231)), ("", signed_on(231, THIRD)), ("", on(THIRD)),
        *approved("22", 24, 1000, request("22", 24, 1000), totals(1000, 1, 0, 0)),
        ("", Command(f"sale 200 {CARD}")), *approved("22", 25, 200, request("22", 25, 200), totals(1200, 2, 0, 0)),
        ("", Command(f"sale 30 {CARD}")), *approved("22", 26, 30, request("22", 26, 30), totals(1230, 3, 0, 0)),
        ("", Command(f"complete 400 {CARD} A00001 {DATE}")), *approved("20", 27, 400, request("20", 27, 400), totals(1630, 4, 0, 0)),
        ("", Command(f"complete 5000 {CARD} A00001 {DATE}")), *approved("20", 28, 5000, request("20", 28, 5000), totals(6630, 5, 0, 0)),
        ("", Command(f"refund 70 {CARD} 000000000001 {DATE}")), *approved("25", 29, 70, request("25", 29, 70), totals(6630, 5, 70, 1)),
        ("", Command(f"sale-void {six(25)}")), *approved("23", 30, 200, void(30, 25, 200), totals(6630, 5, 270, 2)),
        ("", Command(f"complete-void {six(27)}")), *approved("21", 31, 400, void(31, 27, 400, "21"), totals(6630, 5, 670, 3)),
        ("", Command(f"authorise 600 {CARD}")), *approved("10", 32, 600, request("10", 32, 600), totals(6630, 5, 670, 3)),
        ("", Command("settle")), ("", settlement(33, 6630, 5, 670, 3)), ("digit 33", settlement_answer(33, 6630, 5, 670, 3, "1")),
        *report(33, THIRD, (1230, 3), (5400, 2), (70, 1), (200, 1), (400, 1)),
        ("settled 33", Line(f"settled batch {THIRD}: debit 66.30 yuan in 5, credit 6.70 yuan in 3")),
    ]


def sound_cut_report():
    """An empty batch is closed, and the desk killed while it reports that."""
    return [
        ("", Command("settle")), ("", sign_on(331, "000007")), ("", signed_on(331, "000007")), ("", on("000007")),
        ("", later(settlement(34, 0, 0, 0, 0), "000007")), ("", later(settlement_answer(34, 0, 0, 0, 0, "1"), "000007")),
        *report(34, "000007", (0, 0), (0, 0)), ("", Killed("random")),
        ("", Started("")), ("", sign_on(341, "000008")), ("", signed_on(341, "000008")), ("", on("000008")),
        ("", last(result("10", 32, "approved", 600))), ("", Line("ready, batch 000008")),
    ]


def planted_faults():
    """(what is wrong, name of the difference that must be found, change of the sound history)."""
    return (faults_of_requests() + faults_of_chips() + faults_of_totals() + faults_under_sign_ons() + faults_of_sign_ons()
            + faults_of_settlement() + faults_of_reports() + faults_of_parts() + faults_after_parts())


def faults_of_requests():
    return [
        ("a fee held that nobody was told of", "untold", without("line 4", "line 5", "doubtful 4", "doubtful 5")),
        ("a fee held, called reversed", "held", without("released 7")),
        ("a fee held, called declined", "held", after("answer 6", held(6, 300))),
        ("approved and not held", "not held", without("held 1")),
        ("a reversal sent L+1 times", "reversal too often", after("reversal 4 c", reversal("22", 4, 5000))),
        ("a reversal given up early", "given up early", without("reversal 4 b", "reversal 4 c")),
        ("a reversal given up, one sending not announced", "sendings", without("sending 4 b")),
        ("a card request while a reversal is open", "card request while open", move("line 4", "request 5")),
        ("a reversal after a later card request", "reversal after a later request", move("reversal 4 c", "request 5")),
        ("a reversal of what was called approved", "reversal after its end", after("line 1", reversal("22", 1, 12000))),
        ("a reversal with a new trace", "reversal", replace("reversal 7", reversal("22", 13, 900, "A0"))),
        ("a reversal of another amount", "reversal", replace("reversal 2", reversal("22", 2, 8001))),
        ("a reversal of a refund", "reversal", after("held 5", reversal("25", 5, 700))),
        ("called reversed without an answer", "reversed", without("ended 2")),
        ("called approved with a wrong MAC", "approved", replace("answer 1", approval("22", 1, 12000, False))),
        ("a late answer taken for another request", "approved", replace("line 6", result("22", 6, "approved", 300))),
        ("a decline with another code", "declined", replace("line 6", result("22", 6, "declined", 300, "54"))),
        ("a result line with another amount", "result line", replace("line 1", result("22", 1, "approved", 12001))),
        ("another word after a start", "word changed", after("line 3", last(result("23", 3, "reversed", 12000)))),
        ("an earlier request called the last", "last request", replace("line 3", last(result("22", 2, "reversed", 8000)))),
        ("a request sent twice", "trace used again", after("request 1", request("22", 1, 12000))),
        ("a request sent again after a start", "not commanded", after("line 3", request("22", 4, 5000))),
        ("a request of another amount than keyed", "not as commanded", replace("request 1", request("22", 1, 12001))),
        ("a refund above its setting", "not refused", replace("command 5", Command(f"refund 1001 {CARD} 000000000001 {DATE}"))),
        ("a refusal without a reason", "refused", replace("line 6", Line("refused (18): the journal is full; settle first"))),
        ("a void of another amount", "void", replace("request 3", void(3, 1, 11999))),
        ("a void of what was reversed", "void", replace("request 3", void(3, 2, 12000))),
        ("a card number shown", "card shown", after("start", Line(f"sale {CARD}"))),
        ("the desk ends by itself", "exit", replace("quit", Ended(3, "desk: the store is damaged"))),
        ("a sale of another merchant", "form", replace("request 1", Received({**request("22", 1, 12000).message, 42: "WHISTLAUREL0002"}))),
    ]


def faults_of_chips():
    return [
        ("an entry without the card's consent", "consent", without("word 8")),
        ("an entry though the card declined", "consent", replace("word 8", Command("card-declines"))),
        ("an entry without a word, after a start", "consent", replace("pending 10", last(result("22", 10, "approved", 400, chip=True)))),
        ("a reversal though the card agreed", "consent lost", replace("line 8", result("22", 8, "reversed", 2500, chip=True))),
        ("a decline though the centre approved", "consent", replace("line 9", result("10", 9, "declined", 600, "06", True))),
        ("the card asked without an approval", "asked", without("answer 8")),
        ("the card asked after a wrong MAC", "asked", replace("answer 8", approval("22", 8, 2500, False))),
        ("the card asked without a chip", "asked", after("answer 1", asked("22", 1, 12000))),
        ("the card asked once more after its reversal", "asked", after("reversal 9", asked("10", 9, 600))),
        ("a declined card reversed as silence", "reason 06", replace("reversal 9", chip_reversal("10", 9, 600, {39: "98"}))),
        ("a card cut off reversed as silence of the line", "reason 06", replace("reversal 10", chip_reversal("22", 10, 400, {39: "98"}))),
        ("reason 06 without a chip", "reason 06", replace("reversal 2", reversal("22", 2, 8000, "06"))),
        ("reason 06 without an approval", "reason 06", without("answer 9", "asked 9")),
        ("a declined card's reversal without its chip", "reversal", replace("reversal 9", reversal("10", 9, 600, "06"))),
        ("a declined card's reversal with another chip", "reversal", replace("reversal 9", chip_reversal("10", 9, 600, {55: CHIP[:10]}))),
        ("a declined card's reversal with 012 in field 22", "form", replace("reversal 9", chip_reversal("10", 9, 600, {22: "012"}))),
        ("a card request between the card's decline and its reversal", "card request while open", after("word 9", request("22", 10, 100))),
        ("a card request before the reversal has ended", "card request while open", after("reversal 9", request("22", 10, 100))),
        ("a card request while the card is asked", "card request while open", after("asked 9", request("22", 10, 100))),
        ("a settlement between the card's decline and its reversal", "settlement while open", after("word 9", settlement(10, 14500, 2, 12000, 1))),
        ("a settlement while the card is asked", "settlement while open", after("asked 8", settlement(9, 12000, 1, 12000, 1))),
        ("no reversal after the card's decline", "reversed", without("reversal 9", "ended 9")),
        ("a chip that was keyed and not sent", "not as commanded", replace("request 8", request("22", 8, 2500))),
        ("another chip than keyed", "not as commanded", replace("command 8", Command(f"sale 2500 {CARD} chip 8200"))),
        ("a chip that nobody keyed", "not as commanded", replace("request 1", chip_request("22", 1, 12000))),
        ("a void with a chip", "form", replace("request 3", Received({**void(3, 1, 12000).message, 22: "052", 55: CHIP}))),
        ("field 22 of a chip without it", "form", replace("request 1", Received({**request("22", 1, 12000).message, 22: "052"}))),
        ("a chip out of form that leaves", "not refused", replace("refused 23", chip_request("22", 11, 100, {55: bytes.fromhex("82008200")}))),
        ("a chip in form refused", "refused", replace("command 23", Command(f"sale 100 {CARD} chip 8200"))),
        ("a card's word refused while it is awaited", "refused", replace("line 8", Line("refused (14): nothing is awaited, pending or to be uploaded"))),
        ("a chip's request told without it", "result line", replace("line 9", result("10", 9, "reversed", 600))),
        ("a chip's data shown", "card shown", after("asked 8", Line(f"chip {CHIP.hex()}"))),
    ]


def faults_of_totals():
    return [
        ("totals off by one fen after a sale", "totals", replace("totals 1", totals(12001, 1, 0, 0))),
        ("totals with one sale too many", "totals", replace("totals 8", totals(14500, 3, 12000, 1))),
        ("totals with debit and credit exchanged", "totals", replace("totals 1", totals(0, 0, 12000, 1))),
        ("totals with the amounts of debit and credit exchanged", "totals", replace("totals 8", totals(12000, 2, 14500, 1))),
        ("totals without the sale before them", "totals", replace("totals 8", totals(12000, 1, 12000, 1))),
        ("totals without a void that is told late", "totals", replace("totals 3", totals(12000, 1, 0, 0))),
        ("a voided sale taken out of the totals", "totals", replace("totals 3", totals(0, 0, 12000, 1))),
        ("totals lost by a start", "totals", replace("totals 10", totals(0, 0, 0, 0))),
        ("totals with a sale whose reversal is pending", "totals", replace("totals 10", totals(14900, 3, 12000, 1))),
        ("totals with a sale that the card declined", "totals", replace("totals", totals(14900, 3, 12000, 1))),
        ("totals that do not fit at the command", "totals", replace("totals", totals(14500, 2, 0, 0))),
        ("totals that outlast their batch", "totals", replace("closed totals", totals(14500, 2, 12000, 1))),
        ("totals without what the centre holds", "totals and ledger", without("released 7")),
        ("no totals after a sale", "totals line", without("totals 1")),
        ("no totals after the card's consent", "totals line", without("totals 8")),
        ("no totals after an approval that is told late", "totals line", without("totals 3")),
        ("no totals at a start", "totals line", without("totals 10")),
        ("totals twice at a start", "totals line", after("totals 3", totals(12000, 1, 12000, 1))),
        ("totals before the approval", "totals line", move("line 1", "totals 1")),
        ("totals after a decline", "totals line", after("line 6", totals(12000, 1, 12000, 1))),
    ]


def faults_under_sign_ons():
    """Of the batch number that a sign-on brings, and of the reversal that it goes before."""
    return [
        ("a batch number adopted over a pending reversal", "batch number", replace("on 103", on("000009"))),
        ("a pending reversal that leaves in another batch", "reversal", replace("reversal 10", chip_reversal("22", 10, 400, {60: "22000009000001"}))),
        ("a batch number adopted after card requests", "batch number", replace("on 31", on("000007"))),
        ("a batch number adopted while settling", "batch number", settling_sign_on("000008")),
        ("a batch number adopted without a 00", "batch number", after("off 102", Line("ready, batch 000009"))),
        ("a batch number adopted before a request that left unseen", "batch number", unseen_request("000005")),
        ("a batch number that was not adopted", "batch number", replace("on 121", on("000002"))),
        ("a batch number that nobody brought", "batch number", replace("on 121", on("000006"))),
        ("a batch number that is lost again", "batch number", replace("request 13", request("22", 13, 800, "000002"))),
        ("a silent sign-on that loses the pending reversal", "untold", without("pending 10")),
        ("a silent sign-on after which the reversal is called ended", "reversed",
         replace("pending 10", last(result("22", 10, "reversed", 400, chip=True)))),
        ("another code that loses the pending reversal", "left while open", without("reversal 10", "released 10", "ended 10", "line 10")),
        ("a sign-on after which the reversal is not sent", "reversed", without("reversal 10", "released 10", "ended 10")),
        ("a sign-on that costs a reversal one sending", "sendings", replace("sending 10", sending(2))),
        ("a reversal pending though signed on", "pending", replace("off 101", on("000001"))),
    ]


def faults_of_sign_ons():
    return [
        ("another code that signs off", "signed off", replace("still 104", off("has declined (96)"))),
        ("silence that signs off", "signed off", replace("still 104", off("has not answered"))),
        ("another code that signs on", "signed on", replace("off 102", on("000001"))),
        ("silence that signs on", "signed on", replace("off 101", on("000001"))),
        ("still signed on though it was not", "signed on", replace("off 102", Line("still signed on: the centre has declined (05)"))),
        ("signed on by a 00 with 25 bytes of keys", "signed on", replace("answer 103", signed_on(103, "000009", {62: bytes(25)}))),
        ("signed on by a 00 without keys", "signed on", replace("answer 103", signed_on(103, "000009", {62: None}))),
        ("signed on by a 00 with batch 000000", "signed on", replace("answer 103", signed_on(103, "000000"))),
        ("signed on by a 00 without field 60", "signed on", replace("answer 103", signed_on(103, "000009", {60: None}))),
        ("signed on by an answer to another sign-on", "signed on", replace("answer 103", signed_on(102, "000009"))),
        ("a code that the centre has not given", "sign-on declined", replace("off 102", off("has declined (06)"))),
        ("a card request signed off", "signed off", after("off 102", request("22", 11, 100))),
        ("a reversal signed off", "signed off", after("off 101", chip_reversal("22", 10, 400))),
        ("a card request after the closing without a sign-on", "signed off", without("sign-on 121", "answer 121", "on 121")),
        ("a refusal by 10 though signed on", "refused", replace("off 102", on("000001"))),
        ("another refusal though signed off", "refused", replace("refused 10", Line("refused (12): a reversal is pending"))),
        ("signed on in the state though it is not", "state",
         replace("state 10", Line("state batch 000001 next-trace 000102 signed-on entries 3 pending"))),
        ("at rest in the state though a reversal is pending", "state",
         replace("state 10", Line("state batch 000001 next-trace 000102 signed-off entries 3 resting"))),
        ("a sign-on in another batch", "batch number", replace("sign-on 103", sign_on(103, "000004"))),
        ("a sign-on with a trace that was used", "trace used again", replace("sign-on 103", sign_on(102))),
        ("a card request with the trace of a sign-on", "trace used again", replace("sign-on 121", sign_on(130, "000002"))),
        ("a sign-on with code 001", "form", replace("sign-on 103", Received({**sign_on(103).message, 60: "00000001001"}))),
        ("a sign-on with a MAC", "form", replace("sign-on 103", Received({**sign_on(103).message, 64: bytes(8)}))),
        ("a sign-on of another terminal", "form", replace("sign-on 103", Received({**sign_on(103).message, 41: "LIB00002"}))),
        ("a sign-on while the card is asked", "sign-on while awaited", after("asked 8", sign_on(81))),
        ("a sign-on that nobody asked for", "sign-on not asked for", after("line 6", sign_on(61))),
        ("a sign-on that is counted", "counts", replace("counts", Line("counts sent 11 approved 3 declined 1 reversed 4 given-up 1 unanswered 2"))),
        ("keys shown", "keys shown", after("on 103", Line(f"keys {KEYS[24:32].hex()}"))),
        ("keys shown in capitals", "keys shown", after("on 31", Line(f"keys {KEYS[:16].hex().upper()}"))),
        ("keys stored", "keys stored", replace("stored", Stored(bytes(99) + KEYS[:24] + bytes(99)))),
        ("keys stored in hexadecimal", "keys stored", replace("stored", Stored(b"keys " + KEYS[40:60].hex().upper().encode()))),
    ]


def settling_sign_on(batch):
    """The batch number of a sign-on is adopted while settling."""
    def change(labelled):
        silent = without("digit", "item 1", "item 3", "accepted 3")(labelled)
        for event in (on(batch), signed_on(115, batch), sign_on(115), Command("sign-on"), Line("settlement not answered; settle again")):
            silent = after("settlement", event)(silent)
        return silent
    return change


def unseen_request(batch):
    """The number is adopted although a sale had left before, which the centre sees first by its reversal."""
    def change(labelled):
        place = [name for name, _ in labelled].index("command 13")
        unseen = [Killed("after-store:9"), Started(""), sign_on(135, "000002"), signed_on(135, batch), on(batch),
                  reversal("22", 13, 800, batch=batch)]
        return labelled[:place + 1] + [("", event) for event in (sign_on(121, "000002"), signed_on(121, "000002"), on("000002"), *unseen)]
    return change


def faults_of_settlement():
    return [
        ("a settlement off by one fen", "settlement", replace("settlement", settlement(11, 14501, 2, 12000, 1))),
        ("a debit counted as credit", "settlement", replace("settlement", settlement(11, 2500, 1, 24000, 2))),
        ("a voided sale taken out of debit", "settlement", replace("settlement", settlement(11, 2500, 1, 12000, 1))),
        ("a reversal added to credit", "settlement", replace("settlement", settlement(11, 14500, 2, 20000, 2))),
        ("a sale that the card declined added to debit", "settlement", replace("settlement", settlement(11, 14900, 3, 12000, 1))),
        ("a settlement without what the centre holds", "settlement and ledger", without("released 7")),
        ("a settlement while a reversal is open", "settlement while open", without("released 7", "ended 7", "line 7")),
        ("a card request after the settlement", "request while settling", after("settlement", request("22", 12, 100))),
        ("a doubtful list that lacks a request", "doubtful", replace("doubtful 5", result("22", 4, "given up", 5000))),
        ("counts that do not fit", "counts", replace("counts", Line("counts sent 10 approved 3 declined 1 reversed 5 given-up 0 unanswered 1"))),
        ("a journal without an entry", "journal", without("entry 3")),
        ("a journal whose entry is not voided", "journal", replace("entry 1", entry("22", 1, 12000))),
        ("an upload that leaves out an entry", "upload ended early", without("item 3", "accepted 3")),
        ("an upload of what was not approved", "upload", replace("item 3", item("22", 2, 8000))),
        ("an upload nobody asked for", "upload not asked for", replace("digit", settlement_answer(11, 14500, 2, 12000, 1, "1"))),
        ("a batch called settled without an answer", "closed", without("closing")),
        ("another sum called settled", "settled line", replace("settled", Line("settled batch 000001: debit 145.00 yuan in 2, credit 0.00 yuan in 0"))),
    ]


def faults_of_reports():
    """Of the lines before a batch is called settled, and of their sums."""
    labels = [f"{words} 33" for words in SUMS]
    return [
        ("no report", "report line", without(*labels)),
        ("a report without its first line", "report line", without("sales 33")),
        ("a report without a line whose sum is 0", "report line", without("completions 11")),
        ("a report without its last line", "report line", without("completion voids 33")),
        ("a line of a report twice", "report line", after("refunds 33", sum_line(THIRD, "refunds", 70, 1))),
        ("sales and completions exchanged", "report line", move("sales 33", "completions 33")),
        ("the lines of the voids exchanged", "report line", move("sale voids 33", "completion voids 33")),
        ("refunds told after the voids", "report line", move("refunds 33", "completion voids 33")),
        ("a line of another batch", "report line", replace("refunds 33", sum_line(LATER, "refunds", 70, 1))),
        ("a report with the number of the next batch", "report line", in_batch("000007", *labels)),
        ("the whole report after the batch is called settled", "report line", move("settled 33", "digit 33")),
        ("another line within a report", "report line", after("refunds 33", totals(6630, 5, 670, 3))),
        ("a report, and the batch not called settled", "report line", without("settled 33")),
        ("a report of a batch that is not closed", "report line", replace("settled 33", Line("settlement not answered; settle again"))),
        ("a line of a report after the batch is called settled", "report line", after("settled 33", sum_line(THIRD, "sales", 1230, 3))),
        ("a sum off by one fen", "report", replace("refunds 33", sum_line(THIRD, "refunds", 71, 1))),
        ("a sum with one request too many", "report", replace("sale voids 33", sum_line(THIRD, "sale voids", 200, 2))),
        ("the count of another kind", "report", replace("sales 33", sum_line(THIRD, "sales", 1230, 2))),
        ("the amount of another kind", "report", replace("completion voids 33", sum_line(THIRD, "completion voids", 200, 1))),
        ("amount and count of sales and completions exchanged", "report", summed(33, THIRD, sales=(5400, 2), completions=(1230, 3))),
        ("a completion summed as a sale", "report", summed(33, THIRD, sales=(1630, 4), completions=(5000, 1))),
        ("a completion summed as a refund", "report", summed(33, THIRD, completions=(5000, 1), refunds=(470, 2))),
        ("a sale void summed as a refund", "report", summed(33, THIRD, refunds=(270, 2), sale_voids=(0, 0))),
        ("a completion void summed as a sale void", "report", summed(33, THIRD, sale_voids=(600, 2), completion_voids=(0, 0))),
        ("a voided sale taken out of the sales", "report", summed(33, THIRD, sales=(1030, 2))),
        ("a voided completion taken out of the completions", "report", summed(33, THIRD, completions=(5000, 1))),
        ("a pre-authorisation summed as a completion", "report", summed(33, THIRD, completions=(6000, 3))),
        ("the debit told as the sales", "report", summed(33, THIRD, sales=(6630, 5))),
        ("sums of an emptied journal", "report", summed(33, THIRD, **{words.replace(" ", "_"): (0, 0) for words in SUMS})),
        ("sums of the batch before", "report", summed(33, THIRD, sales=(4199, 4))),
        ("sums of an upload that leave out an entry", "report", summed(11, BATCH, sales=(12000, 1))),
        ("a sale that was given up in a sum", "report", summed(11, BATCH, sales=(19500, 3))),
        ("a sale that the card declined in a sum", "report", summed(22, LATER, sales=(4899, 5))),
        ("a refund without an answer in a sum", "report", summed(11, BATCH, refunds=(700, 1))),
        ("the amount asked in a sum", "report", summed(22, LATER, sales=(7199, 4))),
        ("a sum without what the centre holds", "report and ledger", without("released 7")),
        ("a sum of a part that the ledger has otherwise", "report and ledger", replace("held 14", held(14, 5000))),
    ]


def in_batch(number, *labels):
    """Lines of a report have this batch number."""
    return lambda labelled: [(label, Line(event.text.replace(THIRD, number)) if label in labels else event) for label, event in labelled]


def summed(place, batch, **sums):
    """Lines of a settlement's report have these sums."""
    def change(labelled):
        for name, amount_and_count in sums.items():
            words = name.replace("_", " ")
            labelled = replace(f"{words} {place}", sum_line(batch, words, *amount_and_count))(labelled)
        return labelled
    return change


def faults_of_parts():
    """Of what is told of an approval in part, and of its totals."""
    return [
        ("a part told as the whole", "result line", replace("line 14", result("22", 14, "approved", 5000))),
        ("a part told without the amount asked", "result line", replace("line 14", result("22", 14, "approved", 2000))),
        ("a part told of another amount", "result line", replace("line 14", result("22", 14, "approved", 2000, of=5001))),
        ("a whole told as a part", "result line", replace("line 19", result("22", 19, "approved", 800, of=801))),
        ("the card asked for the whole", "result line", replace("asked 16", asked("22", 16, 900))),
        ("the card asked for another part", "result line", replace("asked 16", asked("22", 16, 401, of=900))),
        ("a reversed part told as the part", "result line", replace("line 17", result("22", 17, "reversed", 300, chip=True))),
        ("a part told late as the whole", "result line", replace("line 20", last(result("22", 20, "approved", 1000)))),
        ("nothing told to be still to pay", "still to pay", without("rest 14")),
        ("nothing told to be still to pay after the card's consent", "still to pay", without("rest 16")),
        ("nothing told to be still to pay at a start", "still to pay", without("rest 20")),
        ("too much told to be still to pay", "still to pay", replace("rest 14", rest(2000, 5000))),
        ("one fen too few told to be still to pay", "still to pay", replace("rest 16", rest(400, 499))),
        ("paid and still to pay exchanged", "still to pay", replace("rest 14", rest(3000, 2000))),
        ("the whole told to be paid", "still to pay", replace("rest 14", rest(5000, 0))),
        ("something still to pay after a whole", "still to pay", after("line 19", rest(800, 0))),
        ("something still to pay after a reversal", "still to pay", after("line 17", rest(300, 400))),
        ("something still to pay after a void", "still to pay", after("line 15", rest(2000, 3000))),
        ("still to pay told twice", "still to pay", after("rest 14", rest(2000, 3000))),
        ("still to pay told before the card's consent", "still to pay", after("asked 16", rest(400, 500))),
        ("the amount asked in the totals", "totals", replace("totals 14", totals(5000, 1, 0, 0))),
        ("the amount asked in the totals after the card's consent", "totals", replace("totals 16", totals(2900, 2, 2000, 1))),
        ("the amount asked in the totals at a start", "totals", replace("totals 20", totals(4200, 4, 2000, 1))),
        ("totals of a part that the ledger has otherwise", "totals and ledger", replace("held 14", held(14, 5000))),
        ("no totals after a part", "totals line", without("totals 14")),
    ]


def faults_after_parts():
    """Of messages about approvals in part, of the journal, and of the decision."""
    return [
        ("a reversal of the part that the card declined", "reversal", replace("reversal 17", later(chip_reversal("22", 17, 300)))),
        ("a reversal of the part with a wrong MAC", "reversal", replace("reversal 18", later(reversal("22", 18, 100, "A0")))),
        ("a void of the amount asked", "void", replace("request 15", later(void(15, 14, 5000)))),
        ("an upload of the amount asked", "upload", replace("item 14", later(item("22", 14, 5000)))),
        ("a settlement of the amount asked", "settlement", replace("settlement 22", later(settlement(22, 7199, 4, 2000, 1)))),
        ("a journal with the amount asked", "journal", replace("entry 14", entry("22", 14, 5000, ", voided"))),
        ("a journal with the amount asked after the card's consent", "journal", replace("entry 16", entry("22", 16, 900))),
        ("a sale that does not ask for a part", "form", replace("request 14", Received({**request("22", 14, 5000).message, 60: f"22{LATER}000"}))),
        ("a void that asks for a part", "form", replace("request 15", Received({**void(15, 14, 2000).message, 60: f"23{LATER}000001"}))),
        ("a reversal that does not ask for a part", "form",
         replace("reversal 18", Received({**reversal("22", 18, 600, "A0").message, 60: f"22{LATER}000"}))),
        ("a settlement that asks for a part", "form",
         replace("settlement 22", Received({**settlement(22, 4199, 4, 2000, 1).message, 60: f"00{LATER}201001"}))),
        ("approved by 10 for 0", "approved", replace("answer 14", later(part("22", 14, 0)))),
        ("approved by 10 for more than asked", "approved", replace("answer 14", later(part("22", 14, 5001)))),
        ("approved by 10 with a wrong MAC", "approved", replace("answer 14", later(part("22", 14, 2000, False)))),
        ("approved by 10 without a date", "approved", replace("answer 14", later(part("22", 14, 2000, left_out=13)))),
        ("approved by 10 without an amount", "approved", replace("answer 14", later(part("22", 14, 2000, left_out=4)))),
        ("approved by 00 for a part", "approved", replace("answer 14", later(approval("22", 14, 2000)))),
        ("a part called declined", "declined", replace("line 14", result("22", 14, "declined", 5000, "10"))),
        ("a part called declined, though it is held", "held", replace("line 14", result("22", 14, "declined", 5000, "10"))),
        ("a refund approved by 10", "approved", replace("line 21", result("25", 21, "approved", 700))),
        ("a part entered without the card's consent", "consent", without("word 16")),
        ("a reversal answered 10 called reversed", "reversed", replace("ended 18", later(reversal_answer("22", 18, 600, "10")))),
    ]


# Changes of a history.

def replace(label, event):
    return lambda labelled: [(name, event if name == label else old) for name, old in labelled]


def without(*labels):
    return lambda labelled: [(name, event) for name, event in labelled if name not in labels]


def after(label, event):
    return lambda labelled: [pair for name, old in labelled for pair in ([(name, old), ("", event)] if name == label else [(name, old)])]


def move(label, behind):
    def change(labelled):
        event = dict(labelled)[label]
        return after(behind, event)(without(label)(labelled))
    return change


# Events.

def six(place):
    """The trace of the request, settlement or upload's end in this place."""
    return f"{10 * place:06d}"


def later(event, batch=LATER):
    """The same event in a later batch."""
    if not isinstance(event, (Received, Answered)):
        return event
    fields = {number: value[:2] + batch + value[8:] if number == 60 else value.replace(BATCH, batch, 1) if number == 61 else value
              for number, value in event[0].items()}
    return event._replace(**{event._fields[0]: fields})


def card_fields(kind, place, amount, batch=BATCH):
    processing = "030000" if kind == "10" else "000000" if kind in ("20", "22") else "200000"
    return {0: {"25": "0220", "10": "0100"}.get(kind, "0200"), 2: CARD, 3: processing, 4: f"{amount:012d}", 11: six(place), 22: "012",
            25: "06" if kind in ("10", "20", "21") else "00", 41: TERMINAL, 42: MERCHANT, 49: "156",
            60: kind + batch + "000" + ("001" if kind == "22" else ""), 64: bytes(8)}


def request(kind, place, amount, batch=BATCH):
    extra = {"25": {37: "000000000001", 61: "0" * 12 + DATE}, "20": {38: "A00001", 61: "0" * 12 + DATE}}.get(kind, {})
    return Received({**card_fields(kind, place, amount, batch), **extra})


def chip_request(kind, place, amount, changed=()):
    return Received({**card_fields(kind, place, amount), 22: "052", 55: CHIP, **dict(changed)})


def chip_reversal(kind, place, amount, changed=()):
    return chip_request(kind, place, amount, {0: "0400", 39: "06", **dict(changed)})


def void(place, original, amount, kind="23"):
    extra = {37: reference(original), 38: authorisation(original), 61: f"{BATCH}{six(original)}{DATE}"}
    return Received({**card_fields(kind, place, amount), **extra})


def reference(place):
    return f"{place:012d}"


def authorisation(place):
    return f"A{place:05d}"


def card_answer(kind, place, amount, code, mac_is_good=True, batch=BATCH):
    fields = card_fields(kind, place, amount, batch)
    answer = {number: fields[number] for number in (2, 3, 4, 11, 41, 42, 60, 64)}
    return Answered({**answer, 0: f"{int(fields[0]) + 10:04d}", 39: code}, mac_is_good, "plain")


def approval(kind, place, amount, mac_is_good=True):
    answer = card_answer(kind, place, amount, "00").answer
    return Answered({**answer, 13: DATE, 37: reference(place), 38: authorisation(place)}, mac_is_good, "plain")


def part(kind, place, amount, mac_is_good=True, left_out=None):
    """An approval by 10 for this amount."""
    answer = {**approval(kind, place, amount).answer, 39: "10", 54: "1002156C000000000000"}
    return Answered({number: value for number, value in answer.items() if number != left_out}, mac_is_good, "plain")


def held(place, amount):
    return Held(six(place), amount)


def approved(kind, place, amount, message, totals_after):
    """What follows the command of a request that is approved."""
    return [("", event) for event in (message, held(place, amount), approval(kind, place, amount), result(kind, place, "approved", amount), totals_after)]


def reversal(kind, place, amount, reason="98", batch=BATCH):
    return Received({**card_fields(kind, place, amount, batch), 0: "0400", 39: reason})


def sending(number):
    return Error(f"reversal, sending {number} of {SENDINGS}")


def reversal_answer(kind, place, amount, code):
    return Answered({**card_answer(kind, place, amount, code).answer, 0: "0410"}, True, "plain")


def settlement(place, debit, debit_count, credit, credit_count, digit="0"):
    sums = f"{debit:012d}{debit_count:03d}{credit:012d}{credit_count:03d}{digit}" + "0" * 31
    return Received({0: "0500", 11: six(place), 41: TERMINAL, 42: MERCHANT, 48: sums, 49: "156", 60: f"00{BATCH}201"})


def settlement_answer(place, debit, debit_count, credit, credit_count, digit):
    message = settlement(place, debit, debit_count, credit, credit_count, digit).message
    return Answered({**message, 0: "0510"}, True, "plain")


def item(kind, place, amount):
    fields = card_fields(kind, place, amount)
    kept = {number: fields[number] for number in (2, 3, 4, 11, 41, 42, 49)}
    return Received({**kept, 0: "0320", 37: reference(place), 38: authorisation(place), 60: kind + BATCH + "201"})


def upload_end(place):
    return Received({0: "0320", 11: six(place), 41: TERMINAL, 42: MERCHANT, 60: f"00{BATCH}202"})


def upload_answer(kind, place, code):
    return Answered({0: "0330", 11: six(place), 39: "00", 41: TERMINAL, 42: MERCHANT, 60: kind + BATCH + code}, True, "plain")


def sign_on(trace, batch=BATCH):
    return Received({0: "0800", 11: f"{trace:06d}", 41: TERMINAL, 42: MERCHANT, 60: f"00{batch}003"})


def signed_on(trace, batch, changed=()):
    """The answer to a sign-on, with the centre's batch number and keys; a field that is changed to None is left out."""
    answer = {**sign_on(trace, batch).message, 0: "0810", 39: "00", 62: KEYS, **dict(changed)}
    return Answered({number: value for number, value in answer.items() if value is not None}, True, "plain")


def on(batch):
    return Line(f"signed on, batch {batch}")


def off(why):
    return Line(f"not signed on: the centre {why}; the next request tries again")


def yuan(amount, of=None):
    """An amount as the desk shows it, and where it is a part, of which."""
    return f"{amount // 100}.{amount % 100:02d} yuan" + (f" of {yuan(of)}" if of else "")


def asked(kind, place, amount, of=None):
    return Line(f"{WORDS[kind]} {six(place)}: the centre approves {yuan(amount, of)}, card {masked(CARD)}, chip; card-agrees or card-declines")


def rest(paid, to_pay):
    return Line(f"paid by the card {yuan(paid)}, still to pay {yuan(to_pay)}")


def result(kind, place, word, amount, code="", chip=False, of=None):
    code = f" ({code})" if code else ""
    chip = ", chip" if chip else ""
    tail = f", reference {reference(place)}, authorisation {authorisation(place)}" if word == "approved" else ""
    tail = "; ask the centre" if word in ("given up", "unanswered") else tail
    return Line(f"{WORDS[kind]} {six(place)}: {word}{code} {yuan(amount, of)}, card {masked(CARD)}{chip}{tail}")


def last(line):
    return Line("last request: " + line.text)


def totals(debit, debit_count, credit, credit_count):
    return Line(f"totals debit {yuan(debit)} in {debit_count} credit {yuan(credit)} in {credit_count}")


def sum_line(batch, words, amount, count):
    return Line(f"batch {batch}: {words} {yuan(amount)} in {count}")


def report(place, batch, *sums):
    """The lines before a batch is called settled, by (amount, count), labelled by the place of its settlement."""
    return [(f"{words} {place}", sum_line(batch, words, *amount_and_count)) for words, amount_and_count in zip(SUMS, sums)]


def entry(kind, place, amount, voided=""):
    return Line(f"{WORDS[kind]} {six(place)}: {yuan(amount)}, card {masked(CARD)}, date {DATE}, "
                f"reference {reference(place)}, authorisation {authorisation(place)}{voided}")
