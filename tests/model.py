#!/usr/bin/env python3
"""An executable reading of document 01 (the scope) and of the change requests that landed, written from their text: it shares no line with the Rattle
code or its definitions.

It reads the lines that the program compare reads and prints what it must print:
    tests/model.py < crates/compare/stdin     the origin of crates/compare/stdout
Comments cite 01 and the requests. The readings that 01 leaves open are those of docs/DECISIONS.md; each is marked `reading`.
The notation of the lines stands in the head comment of crates/notation/src/lib.rt.
"""
import re
import sys
from functools import partial
from typing import NamedTuple

CRLF = b"\r\n"
TRIM = b" \t\n\x0c\r"
RUN = b" \t\r\n"
MOST = 4294967295
LONGEST = 4096
LINE = 65535
FIELD = 65536
MODES = ("verbose", "connect", "numeric")


# ---- the token table ----

def read_table(table):
    """The records as (mark, prompt, text), or the number of the first faulty one."""
    records, at = [], 0
    while at < len(table):
        if len(records) == 64:
            return 64  # "64 for a 65th"; reading: whatever it holds
        mark = table[at:at + 2]
        at += 2
        if mark not in (b"UR", b"CS", b"CE", b"CP"):
            return len(records)
        prompt = None
        if mark == b"CP":
            if at >= len(table):
                return len(records)
            prompt = table[at]
            at += 1
        if at >= len(table):
            return len(records)
        length = table[at]
        text = table[at + 1:at + 1 + length]
        at += 1 + length
        if len(text) < length or not is_text(text):
            return len(records)
        records.append((mark, prompt, text))
    return records


def is_text(text):
    """"A text has 1 to 32 bytes, each 0x20 to 0x7E, the first and last not a space.\""""
    if not 1 <= len(text) <= 32:
        return False
    if any(b < 0x20 or b > 0x7E for b in text):
        return False
    return text[0] != 0x20 and text[-1] != 0x20


# ---- the rules of one digest ----

class Answer:
    """Kind, number (None where it has none), payload's place and length in the input, bytes consumed; of a numeric error, which "must also tell where its
    digits stand and how many there are", their place and length (R-2), else 0 and 0; of a CONNECT line with text, "a second part of the input that the caller
    can ask for", that text's place and length (R-3), else 0 and 0."""

    def __init__(self, kind, number, place, length, consumed, digits_at=0, digits=0, text_at=0, text=0):
        self.kind, self.number, self.length, self.consumed = kind, number, length, consumed
        self.place = place if length else 0  # "A payload of length 0, or none, has place 0"
        self.digits = digits
        self.digits_at = digits_at if digits else 0  # reading: as for payloads
        self.text = text
        self.text_at = text_at if text else 0  # reading: as for payloads

    def handed_on(self, s):
        """The bytes of s that go along: "Every caller of it hands this on"; else the payload."""
        if self.kind in NUMERIC:
            return s[self.digits_at:self.digits_at + self.digits]
        return s[self.place:self.place + self.length]


def trimmed(s, start, end):
    """Place and length of s[start:end] without trim blanks at its two ends."""
    part = s[start:end]
    left = part.lstrip(TRIM)
    return start + len(part) - len(left), len(left.rstrip(TRIM))


def digest(mode, records, s):
    """Rules 1 to 7 on the whole input s. The mode is `verbose`, 01's digester, or `connect`, which R-3 adds: it changes the CONNECT line of rule 3 alone."""
    e = len(s) - len(s.lstrip(b" "))  # rule 1
    if len(s) - e >= 2 and CRLF in s[e:]:
        e = s.index(CRLF, e)
    buf = s[e:]
    for rule in (notices, partial(successes, mode), prompts, errors):
        a = rule(records, buf)
        if a is not None:
            return moved(a, e)
    if buf.startswith(CRLF) and len(buf) > 4:  # rule 6
        a = digest(mode, records, buf[2:])
        if a.kind != "none":
            return moved(a, e + 2)
    return Answer("none", None, 0, 0, e)  # rule 7


def moved(a, d):
    """An answer about the bytes from d on, as one about the whole."""
    return Answer(a.kind, a.number, a.place + d, a.length, a.consumed + d, a.digits_at + d, a.digits, a.text_at + d, a.text)


def notices(records, buf):
    """Rule 2, in table order."""
    for number, (mark, _, text) in enumerate(records):
        if mark != b"UR":
            continue
        a = notice(number, text, buf)
        if a is not None:
            return a
    return None


def notice(number, text, buf):
    """Rule 2 for one record: an answer, which may be None at once, or no match."""
    lead = 2 if buf.startswith(CRLF) else 1 if buf.startswith(b"\n") else None
    if lead is None:
        return None  # an input that is empty or a lone CR gives None, e by rule 7 as well
    rest = buf[lead:]
    if len(rest) <= len(text) + 1 and (text + b"\r").startswith(rest):
        return Answer("none", None, 0, 0, 0)  # ends before or inside the text, right after it, or after it and one CR
    if not rest.startswith(text):
        return None
    after = rest[len(text):]
    if after.startswith(CRLF):
        end = lead + len(text) + 2
    elif after.startswith(b":") and CRLF in after:
        end = lead + len(text) + after.index(CRLF) + 2
    else:
        return None
    place, length = trimmed(buf, 0, end)
    return Answer("notice", number, place, length, end)


def line_in(text, buf):
    """The first occurrence of CRLF text CRLF: its place and its end, or None."""
    line = CRLF + text + CRLF
    at = buf.find(line)
    return None if at < 0 else (at, at + len(line))


def connect_line(mode, buf):
    """The first CONNECT line: its place, its end, its text's place and length; or None. In the mode that R-3 adds it is "CRLF, `CONNECT`, then CRLF, or a space
    and everything through the next CRLF". Reading: one line with two endings, so the first occurrence is the least place of either; the next CRLF may begin
    where the space ends."""
    if mode == "verbose":
        found = line_in(b"CONNECT", buf)
        return found and found + (0, 0)
    at = buf.find(CRLF + b"CONNECT")
    while at >= 0:
        end = at + len(CRLF + b"CONNECT")
        if buf[end:end + 2] == CRLF:
            return at, end + 2, 0, 0
        if buf[end:end + 1] == b" " and CRLF in buf[end + 1:]:
            stop = buf.index(CRLF, end + 1)
            return at, stop + 2, end + 1, stop - (end + 1)  # "from that space to that CRLF and without either": not trimmed
        at = buf.find(CRLF + b"CONNECT", at + 1)
    return None


def successes(mode, records, buf):
    """Rule 3: CS records in table order, then OK ("OK still ranks before it", R-3), else CONNECT."""
    for text in [text for mark, _, text in records if mark == b"CS"] + [b"OK"]:
        found = line_in(text, buf)
        if found:
            place, length = trimmed(buf, 0, found[0])
            return Answer("ok", None, place, length, found[1])
    found = connect_line(mode, buf)
    if found:
        at, end, text_at, text = found
        place, length = trimmed(buf, 0, at)
        return Answer("ok", None, place, length, end, 0, 0, text_at, text)
    return None


def prompts(records, buf):
    """Rule 4: CP records in table order, then `>`, then `@`."""
    for mark, prompt, text in records:
        if mark == b"CP" and buf.rstrip(RUN).endswith(text):
            return Answer("prompt", prompt, 0, 0, len(buf))
    for sign in (b">", b"@"):
        at = buf.find(sign)
        if at >= 0 and not buf[at + 1:].strip(RUN):
            return Answer("prompt", sign[0], 0, 0, len(buf))
    return None


NUMERIC = ("cme", "cms", "unknown")
FIXED = ((b"ERROR", "error"), (b"COMMAND NOT SUPPORT", "error"), (b"NO CARRIER", "nocarrier"), (b"BUSY", "busy"),
         (b"NO ANSWER", "noanswer"), (b"NO DIALTONE", "nodialtone"))


def errors(records, buf):
    """Rule 5 in its order. Reading: COMMAND NOT SUPPORT is an error like ERROR."""
    for number, (mark, _, text) in enumerate(records):
        if mark == b"CE":
            found = line_in(text, buf)
            if found:
                return Answer("custom", number, found[0] + 2, len(text), found[1])
    for head, kind in ((b"+CME ERROR:", "cme"), (b"+CMS ERROR:", "cms"), (b"MODEM ERROR:", "unknown")):
        a = numeric(buf, head, kind)
        if a is not None:
            return a
    for text, kind in FIXED:
        found = line_in(text, buf)
        if found:
            return Answer(kind, None, 0, 0, found[1])
    if buf.startswith(CRLF + b"NA" + CRLF):
        return Answer("notallowed", None, 0, 0, 6)
    return None


def numeric(buf, head, kind):
    """A numeric error of rule 5: CRLF and the head at its first occurrence, run blanks, digits ("leading zeros included", R-2), LF or CRLF."""
    at = buf.find(CRLF + head)
    if at < 0:
        return None
    at += 2 + len(head)
    while at < len(buf) and buf[at] in RUN:
        at += 1
    start = at
    while at < len(buf) and 48 <= buf[at] <= 57:
        at += 1
    if at == start or int(buf[start:at]) > 65535:
        return None
    number = None if kind == "unknown" else int(buf[start:at])
    if buf[at:at + 1] == b"\n":
        return Answer(kind, number, 0, 0, at + 1, start, at - start)
    if buf[at:at + 2] == CRLF:
        return Answer(kind, number, 0, 0, at + 2, start, at - start)
    return None


# ---- R-1's digester, for modems left in numeric mode ----

CODES = {b"0": "ok", b"1": "ok", b"2": "notice", b"3": "nocarrier", b"4": "error", b"6": "nodialtone", b"7": "busy", b"8": "noanswer"}
RING = 255


def lone(s, at):
    """Whether "a CR with no LF behind it" stands there; "at the input's end there is none"."""
    return s[at:at + 1] == b"\r" and s[at + 1:at + 2] != b"\n"


def line_starts(s):
    """"the first byte and the byte after each CRLF or CR without LF", leftmost first; reading: those that the input has."""
    starts = {0}
    for at in range(len(s)):
        if lone(s, at):
            starts.add(at + 1)
        if s[at:at + 2] == CRLF:
            starts.add(at + 2)
    return [at for at in sorted(starts) if at < len(s)]


def is_code(s, at):
    """"A code is one of these digits at a line start, then a CR with no LF behind it"; the line start is the caller's."""
    return s[at:at + 1] in CODES and lone(s, at + 1)


def before(s, at):
    """Place and length of "what stands before the code, from the last CR without LF, or the first byte, on, trimmed"."""
    crs = [i for i in range(at) if lone(s, i)]
    return trimmed(s, crs[-1] if crs else 0, at)


def digest_codes(s):
    """"The leftmost code wins and is consumed through its CR; with none the answer is None, 0." Reading: digits (R-2) are of numeric errors and text (R-3) of a
    CONNECT line with more than the word, so that no answer here has either."""
    for at in line_starts(s):
        if is_code(s, at):
            kind = CODES[s[at:at + 1]]
            if kind == "notice":
                return Answer(kind, RING, at, 1, at + 2)  # "RING a notice under number 255 with payload `2`": the digit itself
            place, length = before(s, at) if kind == "ok" else (0, 0)
            return Answer(kind, None, place, length, at + 2)
    return Answer("none", None, 0, 0, 0)


# ---- which digester ----

def records_of(mode, table):
    """The records that the mode's digester goes by, or the number with refusal 2. R-1: "2, with record number 0, when its table isn't empty"; reading: whatever
    its bytes."""
    if mode == "numeric":
        return 0 if table else []
    return read_table(table)


def heard(mode, records, s):
    """What the mode's digester answers to s: "the ingress is told which digester to use" (R-1)."""
    return digest_codes(s) if mode == "numeric" else digest(mode, records, s)


# ---- refusals ----

class Refused(Exception):
    """A number of refusal, with the record at 2, the bytes taken at a write's 5 and the place at 6 to 9 (R-4)."""

    def __init__(self, number, record=None, taken=None, place=None):
        super().__init__(number)
        self.number, self.record, self.taken, self.place = number, record, taken, place


# ---- the queue's memory, in either form ----

class Layout(NamedTuple):
    """A form of the queue's memory: how many bytes a record has, its mark, how many of its bytes are the payload's length, and the longest payload. A record is
    the mark, the table number, the length, "high byte first" (R-9) where it has two bytes, and the payload, "(unused ones untouched)"."""

    size: int
    mark: bytes
    width: int
    longest: int

    def capacity(self, memory):
        """"the memory's length divided by 132, rounded down, at most 16"; R-9: "Capacity is worked out over 1,029, still at most 16\""""
        return min(len(memory) // self.size, 16)

    def fits(self, start, count, memory):
        """Refusal 3 for start or count outside its bounds: "a start below the capacity (0 if that is 0) and a count up to it\""""
        cap = self.capacity(memory)
        if count > cap or (start >= cap if cap else start != 0):
            raise Refused(3)

    def is_length(self, length):
        """Whether a record's payload may have this length: "1 to 128"; R-9: "the limit becomes 1,024\""""
        return 1 <= length <= self.longest

    def nth(self, start, n, memory):
        """The place of the record n behind the start, round the ring; the capacity isn't 0."""
        return self.size * ((start + n) % self.capacity(memory))

    def read(self, memory, at):
        """The table number and payload of the record there; refusal 3 for "a wrong mark or length"."""
        mark, number, length = memory[at:at + 2], memory[at + 2], int.from_bytes(memory[at + 3:at + 3 + self.width], "big")
        if mark != self.mark or not self.is_length(length):
            raise Refused(3)
        payload_at = at + 3 + self.width
        return number, bytes(memory[payload_at:payload_at + length])

    def write(self, memory, at, number, payload):
        """Writes a record there; the bytes behind its payload stay."""
        record = self.mark + bytes([number]) + len(payload).to_bytes(self.width, "big") + payload
        memory[at:at + len(record)] = record


OLD = Layout(132, b"UR", 1, 128)  # 01: "records of 132 bytes: mark `UR`, table number, payload length 1 to 128, 128 payload bytes"
NEW = Layout(1029, b"UX", 2, 1024)  # "The record becomes 1,029 bytes: mark `UX`, table number, length in two bytes, high byte first, payload"


def convert(start, count, lost, old, new):
    """R-9: "a conversion reads a queue in the old form and writes one in the new form into other memory, from its front with start 0, other bytes untouched,
    same notices, same order"; the new queue's start, count and lost count. "Refusals: 3 over every held record, then 13 when the new memory holds fewer records
    than are held, both memories unchanged." Readings: 3 also for a start or count outside the old memory's bounds, as at any call that takes a queue; a record
    that isn't held is not looked at; what the new memory holds is its capacity, so that any does where no record is held; the lost count goes over."""
    OLD.fits(start, count, old)
    held = [OLD.read(old, OLD.nth(start, n, old)) for n in range(count)]
    if NEW.capacity(new) < count:
        raise Refused(13)
    for n, (number, payload) in enumerate(held):
        NEW.write(new, NEW.nth(0, n, new), number, payload)
    return 0, count, lost


# ---- slot, queue, ingress ----

class World:
    """The end, slot and queue by value, and the three memories; the mode, which each advance and write is told. Reading: R-3 has no word of the slot, so a
    CONNECT line's text, which is a part of the digest's input, is kept nowhere here."""

    def __init__(self, mode, table, buf, slot_mem, queue_mem):
        self.mode = mode
        self.table, self.buf, self.slot_mem, self.queue_mem = table, bytearray(buf), bytearray(slot_mem), bytearray(queue_mem)
        self.end = 0
        self.signalled, self.kind, self.number, self.length, self.slot_lost = False, "ok", None, 0, 0
        self.serial = 0  # "0 in a new slot"
        self.start, self.count, self.queue_lost = 0, 0, 0
        self.findings = 0  # how many bytes the findings are about; genuine ones change no answer, so their length is all that is kept

    # -- the slot --

    def slot_fits(self):
        """Refusal 3 of the slot. Reading: it comes before "changes nothing", at a reset too."""
        if self.length > len(self.slot_mem):
            raise Refused(3)

    def signal(self, kind, number, payload):
        """A signal, with its payload or, of a numeric error, its digits: stored on a free slot, counted as lost on a signalled one."""
        self.slot_fits()
        if kind in ("none", "notice"):
            return
        if self.signalled:
            self.slot_lost = min(self.slot_lost + 1, MOST)
            return
        self.signalled = True
        self.kind, self.number, self.length = kind, number, 0
        if kind not in ("ok", "custom") + NUMERIC:
            return
        if len(payload) > len(self.slot_mem):
            if kind in NUMERIC:
                return  # "Digits longer than the slot's memory are left out and their length is 0"
            self.kind, self.number = "capacity", None  # reading: a custom error that becomes CapacityError stores no number
            return
        self.slot_mem[:len(payload)] = payload
        self.length = len(payload)

    def reset(self, serial):
        """"Reading doesn't free; reset does, and changes nothing else", but that it "takes the next one and stores it" (R-11). "A reset with the serial number
        already in force is refused", "15 serial repeated, after 3, slot unchanged"; reading: any other number is accepted, a lower one and 0 too."""
        self.slot_fits()
        if serial == self.serial:
            raise Refused(15)
        self.signalled, self.serial = False, serial

    def lookup(self):
        """What a signalled slot holds, or None for a free one. R-11: "a stored answer bears the one in force when it was stored"; reading: that is the slot's
        one serial number, since only a reset changes it, and a reset frees."""
        self.slot_fits()
        if not self.signalled:
            return None
        return self.kind, self.number, bytes(self.slot_mem[:self.length]), self.serial

    # -- the queue --

    def queue_fits(self):
        """Refusal 3 for start or count outside its bounds."""
        NEW.fits(self.start, self.count, self.queue_mem)

    def put(self, number, payload):
        """A delivered notice: lost, refusal 5, or the record next after those held. R-9 amends "the lost-notice rule and refusals 3 and 5": 1,024 bytes are the
        most in all of them. Reading: lost comes before full."""
        if not NEW.is_length(len(payload)):
            self.queue_lost = min(self.queue_lost + 1, MOST)
            return
        if self.count == NEW.capacity(self.queue_mem):
            raise Refused(5)
        NEW.write(self.queue_mem, NEW.nth(self.start, self.count, self.queue_mem), number, payload)
        self.count += 1

    def take(self):
        """The oldest record's number and payload, or None from an empty queue (reading: which looks at no record). A record of the old form has a wrong mark
        here: R-9 amends refusal 3."""
        self.queue_fits()
        if self.count == 0:
            return None
        taken = NEW.read(self.queue_mem, NEW.nth(self.start, 0, self.queue_mem))
        self.start = (self.start + 1) % NEW.capacity(self.queue_mem)
        self.count -= 1
        return taken

    # -- the ingress --

    def checked(self):
        """Refusals 1, 2 and 3 in this order; the table's records."""
        if len(self.buf) > LONGEST:
            raise Refused(1)
        records = records_of(self.mode, self.table)
        if isinstance(records, int):
            raise Refused(2, record=records)
        if self.end > len(self.buf):
            raise Refused(3)
        self.slot_fits()
        self.queue_fits()
        return records

    def run(self, records):
        """"digest what is in the buffer, deliver, move the rest to the front, until the digest consumes 0 or nothing is left\""""
        while self.end > 0:
            held = bytes(self.buf[:self.end])
            a = heard(self.mode, records, held)
            if a.kind == "notice":
                self.put(a.number, a.handed_on(held))
            else:
                self.signal(a.kind, a.number, a.handed_on(held))
            rest = held[a.consumed:]
            self.buf[:len(rest)] = rest
            self.end = len(rest)
            if a.consumed == 0:
                return

    def advance(self, commit):
        """Refusal 4 after 1 to 3; then the commit is added."""
        records = self.checked()
        if commit > len(self.buf) - self.end:
            raise Refused(4)
        self.end += commit
        self.run(records)

    def write(self, piece):
        """Copies and advances until the piece is used up or there is no room (reading: tested before the first copy too); the bytes taken."""
        records = self.checked()
        taken = 0
        while taken < len(piece) and self.end < len(self.buf):
            n = min(len(piece) - taken, len(self.buf) - self.end)
            self.buf[self.end:self.end + n] = piece[taken:taken + n]
            self.end += n
            taken += n
            try:
                self.run(records)
            except Refused as r:
                raise Refused(r.number, taken=taken)
        return taken

    # -- the same with findings (R-14) --

    def find(self):
        """Findings started "afresh over what is there". Reading: where the end lies past the buffer, that is the whole buffer."""
        self.findings = min(self.end, len(self.buf))

    def with_findings(self, call, x):
        """A write or an advance with findings: refusals 1 to 3 as without them, and "refusal 3 also when the findings' length isn't the buffer's end before the
        piece", a piece of nothing too, everything as it was. Reading: so 4 comes behind it. Those handed back, after refusal 5 too, are about what then lies in
        the buffer; in numeric mode they are kept up all the same."""
        self.checked()
        if self.findings != self.end:
            raise Refused(3)
        try:
            return call(x)
        finally:
            self.find()


# ---- parameter lists with brackets ----

DEEPEST = 4
ELEMENTS = 256
DIGIT = b"0123456789"
HEX = b"0123456789ABCDEFabcdef"  # reading: letters in either case
CHAR = bytes(b for b in range(0x20, 0x7F) if b not in b'"\\')
# R-4's grammar, "written from V.250 and TS 27.007", with the depth kept apart:
#     list    = element *( "," element )
#     element = *SP ( "" / number [ "-" number ] / string / "(" list ")" )
#     number  = 1*DIGIT
#     string  = DQUOTE *( char / "\" HEX HEX ) DQUOTE
# A line for each point at which a byte may stand: the bytes that go on there, and the point behind each. From every point there is a way to a word's end, so that
# the grammar goes on as long as a line has the byte and no bracket closes that wasn't open.
CLOSED = ((b",", "element"), (b")", "closed"))  # an element, an empty one too, is closed by what stands behind it
POINTS = {
    "element": ((b" ", "element"), (DIGIT, "number"), (b'"', "string"), (b"(", "element")) + CLOSED,
    "number": ((DIGIT, "number"), (b"-", "range")) + CLOSED,
    "range": ((DIGIT, "second"),),
    "second": ((DIGIT, "second"),) + CLOSED,
    "string": ((CHAR, "string"), (b"\\", "escape"), (b'"', "closed")),
    "escape": ((HEX, "half"),),
    "half": ((HEX, "string"),),
    "closed": CLOSED,
}
NEXT = {point: {byte: then for some, then in line for byte in some} for point, line in POINTS.items()}
CLOSABLE = [point for point, line in POINTS.items() if line[-2:] == CLOSED]


class Element(NamedTuple):
    """"each with its place, kind and depth"; end is one past its last byte; values are a number's one, a range's two."""

    place: int
    end: int
    kind: str
    depth: int
    values: tuple


def points_of(s):
    """The grammar's point at each place of s, with its depth, how many brackets are open there; the last is at the first byte that can't stand there, or the end.
    No limit is looked at here."""
    points = [("element", 0)]
    for byte in s:
        point, depth = points[-1]
        then = NEXT[point].get(byte)
        if (point, byte) == ("element", ord("(")):
            depth += 1
        if (then, byte) == ("closed", ord(")")):
            depth -= 1
        if then is None or depth < 0:
            break
        points.append((then, depth))
    return points


def number_at(s, at):
    """The number whose first digit stands there, MOST + 1 for any over the limit; "unsigned, at most 4,294,967,295". Reading: by value, zeros in front are free."""
    digits = re.compile(b"[0-9]+").match(s, at)[0].lstrip(b"0")
    return MOST + 1 if len(digits) > len(str(MOST)) else min(int(digits or b"0"), MOST + 1)


def end_of(s, points, at):
    """The end of a word's element: the first place from its own on, as deep as it, where it may be closed and a comma, a bracket or s's end does so."""
    depth = points[at][1]
    return next(p for p in range(at, len(points)) if points[p][0] in CLOSABLE and points[p][1] == depth and s[p:p + 1] in (b",", b")", b""))


def read_list(s):
    """The elements of s in order, or the refusal "at the leftmost fault": all faults up to where the grammar can't go on are gathered, by place and number, and the
    least is told. Readings: an element's place is its first byte behind its spaces, an empty one's the byte that closes it, or the end; `()` and no bytes at all
    hold an empty one; a list counts as an element and comes before its members; a range is one element, and its second number may be the lower. Where an element
    should begin and the grammar can't go on, one is counted as well: it may be over, but the 6 of that place is told before its 9."""
    points = points_of(s)
    stop = len(points) - 1
    starts = [p for p, (point, _) in enumerate(points) if point == "element" and s[p:p + 1] != b" "]
    numbers = [p for p, (point, _) in enumerate(points) if point in ("element", "range") and s[p:p + 1].isdigit()]
    faults = []
    if stop < len(s) or points[stop][0] not in CLOSABLE or points[stop][1] > 0:
        faults.append((stop, 6))  # "malformed, with its place, the first byte (or the end) at which the grammar can't go on"
    faults += [(p, 7) for p in starts if s[p:p + 1] == b"(" and points[p][1] >= DEEPEST]  # "too deep, at the bracket"
    faults += [(p, 8) for p in numbers if number_at(s, p) > MOST]  # "number too large, at its first digit"
    faults += [(p, 9) for p in starts[ELEMENTS:]]  # "too many elements, at the first over"
    if faults:
        place, number = min(faults)  # "in this order at the leftmost fault"
        raise Refused(number, place=place)
    elements = []
    for p in starts:
        end = end_of(s, points, p)
        kind, values = {b"(": "list", b'"': "string"}.get(s[p:p + 1], "empty"), ()
        if p in numbers:
            values = tuple(number_at(s, n) for n in numbers if p <= n < end)
            kind = "number" if len(values) == 1 else "range"
        elements.append(Element(p, end, kind, points[p][1], values))
    return elements


# ---- the modem's side ----

KINDS = ("none", "ok", "prompt", "cme", "cms", "unknown", "notallowed", "error", "nocarrier", "busy", "noanswer", "nodialtone", "custom", "notice")
CODED = {"cme": b"+CME ERROR: %d", "cms": b"+CMS ERROR: %d"}  # "Numeric codes have no leading zeros"; reading: one space in front of them
RESULTS = {"error": b"ERROR", "nocarrier": b"NO CARRIER", "busy": b"BUSY", "noanswer": b"NO ANSWER", "nodialtone": b"NO DIALTONE"}


def between(text):
    """"Each line goes between CRLF and CRLF\""""
    return CRLF + text + CRLF


def written(kind, number, payload):
    """The answer written out, or None where that can't be: it is of another kind than "Ok with a payload, CME, CMS, ERROR, the four connection results, a notice,
    a prompt", or it lacks the number that is written, or its prompt is no byte. Reading: an Error is always the line ERROR. A number or payload that the kind has
    no place for is left out here, so that it isn't read back."""
    if kind == "ok":
        return (between(payload) if payload else b"") + between(b"OK")  # "as such a line before the OK line unless it is empty"
    if kind in CODED and number is not None:
        return between(CODED[kind] % number)
    if kind in RESULTS:
        return between(RESULTS[kind])
    if kind == "notice":
        return between(payload)
    if kind == "prompt" and number is not None and number <= 255:
        return CRLF + bytes([number]) + b" "  # "a prompt is CRLF, its byte and a space"
    return None


def reads_back(records, kind, number, payload, data):
    """"digesting the bytes under the same table must give the same kind, number and payload and consume all of it". Readings: by document 01's digester; over
    4,096 bytes can't be digested, and so aren't read back; where a code's digits stand (R-2) isn't asked."""
    if len(data) > LONGEST:
        return False
    a = digest("verbose", records, data)
    return (a.kind, a.number, data[a.place:a.place + a.length], a.consumed) == (kind, number, payload, len(data))


def say(table, kind, number, payload, output):
    """Writes the answer to the front of the output memory; how many bytes that is. "Refusals: 2 as before; 16 exactly when the answer is of another kind or,
    written out, would not be read back so; 17 when the output memory is too short; in this order, output unchanged." Reading: what lies behind the bytes stays
    too."""
    records = read_table(table)
    if isinstance(records, int):
        raise Refused(2, record=records)
    data = written(kind, number, payload)
    if data is None or not reads_back(records, kind, number, payload, data):
        raise Refused(16)
    if len(output) < len(data):
        raise Refused(17)
    output[:len(data)] = data
    return len(data)


# ---- the notation of a line ----

class BadLine(Exception):
    """A line, an op or a number that doesn't read."""


def shown(data):
    """Bytes in upper-case hex, `-` for none."""
    return data.hex().upper() or "-"


def plain(text):
    """Hex digits in either case, two a byte, at least one byte."""
    if not text or len(text) % 2 or any(c not in "0123456789abcdefABCDEF" for c in text):
        raise BadLine
    return bytes.fromhex(text)


def data_of(text):
    """A field of bytes: `-`, or parts joined by `+`, a part being hex or COUNT*HH."""
    if text == "-":
        return b""
    parts = []
    for part in text.split("+"):
        if "*" in part:
            count, byte = part.split("*", 1)
            if len(byte) != 2:
                raise BadLine
            parts.append(plain(byte) * number_of(count, FIELD))
        else:
            parts.append(plain(part))
    data = b"".join(parts)
    if len(data) > FIELD:
        raise BadLine
    return data


def number_of(text, most):
    """A decimal number of at least one digit, at most `most`; zeros in front don't count."""
    digits = text.lstrip("0")
    if not text or len(digits) > len(str(MOST)) or any(c not in "0123456789" for c in text) or int(digits or "0") > most:
        raise BadLine
    return int(digits or "0")


def numbers_of(text, many):
    """So many decimal numbers, joined by commas."""
    numbers = text.split(",")
    if len(numbers) != many:
        raise BadLine
    return [number_of(n, MOST) for n in numbers]


def op_of(text):
    """One op as (letter, argument)."""
    letter, rest = text[:1], text[1:]
    if letter in ("W", "A", "F", "G", "O"):
        return letter, data_of(rest)
    if letter == "E":
        code, comma, digits = rest.partition(",")
        n = number_of(code, 65535)
        return letter, (n, data_of(digits) if comma else b"%d" % n)
    limits = {"M": MOST, "P": 255}
    if letter in limits:
        return letter, number_of(rest, limits[letter])
    if letter == "R" and rest:
        return letter, number_of(rest, MOST)
    if letter in ("C", "X", "R", "T", "L", "B"):
        if rest:
            raise BadLine
        return letter, None
    raise BadLine


def perform(w, letter, x):
    """Does one op and says what it answered."""
    if letter == "W":
        return "took %d" % afresh(w, w.write, x)
    if letter == "F":
        return "took %d" % w.with_findings(w.write, x)
    if letter in ("A", "G") and len(x) <= len(w.buf) - w.end:  # else nothing is put, and advance refuses
        w.buf[w.end:w.end + len(x)] = x
    if letter in ("A", "M"):
        afresh(w, w.advance, x if letter == "M" else len(x))
        return "advanced"
    if letter == "G":
        w.with_findings(w.advance, len(x))
        return "advanced"
    if letter == "T":
        got = w.take()
        return "nothing" if got is None else "notice %d %s" % (got[0], shown(got[1]))
    if letter == "L":
        got = w.lookup()
        return "nothing" if got is None else "held %s %s %s serial %d" % (got[0], dashed(got[1]), shown(got[2]), got[3])
    if letter == "C":
        w.end = 0  # "Clear takes the end alone, makes it 0 and has no refusal"
        w.findings = 0  # "`C` gives empty ones"
    elif letter == "X":
        w.findings = 0  # "replaces the findings by empty ones without telling the buffer"
    elif letter == "R":
        w.reset((w.serial + 1) % (MOST + 1) if x is None else x)
    elif letter == "E":
        w.signal("cme", *x)
    else:
        w.signal({"O": "ok", "P": "prompt", "B": "busy"}[letter], x if letter == "P" else None, x if letter == "O" else b"")
    return "done"


def afresh(w, call, x):
    """A call without findings, which are started afresh over what it leaves. Reading: where it is refused, too."""
    try:
        return call(x)
    finally:
        w.find()


def dashed(number):
    """A number, `-` for none."""
    return "-" if number is None else str(number)


def refusal(r):
    """A refusal as it is printed."""
    said = "refused %d" % r.number
    if r.record is not None:
        said += " %d" % r.record
    if r.taken is not None:
        said += " took %d" % r.taken
    if r.place is not None:
        said += " %d" % r.place
    return said


def state(w):
    """The last state."""
    return "end %d buffer %s slot %s %s %s %d %d serial %d memory %s queue %d %d %d memory %s" % (
        w.end, shown(w.buf), "signalled" if w.signalled else "free", w.kind, dashed(w.number), w.length, w.slot_lost, w.serial,
        shown(w.slot_mem), w.start, w.count, w.queue_lost, shown(w.queue_mem))


def scripted(w, ops):
    """All ops of a line, one part each, and the last state."""
    said = ""
    done = [] if ops == "-" else [op_of(op) for op in ops.split(";")]
    w.find()  # reading: the first findings are those of what the buffer holds at the start
    for letter, x in done:
        try:
            said += perform(w, letter, x) + ";"
        except Refused as r:
            said += refusal(r) + ";"
    said += " " + state(w)
    # The notation prints their length on lines that have an op with findings only.
    return said + " findings %d" % w.findings if any(letter in "FGX" for letter, _ in done) else said


def digest_case(mode, table, data):
    """A digest case: refusal 1, refusal 2, or the answer."""
    if len(data) > LONGEST:
        return "refused 1"
    records = records_of(mode, table)
    if isinstance(records, int):
        return "refused 2 %d" % records
    a = heard(mode, records, data)
    said = "%s %s %d %d %d" % (a.kind, dashed(a.number), a.place, a.length, a.consumed)
    said += " digits %d %d" % (a.digits_at, a.digits) if a.digits else ""
    return said + (" text %d %d" % (a.text_at, a.text) if a.text else "")


def started(w, text):
    """END,SIGNALLED,LEN,SLOT-LOST,START,COUNT,QUEUE-LOST,SERIAL."""
    w.end, flag, w.length, w.slot_lost, w.start, w.count, w.queue_lost, w.serial = numbers_of(text, 8)
    if flag > 1:
        raise BadLine
    w.signalled = flag == 1


def conversion(fields):
    """START,COUNT,LOST OLD-MEMORY NEW-MEMORY: refusal 3, refusal 13, or the new queue and its memory (R-9)."""
    if len(fields) != 3:
        raise BadLine
    queue, old, new = numbers_of(fields[0], 3), data_of(fields[1]), bytearray(data_of(fields[2]))
    try:
        start, count, lost = convert(*queue, old, new)
    except Refused as r:
        return refusal(r)
    return "converted %d %d %d memory %s" % (start, count, lost, shown(new))


def listed(fields):
    """INPUT: refusal 6, 7, 8 or 9 with its place, or the elements (R-4), each PLACE,END,KIND,DEPTH and a number's value or a range's two."""
    if len(fields) != 1:
        raise BadLine
    try:
        elements = read_list(data_of(fields[0]))
    except Refused as r:
        return refusal(r)
    return ";".join(",".join(str(part) for part in e[:4] + e.values) for e in elements)


def saying(fields):
    """TABLE KIND NUMBER PAYLOAD OUTPUT: refusal 2, 16 or 17, or how many bytes were written and all of the output memory (R-12). KIND is a word that a digest
    case answers, NUMBER `-` for none."""
    if len(fields) != 5 or fields[1] not in KINDS:
        raise BadLine
    number = None if fields[2] == "-" else number_of(fields[2], MOST)
    table, payload, output = data_of(fields[0]), data_of(fields[3]), bytearray(data_of(fields[4]))
    try:
        length = say(table, fields[1], number, payload, output)
    except Refused as r:
        return refusal(r)
    return "said %d memory %s" % (length, shown(output))


def answer(line):
    """The answer to a line. A first field `convert` is a conversion (R-9), `list` a list's reading (R-4), `say` an answer's writing (R-12), for which no digester
    is chosen. Else one that is a mode's word names it, none is `verbose`; behind it a comma in the first field tells the form, else the number of fields."""
    if len(line) > LINE:
        raise BadLine
    fields = line.split(" ")
    if fields[0] == "convert":
        return conversion(fields[1:])
    if fields[0] == "list":
        return listed(fields[1:])
    if fields[0] == "say":
        return saying(fields[1:])
    mode = fields.pop(0) if fields[0] in MODES else "verbose"
    if fields and "," in fields[0]:
        if len(fields) != 6:
            raise BadLine
        w = World(mode, *[data_of(f) for f in fields[1:5]])
        started(w, fields[0])
        return scripted(w, fields[5])
    if len(fields) == 5:
        return scripted(World(mode, *[data_of(f) for f in fields[:4]]), fields[4])
    if len(fields) == 2:
        return digest_case(mode, data_of(fields[0]), data_of(fields[1]))
    raise BadLine


def main():
    """Each line of standard input; blank ones and those that begin with `#` are skipped."""
    sys.setrecursionlimit(10000)
    if sys.argv[1:]:
        sys.exit("usage: tests/model.py < lines")
    for raw in sys.stdin.buffer.read().split(b"\n"):
        line = raw.decode("latin-1")
        if line.startswith("#") or (len(line) <= LINE and line.strip(" \t\r") == ""):
            continue
        try:
            print(answer(line))
        except BadLine:
            print("bad line")


if __name__ == "__main__":
    main()
