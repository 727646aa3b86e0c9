#!/usr/bin/env python3
"""Foretells what `hcproxy replay` prints: a model of the gateway under the settings of the demonstration.

usage: tools/foretell.py [--journal] < SCRIPT

It is written from RFC 7252, RFC 7641, RFC 7959, RFC 8075 and RFC 9112 and reads nothing of the program, so that a rule which
both should keep is written twice, in two ways. tools/random-scripts compares the two. It has no transformers, and no journals
that are full by their bytes: a script that needs them is Unknown, which ends it with status 4.
"""
import collections
import copy
import re
import sys

# RFC 7252, section 4.8
WAIT, LIFETIME, COPIES = 93_000, 247_000, 4
CONNECTIONS, EXCHANGES, WAITING, REMEMBERED, STORED, BODY = 256, 256, 64, 1_024, 256, 65_536
# For how many seconds a response is fresh that doesn't say so (section 5.10.5), how often a representation may change while it
# is fetched, and how much of a body fits into one message.
FRESH, CHANGES, ONE_MESSAGE = 60, 3, 1_024
# Of which devices resources are observed (RFC 7641), how many at a time, and for how many milliseconds after the last ask. After
# how many a notification is newer than the one before it, whatever their numbers are (section 3.4).
OBSERVED, WATCHES, IDLE, RENEWED = {"o.example.com"}, 64, 120_000, 128_000
# Whether the rest of an update that comes in pieces is fetched at once. Where it isn't, the next GET asks for all of it.
FETCHES = True
# How many entries a journal takes, how many a step adds at most, and for how many milliseconds message IDs aren't used again.
ENTRIES, A_STEP, APART = 65_536, 600, 494_000
LAST_MOMENT = 2**62
CON, NON, ACK, RST = range(4)
GET, POST, PUT, DELETE = range(1, 5)
CONTENT, VALID, CONTINUE, INCOMPLETE = 0x45, 0x43, 0x5F, 0x88
URI_HOST, ETAG, OBSERVE, LOCATION_PATH, URI_PATH, FORMAT, MAX_AGE, URI_QUERY, ACCEPT = 3, 4, 6, 8, 11, 12, 14, 15, 17
LOCATION_QUERY, BLOCK2, BLOCK1, SIZE2, SIZE1 = 20, 23, 27, 28, 60

NAMES = {"s.example.com": "192.0.2.1", "o.example.com": "192.0.2.2"}
METHODS = {"GET": GET, "HEAD": GET, "POST": POST, "PUT": PUT, "DELETE": DELETE}
TYPES = {
    0: "text/plain;charset=utf-8",
    40: "application/link-format",
    41: "application/xml",
    42: "application/octet-stream",
    47: "application/exi",
    50: "application/json",
    60: "application/cbor",
}
# RFC 8075, section 7
STATUSES = {0x41: 201, 0x43: 502, 0x80: 400, 0x81: 403, 0x82: 500, 0x83: 403, 0x84: 404, 0x85: 400, 0x86: 406, 0x8C: 412}
STATUSES |= {0x8D: 413, 0x8F: 415, 0xA0: 500, 0xA1: 501, 0xA2: 502, 0xA3: 503, 0xA4: 504, 0xA5: 502}
PHRASES = {200: "OK", 201: "Created", 204: "No Content", 400: "Bad Request", 403: "Forbidden", 404: "Not Found"}
PHRASES |= {406: "Not Acceptable", 412: "Precondition Failed", 413: "Content Too Large", 414: "URI Too Long"}
PHRASES |= {415: "Unsupported Media Type", 500: "Internal Server Error", 501: "Not Implemented", 502: "Bad Gateway"}
PHRASES |= {503: "Service Unavailable", 504: "Gateway Timeout"}


# What a script may lead to.
WAYS = ["live", "kept", "bad-http", "no-map", "method", "media", "not-understood", "reset", "timeout", "joined", "apart", "outrun"]
WAYS += ["waits", "never sent", "sent again", "all copies", "repeat", "stale", "written", "pushed out", "changed", "fourth change"]
WAYS += ["download", "download kept", "upload", "smaller blocks"]
WAYS += ["asked by its tag", "renewed", "renewed kept", "renewed again", "not confirmed", "renewed and outrun"]
WAYS += ["watched", "watched anew", "no more watches", "update", "update kept", "update not fetched", "older", "out of date"]
WAYS += ["told no state", "told and rejected", "watch outrun", "idle"] + ["update fetched", "fetched and joined"] * FETCHES


class Unknown(Exception):
    """What the model has no word on."""


class Refused(Exception):
    """A request that the gateway answers by itself: its kind and status."""


# Messages (RFC 7252, section 3)

Message = collections.namedtuple("Message", "kind code mid token options payload")


def decode(raw):
    """A message, or None."""
    if len(raw) < 4 or raw[0] >> 6 != 1 or raw[0] & 15 > 8:
        return None
    kind, length, code, mid = raw[0] >> 4 & 3, raw[0] & 15, raw[1], raw[2] << 8 | raw[3]
    if code == 0:
        return Message(kind, 0, mid, b"", [], b"") if len(raw) == 4 and length == 0 else None
    at, number, options = 4 + length, 0, []
    if at > len(raw):
        return None
    while at < len(raw) and raw[at] != 0xFF:
        nibbles, at = [raw[at] >> 4, raw[at] & 15], at + 1
        for i, nibble in enumerate(nibbles):
            more = {13: 1, 14: 2}.get(nibble, 0)
            if nibble == 15 or at + more > len(raw):
                return None
            if more:
                nibbles[i] = int.from_bytes(raw[at : at + more], "big") + {1: 13, 2: 269}[more]
            at += more
        number += nibbles[0]
        if number > 65_535 or at + nibbles[1] > len(raw):
            return None
        options.append((number, raw[at : at + nibbles[1]]))
        at += nibbles[1]
    if at + 1 == len(raw):
        return None
    return Message(kind, code, mid, raw[4 : 4 + length], options, raw[at + 1 :])


def nibble(number):
    """Half a byte of an option's head, and the bytes that follow for it."""
    if number < 13:
        return number, b""
    return (13, bytes([number - 13])) if number < 269 else (14, (number - 269).to_bytes(2, "big"))


def spelled(options):
    raw, last = b"", 0
    for number, value in options:
        (delta, more), (length, longer) = nibble(number - last), nibble(len(value))
        raw, last = raw + bytes([delta << 4 | length]) + more + longer + value, number
    return raw


def encode(kind, code, mid, token=b"", options=(), payload=b""):
    head = bytes([0x40 | kind << 4 | len(token), code]) + mid.to_bytes(2, "big") + token
    return head + spelled(options) + (b"\xff" + payload if payload else b"")


def uint(number):
    """A number without leading zeros (section 3.2)."""
    return number.to_bytes((number.bit_length() + 7) // 8, "big")


Block = collections.namedtuple("Block", "number more szx")


def block_value(block):
    return uint(block.number << 4 | block.more << 3 | block.szx)


# Which options of a response are known, and how long they may be (section 5.10; RFC 7641, section 2; RFC 7959, sections 2.1 and 4).
LENGTHS = {ETAG: (1, 8), OBSERVE: (0, 3), LOCATION_PATH: (0, 255), FORMAT: (0, 2), MAX_AGE: (0, 4), LOCATION_QUERY: (0, 255)}
LENGTHS |= {BLOCK2: (0, 3), BLOCK1: (0, 3), SIZE2: (0, 4), SIZE1: (0, 4)}


class Reply:
    """What a response says, and whether it can be taken: not `rejected`, nor `unsafe` (sections 5.4.1 to 5.4.3)."""

    def __init__(self, message):
        self.code, self.payload = message.code, message.payload
        self.values = collections.defaultdict(list)
        self.rejected, self.unsafe = self.code >> 5 in (1, 6, 7), False
        for number, value in message.options:
            low, high = LENGTHS.get(number, (1, 0))
            is_good = low <= len(value) <= high and not (number in (BLOCK1, BLOCK2) and value[-1:] and value[-1] & 7 == 7)
            if is_good and (number in (LOCATION_PATH, LOCATION_QUERY) or not self.values[number]):
                self.values[number].append(value)
            elif number & 1:
                self.rejected = True
            elif number & 2 and number not in LENGTHS:
                self.unsafe = True

    def number(self, option):
        return int.from_bytes(self.values[option][0], "big") if self.values[option] else None

    def block(self, option):
        value = self.number(option)
        return None if value is None else Block(value >> 4, value >> 3 & 1 == 1, value & 7)

    def tag(self):
        return self.values[ETAG][0] if self.values[ETAG] else None

    def kind(self):
        """What stays the same in all pieces of a representation."""
        return self.code, self.number(FORMAT), self.tag()


# HTTP (RFC 9112)

TOKEN = set(b"!#$%&'*+-.^_`|~0123456789ABCDEFGHIJKLMNOPQRSTUVWXYZabcdefghijklmnopqrstuvwxyz")
VISIBLE = set(range(0x21, 0x7F)) | set(range(0x80, 0x100))
TEXT = VISIBLE | set(b" \t")
# Where the head may go on, state by state: which bytes lead where.
HEAD = {
    "start": [(b"\r", "start-lf"), (b"\n", "start"), (TOKEN, "method")],
    "start-lf": [(b"\n", "start")],
    "method": [(TOKEN, "method"), (b" ", "before-target")],
    "before-target": [(VISIBLE, "target")],
    "target": [(VISIBLE, "target"), (b" ", "H0")],
    **{f"H{n}": [(bytes([byte]), f"H{n + 1}")] for n, byte in enumerate(b"HTTP/1.")},
    "H7": [(b"01", "eol")],
    "eol": [(b"\r", "eol-lf"), (b"\n", "line")],
    "eol-lf": [(b"\n", "line")],
    "line": [(TOKEN, "name"), (b"\r", "end-lf"), (b"\n", "end")],
    "name": [(TOKEN, "name"), (b":", "value")],
    "value": [(TEXT, "value"), (b"\r", "eol-lf"), (b"\n", "line")],
    "end-lf": [(b"\n", "end")],
}

Request = collections.namedtuple("Request", "method target fields body closes")
# What is no request, and its status.
Bad = collections.namedtuple("Bad", "status")


class Reader:
    """The requests of a connection, one after the other."""

    def __init__(self):
        self.text, self.is_told = b"", False

    def head_end(self):
        """Where the head ends; None where more is to come, and Bad where none can."""
        state, fields = "start", 0
        for at, byte in enumerate(self.text[:8192]):
            state = next((to for bytes_, to in HEAD[state] if byte in bytes_), None)
            if state is None:
                return Bad(400)
            if state == "end":
                return at + 1 if fields <= 64 else Bad(400)
            fields += state == "value" and byte == 0x3A and self.text[at - 1] in TOKEN
        return Bad(400) if len(self.text) >= 8192 else None

    def next(self):
        """The next request, or Bad, taken off the front; None where it isn't whole."""
        end = self.head_end()
        if end is None or isinstance(end, Bad):
            return end
        lines = self.text[:end].decode("latin-1").lstrip("\r\n").replace("\r\n", "\n").split("\n")
        method, target, version = lines[0].split(" ")
        fields = [(name.lower(), value.strip(" \t")) for name, _, value in (line.partition(":") for line in lines[1:-2])]
        values = collections.defaultdict(list)
        for name, value in fields:
            values[name].append(value)
        is_old = version == "HTTP/1.0"
        status, length, is_chunked = framing(values, is_old)
        if status:
            return Bad(status)
        if is_chunked:
            body, after = chunks(self.text, end)
            if isinstance(body, Bad):
                return body
        else:
            after = end + length
            body = self.text[end:after] if len(self.text) >= after else None
        if body is None:
            expects = [it.strip().lower() for value in values["expect"] for it in value.split(",")]
            self.waits = not is_old and "100-continue" in expects
            return None
        closes = is_old or "close" in [it.strip().lower() for value in values["connection"] for it in value.split(",")]
        self.text, self.is_told, self.waits = self.text[after:], False, False
        return Request(method, target, values, body, closes)

    waits = False

    def must_tell(self):
        """Whether who waits with a body is to be told to go on, which is once."""
        must = self.waits and not self.is_told
        self.is_told = self.is_told or must
        return must


def framing(values, is_old):
    """The status by which the head is refused, or the length of the body and whether it comes in chunks."""
    lengths, codings = values["content-length"], values["transfer-encoding"]
    if not is_old and len(values["host"]) != 1 or codings and (is_old or lengths):
        return 400, 0, False
    if len(lengths) > 1 or lengths and not re.fullmatch("[0-9]+", lengths[0]):
        return 400, 0, False
    if codings:
        return (None, 0, True) if [it.lower() for it in codings] == ["chunked"] else (501, 0, False)
    length = int(lengths[0]) if lengths else 0
    return 413 if length > BODY else None, length, False


def chunks(text, at):
    """The body that comes in chunks and where it ends, or None (RFC 9112, section 7.1)."""
    body = b""
    while True:
        line, found, _ = text[at:].partition(b"\r\n")
        if not found:
            if len(line) > 256:
                return Bad(400), at
            if not re.fullmatch(rb"([0-9a-fA-F]{1,16}[ \t]*(;[^\r\n]*)?\r?)?", line):
                raise Unknown("a chunk line that is cut or bad")
            return None, at
        if not re.fullmatch(rb"[0-9a-fA-F]{1,16}[ \t]*(;[^\r\n]*)?", line) or len(line) > 254:
            raise Unknown("a chunk line that may be bad")
        size, at = int(re.match(rb"[0-9a-fA-F]+", line)[0], 16), at + len(line) + 2
        if size == 0:
            break
        if len(body) + size > BODY:
            return Bad(413), at
        body, at = body + text[at : at + size], at + size + 2
        if len(text) < at:
            return None, at
        if text[at - 2 : at] != b"\r\n":
            return Bad(400), at
    if text[at : at + 2] == b"\r\n":
        return body, at + 2
    if len(text) >= at + 2:
        raise Unknown("trailers")
    return None, at


# What a request means (RFC 8075)

# What is asked of a device. The key is what makes two GETs equal (RFC 7252, section 5.6), the place what a write changes.
Meaning = collections.namedtuple("Meaning", "code peer host path query format accept body")


def key_of(it):
    return it.peer, it.host, it.path, it.query, it.accept


def place_of(it):
    return it.peer, it.path


def unescaped(text):
    """Text without its escapes (RFC 3986, section 2.1)."""
    if re.search("%(?![0-9A-Fa-f]{2})", text):
        raise Refused("no-map", 400)
    try:
        raw = re.sub(rb"%(..)", lambda it: bytes.fromhex(it[1].decode()), text.encode("latin-1"))
        return raw.decode()
    except UnicodeDecodeError:
        raise Refused("no-map", 400) from None


IPV4 = re.compile(r"(0|[1-9]\d?|1\d\d|2[0-4]\d|25[0-5])(\.(0|[1-9]\d?|1\d\d|2[0-4]\d|25[0-5])){3}")


def peer_of(authority):
    """The name, or None for an address, and the device's address and port."""
    host, port = authority, "5683"
    bracketed = re.fullmatch(r"(?i)(?:\[|%5B)(.*?:.*?)(?:\]|%5D)(?::(.*))?", authority)
    if bracketed:
        host, port = bracketed[1], port if bracketed[2] is None else bracketed[2]
    elif ":" in authority:
        host, _, port = authority.partition(":")
    if not host or "@" in authority or not re.fullmatch(r"\d{1,5}", port) or not 0 < int(port) < 65_536:
        raise Refused("no-map", 400)
    if bracketed:
        groups = groups_of(host)
        return None, None if is_no_endpoint(groups.split(":"), 16) else f"[{groups}]:{int(port)}"
    name = unescaped(host)
    name = "".join(it.lower() if it.isascii() else it for it in name)
    if IPV4.fullmatch(name):
        return None, None if is_no_endpoint(name.split("."), 10) else f"{name}:{int(port)}"
    if len(name.encode()) > 255:
        raise Refused("no-map", 400)
    return name, f"{NAMES[name]}:{int(port)}" if name in NAMES else None


def is_no_endpoint(texts, base):
    """Whether it is the unspecified address, the broadcast one, or a group's: 224.0.0.0/4, ff00::/8."""
    numbers = [int(it, base) for it in texts]
    if base == 16:
        return not any(numbers) or numbers[0] >= 0xFF00
    return not any(numbers) or numbers == [255] * 4 or 224 <= numbers[0] <= 239


def groups_of(text):
    """The eight groups of an IPv6 address."""
    front, gap, back = text.partition("::")
    parts = [side.split(":") if side else [] for side in (front, back)]
    missing = 8 - len(parts[0]) - len(parts[1])
    if not all(re.fullmatch("[0-9A-Fa-f]{1,4}", it) for it in parts[0] + parts[1]) or (missing < 1 if gap else missing != 0):
        raise Refused("no-map", 400)
    return ":".join(f"{int(it, 16):x}" for it in parts[0] + ["0"] * missing + parts[1])


def target_of(target):
    """The name, the device's address and port, the path and the query."""
    absolute = re.match(r"[A-Za-z][A-Za-z0-9+.-]*://[^/?]*", target)
    target = target[absolute.end() :] if absolute else target
    if not target.startswith("/hc/"):
        raise Refused("no-map", 404)
    rest = target[4:]
    scheme = re.match(r"([^/?]*):(?=//)", rest)
    if scheme:
        if scheme[1].lower() != "coap":
            raise Refused("no-map", 501)
        rest = rest[scheme.end() + 2 :]
    authority = re.match("[^/?]*", rest)[0]
    name, peer = peer_of(authority)
    path, has_query, query = rest[len(authority) :].partition("?")
    segments = tuple(unescaped(it) for it in path[1:].split("/")) if path not in ("", "/") else ()
    arguments = tuple(unescaped(it) for it in query.split("&")) if has_query else ()
    if any(it in (".", "..") for it in segments):
        raise Refused("no-map", 400)
    options = uri_options(name, segments, arguments)
    if any(len(value) > 255 for _, value in options) or len(spelled(options)) > 960:
        raise Refused("no-map", 414)
    return name, peer, segments, arguments


def uri_options(host, path, query):
    named = [(URI_HOST, host.encode())] if host is not None else []
    return named + [(URI_PATH, it.encode()) for it in path] + [(URI_QUERY, it.encode()) for it in query]


def media_of(value):
    """A media type without what doesn't count of it, or None where it is none."""
    found = re.fullmatch(r"([!#$%&'*+.^_`|~0-9A-Za-z-]+/[!#$%&'*+.^_`|~0-9A-Za-z-]+)[ \t]*((;[^;]*)*)", value)
    if not found:
        return None
    kind, rest = found[1].lower(), found[2].replace('"', "").replace(" ", "").lower()
    if '\\' in rest:
        raise Unknown("a quoted pair")
    if kind == "text/plain":
        charset = re.search("charset=([^;]*)", rest)
        return TYPES[0] if not charset or charset[1] in ("utf-8", "us-ascii") else kind
    return kind


def format_in(values):
    """The content format of a body."""
    if any(it.strip(" \t").lower() not in ("", "identity") for value in values["content-encoding"] for it in value.split(",")):
        raise Refused("media", 415)
    if not values["content-type"]:
        return None
    media = media_of(values["content-type"][0])
    if media == "application/json":
        raise Unknown("a transformer")
    number = next((number for number, it in TYPES.items() if it == media), None)
    if number is None:
        raise Refused("media", 415)
    return number


def accept_in(values):
    """The content format that is asked for, or None."""
    elements = []
    for text in ",".join(values["accept"]).split(","):
        media, _, rest = text.strip(" \t").partition(";")
        weight = re.search(r"(?i)(?:^|;)\s*q=([^;]*)", rest)
        if not re.fullmatch(r"[^\s/]+/[^\s/]+", media):
            continue
        if weight and not re.fullmatch(r"0(\.\d{0,3})?|1(\.0{0,3})?", weight[1].strip()):
            continue
        elements.append((media.lower(), media_of(text.strip(" \t")), float(weight[1]) if weight else 1.0))
    if not elements or any(it.endswith("/*") and weight > 0 for it, _, weight in elements):
        return None
    if any(media == "application/json" and weight > 0 for media, _, weight in elements):
        raise Unknown("a transformer")
    known = [(weight, number) for _, media, weight in elements for number, it in TYPES.items() if it == media and weight > 0]
    if not known:
        raise Refused("media", 406)
    return max(known, key=lambda it: it[0])[1]


def meaning_of(request):
    """What is asked of a device, or Refused."""
    code, values = METHODS.get(request.method), request.fields
    conditional = values["if-match"] or values["if-none-match"] or values["if-unmodified-since"]
    if code is None or code != GET and conditional:
        raise Refused("method", 501)
    host, peer, path, query = target_of(request.target)
    if peer is None:
        raise Refused("no-map", 501)
    body = request.body if code in (POST, PUT) else b""
    form = format_in(values) if body else None
    return Meaning(code, peer, host, path, query, form, accept_in(values), body)


# Exchanges

class Ask:
    """A request that waits for its answer."""

    def __init__(self, number, conn, request):
        self.number, self.conn, self.request = number, conn, request


class Sending:
    """A message to a device: until it goes out it has no ID."""

    def __init__(self, exchange, token, options, payload, word):
        self.exchange, self.token, self.options, self.payload, self.word = exchange, token, options, payload, word
        self.raw, self.mid, self.copies, self.timeout, self.due, self.number = None, None, 0, 0, 0, None

    def last_due(self):
        """When its last timeout is over, if ticks come in time."""
        return self.due + sum(self.timeout << n for n in range(1, COPIES - self.copies + 1))

    def observes(self):
        """Whether it asks to be told of changes (RFC 7641, section 2)."""
        return any(number == OBSERVE for number, _ in self.options)


class Link:
    """What is between the gateway and a device: one message is outstanding, others wait (section 4.7)."""

    def __init__(self):
        self.outstanding, self.waiting, self.heard, self.last_mid = None, [], [], None


# How an exchange ends: a cause with the number of the entry that shows it, or None for the latest first sending, or a response, with
# the numbers of its replies, and of what they came to: the ask that the exchange goes back to, and messages. What a notification
# brought came to none, and what a 2.03 has renewed isn't copied. The last of its numbers is that of the 2.03 then.
Fault = collections.namedtuple("Fault", "kind status number")
Response = collections.namedtuple("Response", "code form tag age location query payload numbers since asked is_renewed", defaults=[False])


class Exchange:
    def __init__(self, opening, since, meaning, ask=None):
        # the ask that it goes back to: its opening, unless a notification opened it
        self.opening, self.since, self.meaning, self.ask = opening, since, meaning, opening if ask is None else ask
        self.readers, self.sending, self.awaits, self.is_over = [], None, False, False
        # whether equal GETs still join it, and what it comes to is stored; whether it asks to be told of changes
        self.current, self.observes = True, False
        # the stored response of which its first message asks whether it is valid still, until a reply comes
        self.kept = None
        # of a GET: its pieces, each the number of its entry, what it says and the message, since when, and how often it began anew
        self.pieces, self.begun, self.changes = [], 0, 0
        # of a write: how much of the body was answered, in which size it goes, and the answers
        self.given, self.szx, self.answers = 0, 6, []

    def is_new(self):
        return self.sending is None

    def is_confirmed(self, reply):
        """Whether a reply says that what it asks about is valid still (RFC 7252, section 5.9.1.3)."""
        is_taken = not reply.rejected and not reply.unsafe
        return self.kept is not None and is_taken and reply.code == VALID and reply.tag() == self.kept.tag

    # Each of the next two says how it goes on: the Block option of the next message, None for none; or it is a Fault or a Response.

    def fetched(self, number, reply, moment):
        """A piece of what a GET reads (RFC 7959, section 2.4)."""
        wrong = Fault("not-understood", 502, number)
        if reply.unsafe or reply.code >> 5 == 3 or reply.code in (VALID, CONTINUE, INCOMPLETE):
            return wrong
        first = self.pieces[0][1] if self.pieces else reply
        if reply.kind() != first.kind():
            self.changes, self.pieces = self.changes + 1, []
            return wrong if self.changes > CHANGES else None
        block = reply.block(BLOCK2) or Block(0, False, None)
        if not self.is_sized(reply):
            return wrong
        so_far = sum(len(it.payload) for _, it, _ in self.pieces)
        if (block.number << block.szx + 4 if block.szx is not None else 0) != so_far or so_far + len(reply.payload) > BODY:
            return wrong
        self.begun = self.begun if self.pieces else moment
        self.pieces.append((number, reply, self.sending))
        return Block(block.number + 1, False, block.szx) if block.more else self.whole([it for it, _, _ in self.pieces], reply, first)

    def is_sized(self, reply):
        """Whether a piece has the size that its Block2 says, which doesn't rise."""
        block, length = reply.block(BLOCK2), len(reply.payload)
        if not block:
            return True
        last, size = self.pieces[-1][1].block(BLOCK2).szx if self.pieces else 6, 16 << block.szx
        return block.szx <= last and (length == size or length < size and not block.more)

    def whole(self, numbers, last, first):
        text = b"".join(it.payload for _, it, _ in self.pieces) if self.meaning.code == GET else last.payload
        location, query = last.values[LOCATION_PATH], last.values[LOCATION_QUERY]
        sendings = [it for _, _, it in self.pieces]
        age, asked = first.number(MAX_AGE), [] if None in sendings else [self.ask, *(it.number for it in sendings)]
        return Response(last.code, last.number(FORMAT), last.tag(), age, location, query, text, numbers, self.begun, asked)

    def piece(self):
        """The part of the body that goes next, and its Block1, where it doesn't go whole (section 2.5)."""
        body, size = self.meaning.body, 16 << self.szx
        if self.given == 0 and len(body) <= ONE_MESSAGE:
            return body, None
        return body[self.given : self.given + size], Block(self.given // size, self.given + size < len(body), self.szx)

    def given_on(self, number, reply, moment):
        """The answer to a write, or to a piece of its body."""
        wrong = Fault("not-understood", 502, number)
        part, sent = self.piece()
        ours = reply.block(BLOCK1)
        if reply.unsafe or reply.code >> 5 == 3 or reply.code in (VALID, INCOMPLETE) or not self.is_answered(reply, sent):
            return wrong
        is_last = not (sent and sent.more)
        self.answers.append(number)
        self.begun = moment
        if reply.code == CONTINUE and not is_last:
            self.given += len(part)
            self.szx = min(self.szx, ours.szx) if ours else self.szx
            return self.piece()[1]
        if reply.code == CONTINUE or reply.code >> 5 == 2 and not is_last:
            return wrong
        return self.whole(self.answers, reply, reply)


    def is_answered(self, reply, sent):
        """Whether it answers the piece that was sent, and comes in one itself."""
        ours, theirs = reply.block(BLOCK1), reply.block(BLOCK2)
        is_whole = not theirs or theirs.number == 0 and not theirs.more
        return is_whole and (not ours or ours.number == (sent.number if sent else 0))


# A response that is stored: under which key and place, and for how many milliseconds it is fresh.
Pair = collections.namedtuple("Pair", "key place response lifetime")
# An entry of which the next journal has a copy while it is young.
Past = collections.namedtuple("Past", "number moment what")


# Observation (RFC 7641)

class Watch:
    """What a device tells the gateway of, and under which token; the number and the moment of what counted last."""

    def __init__(self, ask, meaning, token, number, moment):
        # the ask by which the gateway became an observer
        self.ask, self.meaning, self.token, self.number, self.moment = ask, meaning, token, number, moment
        self.key, self.place = key_of(meaning), place_of(meaning)

    def is_older(self, number, moment):
        """Whether what comes is no newer than what counted last. Numbers go round (section 3.4)."""
        ahead = (number - self.number) % 2**24
        return not 0 < ahead < 2**23 and moment - self.moment <= RENEWED


def tells_state(reply):
    """Whether it tells a state, after which more are told: what has no number is the last (sections 3.2 and 4.2)."""
    return reply.code == CONTENT and reply.number(OBSERVE) is not None and not reply.rejected


class Gateway:
    def __init__(self):
        self.moment, self.word, self.outputs, self.entries = 0, 0, [], []
        self.opened, self.readers, self.pending, self.is_sealed, self.size = 0, {}, {}, False, 0
        self.links, self.exchanges, self.issued, self.store = {}, [], 0, []
        # what is observed; of each key when it was asked for last, and which notification counted last
        self.watches, self.asked, self.counted = [], {}, {}
        # what the next journal may have copies of: first sendings, and CONs and NONs that were heard first
        self.past = []
        # what this step tells, and in which of WAYS it went
        self.told, self.ways = [], set()

    # What is told

    def put_out(self, words):
        self.outputs.append(f"{self.moment} {words}")

    def enter(self, words):
        self.entries.append(f"{len(self.entries)} {self.moment} {words}")
        return len(self.entries) - 1

    def send(self, peer, raw):
        if self.is_sealed:
            return None
        self.put_out(f"datagram {peer} {raw.hex()}")
        return self.enter(f"sent {peer} {raw.hex()}")

    # Inputs

    def give(self, line):
        """What comes out for a line of a script."""
        moment, word, event, *rest = line.split(" ")
        self.moment, self.word = min(max(self.moment, int(moment)), LAST_MOMENT), int(word)
        first = len(self.outputs)
        self.size += len(line)
        if self.size > 2**25:
            raise Unknown("a journal that may be full by its bytes")
        if event == "open":
            if len(self.readers) >= CONNECTIONS or not self.step(self.open):
                self.put_out("turned")
        elif event == "bytes":
            self.bytes(int(rest[0]), bytes.fromhex(rest[1]))
        elif event == "datagram":
            self.step(self.heard, rest[0], bytes.fromhex(rest[1]))
        elif event == "tick":
            if not self.step(self.tick):
                self.tick_sealed()
        elif event == "close":
            self.close(int(rest[0]))
        elif event == "rotate":
            self.rotate()
        else:
            raise Unknown(event)
        return self.outputs[first:]

    # Steps, and the end of a journal

    def step(self, does, *words):
        """Does a step, if the journal isn't sealed and has room for it, and says so. Else it is sealed, and nothing is done."""
        if self.is_sealed:
            return False
        before = None
        if len(self.entries) + self.held_free() + A_STEP > ENTRIES:
            before = copy.deepcopy({name: it for name, it in vars(self).items() if name not in ("entries", "outputs")})
            lengths = len(self.entries), len(self.outputs)
        does(*words)
        self.enter_answers()
        if before and len(self.entries) + self.held_free() > ENTRIES:
            vars(self).update(before)
            del self.entries[lengths[0] :], self.outputs[lengths[1] :]
            self.enter("sealed")
            self.is_sealed = True
            for link in self.links.values():
                link.waiting = []
            return False
        self.tell()
        return True

    def held_free(self):
        """For so many entries room is held free: closings, answers, and the seal."""
        return len(self.readers) + len(self.pending) + 1

    def tick_sealed(self):
        """From the seal on only deadlines are looked at, and nothing goes out."""
        for it in [it for it in self.exchanges if self.moment - it.since >= WAIT]:
            self.end(it, Fault("timeout", 504, None))
        self.enter_answers()
        self.tell()

    def rotate(self):
        """The sealed journal is given out, and another begun, where nothing is under way that ticks would leave open."""
        ends = [it.since + WAIT for it in self.exchanges]
        ends += [it.outstanding.last_due() for it in self.links.values() if it.outstanding]
        refusal = 1 if not self.is_sealed else 2 if self.readers else 3 if any(self.moment < it for it in ends) else None
        if refusal:
            self.put_out(f"unrotated {refusal}")
            return
        self.past = [it for it in self.past if self.moment - it.moment < (APART if it.what == "sent" else LIFETIME)]
        self.store = [it for it in self.store if self.goes_on(it)]
        grounds = {number for it in self.store for number in it.response.asked + it.response.numbers}
        copies = sorted(grounds | {it.number for it in self.past})
        self.renumber({number: at for at, number in enumerate(copies)})
        self.entries = [self.copied(at, number, "ground" if number in grounds else "past") for at, number in enumerate(copies)]
        self.begin_anew({peer for *_, what, peer, _ in (it.split(" ", 7)[:8] for it in self.entries) if what != "asked"})
        self.put_out(f"rotated {len(copies)}")

    def goes_on(self, pair):
        """Whether a stored response goes on: it is fresh, is as replies told it, and no open write may have changed it."""
        written = [place_of(it.meaning) for it in self.exchanges if it.meaning.code != GET]
        return self.is_fresh(pair) and pair.response.asked and pair.place not in written

    def renumber(self, places):
        """What is copied is named by where the copies stand."""
        self.past = [it._replace(number=places[it.number]) for it in self.past]
        for at, pair in enumerate(self.store):
            asked, numbers = ([places[it] for it in some] for some in (pair.response.asked, pair.response.numbers))
            self.store[at] = pair._replace(response=pair.response._replace(asked=asked, numbers=numbers))

    def copied(self, at, number, mark):
        """The copy of an entry, or of what an entry is a copy of."""
        _, moment, words = self.entries[number].split(" ", 2)
        words = words.split(" ", 3)[3] if words.startswith("carried ") else words
        return f"{at} {moment} carried {number} {mark} {words}"

    def begin_anew(self, peers):
        """Of all that isn't copied nothing is known any more: what is observed, and other devices."""
        self.links = {peer: it for peer, it in self.links.items() if peer in peers}
        for link in self.links.values():
            link.outstanding, link.waiting = None, []
        self.exchanges, self.watches, self.asked, self.counted = [], [], {}, {}
        self.is_sealed = False

    # Connections

    def open(self):
        self.readers[self.opened] = Reader()
        self.enter(f"opened {self.opened}")
        self.opened += 1

    def close(self, conn):
        if self.readers.pop(conn, None):
            self.pending.pop(conn, None)
            self.enter(f"shut {conn}")

    def bytes(self, conn, raw):
        if conn in self.readers:
            self.readers[conn].text += raw
            self.read_on(conn)

    def read_on(self, conn):
        """Asks what the connection asks, up to the first request that waits for its answer."""
        while conn in self.readers and conn not in self.pending:
            request = self.readers[conn].next()
            if request is None:
                if self.readers[conn].must_tell():
                    self.put_out(f"bytes {conn} {b'HTTP/1.1 100 Continue'.hex()}0d0a0d0a")
                return
            if not self.step(self.ask, conn, request):
                self.put_out(f"closed {conn}")
                self.close(conn)

    def ask(self, conn, request):
        if isinstance(request, Bad):
            number = self.enter(f"asked {conn} bad")
            ask = Ask(number, conn, Request("GET", "", {}, b"", True))
            self.answer(ask, Fault("bad-http", request.status, number))
        else:
            number = self.enter(f"asked {conn} {request.method} {request.target} {len(request.body)}")
            ask = Ask(number, conn, request)
            try:
                self.mean(ask, meaning_of(request))
            except Refused as refused:
                self.answer(ask, Fault(*refused.args, number))

    def mean(self, ask, meaning):
        """An ask is answered from the store, joins an exchange, or opens one."""
        if meaning.code == GET:
            self.note(key_of(meaning))
            pair = self.fresh(key_of(meaning))
            if pair:
                self.ways |= {"update kept"} if pair.response.numbers[0] == self.counted.get(pair.key) else set()
                return self.answer(ask, pair.response, "kept")
            for it in self.exchanges:
                if it.current and it.meaning.code == GET and key_of(it.meaning) == key_of(meaning):
                    self.ways.add("fetched and joined" if it.opening == self.counted.get(key_of(meaning)) else "joined")
                    it.readers.append(ask)
                    self.pending[ask.conn] = ask
                    return None
        if not self.has_room(meaning.peer):
            return self.answer(ask, Fault("busy", 503, ask.number))
        if meaning.code == GET and any(it.meaning == meaning for it in self.exchanges):
            self.ways.add("apart")
        exchange = Exchange(ask.number, self.moment, meaning)
        exchange.readers.append(ask)
        self.pending[ask.conn] = ask
        self.exchanges.append(exchange)
        exchange.observes = meaning.code == GET and self.is_to_be_watched(meaning)
        exchange.kept = None if meaning.code != GET or exchange.observes else self.stale(key_of(meaning))
        self.ways |= {"asked by its tag"} if exchange.kept else set()
        self.submit(exchange, exchange.piece()[1])
        return None

    def note(self, key):
        """That a key was asked for, however that is answered."""
        self.asked[key] = self.moment

    def is_to_be_watched(self, meaning):
        """Whether a GET asks to be told of changes. If its resource is observed already, that is forgotten first."""
        self.ways |= {"watched anew"} if any(it.key == key_of(meaning) for it in self.watches) else set()
        self.unwatch_key(key_of(meaning))
        is_observed = meaning.host in OBSERVED
        self.ways |= {"no more watches"} if is_observed and len(self.watches) >= WATCHES else set()
        return is_observed and len(self.watches) < WATCHES

    def unwatch_key(self, key):
        self.unwatch(lambda it: it.key == key)

    def unwatch(self, is_over):
        """Forgets watches, under whose tokens nothing is awaited any more. Whether there are any."""
        before, self.watches = len(self.watches), [it for it in self.watches if not is_over(it)]
        return len(self.watches) < before

    def has_room(self, peer):
        link = self.links.get(peer)
        return len(self.exchanges) < EXCHANGES and not (link and len(link.waiting) >= WAITING)

    # Messages

    def submit(self, exchange, block):
        """The next message of the exchange waits for its turn."""
        it = exchange.meaning
        options = uri_options(it.host, it.path, it.query)
        options += [(OBSERVE, b"")] if exchange.observes and exchange.is_new() else []
        options += [(ETAG, exchange.kept.tag)] if exchange.kept else []
        options += [(FORMAT, uint(it.format))] if it.format is not None else []
        options += [(ACCEPT, uint(it.accept))] if it.accept is not None else []
        options += [(BLOCK2 if it.code == GET else BLOCK1, block_value(block))] if block else []
        token = self.issued.to_bytes(4, "big") + (self.word >> 32).to_bytes(4, "big")
        payload = exchange.piece()[0] if it.code != GET else b""
        sending = Sending(exchange, token, sorted(options, key=lambda it: it[0]), payload, self.word)
        self.issued += 1
        self.links.setdefault(it.peer, Link()).waiting.append(sending)
        self.send_next(it.peer)

    def send_next(self, peer):
        """Sends what waits first, where nothing is outstanding."""
        link = self.links[peer]
        if link.outstanding or not link.waiting:
            self.ways |= {"waits"} if link.waiting else set()
            return
        it = link.outstanding = link.waiting.pop(0)
        it.mid = it.word & 0xFFFF if link.last_mid is None else (link.last_mid + 1) % 65_536
        link.last_mid = it.mid
        it.raw = encode(CON, it.exchange.meaning.code, it.mid, it.token, it.options, it.payload)
        it.timeout = 2000 + (it.word & 0xFFFFFFFF) % 1001
        it.due = self.moment + it.timeout
        it.number = self.send(peer, it.raw)
        self.past.append(Past(it.number, self.moment, "sent"))
        it.exchange.sending, it.exchange.awaits = it, True

    def heard(self, peer, raw):
        link = self.links.get(peer)
        if link is None or link.last_mid is None or len(raw) > 2048:
            return
        message = decode(raw)
        if message is None:
            self.enter(f"heard {peer} {raw.hex()}")
            if len(raw) >= 4 and raw[0] >> 4 == 4:
                self.send(peer, encode(RST, 0, raw[2] << 8 | raw[3]))
            return
        if message.kind in (ACK, RST):
            number = self.enter(f"heard {peer} {raw.hex()}")
            self.confirmed(peer, link, message, number)
        else:
            live = [it for it in link.heard if self.moment - it[1] < LIFETIME]
            before = [it for it in live if it[0] == message.mid]
            if not before and len(live) >= REMEMBERED:
                return
            number = self.enter(f"heard {peer} {raw.hex()}")
            self.past += [] if before else [Past(number, self.moment, "heard")]
            if before:
                self.ways.add("repeat")
                if message.kind == CON:
                    self.send(peer, encode(before[0][2], 0, message.mid))
                return
            self.spoken(peer, link, message, number)

    def confirmed(self, peer, link, message, number):
        """An ACK or an RST. A response in an ACK bears the ID and the token of what it answers."""
        out = link.outstanding
        is_open = out is not None and out.mid == message.mid
        if message.code == 0:
            if is_open:
                link.outstanding = None
                if message.kind == RST and not out.exchange.is_over and out.exchange.sending is out:
                    self.end(out.exchange, Fault("reset", 502, number))
                self.send_next(peer)
            return
        if message.kind == RST or message.code < 0x20:
            return
        exchange = self.awaiting(peer, message.token)
        if exchange and exchange.sending.mid == message.mid:
            self.reply(peer, link, exchange, Reply(message), number)
        elif is_open and out.token == message.token:
            link.outstanding = None
            self.send_next(peer)

    def awaiting(self, peer, token):
        """The exchange that awaits a response under the token."""
        found = (it for it in self.exchanges if it.awaits and it.meaning.peer == peer and it.sending.token == token)
        return next(found, None)

    def spoken(self, peer, link, message, number):
        """A CON or a NON, which is no repeat: a response, or what is rejected (section 4.2)."""
        is_response = message.code >= 0x20
        exchange = self.awaiting(peer, message.token) if is_response else None
        watch = self.watching(peer, message.token) if is_response else None
        reply = Reply(message)
        kind = ACK if (exchange or watch) and not reply.rejected else RST
        link.heard.append((message.mid, self.moment, kind))
        if message.kind == CON or kind == RST and message.code:
            self.send(peer, encode(kind, 0, message.mid))
        if exchange:
            self.reply(peer, link, exchange, reply, number)
        elif watch:
            self.notified(watch, reply, number)

    def watching(self, peer, token):
        """The watch under the token."""
        return next((it for it in self.watches if it.meaning.peer == peer and it.token == token), None)

    def notified(self, watch, reply, number):
        """What a device tells of what it is observed for (RFC 7641, section 3)."""
        version = reply.number(OBSERVE)
        if version is not None and watch.is_older(version, self.moment):
            self.ways.add("older")
            return
        self.counted[watch.key] = number
        self.take_out(watch.key)
        # a whole representation, or the first piece of one, as if a GET had been asked for it
        update = Exchange(number, self.moment, watch.meaning, watch.ask)
        next_ = update.fetched(number, reply, self.moment) if tells_state(reply) else None
        if not isinstance(next_, (Block, Response)):
            self.ways.add("told and rejected" if reply.rejected else "told no state")
            self.end_watch(watch)
            return
        watch.number, watch.moment = version, self.moment
        if isinstance(next_, Response):
            self.ways.add("update")
            self.keep(watch.meaning, next_)
        elif self.may_fetch(update):
            self.ways.add("update fetched")
            self.exchanges.append(update)
            self.submit(update, next_)
        else:
            self.ways.add("update not fetched")

    def end_watch(self, watch):
        self.watches.remove(watch)

    def may_fetch(self, update):
        """Whether the rest of it is fetched, for nobody as yet: not where its key is asked for already."""
        is_open = any(key_of(it.meaning) == key_of(update.meaning) for it in self.exchanges if it.meaning.code == GET)
        return FETCHES and not is_open and self.has_room(update.meaning.peer)

    def reply(self, peer, link, exchange, reply, number):
        """A response to the latest message of the exchange."""
        exchange.awaits = False
        if link.outstanding is exchange.sending:
            link.outstanding = None
        take = exchange.fetched if exchange.meaning.code == GET else exchange.given_on
        before, changes = exchange.szx, exchange.changes
        if exchange.is_confirmed(reply):
            next_ = self.renewed(exchange.kept, number, reply)
        else:
            self.ways |= {"not confirmed"} if exchange.kept else set()
            next_ = Fault("not-understood", 502, number) if reply.rejected else take(number, reply, self.moment)
        exchange.kept = None
        if tells_state(reply) and not isinstance(next_, Fault) and self.may_watch(exchange):
            self.ways.add("watched")
            watch = Watch(exchange.opening, exchange.meaning, exchange.sending.token, reply.number(OBSERVE), self.moment)
            self.watches.append(watch)
        self.ways |= {"smaller blocks"} if exchange.szx < before else set()
        self.ways |= {"changed" if exchange.changes <= CHANGES else "fourth change"} if exchange.changes > changes else set()
        if isinstance(next_, (Fault, Response)):
            self.end(exchange, next_)
            self.send_next(peer)
            return
        self.send_next(peer)
        if len(link.waiting) >= WAITING:
            self.end(exchange, Fault("busy", 503, None))
        else:
            self.submit(exchange, next_)

    def renewed(self, kept, number, reply):
        """The response as a 2.03 renews it. What it says of itself counts, and a 2.03 before it no more."""
        pieces = kept.numbers[:-1] if kept.is_renewed else kept.numbers
        self.ways |= {"renewed again"} if kept.is_renewed else set()
        form = kept.form if reply.number(FORMAT) is None else reply.number(FORMAT)
        numbers, age = [*pieces, number], reply.number(MAX_AGE)
        return kept._replace(form=form, age=age, numbers=numbers, since=self.moment, asked=[], is_renewed=True)

    def may_watch(self, exchange):
        """Whether a reply that tells a state makes a watch (RFC 7641, section 4.1), where the message has asked for that."""
        return exchange.sending.observes() and exchange.current and len(self.watches) < WATCHES

    def tick(self):
        before, is_due = len(self.entries), False
        self.enter("passed")
        for it in list(self.exchanges):
            if self.moment - it.since >= WAIT:
                self.end(it, Fault("timeout", 504, None))
                is_due = True
        for peer, link in self.links.items():
            it = link.outstanding
            if not it or it.due > self.moment:
                continue
            is_due = True
            if it.copies < COPIES:
                it.copies, it.timeout = it.copies + 1, it.timeout * 2
                self.ways.add("sent again" if it.copies < COPIES else "all copies")
                it.due = self.moment + it.timeout
                self.send(peer, it.raw)
                continue
            link.outstanding = None
            if not it.exchange.is_over and it.exchange.sending is it:
                self.end(it.exchange, Fault("timeout", 504, None))
            self.send_next(peer)
        if self.unwatch(lambda it: self.moment >= self.asked[it.key] + IDLE):
            self.ways.add("idle")
            is_due = True
        if not is_due:
            del self.entries[before:]

    # Ends

    def end(self, exchange, outcome):
        """The exchange ends: who reads it is told, and the store is."""
        exchange.is_over, exchange.awaits = True, False
        self.exchanges.remove(exchange)
        self.forget(exchange)
        for ask in exchange.readers:
            if self.pending.get(ask.conn) is ask:
                cause = outcome
                if isinstance(outcome, Fault) and outcome.number is None:
                    is_sent = exchange.sending and outcome.kind == "timeout"
                    cause = outcome._replace(number=exchange.sending.number if is_sent else ask.number)
                self.answer(ask, cause)
        if exchange.meaning.code != GET:
            self.written(place_of(exchange.meaning))
        elif not exchange.current:
            self.ways.add("renewed and outrun" if isinstance(outcome, Response) and outcome.is_renewed else "outrun")
        elif isinstance(outcome, Response) and outcome.code == CONTENT:
            self.keep_newest(exchange.meaning, outcome)

    def forget(self, exchange):
        """What waits of it is never sent."""
        link = self.links[exchange.meaning.peer]
        self.ways |= {"never sent"} if any(it.exchange is exchange for it in link.waiting) else set()
        link.waiting = [it for it in link.waiting if it.exchange is not exchange]

    def written(self, place):
        """What was read at the place before may have changed."""
        self.ways |= {"written"} if any(it.place == place for it in self.store) else set()
        self.store = [it for it in self.store if it.place != place]
        self.unwatch_place(place)
        for it in self.exchanges:
            it.current = it.current and (it.meaning.code != GET or place_of(it.meaning) != place)

    def unwatch_place(self, place):
        self.ways |= {"watch outrun"} if self.unwatch(lambda it: it.place == place) else set()

    def keep_newest(self, meaning, response):
        """Stores what a GET came to, unless a notification counted after its first piece."""
        if self.counted.get(key_of(meaning), 0) > response.numbers[0]:
            self.ways.add("out of date")
        else:
            self.keep(meaning, response)

    def take_out(self, key):
        """What is stored under the key is out of date."""
        self.store = [it for it in self.store if it.key != key]

    def keep(self, meaning, response):
        """Stores a response, in place of what is stored under its key (section 5.6)."""
        key, lifetime = key_of(meaning), 1000 * (FRESH if response.age is None else response.age)
        self.take_out(key)
        if lifetime:
            self.ways |= {"pushed out"} if len(self.store) == STORED else set()
            self.store = [Pair(key, place_of(meaning), response, lifetime), *self.store][:STORED]

    def fresh(self, key):
        """What is stored under the key, if it is fresh, which is used by that."""
        pair = next((it for it in self.store if it.key == key), None)
        if pair is None or not self.is_fresh(pair):
            self.ways |= {"stale"} if pair else set()
            return None
        self.store = [pair, *(it for it in self.store if it is not pair)]
        return pair

    def stale(self, key):
        """What is stored under the key with a tag, and isn't fresh any more."""
        found = (it.response for it in self.store if it.key == key and it.response.tag and not self.is_fresh(it))
        return next(found, None)

    def is_fresh(self, pair):
        return self.moment < pair.response.since + pair.lifetime

    # Answers

    def answer(self, ask, outcome, grounds="live"):
        self.ways.add(outcome.kind if isinstance(outcome, Fault) else grounds)
        if isinstance(outcome, Response) and outcome.is_renewed:
            self.ways.add("renewed" if grounds == "live" else "renewed kept")
        elif isinstance(outcome, Response) and len(outcome.numbers) > 1:
            is_upload = ask.request.method in ("PUT", "POST")
            self.ways.add("upload" if is_upload else "download" if grounds == "live" else "download kept")
        self.told.append((ask, outcome, grounds))

    def enter_answers(self):
        """The answers of a step, in the order of their asks."""
        self.told = in_turn(self.told)
        for ask, outcome, grounds in self.told:
            self.pending.pop(ask.conn, None)
            if isinstance(outcome, Fault):
                how = f"fault {outcome.kind} {outcome.number}"
            else:
                how = f"{grounds} {','.join(map(str, outcome.numbers))}"
            self.enter(f"answered {ask.conn} {ask.number} {how}")

    def tell(self):
        """The answers go out, each followed by what its connection asks next."""
        told, self.told = self.told, []
        for ask, outcome, _ in told:
            self.put_out(f"bytes {ask.conn} {self.rendered(ask, outcome).hex()}")
            if ask.request.closes:
                self.put_out(f"closed {ask.conn}")
                self.close(ask.conn)
            self.read_on(ask.conn)

    def rendered(self, ask, outcome):
        """An HTTP answer: its status, the fields in their order, and its body."""
        fields, body = [], b""
        if isinstance(outcome, Fault):
            status, phrase = outcome.status, PHRASES[outcome.status]
            fields.append(f"HC-Cause: {outcome.kind} {outcome.number}")
        else:
            body, code = outcome.payload, outcome.code
            status = STATUSES.get(code) or (200 if code == CONTENT else {2: 200 if body else 204, 4: 400, 5: 500}[code >> 5])
            phrase = "CoAP server returned 4.05" if code == 0x85 else PHRASES[status]
            fields = self.fields_of(ask, outcome)
        fields += ["Connection: close"] if ask.request.closes else []
        fields += [f"Content-Length: {len(body)}"] if status != 204 else []
        head = "".join(f"{it}\r\n" for it in [f"HTTP/1.1 {status} {phrase}", *fields, ""])
        return head.encode() + (b"" if ask.request.method == "HEAD" or status == 204 else body)

    def fields_of(self, ask, it):
        fields, form = [], it.form
        if it.payload and (form is not None or it.code >= 0x80 and is_text(it.payload)):
            fields.append(f"Content-Type: {TYPES.get(form or 0) or f'application/coap-payload;cf={form}'}")
        if it.code == CONTENT and ask.request.method in ("GET", "HEAD"):
            left = it.since + 1000 * (FRESH if it.age is None else it.age) - self.moment
            fields.append(f"Cache-Control: max-age={max(left, 0) // 1000}")
            fields += [f'ETag: "{it.tag.hex()}"'] if it.tag else []
        if it.code == 0x41 and (it.location not in ([], [b""]) or it.query):
            fields += [f"Location: {it_}" for it_ in location_of(ask.request.target, it)]
        if it.code == 0xA3 and it.age is not None:
            fields.append(f"Retry-After: {it.age}")
        return fields


def in_turn(told):
    """The answers of a step, in the order of their asks."""
    return sorted(told, key=lambda it: it[0].number)


def is_text(raw):
    try:
        raw.decode()
        return True
    except UnicodeDecodeError:
        return False


def location_of(target, it):
    """Where a POST or PUT has made something, if the gateway can say so."""
    host, peer, _, _ = target_of(target)
    if not all(is_text(value) for value in [*it.location, *it.query]) or any(value in (b".", b"..") for value in it.location):
        return []
    escaped = [escape(value, b"") for value in ([] if it.location == [b""] else it.location)]
    arguments = [escape(value, b"=") for value in it.query]
    port = "" if peer.endswith(":5683") else peer[peer.rindex(":") :]
    name = escape(host.encode(), b"") if host is not None else peer[: peer.rindex(":")].replace("[", "%5B").replace("]", "%5D")
    return [f"/hc/coap://{name}{port}/{'/'.join(escaped)}{'?' if arguments else ''}{'&'.join(arguments)}"]


def escape(value, more):
    plain = set(b"ABCDEFGHIJKLMNOPQRSTUVWXYZabcdefghijklmnopqrstuvwxyz0123456789-._~" + more)
    return "".join(chr(it) if it in plain else f"%{it:02X}" for it in value)


def foretold(script, with_journal):
    """The lines that have to be printed for the lines of a script."""
    gateway = Gateway()
    for line in script:
        if line:
            gateway.give(line)
    return gateway.outputs + (gateway.entries if with_journal else [])


def main(words):
    if words not in ([], ["--journal"]):
        print(__doc__.split("\n\n")[1], file=sys.stderr)
        return 2
    try:
        print("".join(f"{line}\n" for line in foretold(sys.stdin.read().splitlines(), bool(words))), end="")
    except Unknown as unknown:
        print(f"unknown: {unknown}", file=sys.stderr)
        return 4
    return 0


if __name__ == "__main__":
    sys.exit(main(sys.argv[1:]))
