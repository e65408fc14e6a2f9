"""explain.py: reads a script on standard input, and says why its first bad line is bad.

The program says of a bad script only `vfdev: line N: bad script`. This says the reason, by the same rules, those of docs/SCRIPT.md:
`./vfdev --explain <SCRIPT`. It writes one line on standard output, `line N: REASON` or `the script is good: ..`, and ends with status 1 or 0;
with 2 where standard input can't be read. It proves nothing and the program doesn't use it. launcher/test compares both.
"""
import re
import sys

MOST_LINE, MOST_LINES, MOST_EVENTS = 40_000, 100_000, 60_000
MOST_WRITE, MOST_FRAME = 2048, 9018
# The events, with the words that follow each.
EVENTS = {"open": "P", "end": "P", "flr": "P", "r": "P OFF", "w": "P OFF VAL", "mr": "P ADDR LEN", "mw": "P ADDR BYTES",
          "serve": "P Q", "pr": "OFF", "pw": "OFF VAL", "preset": "", "wire": "BYTES"}
# The most of each number.
MOST = {"P": 0xFF, "OFF": 2**32 - 1, "VAL": 2**32 - 1, "ADDR": 2**64 - 1, "LEN": 0xFFFF, "Q": 1}
WHAT = {"P": "the number P of a function", "OFF": "the offset OFF", "VAL": "the value VAL", "ADDR": "the address ADDR",
        "LEN": "the length LEN", "Q": "the queue Q"}
HEX = re.compile(r"[0-9a-fA-F]*$")


class Bad(Exception):
    """Why a line is bad."""


def shown(word):
    """A word as a line of text can have it, and not too long."""
    text = word if len(word) <= 24 else word[:20] + ".."
    return "'" + "".join(c if " " <= c <= "~" else f"\\x{ord(c):02x}" for c in text) + "'"


def number(word, what):
    """The number that a word writes."""
    if word.startswith("0X"):
        raise Bad(f"{what} is {shown(word)}: the x of 0x has to be small")
    if word.startswith("0x"):
        digits = word[2:]
        if not digits or not HEX.match(digits):
            raise Bad(f"{what} is {shown(word)}: after 0x come 1 to 16 hexadecimal digits and nothing else")
        if len(digits) > 16:
            raise Bad(f"{what} is {shown(word)}: after 0x come 16 hexadecimal digits at most")
        return int(digits, 16)
    if not re.match(r"[0-9]+$", word):
        hint = "; a hexadecimal number begins with 0x" if re.match(r"[0-9a-fA-F]+$", word) else ""
        raise Bad(f"{what} is {shown(word)}, which is no number{hint}")
    value = decimal(word)
    if value >= 2**64:
        raise Bad(f"{what} is {shown(word)}: numbers are below 2^64")
    return value


def decimal(digits):
    """The value of decimal digits; those that are too many for a number are 2^64."""
    digits = digits.lstrip("0") or "0"
    return int(digits) if len(digits) <= 20 else 2**64


def at_most(word, name):
    value = number(word, WHAT[name])
    if value > MOST[name]:
        raise Bad(f"{WHAT[name]} is {shown(word)}, and {MOST[name]} is the most" + ("; the queues are 0 and 1" if name == "Q" else ""))
    return value


def chunk(text):
    """The bytes of a chunk."""
    if not text:
        raise Bad("a part of the bytes is empty: between two dots, before the first or after the last")
    if text[2:3] == "*":
        if not HEX.match(text[:2]):
            raise Bad(f"{shown(text)}: two hexadecimal digits come before *")
        count = decimal(text[3:]) if re.match(r"[0-9]+$", text[3:]) else 0
        if not 1 <= count <= MOST_FRAME:
            raise Bad(f"{shown(text)}: after * comes a decimal count of 1 to {MOST_FRAME}")
        return bytes([int(text[:2], 16)]) * count
    if text.startswith(("0x", "0X")):
        raise Bad(f"{shown(text)}: bytes are written without 0x")
    if not HEX.match(text):
        raise Bad(f"{shown(text)} has something other than hexadecimal digits; parts are joined by dots, and a part is digits, or two digits, "
                  "* and a count")
    if len(text) % 2:
        raise Bad(f"{shown(text)} has {len(text)} hexadecimal digits, an odd number: each byte has two")
    return bytes.fromhex(text)


def bytes_of(word):
    return b"" if word == "-" else b"".join(chunk(text) for text in word.split("."))


def frame(word, limit):
    data = bytes_of(word)
    if len(data) < 14:
        raise Bad(f"the frame is too short: it has {len(data)} bytes, and 14 are the least (two addresses and a type, no FCS)")
    if len(data) > limit:
        raise Bad(f"the frame is too long: it has {len(data)} bytes, and this device takes {limit} at most; "
                  f"'vfs N SIZE LEN' sets LEN, up to {MOST_FRAME}")
    if data[12:14] == b"\x81\x00" and len(data) < 18:
        raise Bad(f"the frame is too short: it has a VLAN tag (bytes 12 and 13 are 8100) and {len(data)} bytes, and 18 are the least of such a one")


def by_form(name, form, words):
    """The words after a name are as many as its form has."""
    names = form.split()
    if len(words) != len(names):
        trailing = "; a comment has a line of its own" if any(word.startswith("#") for word in words) else ""
        raise Bad(f"the line has to be '{' '.join([name, *names])}', and has {len(words)} words after {name}{trailing}")
    return zip(names, words)


def event(name, words, limit):
    for what, word in by_form(name, EVENTS[name], words):
        if what != "BYTES":
            at_most(word, what)
        elif name == "wire":
            frame(word, limit)
        elif len(bytes_of(word)) > MOST_WRITE:
            raise Bad(f"{len(bytes_of(word))} bytes are written at once, and {MOST_WRITE} are the most")


class Script:
    """What the lines so far have said."""

    def __init__(self):
        self.limit, self.functions, self.has_go, self.events = None, 0, False, 0

    def device(self, words):
        if len(words) not in (2, 3):
            by_form("vfs", "N SIZE" if len(words) < 2 else "N SIZE LEN", words)
        functions = number(words[0], "the number N of functions")
        if not 1 <= functions <= 64:
            raise Bad(f"the number N of functions is {shown(words[0])}, and has to be 1 to 64")
        size = number(words[1], "the size SIZE of a memory")
        if not 4096 <= size <= 16777216 or size % 128:
            raise Bad(f"the size SIZE of a memory is {shown(words[1])}, and has to be 4096 to 16777216 and a multiple of 128")
        limit = number(words[2], "the longest frame LEN") if len(words) == 3 else 1518
        if not 1518 <= limit <= MOST_FRAME:
            raise Bad(f"the longest frame LEN is {shown(words[2])}, and has to be 1518 to {MOST_FRAME}")
        self.limit, self.functions = limit, functions

    def unknown(self, name):
        if name == "vfs":
            return "a second line vfs: a script describes one device"
        if name == "go":
            return "a second line go: a script has one at most"
        if name.lower() in {*EVENTS, "vfs", "go"}:
            return f"{shown(name)} has upper case: names are in lower case, here '{name.lower()}'; hexadecimal digits may be of either case"
        return f"there is no event {shown(name)}; there are {', '.join(EVENTS)}"

    def words(self, name, words):
        if self.limit is None:
            if name != "vfs":
                why = self.unknown(name) if name.lower() == "vfs" else ""
                raise Bad(why or f"the first line that is no comment has to be 'vfs N SIZE' or 'vfs N SIZE LEN', and begins with {shown(name)}")
            self.device(words)
        elif name == "go" and not self.has_go:
            by_form("go", "", words)
            self.has_go = True
        elif self.events == MOST_EVENTS:
            raise Bad(f"it is event {MOST_EVENTS + 1}, and a script has {MOST_EVENTS} at most")
        elif name not in EVENTS:
            raise Bad(self.unknown(name))
        else:
            event(name, words, self.limit)
            self.events += 1

    def line(self, text, number_of_it):
        if number_of_it > MOST_LINES:
            raise Bad(f"a script has {MOST_LINES} lines at most")
        if len(text) > MOST_LINE:
            raise Bad(f"the line has more than {MOST_LINE} bytes")
        if text.startswith("#"):
            return
        words = [word for word in text.split(" ") if word]
        if words:
            try:
                self.words(words[0], words[1:])
            except Bad as why:
                raise Bad(characters(text) or str(why)) from why


def characters(text):
    """What is wrong with the characters of a line that is bad, which explains the rest."""
    if text.startswith(("\xef\xbb\xbf", "\xff\xfe", "\xfe\xff")):
        return "the line begins with a byte order mark: save the script as plain ASCII"
    if text.endswith("\r"):
        return "the line ends with CR LF: lines end with LF alone (tr -d '\\r' <OLD >NEW mends it)"
    if "\t" in text:
        return "the line has a tab: words are parted by spaces"
    if "\0" in text:
        return "the line has a byte 0: a script is ASCII text"
    if re.search(r"[^ -~]", text):
        return "the line has a character that is not ASCII, or a control character"
    if re.match(r" +#", text):
        return "a comment begins with # as the first character of its line, and spaces stand before this one"
    if " #" in text:
        return "a comment stands behind other words: a comment has a line of its own, which begins with #"
    return None


def explain(source):
    """The status, and the line that says why."""
    script, count = Script(), 0
    while True:
        line = source.readline(MOST_LINE + 2)
        if not line:
            break
        count += 1
        text = line.decode("latin-1")
        try:
            script.line(text[:-1] if text.endswith("\n") else text, count)
        except Bad as why:
            return 1, f"line {count}: {why}"
    if script.limit is None:
        return 1, "line 1: no line describes the device: 'vfs N SIZE' has to come first"
    return 0, f"the script is good: {script.functions} functions, {script.events} events"


def main():
    try:
        status, said = explain(sys.stdin.buffer)
    except (OSError, AttributeError) as why:
        print(f"vfdev: the script can't be read: {why}", file=sys.stderr)
        return 2
    print(said)
    return status


if __name__ == "__main__":
    sys.exit(main())
