"""What replies are by the rules of docs/FORMATS.md, in plain Python: a second reading of them that shares nothing with the
crates. `python3 model.py ../../crates/wire_cases/data/replies` prints the lines of replies that the program wire_cases must
print."""
import re
import sys

TOKEN = set(b"!#$%&'*+-.^_`|~0123456789ABCDEFGHIJKLMNOPQRSTUVWXYZabcdefghijklmnopqrstuvwxyz")
VALUE = set(range(32, 256)) - {127} | {9}
KEPT = 300000


def line_end(data, at):
    """Where the line end at a place ends: a number, 'short' or 'bad'."""
    if at == len(data):
        return "short"
    if data[at] == 10:
        return at + 1
    if data[at] != 13:
        return "bad"
    if at + 1 == len(data):
        return "short"
    return at + 2 if data[at + 1] == 10 else "bad"


def section(data, at, most):
    """The fields from a place on and where the empty line behind them ends."""
    fields = []
    while True:
        if at == len(data):
            return "short"
        if data[at] in (10, 13):
            end = line_end(data, at)
            return end if isinstance(end, str) else (fields, end)
        start = at
        while at < len(data) and data[at] in TOKEN:
            at += 1
        if at == len(data):
            return "short"
        if at == start or data[at] != 58:
            return "bad"
        name = data[start:at]
        start = at = at + 1
        while at < len(data) and data[at] in VALUE:
            at += 1
        end = line_end(data, at)
        if isinstance(end, str):
            return end
        fields.append((name.decode().lower(), data[start:at].strip(b" \t")))
        if len(fields) > most:
            return "bad"
        at = end


def head(data, at):
    """The status, the fields and the end of the head at a place."""
    while at < len(data) and data[at] in (10, 13):
        end = line_end(data, at)
        if isinstance(end, str):
            return end
        at = end
    for allowed in [b"H", b"T", b"T", b"P", b"/", b"1", b".", b"01", b" ", *[b"0123456789"] * 3]:
        if at == len(data):
            return "short"
        if data[at] not in allowed:
            return "bad"
        at += 1
    status = int(data[at - 3:at])
    if at == len(data):
        return "short"
    if data[at] == 32:
        at += 1
        while at < len(data) and data[at] in VALUE:
            at += 1
    end = line_end(data, at)
    if isinstance(end, str):
        return end
    found = section(data, end, 64)
    return found if isinstance(found, str) else (status, *found)


def chunks(data, at):
    """The data of a body in chunks."""
    out = b""
    while True:
        start = at
        while at < len(data) and data[at] in b"0123456789abcdefABCDEF":
            at += 1
            if at - start > 16:
                return "bad"
        if at == len(data):
            return "short"
        if at == start:
            return "bad"
        size = int(data[start:at], 16)
        while at < len(data) and data[at] in b" \t":
            at += 1
        if at < len(data) and data[at] == 59:
            at += 1
            while at < len(data) and data[at] not in b"\r\n":
                at += 1
        if at == len(data):
            return "short"
        if data[at] != 13:
            return "bad"
        if at + 1 == len(data):
            return "short"
        if data[at + 1] != 10:
            return "bad"
        at += 2
        if size == 0:
            found = section(data, at, 16)
            return found if isinstance(found, str) else out
        if len(data) - at < size:
            return "short"
        out += data[at:at + size]
        at += size
        for wanted in b"\r\n":
            if at == len(data):
                return "short"
            if data[at] != wanted:
                return "bad"
            at += 1


def body(status, fields, data, at):
    """The body behind a head, and whether a framing of its own ends it."""
    def values(name):
        return [v for n, v in fields if n == name]
    codings = values("transfer-encoding")
    lengths = values("content-length")
    if any(v.lower() != b"identity" for v in values("content-encoding")):
        return "bad", True
    if codings and ([v.lower() for v in codings] != [b"chunked"] or lengths):
        return "bad", True
    if lengths:
        first = lengths[0]
        if any(v != first for v in lengths) or not first.isdigit() or len(first) > 18 or (len(first) > 1 and first[:1] == b"0"):
            return "bad", True
    if status in (204, 304):
        return b"", True
    if codings:
        return chunks(data, at), True
    if lengths:
        size = int(lengths[0])
        return (data[at:at + size] if len(data) - at >= size else "short"), True
    return (data[at:] if len(data) < KEPT else "short"), False


def reply(data):
    """Class, status, whether it is framed, and the body."""
    at = 0
    while True:
        found = head(data, at)
        if isinstance(found, str):
            status, content, ends = 0, found, True
            break
        status, fields, at = found
        if not 100 <= status < 200:
            content, ends = body(status, fields, data, at)
            break
    if content == "bad":
        return "bad", status, True, None
    if content == "short":
        return ("too long" if len(data) >= KEPT else "short"), status, False, None
    return "whole", status, ends, content


SHORT = {"n": "\n", "r": "\r", "t": "\t", "\\": "\\", ".": ""}
ESCAPE = re.compile(r"\\(?:x(..)|\{([0-9]+):(.)\}|(.))")


def unescape(text):
    """The bytes of a case: a short escape, a byte by its digits, or one byte so many times."""
    def meant(found):
        digits, times, byte, short = found.groups()
        if digits:
            return chr(int(digits, 16))
        return byte * int(times) if times else SHORT[short]
    return ESCAPE.sub(meant, text).encode("latin-1")


def describe(name, data):
    kind, status, framed, content = reply(data)
    size = "-" if content is None else str(len(content))
    taken = " accepted" if status in (201, 202) else ""
    yield f"{name}: {kind} {status} {'framed' if framed else 'open'}{taken} body {size}"
    if len(data) < KEPT // 2:
        last, steps, final = None, [], "open"
        for at in range(len(data) + 1):
            now = reply(data[:at])
            if now[:2] != last:
                steps.append(f"{at} {now[0]} {now[1]}")
                last = now[:2]
            if now[2] and final == "open":
                final = f"framed at {at}"
        yield f"  cut at: {', '.join(steps)}; {final}"


def main(path):
    for line in open(path, encoding="latin-1").read().split("\n"):
        if line and not line.startswith("// "):
            name, text = line.split(" | ")
            for out in describe(name, unescape(text)):
                print(out)


if __name__ == "__main__":
    main(sys.argv[1])
