"""Rule tables from the house's text notation, for examples and test cases.

Not proved: a convenience. What it writes is judged by the proved check like any other bytes.
docs/FORMAT.md has the layout.
"""
import re
import struct

KINDS = {"count": 0, "sum": 1, "min": 2, "max": 3}
RELATIONS = ["<", "<=", "=", "!=", ">=", ">"]
TOKEN = re.compile(r"\s*(?:(:-(?!\d))|([a-z][A-Za-z0-9_]*)|(-?\d+)|(<=|>=|!=|<|>|=)|([|,.{}:])|(%[^\n]*))")


def tokens(text):
    place, found = 0, []
    text = text.rstrip()
    while place < len(text):
        match = TOKEN.match(text, place)
        if not match:
            raise ValueError("cannot read: " + text[place:place + 30])
        place = match.end()
        if not match.group(6):
            found.append(match.group().strip())
    return found


class Reader:
    def __init__(self, text):
        self.tokens, self.place, self.names = tokens(text), 0, []

    def peek(self):
        return self.tokens[self.place] if self.place < len(self.tokens) else None

    def take(self, wanted=None):
        token = self.peek()
        if token is None or (wanted is not None and token != wanted):
            raise ValueError("wanted %s, found %s" % (wanted, token))
        self.place += 1
        return token

    def statement(self):
        name = self.take()
        if name not in self.names:
            self.names.append(name)
        return self.names.index(name)

    def aggregate(self):
        word = self.take()
        kind = KINDS[word] if word in KINDS else int(word[4:])
        self.take("{")
        members = []
        while self.peek() != "}":
            statement = self.statement()
            self.take(":")
            members.append((statement, int(self.take())))
            if self.peek() == ",":
                self.take()
        self.take("}")
        relation = RELATIONS.index(self.take())
        return (kind, relation, int(self.take()), members)

    def rule(self):
        head, positive, negative, aggregates = [], [], [], []
        while self.peek() not in (":-", "."):
            head.append(self.statement())
            if self.peek() == "|":
                self.take()
        if self.peek() == ":-":
            self.take()
            while self.peek() != ".":
                following = self.tokens[self.place + 1]
                if self.peek() == "not":
                    self.take()
                    negative.append(self.statement())
                elif following == "{":
                    aggregates.append(self.aggregate())
                else:
                    positive.append(self.statement())
                if self.peek() == ",":
                    self.take()
        self.take(".")
        return (head, positive, negative, aggregates)


def read(text):
    reader, rules = Reader(text), []
    while reader.peek() is not None:
        rules.append(reader.rule())
    return reader.names, rules


def table(names, rules):
    """The bytes of the table with these statements and rules."""
    statements, letters = b"", b""
    for name in names:
        name = name.encode() if isinstance(name, str) else name
        statements += struct.pack("<HBB", len(letters), len(name), 0)
        letters += name
    records, literals, sets, members = b"", b"", b"", b""
    for head, positive, negative, aggregates in rules:
        records += struct.pack("<4B2H", len(head), len(positive), len(negative), len(aggregates), len(literals), len(sets) // 12)
        literals += bytes(head + positive + negative)
        for kind, relation, bound, weighed in aggregates:
            sets += struct.pack("<4B2Hi", kind, relation, len(weighed), 0, len(members) // 8, 0, bound)
            for statement, weight in weighed:
                members += struct.pack("<Bxxxi", statement, weight)
    place, fields = 28, b""
    for area, size in [(statements, 4), (records, 8), (literals, 1), (sets, 12), (members, 8), (letters, 1)]:
        fields += struct.pack("<HH", len(area) // size, place)
        place += len(area)
    return struct.pack("<HH", 1, place) + fields + statements + records + literals + sets + members + letters


def assemble(text):
    return table(*read(text))


def hexed(data):
    """Hexadecimal words, with runs of one byte or of eight equal bytes shortened."""
    words, place, plain = [], 0, ""
    while place < len(data):
        for unit in (1, 8):
            times, piece = 1, data[place:place + unit]
            while data[place + times * unit:place + (times + 1) * unit] == piece:
                times += 1
            if times * unit >= 24:
                break
        else:
            plain += data[place:place + 1].hex()
            place += 1
            continue
        if plain:
            words.append(plain)
            plain = ""
        words.append("%s*%d" % (piece.hex(), times))
        place += times * unit
    if plain:
        words.append(plain)
    return " ".join(words)
