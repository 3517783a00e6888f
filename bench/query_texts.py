"""Texts of queries over a schema: some that bind, and more that are wrong in one way or several."""
import re

LIMITS = ("0", "1", "007", str(2**63), str(2**64 - 1), "0" * 30 + str(2**64 - 1), str(2**64), "9" * 20, "1" + "0" * 40)
STRINGS = (b"''", b"'ASIA'", b"'it''s'", b"''''", b"'a''''b'", b"'\x00'", b"'\xff\xc3\xa9'", b"'a\n&,|;b'", b"'select'", b"'\\'", b"'Rome, Italy'")
OPEN = (b"'", b"'a", b"'''", b"'a''b''")
OTHERS = (
    [word.encode() for word in "select from where and or between in group order by asc desc sum as".split()]
    + [b",", b"(", b")", b"*", b"-", b"=", b"<", b">", b"<=", b">=", b";", b"x", b"1", b"'s'"]
    + [b"!", b".", b'"', b"\x00", b"\xe9", b"\x0b", b"+", b"<>", b"/", b"#"]
)
GAPS = (b" ", b" ", b" ", b"\n", b"\t", b"  ", b"\r\n", b" \t \n ")
INNER = re.compile(rb"[A-Za-z0-9_]")


class Parts:
    """A query in parts, each a list of entries, which are lists of tokens."""

    def __init__(self):
        self.items, self.tables, self.conditions, self.groups, self.order = [], [], [], [], []

    def all(self):
        return self.items, self.tables, self.conditions, self.groups, self.order

    def tokens(self):
        found = []
        heads = (["select"], ["from"], ["where"], ["group", "by"], ["order", "by"])
        for head, part in zip(heads, self.all()):
            if part:
                found += [word.encode() for word in head]
                separator = b"and" if head == ["where"] else b","
                for number, entry in enumerate(part):
                    found += ([separator] if number else []) + entry
        return found


class Maker:
    """Makes queries over a schema."""

    def __init__(self, chance, schema):
        self.chance, self.schema = chance, schema
        self.names = [name.encode() for name in list(schema.columns) + list(schema.places)]
        self.known = frozenset(self.names)
        self.of_role = {role: [each for each in schema.tables if each.role == role] for role in ("fact", "dimension")}

    def few(self, most):
        """A number from 0 on, mostly a small one."""
        return min(most, int(self.chance.expovariate(0.9)))

    def column(self, tables, kind=None):
        """The name of a column of one of the tables, of a kind if there is one."""
        for _ in range(20):
            name, found = self.chance.choice(self.chance.choice(tables).columns)
            if kind in (None, found):
                break
        return name.encode()

    def literal(self, kind):
        if kind == "text":
            return self.chance.choice(STRINGS)
        return (self.chance.choice(LIMITS[:6]) if self.chance.random() < 0.2 else str(self.chance.randrange(3000))).encode()

    def join(self, fact, dimension):
        sides = [[self.column([fact], "number")], [dimension.key.encode()]]
        self.chance.shuffle(sides)
        return sides[0] + [b"="] + sides[1]

    def test(self, tables):
        name = self.column(tables)
        kind = self.schema.kind(self.schema.columns[name.decode()])
        form = self.chance.randrange(8)
        if form == 5:
            return [name, b"between", self.literal(kind), b"and", self.literal(kind)]
        if form in (6, 7):
            many = 1 + self.few(6)
            begin, between = ([name, b"in", b"("], [b","]) if form == 6 else ([b"(", name, b"="], [b"or", name, b"="])
            for number in range(many):
                begin += (between if number else []) + [self.literal(kind)]
            return begin + [b")"]
        return [name, (b"=", b"<", b"<=", b">", b">=")[form], self.literal(kind)]

    def sum(self, tables, aliases):
        item = [b"sum", b"(", self.column(tables, "number")]
        if self.chance.random() < 0.5:
            item += [self.chance.choice((b"*", b"-")), self.column(tables, "number")]
        item.append(b")")
        alias = self.chance.choice((b"total", b"profit", b"x1", b"_", b"q", self.chance.choice(self.names)))
        if self.chance.random() < 0.5 and alias not in aliases:
            aliases.append(alias)
            item += [b"as", alias]
        return item

    def parts(self):
        """A query that binds, if the schema has what it needs."""
        chance, made = self.chance, Parts()
        facts = [chance.choice(self.of_role["fact"])] if self.of_role["fact"] else []
        most = len(self.of_role["dimension"]) if chance.random() < 0.02 else 3
        others = chance.sample(self.of_role["dimension"], min(self.few(most) if most == 3 else most, len(self.of_role["dimension"])))
        tables = facts + others or self.schema.tables[:1]
        chance.shuffle(tables)
        made.tables = [[each.name.encode()] for each in tables]
        made.conditions = [self.join(facts[0], each) for each in others if facts]
        made.conditions += [self.test(tables) for _ in range(self.few(5))]
        chance.shuffle(made.conditions)
        groups = list(dict.fromkeys(self.column(tables) for _ in range(self.few(4))))
        aliases = list(groups)
        made.groups = [[name] for name in groups]
        made.items = [[chance.choice(groups)] for _ in range(self.few(4)) if groups]
        made.items += [self.sum(tables, aliases) for _ in range(self.few(3) + (not made.items))]
        chance.shuffle(made.items)
        made.order = [[chance.choice(aliases)] + chance.choice(([], [b"asc"], [b"desc"])) for _ in range(self.few(3)) if aliases]
        return made

    def slip(self, made):
        """Makes one mistake of meaning, perhaps."""
        chance = self.chance
        tables = [self.schema.tables[self.schema.places[name.decode()]] for (name,) in made.tables]
        parts = [each for each in made.all() if each]
        part = made.conditions if made.conditions and chance.random() < 0.4 else chance.choice(parts)
        place = chance.randrange(len(part))
        way = chance.randrange(8)
        if way == 0:
            part.insert(chance.randrange(len(part) + 1), list(part[place]))
        elif way == 1 and len(part) > 1:
            del part[place]
        elif way == 2:
            made.tables[chance.randrange(len(made.tables))] = [chance.choice(self.schema.tables).name.encode()]
        elif way == 3:
            made.order.append([self.column(tables)])
        elif way == 4:
            column = self.column(tables)
            made.items.insert(0, chance.choice(([column], [b"sum", b"(", column, b")"])))
        elif part is not made.tables:
            self.slip_in(part[place], tables)

    def slip_in(self, entry, tables):
        """Puts another name or literal into an entry."""
        chance = self.chance
        at = chance.choice([place for place, token in enumerate(entry) if token in self.known or token[:1] in b"'0123456789"] or [0])
        if entry[at] not in self.known:
            entry[at] = self.literal(chance.choice(("number", "text")))
        elif chance.random() < 0.8:
            entry[at] = self.column(tables)
        else:
            entry[at] = chance.choice((b"unknown", chance.choice(self.names)))

    def mutate(self, tokens):
        """Changes the tokens in one way."""
        chance, place = self.chance, self.chance.randrange(len(tokens))
        other = chance.randrange(len(tokens))
        way = chance.randrange(9)
        if way == 0:
            del tokens[place]
        elif way == 1:
            tokens.insert(place, tokens[place])
        elif way == 2:
            tokens[place], tokens[place - 1] = tokens[place - 1], tokens[place]
        elif way == 3:
            tokens[place], tokens[other] = tokens[other], tokens[place]
        elif way == 4:
            tokens[place] = chance.choice(OTHERS)
        elif way == 5:
            tokens.insert(place, chance.choice(OTHERS))
        elif way == 6:
            del tokens[place:]
        elif way == 7:
            tokens[place] = chance.choice(LIMITS).encode() if chance.random() < 0.7 else chance.choice(OPEN)
        else:
            names = [number for number, token in enumerate(tokens) if token in self.known] or [place]
            one, two = chance.choice(names), chance.choice(names)
            tokens[one], tokens[two] = tokens[two], tokens[one]
        if not tokens:
            tokens.append(b";")

    def written(self, tokens):
        """The tokens as a text. Without a gap, some become other tokens."""
        chance, dense, text = self.chance, self.chance.random() < 0.3, bytearray()
        for token in tokens:
            last = text[-1:]
            fuse = INNER.match(last) and INNER.match(token) or last + token[:1] in (b"<=", b">=", b"''")
            if chance.random() < (0.002 if fuse else 0.7 if dense else 0.1):
                pass
            elif text or chance.random() < 0.1:
                text += chance.choice(GAPS)
            text += token.upper() if token[:1] != b"'" and chance.random() < 0.05 else token
        return bytes(text) + (chance.choice(GAPS) if chance.random() < 0.1 else b"")

    def harm(self, text):
        """Changes bytes of a text."""
        chance, data = self.chance, bytearray(text)
        for _ in range(1 + self.few(3)):
            place = chance.randrange(len(data) + 1)
            byte = chance.choice((chance.randrange(256), ord("'"), ord(" "), chance.choice(b"();,=<>*-09az_AZ")))
            way = chance.randrange(3)
            if way == 0:
                data.insert(place, byte)
            else:
                data[place : place + 1] = bytes([byte]) if way == 1 else b""
        return bytes(data)

    def text(self, several):
        """A text of one query, or of several: half of them without an error of grammar that is meant."""
        chance, tokens = self.chance, []
        for number in range(1 + (self.few(3) if several else 0)):
            made = self.parts()
            for _ in range(1 + self.few(2) if chance.random() < 0.5 else 0):
                self.slip(made)
            tokens += ([b";"] if number else []) + made.tokens()
        if chance.random() < 0.2:
            tokens.append(b";")
        if chance.random() < 0.35:
            for _ in range(1 + self.few(2)):
                self.mutate(tokens)
        text = self.written(tokens)
        return self.harm(text) if chance.random() < 0.1 else text


def filled(head, piece, tail, size):
    """A text of a size: as many pieces as fit, and spaces."""
    text = head + piece * ((size - len(head) - len(tail)) // len(piece)) + tail
    return text + b" " * (size - len(text))


def hostile(schema):
    """Texts of the largest size, and of one byte more."""
    fact = next((each for each in schema.tables if each.role == "fact"), schema.tables[0])
    name, column = fact.name.encode(), fact.columns[0][0].encode()
    query = b"select sum(" + column + b") from " + name
    grouped = b"select " + column + b" from " + name + b" group by " + column
    ways = [(b"", piece, b"") for piece in (b" ", b"(", b"'", b"''", b"1", b"0", b"a", b",", b";", b"\x00", b"\xff", b"select ", b"<", b"-")]
    ways += [
        (query, b" ", b""),
        (b"", b" ", query),
        (query, b";", b""),
        (b"", grouped + b";", b""),
        (b"", b"select a from b;", b""),
        (b"select ", column + b",", column + b" from " + name + b" group by " + column),
        (b"select ", b"sum(" + column + b"*" + column + b"),", b"sum(" + column + b") from " + name),
        (query, b"," + name, b""),
        (query + b" where " + column + b"=1", b" and " + column + b"=1", b""),
        (query + b" where " + column + b" in(1", b",2", b")"),
        (query + b" where (" + column + b"=1", b" or " + column + b"=1", b")"),
        (query + b" where (" + column + b"=1", b" or " + column + b"=1", b" or b=1)"),
        (query + b" where " + column + b"='", b"''", b"'"),
        (query + b" where " + column + b"='", b"\x80\n", b"'"),
        (query + b" where " + column + b"=", b"0", b"1"),
        (query + b" group by " + column, b"," + column, b""),
        (grouped + b" order by " + column, b"," + column + b" desc", b""),
        (query + b" where ", b"(", b""),
    ]
    return [filled(*way, size) for way in ways for size in (65_536, 65_537)]
