"""A plain reader of queries, by the rules of docs/QUERY.md. It shares no code with the program.

The grammar of tokens is a regular expression, of which this makes an automaton. A token is refused if no state is left behind it, since
each state has a way to the end.
"""
import collections
import re

KEYWORDS = "select from where and or between in group order by asc desc sum as".split()
MOST_BYTES = 65_536
SPACES = re.compile(rb"[ \t\r\n]*")
PIECES = re.compile(rb"(?P<word>[A-Za-z_][A-Za-z_0-9]*)|(?P<number>[0-9]+)|(?P<string>')|(?P<symbol><=|>=|[,()*\-=<>;])")
QUOTES = re.compile(rb"'+")

# A name, number, string, keyword or symbol, by its kind; the kind of the last two is their text.
Token = collections.namedtuple("Token", "kind value at")


class Refused(Exception):
    """The cause and the place."""


def string_at(text, at):
    """The content of the string that begins at a place, and the place behind it: the first row of quotes of odd length ends it."""
    for quotes in QUOTES.finditer(text, at + 1):
        if len(quotes.group()) % 2 == 1:
            return text[at + 1 : quotes.end() - 1].replace(b"''", b"'"), quotes.end()
    raise Refused("open string", at)


def number_of(digits, at):
    digits = digits.lstrip(b"0") or b"0"
    if len(digits) > 20 or int(digits) >= 2**64:
        raise Refused("number too large", at)
    return int(digits)


def token_at(text, at):
    """The token that begins at a place, and the place behind it."""
    piece = PIECES.match(text, at)
    if piece is None:
        raise Refused("bad byte", at)
    if piece.lastgroup == "string":
        content, behind = string_at(text, at)
        return Token("string", content, at), behind
    if piece.lastgroup == "number":
        return Token("number", number_of(piece.group(), at), at), piece.end()
    written = piece.group().decode().lower()
    kind = "name" if piece.lastgroup == "word" and written not in KEYWORDS else written
    return Token(kind, written, at), piece.end()


def tokens_of(text):
    """The tokens up to the first that is none, and why it is none."""
    tokens, at = [], SPACES.match(text).end()
    while at < len(text):
        try:
            token, behind = token_at(text, at)
        except Refused as refused:
            return tokens, refused
        tokens.append(token)
        at = SPACES.match(text, behind).end()
    return tokens, None


# Regular expressions: a kind of token, or an operation and its parts.
def in_turn(*parts):
    return "turn", parts


def one_of(*parts):
    return "one", parts


def maybe(*parts):
    return one_of(in_turn(), in_turn(*parts))


def list_of(part, separator):
    return in_turn(part, ("many", (in_turn(separator, part),)))


LITERAL = one_of("number", "string")
NAMES = list_of("name", ",")
PAIR = in_turn("name", maybe(one_of("*", "-"), "name"))
ITEM = one_of("name", in_turn("sum", "(", PAIR, ")", maybe("as", "name")))
SIGN = one_of("=", "<", "<=", ">", ">=")
# `again` is the name of the first condition between the same parentheses.
OTHERS = ("many", (in_turn("or", "again", "=", LITERAL),))
CONDITION = one_of(
    in_turn("name", "=", "name"),
    in_turn("name", SIGN, LITERAL),
    in_turn("name", "between", LITERAL, "and", LITERAL),
    in_turn("name", "in", "(", list_of(LITERAL, ","), ")"),
    in_turn("(", "name", "=", LITERAL, OTHERS, ")"),
)
KEY = in_turn("name", maybe(one_of("asc", "desc")))
BODY = in_turn(
    in_turn("select", list_of(ITEM, ","), "from", NAMES),
    maybe("where", list_of(CONDITION, "and")),
    maybe("group", "by", NAMES),
    maybe("order", "by", list_of(KEY, ",")),
)
QUERY = in_turn(BODY, maybe(";"))
QUERIES = in_turn(list_of(BODY, ";"), maybe(";"))


class Automaton:
    """The states of an expression: state 0 is the start, and a state is entered by a token of its kind."""

    def __init__(self, expression):
        self.kinds, self.behind, self.known = [None], collections.defaultdict(set), {}
        self.ends = frozenset(self.add(expression, {0}))

    def add(self, part, before):
        """Adds a part behind these states, and gives those that it can end in."""
        if isinstance(part, str):
            self.kinds.append(part)
            for state in before:
                self.behind[state].add(len(self.kinds) - 1)
            return {len(self.kinds) - 1}
        operation, parts = part
        if operation == "one":
            return set().union(*(self.add(each, before) for each in parts))
        if operation == "turn":
            for each in parts:
                before = self.add(each, before)
            return before
        earlier = self.firsts(before)
        ends = self.add(parts[0], before)
        again = self.firsts(before) - earlier
        for state in ends:
            self.behind[state] |= again
        return before | ends

    def firsts(self, states):
        return set().union(*(self.behind[state] for state in states))

    def after(self, states, kind):
        """The states behind a token."""
        key = states, kind
        if key not in self.known:
            self.known[key] = frozenset(state for state in self.firsts(states) if self.kinds[state] == kind)
        return self.known[key]


ONE, SEVERAL = Automaton(QUERY), Automaton(QUERIES)


def kinds_of(tokens):
    """The kinds of tokens. A name behind `or` is `again`, or of no kind if it is not the one behind the last parenthesis."""
    first = None
    for number, token in enumerate(tokens):
        before = tokens[number - 1].kind if number else None
        if before == "(":
            first = token.value
        if token.kind == "name" and before == "or":
            yield "again" if token.value == first else "another"
        else:
            yield token.kind


def spelled(text, automaton):
    """The tokens of a text that the automaton accepts."""
    tokens, lexical = tokens_of(text)
    states = frozenset([0])
    for token, kind in zip(tokens, kinds_of(tokens)):
        states = automaton.after(states, kind)
        if not states:
            raise Refused("syntax", token.at)
    if lexical is not None:
        raise lexical
    if not states & automaton.ends:
        raise Refused("syntax", len(text))
    return tokens


Query = collections.namedtuple("Query", "items tables conditions groups order")
# The operands' words, the sign between them (nothing for one operand, None for a plain column), and the alias.
Item = collections.namedtuple("Item", "words sign alias")
# The columns' words: two for a join. Else a sign, or `between` or `in`, and literals.
Condition = collections.namedtuple("Condition", "words sign literals")


def parts_of(tokens, separator):
    """The lists of tokens between separators."""
    parts = [[]]
    for token in tokens:
        if token.kind == separator:
            parts.append([])
        else:
            parts[-1].append(token)
    return parts


def item_of(tokens):
    if tokens[0].kind == "name":
        return Item(tokens, None, None)
    alias = tokens[-1] if tokens[-2].kind == "as" else None
    inner = tokens[2 : len(tokens) - (3 if alias else 1)]
    return Item(inner[::2], inner[1].kind if len(inner) > 1 else "", alias)


def condition_of(tokens):
    names = [token for token in tokens if token.kind == "name"]
    literals = [token for token in tokens if token.kind in ("number", "string")]
    if not literals:
        return Condition(names, "=", [])
    return Condition(names[:1], "in" if tokens[0].kind == "(" else tokens[1].kind, literals)


def conditions_of(tokens):
    """The conditions. An `and` behind the first literal of `between` is no end of one."""
    parts = []
    for part in parts_of(tokens, "and"):
        if parts and parts[-1][1].kind == "between" and len(parts[-1]) == 3:
            parts[-1] += part
        else:
            parts.append(part)
    return [condition_of(part) for part in parts]


def query_of(tokens):
    """The query that accepted tokens spell."""
    clauses = {}
    for token in tokens:
        if token.kind in ("select", "from", "where", "group", "order"):
            clause = clauses[token.kind] = []
        elif token.kind not in ("by", ";"):
            clause.append(token)
    order = parts_of(clauses["order"], ",") if "order" in clauses else []
    return Query(
        [item_of(part) for part in parts_of(clauses["select"], ",")],
        [token for token in clauses["from"] if token.kind == "name"],
        conditions_of(clauses["where"]) if "where" in clauses else [],
        [token for token in clauses.get("group", ()) if token.kind == "name"],
        [(part[0], part[-1].kind == "desc") for part in order],
    )


def read_query(text):
    """The query that a text says. The text has at most MOST_BYTES bytes."""
    return query_of(spelled(text, ONE))


def read_queries(text):
    """The queries that a text says, with `;` between them."""
    return [query_of(part) for part in parts_of(spelled(text, SEVERAL), ";") if part]
