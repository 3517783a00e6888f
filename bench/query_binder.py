"""A plain binder of queries to a schema, in the seven steps of docs/QUERY.md, and the lines that `query_tool` is to print."""
import collections

from query_reader import MOST_BYTES, Refused, read_queries, read_query

# A table's columns are pairs of a name and a kind, `number` or `text`; `key` is a name, or None for a fact table.
Table = collections.namedtuple("Table", "name role key columns")
PLAIN = frozenset(b"abcdefghijklmnopqrstuvwxyzABCDEFGHIJKLMNOPQRSTUVWXYZ0123456789 '")


class Schema:
    """Tables, with the places of their names and of their columns' names."""

    def __init__(self, tables):
        self.tables = tables
        self.places = {table.name: number for number, table in enumerate(tables)}
        self.columns = {
            name: (number, place)
            for number, table in enumerate(tables)
            for place, (name, _) in enumerate(table.columns)
        }

    def kind(self, column):
        return self.tables[column[0]].columns[column[1]][1]

    def is_key(self, column):
        table = self.tables[column[0]]
        return table.role == "dimension" and table.key == table.columns[column[1]][0]


def tables_of(query, schema):
    """Step 1."""
    tables = []
    for word in query.tables:
        if word.value not in schema.places:
            raise Refused("unknown table", word.at)
        if schema.places[word.value] in tables:
            raise Refused("name twice", word.at)
        tables.append(schema.places[word.value])
    return tables


def fact_of(query, schema, tables):
    """Step 2."""
    facts = [number for number, table in enumerate(tables) if schema.tables[table].role == "fact"]
    if len(facts) != 1:
        raise Refused("fact count", query.tables[facts[1] if facts else 0].at)
    return tables[facts[0]]


def check_columns(query, schema, tables):
    """Step 3."""
    words = [word for item in query.items for word in item.words]
    words += [word for condition in query.conditions for word in condition.words] + query.groups
    for word in words:
        if word.value not in schema.columns:
            raise Refused("unknown column", word.at)
        if schema.columns[word.value][0] not in tables:
            raise Refused("not in from", word.at)


def join_of(schema, fact, condition):
    """The number column of the fact table, and the key."""
    for left, right in (condition.words, condition.words[::-1]):
        column, key = schema.columns[left.value], schema.columns[right.value]
        if column[0] == fact and schema.kind(column) == "number" and schema.is_key(key):
            return column, key
    raise Refused("join shape", condition.words[0].at)


def split_conditions(query, schema, fact):
    """Step 4: the joins by their dimension, and the tests."""
    joins, tests = {}, []
    for condition in query.conditions:
        if len(condition.words) == 2:
            column, key = join_of(schema, fact, condition)
            if key[0] in joins:
                raise Refused("join twice", condition.words[0].at)
            joins[key[0]] = column, key
            continue
        column = schema.columns[condition.words[0].value]
        for literal in condition.literals:
            if (literal.kind == "string") != (schema.kind(column) == "text"):
                raise Refused("type mismatch", literal.at)
        tests.append((column, condition))
    return joins, tests


def check_joins(query, tables, fact, joins):
    """Step 5."""
    for word, table in zip(query.tables, tables):
        if table != fact and table not in joins:
            raise Refused("join missing", word.at)


def check_items(query, schema):
    """Step 6: the names of GROUP BY, and the sums' aliases, None where there is none."""
    groups, aliases = [], []
    for word in query.groups:
        if word.value in groups:
            raise Refused("name twice", word.at)
        groups.append(word.value)
    for item in query.items:
        if item.sign is None:
            if item.words[0].value not in groups:
                raise Refused("group mismatch", item.words[0].at)
            continue
        for word in item.words:
            if schema.kind(schema.columns[word.value]) == "text":
                raise Refused("type mismatch", word.at)
        if item.alias is not None and item.alias.value in groups + aliases:
            raise Refused("name twice", item.alias.at)
        aliases.append(item.alias.value if item.alias else None)
    return groups, aliases


def key_of(word, groups, aliases):
    """Step 7, for one key."""
    if word.value in aliases:
        return f"s{aliases.index(word.value)}"
    if word.value in groups:
        return f"g{groups.index(word.value)}"
    raise Refused("order unknown", word.at)


def column_text(column):
    return f"{column[0]}.{column[1]}"


def literal_text(literal):
    if literal.kind == "number":
        return str(literal.value)
    return "'" + "".join(chr(byte) if byte in PLAIN else f"\\{byte:02x}" for byte in literal.value) + "'"


def bound_line(query, schema):
    """The line of a binding."""
    tables = tables_of(query, schema)
    fact = fact_of(query, schema, tables)
    check_columns(query, schema, tables)
    joins, tests = split_conditions(query, schema, fact)
    check_joins(query, tables, fact, joins)
    groups, aliases = check_items(query, schema)
    order = [key_of(word, groups, aliases) + (" desc" if falls else "") for word, falls in query.order]
    sums = [item for item in query.items if item.sign is not None]
    items, seen = [], 0
    for item in query.items:
        items.append(f"g{groups.index(item.words[0].value)}" if item.sign is None else f"s{seen}")
        seen += item.sign is not None
    dimensions = [table for table in tables if table != fact]
    fields = [
        [str(fact)],
        [str(table) for table in dimensions],
        ["=".join(map(column_text, joins[table])) for table in dimensions],
        [f"{column_text(column)} {test.sign} {'&'.join(map(literal_text, test.literals))}" for column, test in tests],
        [column_text(schema.columns[name]) for name in groups],
        [item.sign.join(column_text(schema.columns[word.value]) for word in item.words) for item in sums],
        items,
        order,
    ]
    return "|".join(",".join(field) for field in fields)


def needs_line(query, schema):
    """The line of the tables and columns that a query reads."""
    bound_line(query, schema)
    tables = sorted(tables_of(query, schema))
    words = [word for item in query.items for word in item.words]
    words += [word for condition in query.conditions for word in condition.words] + query.groups
    columns = sorted({schema.columns[word.value] for word in words})
    return ",".join(map(str, tables)) + "|" + ",".join(map(column_text, columns))


def answer(query, schema, line):
    """The line of a query, or why it does not bind."""
    try:
        return line(query, schema)
    except Refused as refused:
        return "{}@{}".format(*refused.args)


def said(text, schema, task):
    """The line of a text for the task: `query`, `queries` or `needs`."""
    if len(text) > MOST_BYTES:
        return "too long"
    try:
        queries = read_queries(text) if task == "queries" else [read_query(text)]
    except Refused as refused:
        return "{}@{}".format(*refused.args)
    answers = [answer(query, schema, needs_line if task == "needs" else bound_line) for query in queries]
    return ";".join([str(len(queries))] + answers) if task == "queries" else answers[0]
