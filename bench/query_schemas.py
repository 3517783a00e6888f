"""Schemas that bench/fuzz_query makes queries over."""
from query_binder import Schema, Table


def table(name, role, key, columns):
    return Table(name, role, key, [(each.lstrip("'"), "text" if each.startswith("'") else "number") for each in columns.split()])


def large():
    """64 tables of 256 columns, four of them fact tables, with names that differ late."""
    tables = []
    for number in range(64):
        columns = [(f"column_{number}_{place}", "text" if place % 5 == 3 else "number") for place in range(256)]
        fact = number in (0, 1, 31, 63)
        tables.append(Table(f"table_{number}", "fact" if fact else "dimension", None if fact else columns[number * 4 // 5 * 5][0], columns))
    return Schema(tables)


SCHEMAS = (
    Schema(
        [
            table("lineorder", "fact", None, "lo_orderdate lo_quantity lo_discount lo_extendedprice lo_custkey 'lo_shipmode"),
            table("date", "dimension", "d_datekey", "d_datekey d_year 'd_month"),
            table("customer", "dimension", "c_custkey", "'c_nation c_custkey 'c_region"),
            table("returns", "fact", None, "r_date r_amount 'r_cause"),
        ]
    ),
    Schema([table("t", "fact", None, "a")]),
    # Tables named as columns are, names that begin alike, and the longest name.
    Schema(
        [
            table("a", "dimension", "aa", "aa a_ 'a"),
            table("aa", "dimension", "t", "t 'tt"),
            table("a_", "fact", None, "b b_ b0 " + "m" * 31),
            table("x", "dimension", "x", "x 'x0"),
        ]
    ),
    Schema([table("p", "dimension", "k", "k 'v"), table("q", "dimension", "l", "l w")]),
    Schema([table("f", "fact", None, "'only 'texts"), table("g", "dimension", "h", "h 'i"), table("j", "fact", None, "n 'o")]),
    large(),
)


def schema_text(schema):
    """The schema's file."""
    lines = []
    for each in schema.tables:
        key = f'key = "{each.key}"\n' if each.key else ""
        columns = "".join(f'  {{ name = "{name}", kind = "{kind}" }},\n' for name, kind in each.columns)
        lines.append(f'[[table]]\nname = "{each.name}"\nrole = "{each.role}"\n{key}column = [\n{columns}]\n')
    return "\n".join(lines).encode()
