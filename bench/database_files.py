"""A plain writer of a database's other files, by the rules of docs/FORMATS.md: now files and dictionaries. It shares no code with
the program."""
import struct

from column_files import column_file, words


def now_file(rows, slot="a"):
    """The now file of a table whose rows stand in a slot."""
    return b"MNOW" + slot.encode() + words([rows])


def entry(text):
    """A text in a dictionary file: its length, and its bytes."""
    return struct.pack("<I", len(text)) + text


def dictionary_file(texts, count=None):
    """The file of texts in this order, with another count in its head if one is given."""
    return b"MDIC\1\0\0\0" + words([len(texts) if count is None else count]) + b"".join(map(entry, texts))


def text_column(texts):
    """The codes of texts, and the distinct ones in the order of their bytes."""
    distinct = sorted(set(texts))
    codes = {text: code for code, text in enumerate(distinct)}
    return [codes[text] for text in texts], distinct


def table_files(name, rows, columns, version=2, slot="a"):
    """The files of a table: each column has a format, and its numbers or its texts as bytes."""
    files = {f"{name}.now": now_file(rows, slot)}
    for column, (form, values) in columns.items():
        if values and isinstance(values[0], bytes):
            values, texts = text_column(values)
            files[f"{name}.{slot}.{column}.dic"] = dictionary_file(texts)
        files[f"{name}.{slot}.{column}.col"] = column_file(form, version, values)
    return files
