"""A table between two marks of a document, which a script of this folder makes."""

END = "<!-- its end -->"


def keep(path, begin, table, is_written):
    """Whether the table stands between its marks in a document; where it is to be written, it is written first."""
    with open(path, encoding="utf-8") as file:
        front, rest = file.read().split(begin + "\n", 1)
    old, behind = rest.split(END, 1)
    if is_written:
        with open(path, "w", encoding="utf-8") as file:
            file.write(front + begin + "\n" + table + END + behind)
    return is_written or old == table
