"""The text of a list of tokens, with blanks, line ends and comments between them, and small changes of such a list."""

TIGHT = {"(", ")", ",", ";"}
ODD = ["'", "view", "9223372036854775808", "$", "/*", "*", "-", "sender", "x", "(", ",", ";", "provided"]
COMMENTS = ["/* c */", "/**/", "/* ; endsystem; */", "/* a\nb */", "/* \u00e9 ** / ' */"]


def pieces(lot, tokens):
    """Tokens, each with the gap behind it; two words are always parted."""
    is_dense, end = lot.random() < 0.2, lot.choice(["\n", "\n", "\n", "\r\n"])
    for token, after in zip(tokens, [*tokens[1:], None]):
        may_touch = token in TIGHT or after in TIGHT
        gap = "" if may_touch and (is_dense or after in (",", ";", ")") or token == "(") else " "
        if token == ";":
            gap = " " if is_dense else end + lot.choice(["", "  "])
        if lot.random() < 0.01:
            gap = f" {lot.choice(COMMENTS)}\t"
        yield token + (end if after is None else gap)


def place(parts, at):
    """The line and the column of a token; a column is a byte."""
    *lines, last = "".join(parts[:at]).encode().split(b"\n")
    return f"{len(lines) + 1}:{len(last) + 1}"


def replaced(lot, tokens, start, end, new, told=0):
    """A text with new tokens in place of some, and the place at which one of them stands."""
    parts = list(pieces(lot, [*tokens[:start], *new, *tokens[end:]]))
    return "".join(parts), place(parts, start + told)


def canonical(tokens):
    """The canonical text: a blank between two tokens, and a line end behind each semicolon."""
    lines, line = [], []
    for token in tokens:
        line.append(token)
        if token == ";":
            lines.append(" ".join(line) + "\n")
            line = []
    return "".join(lines)


def changed(lot, tokens):
    """The tokens with one of them dropped, doubled, exchanged with another or replaced by one."""
    tokens = list(tokens)
    for _ in range(lot.choice([1, 1, 1, 2, 3])):
        at, other = lot.randrange(len(tokens)), lot.randrange(len(tokens))
        kind = lot.choice(["drop", "double", "exchange", "next", "replace"])
        if kind == "drop":
            del tokens[at]
        elif kind == "double":
            tokens.insert(at, tokens[at])
        elif kind == "exchange":
            tokens[at], tokens[other] = tokens[other], tokens[at]
        elif kind == "next":
            tokens[at : at + 2] = tokens[at : at + 2][::-1]
        else:
            tokens[at] = lot.choice([tokens[other], *ODD])
    return tokens
