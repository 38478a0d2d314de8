"""Expansions of URI templates as RFC 6570 section 3 writes them, for tests/compared/compare: a model that is read beside the standard, and
shares nothing with the program. Templates are such as the program takes."""
import re

# Section 3.2.1 and its table: what stands first, between two values, whether names are written and with what where the value is empty,
# and whether reserved characters and percent-encoded octets stay.
OPERATORS = {"": ("", ",", False, "", False), "+": ("", ",", False, "", True), "#": ("#", ",", False, "", True),
             ".": (".", ".", False, "", False), "/": ("/", "/", False, "", False), ";": (";", ";", True, "", False),
             "?": ("?", "&", True, "=", False), "&": ("&", "&", True, "=", False)}
UNRESERVED = "ABCDEFGHIJKLMNOPQRSTUVWXYZabcdefghijklmnopqrstuvwxyz0123456789-._~"
RESERVED = ":/?#[]@!$&'()*+,;="
# RFC 3987 section 2.2, iprivate.
PRIVATE = "[\ue000-\uf8ff\U000f0000-\U000ffffd\U00100000-\U0010fffd]"


def character_of(text, at):
    """The percent-encoded octets at a place that spell one character, or the first of them where they spell none; or nothing."""
    run = re.compile("(?:%[0-9A-Fa-f]{2})+").match(text, at)
    for count in range(1, 5) if run else ():
        try:
            if len(bytes.fromhex(text[at:at + 3 * count].replace("%", "")).decode()) == 1:
                return text[at:at + 3 * count]
        except ValueError:
            continue
    return run and text[at:at + 3]


def units(text, stay):
    """The characters that a prefix modifier counts (section 2.4.1): where octets stay, those that spell a character are one."""
    at, found = 0, []
    while at < len(text):
        found.append(stay and character_of(text, at) or text[at])
        at += len(found[-1])
    return found


def encoded(text, stay, grammar, length=None):
    """A value's characters. For IRIs those of private use stay as reserved ones do, and the others past ASCII have one canonical text."""
    kept = UNRESERVED + RESERVED * stay
    private = PRIVATE if stay and grammar == "iri" else "(?!)"
    return "".join(unit if len(unit) > 1 or unit in kept or re.fullmatch(private, unit) else "".join(f"%{octet:02X}" for octet in unit.encode())
                   for unit in units(text, stay)[:length])


def named(name, text, empty):
    return name + "=" + text if text else name + empty


def of_value(spec, value, operator, grammar):
    """What a varspec writes; nothing where its value is undefined (section 3.2.1)."""
    name, explode, length = re.fullmatch(r"([^:*]+)(\*?)(?::(\d+))?", spec).groups()
    _, separator, names, empty, stay = OPERATORS[operator]
    kind, texts = value
    parts = [encoded(text, stay, grammar, int(length) if length else None) for text in texts]
    if kind != "string" and not parts:
        return None
    if kind == "string" or not explode:
        return named(name, ",".join(parts), empty) if names else ",".join(parts)
    if kind == "pairs":
        return separator.join(key + "=" + text for key, text in zip(parts[::2], parts[1::2]))
    return separator.join(name + "=" + text if names else text for text in parts)


def expansion(template, values, grammar):
    """The expansion of a template for URIs or IRIs, where `values` has a kind (string, list, pairs) and texts for each name that is defined."""
    def expand(match):
        operator, specs = re.fullmatch(r"([+#./;?&]?)(.*)", match.group(1)).groups()
        found = [of_value(spec, values[re.sub("[:*].*", "", spec)], operator, grammar) for spec in specs.split(",")
                 if re.sub("[:*].*", "", spec) in values]
        found = [text for text in found if text is not None]
        return OPERATORS[operator][0] + OPERATORS[operator][1].join(found) if found else ""
    literals = re.split(r"(\{[^}]*\})", template)
    return "".join(re.sub(r"\{([^}]*)\}", expand, piece) if piece.startswith("{") else
                   "".join(c if c.isascii() else encoded(c, False, grammar) for c in piece) for piece in literals)
