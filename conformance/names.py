"""How the name of a file is shown."""

import unicodedata

# How the Unicode Standard derives Default_Ignorable_Code_Point, at the head of that property in its
# file DerivedCoreProperties.txt: Other_Default_Ignorable_Code_Point, the format characters (Cf) and
# Variation_Selector, without the annotations, the controls of hieroglyphs and
# Prepended_Concatenation_Mark. The properties are those of PropList.txt.
OTHER = {
    *(0x34F, 0x115F, 0x1160, 0x17B4, 0x17B5, 0x2065, 0x3164, 0xFFA0),
    *range(0xFFF0, 0xFFF9),
    *(0xE0000, *range(0xE0002, 0xE0020), *range(0xE0080, 0xE0100), *range(0xE01F0, 0xE1000)),
}
SELECTORS = {*range(0x180B, 0x180E), 0x180F, *range(0xFE00, 0xFE10), *range(0xE0100, 0xE01F0)}
MARKS = {
    *range(0x600, 0x606),
    *(0x6DD, 0x70F, 0x890, 0x891, 0x8E2, 0x110BD, 0x110CD),
}
SEEN = {*range(0xFFF9, 0xFFFC), *range(0x13430, 0x13440), *MARKS}
# The separators of lines and of paragraphs.
ENDS = {"Zl", "Zp"}


def is_ignorable(character: str) -> bool:
    """Whether a character has the property Default_Ignorable_Code_Point."""
    number = ord(character)
    is_format = unicodedata.category(character) == "Cf" and number not in SEEN
    return is_format or number in OTHER or number in SELECTORS


def is_hidden(character: str) -> bool:
    """Whether a character is a control, ends a line, or has nothing that is drawn for it."""
    return unicodedata.category(character) in {"Cc", *ENDS} or is_ignorable(character)


def shown_name(name: str) -> str:
    """A name whose hidden characters are shown by their bytes."""
    return "".join(map(shown, name))


def shown(character: str) -> str:
    """A character, or its bytes where it is hidden."""
    if not is_hidden(character):
        return character
    return "".join(f"\\x{byte:02X}" for byte in character.encode())


def escaped_in_json(text: str) -> str:
    """A text of JSON, of which each hidden character is escaped by its units of UTF-16."""
    return "".join(unit_escapes(it) if is_hidden(it) else it for it in text)


def unit_escapes(character: str) -> str:
    """A character by its units of UTF-16."""
    units = character.encode("utf-16-be").hex()
    return "".join(f"\\u{units[at : at + 4]}" for at in range(0, len(units), 4))
