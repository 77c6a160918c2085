"""The rules by which a library's answer may differ from the program's, each a switch of the model in schemas.py, resolution.py, reading.py
and writing.py: without any the model is the specification with our profile, with all rules of a library it is that library."""
from collections import namedtuple

Rule = namedtuple("Rule", "name peers sentence")
PYTHON, JAVA, BOTH = ("python",), ("java",), ("python", "java")

RULES = [
    # Schemas
    Rule("object-only-for-types", BOTH, "An object whose `type` is no type's word is refused."),
    Rule("default-when-used", PYTHON, "A default, or that there is none, is looked at when a datum needs it; it is bent to its type where that goes."),
    Rule("default-when-resolved", JAVA, "A default is looked at when schemas are resolved that need it; it is bent to its type where that goes."),
    Rule("default-in-utf8", PYTHON, "A default of bytes or of a fixed is the UTF-8 of its string."),
    Rule("default-fields-filled", BOTH, "A field that a record's default leaves out takes its own default."),
    Rule("default-pairs-in-order", BOTH, "The pairs of a map's default stand as in the schema's text."),
    Rule("primitive-last-part", BOTH, "A name that has a namespace may end in a primitive type's name."),
    Rule("empty-namespace-inherits", PYTHON, "A name with an empty namespace stands in the enclosing one (the names inside do not)."),
    Rule("empty-namespace-keeps-outer", JAVA, "Inside a record of the null namespace the namespace around it counts."),
    Rule("null-namespace-searched", JAVA, "A name that the enclosing namespace lacks is looked for in the null namespace."),
    Rule("namespace-unchecked", JAVA, "A namespace may be any text."),
    Rule("names-in-any-letters", JAVA, "Names may have letters of any script."),
    Rule("field-name-unchecked", PYTHON, "A field's name may be any text."),
    Rule("member-twice", PYTHON, "A union may have a named type twice."),
    Rule("numbers-unchecked", BOTH, "A number in an attribute that is ignored may be a fraction."),
    Rule("enum-default-unchecked", JAVA, "An enum's default may be no symbol of it."),
    Rule("schema-limits", BOTH, "A schema may be larger than our limits."),
    # Resolution
    Rule("no-enum-default", BOTH, "A symbol that the reader lacks is refused, although the reader's enum has a default."),
    Rule("aliases-ignored", PYTHON, "Aliases are ignored."),
    Rule("aliases-rename", JAVA, "The reader's aliases rename the writer's types and fields, and so take the place of names."),
    Rule("full-names", BOTH, "Types match by their full names (in Java enums and fixed; records by no name)."),
    Rule("record-names-unchecked", JAVA, "Records match whatever their names."),
    Rule("no-string-bytes", PYTHON, "String and bytes are not promoted to each other."),
    Rule("items-by-type", PYTHON, "Arrays and maps match where the types of their items are of one word."),
    Rule("items-when-met", JAVA, "Arrays and maps match whatever their items; these are refused where one is met."),
    Rule("union-to-union-only", PYTHON, "A writer's union is read by a reader's union only."),
    Rule("branch-by-type", JAVA, "Of a reader's union the member of the same type and name counts, then a record of like fields, then a promotion."),
    Rule("branch-by-value", PYTHON, "Which member a value came into is forgotten; it is written by the last that the value fits."),
    # Bytes
    Rule("trailing-unseen", BOTH, "Bytes after the datum are not looked at."),
    Rule("boolean-unchecked", BOTH, "A boolean's byte that is not 1 is false."),
    Rule("number-of-any-width", PYTHON, "A number may have any number of bytes; its range is checked when it is written."),
    Rule("last-byte-cut", JAVA, "Bits of a number's last byte that go beyond its width are dropped."),
    Rule("length-is-int", JAVA, "The length of a string or of bytes, and the count of a dropped block, is an int of at most 5 bytes."),
    Rule("position-from-end", PYTHON, "A negative position counts from the end of the symbols or members."),
    Rule("text-unchecked", JAVA, "A string may be no UTF-8; as a key it is mended, with U+FFFD, when it is written."),
    Rule("least-count-ends", JAVA, "A block's count of -2^63 ends its array or map, since it is below 0 when it is negated too; what comes after it is read as a further item."),
    Rule("block-size-unseen", BOTH, "The size of a block that is read is not compared with its items."),
    Rule("dropped-block-jumped", BOTH, "A block that is dropped is jumped by its size, and its items are not looked at."),
    Rule("dropped-unseen", PYTHON, "What is dropped is jumped, even beyond the end or back; positions of dropped enums are not looked at."),
    Rule("dropped-length-negative", JAVA, "A negative length in what is dropped goes back."),
    Rule("key-once", BOTH, "Of a key that comes again the last value counts, in the first one's place."),
    Rule("map-in-hash-order", JAVA, "The pairs of a map are written in the order of a hash table."),
    Rule("endless-record", JAVA, "A record that holds itself with nothing but records between is refused, even where no datum has one."),
    Rule("table-with-holes", JAVA, "Records that hold each other, one of them directly, may be resolved to a table with holes (see holes.py)."),
    Rule("data-limits", BOTH, "A datum may be deeper, or have more units or longer strings, than our limits."),
]


def rules_of(peer):
    return frozenset(rule.name for rule in RULES if peer in rule.peers)


class Switches:
    """The rules that are on, and those that came to matter so far."""

    def __init__(self, names=()):
        self.names = frozenset(names)
        self.asked = set()

    def take(self, name):
        """To be asked where the rule would change something: whether it is on."""
        self.asked.add(name)
        return name in self.names
