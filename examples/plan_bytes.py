#!/usr/bin/env python3
"""Turns a Substrait plan that is written as text into its bytes, and back.

    plan_bytes.py TEXT PLAN       reads the text in TEXT, and writes the plan's bytes to PLAN
    plan_bytes.py --text PLAN     prints the plan in PLAN as text

The text is the text format of Protocol Buffers: `name: value`, `name { .. }`, `name: [value, ..]`, and `#` before a
comment. Messages and fields have the names of Substrait's own files; those that the engine reads are in MESSAGES below.
Each field is written as it stands, in the text's order, also one that has its default value.
"""

import re
import sys
from dataclasses import dataclass
from typing import Iterator, NoReturn

# The fields of each message: number, name and kind. A kind with `*` is repeated.
MESSAGES = {
    "Plan": "1 extension_uris SimpleExtensionURI*, 2 extensions SimpleExtensionDeclaration*, 3 relations PlanRel*,"
            " 6 version Version",
    "Version": "1 major_number uint32, 2 minor_number uint32, 3 patch_number uint32, 4 git_hash string, 5 producer string",
    "SimpleExtensionURI": "1 extension_uri_anchor uint32, 2 uri string",
    "SimpleExtensionDeclaration": "3 extension_function ExtensionFunction",
    "ExtensionFunction": "1 extension_uri_reference uint32, 2 function_anchor uint32, 3 name string",
    "PlanRel": "1 rel Rel, 2 root RelRoot",
    "RelRoot": "1 input Rel, 2 names string*",
    # relations
    "Rel": "1 read ReadRel, 2 filter FilterRel, 3 fetch FetchRel, 4 aggregate AggregateRel, 5 sort SortRel,"
           " 6 join JoinRel, 7 project ProjectRel, 8 set SetRel, 12 cross CrossRel",
    "RelCommon": "1 direct Direct, 2 emit Emit",
    "Direct": "",
    "Emit": "1 output_mapping int32*",
    "ReadRel": "1 common RelCommon, 2 base_schema NamedStruct, 3 filter Expression, 4 projection MaskExpression,"
               " 5 virtual_table VirtualTable, 6 local_files LocalFiles, 7 named_table NamedTable,"
               " 11 best_effort_filter Expression",
    "NamedStruct": "1 names string*, 2 struct Struct",
    "VirtualTable": "1 values LiteralRow*, 2 expressions ExpressionRow*",
    "LiteralRow": "1 fields Literal*",
    "ExpressionRow": "1 fields Expression*",
    "LocalFiles": "1 items FileOrFiles*",
    "FileOrFiles": "1 uri_path string, 3 uri_file string, 10 arrow ArrowReadOptions",
    "ArrowReadOptions": "",
    "NamedTable": "1 names string*",
    "MaskExpression": "1 select StructSelect",
    "StructSelect": "1 struct_items StructItem*",
    "StructItem": "1 field int32",
    "FilterRel": "1 common RelCommon, 2 input Rel, 3 condition Expression",
    "FetchRel": "1 common RelCommon, 2 input Rel, 3 offset int64, 4 count int64, 5 offset_expr Expression,"
                " 6 count_expr Expression",
    "AggregateRel": "1 common RelCommon, 2 input Rel, 3 groupings Grouping*, 4 measures Measure*,"
                    " 5 grouping_expressions Expression*",
    "Grouping": "1 grouping_expressions Expression*, 2 expression_references uint32*",
    "Measure": "1 measure AggregateFunction, 2 filter Expression",
    "AggregateFunction": "1 function_reference uint32, 3 sorts SortField*, 4 phase AggregationPhase, 5 output_type Type,"
                         " 6 invocation AggregationInvocation, 7 arguments FunctionArgument*, 8 options FunctionOption*",
    "SortRel": "1 common RelCommon, 2 input Rel, 3 sorts SortField*",
    "SortField": "1 expr Expression, 2 direction SortDirection",
    "JoinRel": "1 common RelCommon, 2 left Rel, 3 right Rel, 4 expression Expression, 5 post_join_filter Expression,"
               " 6 type JoinType",
    "ProjectRel": "1 common RelCommon, 2 input Rel, 3 expressions Expression*",
    "SetRel": "1 common RelCommon, 2 inputs Rel*, 3 op SetOp",
    "CrossRel": "1 common RelCommon, 2 left Rel, 3 right Rel",
    # expressions
    "Expression": "1 literal Literal, 2 selection FieldReference, 3 scalar_function ScalarFunction, 6 if_then IfThen,"
                  " 7 switch_expression SwitchExpression, 8 singular_or_list SingularOrList, 11 cast Cast,"
                  " 12 subquery Subquery",
    "FieldReference": "1 direct_reference ReferenceSegment, 4 root_reference RootReference",
    "ReferenceSegment": "2 struct_field StructField",
    "StructField": "1 field int32",
    "RootReference": "",
    "ScalarFunction": "1 function_reference uint32, 3 output_type Type, 4 arguments FunctionArgument*,"
                      " 5 options FunctionOption*",
    "FunctionArgument": "1 enum string, 2 type Type, 3 value Expression",
    "FunctionOption": "1 name string, 2 preference string*",
    "IfThen": "1 ifs IfClause*, 2 else Expression",
    "IfClause": "1 if Expression, 2 then Expression",
    "SwitchExpression": "1 ifs IfValue*, 2 else Expression, 3 match Expression",
    "IfValue": "1 if Literal, 2 then Expression",
    "SingularOrList": "1 value Expression, 2 options Expression*",
    "Cast": "1 type Type, 2 input Expression, 3 failure_behavior FailureBehavior",
    "Subquery": "1 scalar Scalar, 2 in_predicate InPredicate, 3 set_predicate SetPredicate",
    "Scalar": "1 input Rel",
    "InPredicate": "1 needles Expression*, 2 haystack Rel",
    "SetPredicate": "1 predicate_op PredicateOp, 2 tuples Rel",
    # literals and types
    "Literal": "1 boolean bool, 2 i8 int32, 3 i16 int32, 5 i32 int32, 7 i64 int64, 12 string string, 13 binary bytes,"
               " 14 timestamp int64, 16 date int32, 24 decimal DecimalValue, 29 null Type, 50 nullable bool",
    "DecimalValue": "1 value bytes, 2 precision int32, 3 scale int32",
    "Type": "1 bool Plain, 2 i8 Plain, 3 i16 Plain, 5 i32 Plain, 7 i64 Plain, 12 string Plain, 13 binary Plain,"
            " 14 timestamp Plain, 16 date Plain, 24 decimal Decimal, 25 struct Struct",
    "Plain": "2 nullability Nullability",
    "Decimal": "1 scale int32, 2 precision int32, 4 nullability Nullability",
    "Struct": "1 types Type*",
}

# The names of the values 0, 1, .. of each enum.
ENUMS = {
    "AggregationPhase": "UNSPECIFIED INITIAL_TO_INTERMEDIATE INTERMEDIATE_TO_INTERMEDIATE INITIAL_TO_RESULT"
                        " INTERMEDIATE_TO_RESULT",
    "AggregationInvocation": "UNSPECIFIED ALL DISTINCT",
    "SortDirection": "UNSPECIFIED ASC_NULLS_FIRST ASC_NULLS_LAST DESC_NULLS_FIRST DESC_NULLS_LAST CLUSTERED",
    "JoinType": "UNSPECIFIED INNER OUTER LEFT RIGHT LEFT_SEMI LEFT_ANTI",
    "SetOp": "UNSPECIFIED MINUS_PRIMARY MINUS_MULTISET INTERSECTION_PRIMARY INTERSECTION_MULTISET UNION_DISTINCT"
             " UNION_ALL MINUS_PRIMARY_ALL INTERSECTION_MULTISET_ALL",
    "FailureBehavior": "UNSPECIFIED RETURN_NULL THROW_EXCEPTION",
    "PredicateOp": "UNSPECIFIED EXISTS UNIQUE",
    "Nullability": "UNSPECIFIED NULLABLE REQUIRED",
}

# The least and the greatest value of each kind of number. A varint holds it in 64 bits, in two's complement.
RANGES = {
    "int32": (-(2**31), 2**31 - 1),
    "int64": (-(2**63), 2**63 - 1),
    "uint32": (0, 2**32 - 1),
}

VARINT, LENGTH = 0, 2  # wire types
WIDTH = 100  # a message whose text is no longer stands on one line


class PlanError(Exception):
    """What is wrong, and in which line of a text or at which byte of a plan."""


@dataclass(frozen=True)
class Field:
    """A field of a message, or one of the values of an enum."""

    number: int
    name: str
    kind: str
    is_repeated: bool

    def is_message(self) -> bool:
        return self.kind in MESSAGES

    def is_number(self) -> bool:
        return self.kind in RANGES or self.kind in ENUMS or self.kind == "bool"


def fields_of(message: str) -> list[Field]:
    """The fields of a message, in order."""
    rows = [row.split() for row in MESSAGES[message].split(",") if row]
    return [Field(int(number), name, kind.rstrip("*"), kind.endswith("*")) for number, name, kind in rows]


def prefixed(enum: str, name: str) -> str:
    """The name of an enum's value with the enum's own in front, as Substrait writes it: JOIN_TYPE_INNER."""
    return re.sub(r"(?<!^)(?=[A-Z])", "_", enum).upper() + "_" + name


FIELDS = {message: fields_of(message) for message in MESSAGES}
VALUES = {enum: [prefixed(enum, name) for name in names.split()] for enum, names in ENUMS.items()}


# --- text to bytes -----------------------------------------------------------------------------------------------


@dataclass(frozen=True)
class Token:
    """A word, a number, a string or a mark, with the number of its line."""

    kind: str
    text: str
    line: int

    def __str__(self) -> str:
        return self.text if self.text else "the end of the text"


TOKEN = re.compile(
    r"(?P<space>[ \t\r\n]+|#[^\n]*)"
    r"|(?P<word>[A-Za-z_][A-Za-z_0-9]*)"
    r"|(?P<number>-?[0-9]+)"
    r"|(?P<string>\"(?:[^\"\\\n]|\\.)*\"|'(?:[^'\\\n]|\\.)*')"
    r"|(?P<mark>[][{}:,;])"
)

ESCAPE = re.compile(rb"\\(?:([0-7]{1,3})|x([0-9A-Fa-f]{1,2})|(.))")
ESCAPED = {b"n": b"\n", b"r": b"\r", b"t": b"\t", b"\\": b"\\", b'"': b'"', b"'": b"'"}


def tokens_of(text: str) -> Iterator[Token]:
    """The tokens of a text, and one without text at its end."""
    place, line = 0, 1
    while place < len(text):
        found = TOKEN.match(text, place)
        if found is None:
            raise PlanError(f"line {line}: expected a name, a value or a mark, found {text[place]!r}")
        if found.lastgroup != "space":
            yield Token(str(found.lastgroup), found.group(), line)
        line += found.group().count("\n")
        place = found.end()
    yield Token("end", "", line)


def varint(value: int) -> bytes:
    """A number in 7 bits a byte, least first."""
    value &= 2**64 - 1
    out = bytearray()
    while value > 127:
        out.append(value & 127 | 128)
        value >>= 7
    out.append(value)
    return bytes(out)


def record(field: Field, payload: bytes) -> bytes:
    """A field's key and payload. Repeated numbers are packed, so their payload has a length as a text's has."""
    if field.is_number() and not field.is_repeated:
        return varint(field.number << 3 | VARINT) + payload
    return varint(field.number << 3 | LENGTH) + varint(len(payload)) + payload


class TextReader:
    """Reads the text of a plan from its first token on."""

    def __init__(self, text: str) -> None:
        self.tokens = tokens_of(text)
        self.token = next(self.tokens)

    def plan(self) -> bytes:
        """The bytes of the plan, which is the whole text."""
        return self.message("Plan", "")

    def message(self, message: str, end: str) -> bytes:
        """The records of a message, whose text ends with this mark."""
        records: list[tuple[Field, bytes]] = []
        while self.token.text != end:
            field = self.field_name(message, end, [before for before, _ in records])
            for payload in self.payloads(field):
                if records and records[-1][0] == field and field.is_number() and field.is_repeated:
                    payload = records.pop()[1] + payload
                records.append((field, payload))
            if self.token.text in (",", ";"):
                self.take()
        return b"".join(record(field, payload) for field, payload in records)

    def field_name(self, message: str, end: str, before: list[Field]) -> Field:
        """The field that is named next, which may follow these."""
        if self.token.kind != "word":
            self.expected(f"a field of {message}" + (f" or {end}" if end else ""))
        names = {field.name: field for field in FIELDS[message]}
        field = names.get(self.token.text)
        if field is None:
            self.expected(f"a field of {message}: {', '.join(names)}" if names else f"{end}, as {message} has no fields")
        if field in before and not field.is_repeated:
            self.expected(f"another field: {message} has one {field.name}")
        self.take()
        return field

    def payloads(self, field: Field) -> list[bytes]:
        """What stands behind a field's name: a value, or values in brackets."""
        if self.token.text == ":":
            self.take()
        elif not field.is_message():
            self.expected(f": behind {field.name}")
        if self.token.text != "[" or not field.is_repeated:
            return [self.payload(field)]
        self.take()
        payloads = []
        while self.token.text != "]":
            payloads.append(self.payload(field))
            if self.token.text == ",":
                self.take()
            elif self.token.text != "]":
                self.expected(", or ]")
        self.take()
        return payloads if payloads or not field.is_number() else [b""]

    def payload(self, field: Field) -> bytes:
        """One value of a field."""
        if field.is_message():
            if self.token.text != "{":
                self.expected(f"{{ of {field.name}")
            self.take()
            payload = self.message(field.kind, "}")
            self.take()
            return payload
        if field.is_number():
            return varint(self.number(field))
        return self.string(field)

    def number(self, field: Field) -> int:
        """A number, a truth value, or an enum's value by name or number."""
        text = self.token.text
        if field.kind == "bool":
            if text not in ("true", "false"):
                self.expected(f"true or false for {field.name}")
            self.take()
            return int(text == "true")
        if field.kind in VALUES and text in VALUES[field.kind]:
            self.take()
            return VALUES[field.kind].index(text)
        if self.token.kind != "number":
            one_of = f": {', '.join(VALUES[field.kind])}" if field.kind in VALUES else ""
            self.expected(f"the {field.kind} of {field.name}{one_of}")
        least, greatest = RANGES.get(field.kind, RANGES["int32"])
        if not least <= int(text) <= greatest:
            self.expected(f"a number from {least} to {greatest} for {field.name}")
        self.take()
        return int(text)

    def string(self, field: Field) -> bytes:
        """A string's bytes; several strings are one."""
        if self.token.kind != "string":
            self.expected(f"a string for {field.name}")
        payload, line = b"", self.token.line
        while self.token.kind == "string":
            payload += ESCAPE.sub(self.escaped, self.token.text[1:-1].encode())
            self.take()
        if field.kind == "string" and not is_utf8(payload):
            raise PlanError(f"line {line}: expected UTF-8 in {field.name}")
        return payload

    def escaped(self, found: re.Match[bytes]) -> bytes:
        """The bytes that an escape in a string stands for."""
        octal, hexadecimal, letter = found.groups()
        if octal is not None or hexadecimal is not None:
            value = int(octal, 8) if octal is not None else int(hexadecimal, 16)
            if value > 255:
                self.expected("an escape of at most \\377")
            return bytes([value])
        if letter not in ESCAPED:
            self.expected("one of the escapes \\n \\r \\t \\\\ \\\" \\' \\ooo \\xhh")
        return ESCAPED[letter]

    def take(self) -> None:
        """Goes on to the next token; there's one but behind the end."""
        self.token = next(self.tokens)

    def expected(self, what: str) -> NoReturn:
        raise PlanError(f"line {self.token.line}: expected {what}, found {self.token}")


def is_utf8(payload: bytes) -> bool:
    """Whether the bytes are a text."""
    try:
        payload.decode()
    except UnicodeDecodeError:
        return False
    return True


# --- bytes to text -----------------------------------------------------------------------------------------------


class BytesReader:
    """Reads some of a plan's bytes, from a place on up to an end."""

    def __init__(self, plan: bytes, place: int, end: int) -> None:
        self.plan, self.place, self.end = plan, place, end

    def lines(self, message: str) -> list[str]:
        """The text of a message, without the name of its field: one line for each of its records, or several."""
        lines = []
        while self.place < self.end:
            key_place, key = self.place, self.varint()
            field = next((field for field in FIELDS[message] if field.number == key >> 3), None)
            is_varint = field is not None and field.is_number() and not field.is_repeated
            if field is None or key & 7 != (VARINT if is_varint else LENGTH):
                raise PlanError(f"byte {key_place}: {message} has no field {key >> 3} of wire type {key & 7} here")
            lines += [f"{field.name}: {self.number(field)}"] if is_varint else self.payload(field)
        return lines

    def payload(self, field: Field) -> list[str]:
        """The text of a field whose payload has a length."""
        length_place, length = self.place, self.varint()
        if length > self.end - self.place:
            raise PlanError(f"byte {length_place}: {field.name} is longer than what is left")
        inner = BytesReader(self.plan, self.place, self.place + length)
        self.place = inner.end
        if field.is_message():
            return braced(field.name, inner.lines(field.kind))
        if field.is_number():
            return [f"{field.name}: [{', '.join(inner.numbers(field))}]"]
        return [f"{field.name}: {quoted(self.plan[inner.place : inner.end])}"]

    def numbers(self, field: Field) -> list[str]:
        """The numbers of a packed payload."""
        numbers = []
        while self.place < self.end:
            numbers.append(self.number(field))
        return numbers

    def number(self, field: Field) -> str:
        """A number, a truth value, or an enum's value by its name."""
        value = self.varint()
        if field.kind == "bool":
            return "false" if value == 0 else "true"
        if field.kind != "uint32" and value >= 2**63:
            value -= 2**64
        names = VALUES.get(field.kind, [])
        return names[value] if 0 <= value < len(names) else str(value)

    def varint(self) -> int:
        """The next varint."""
        place, value = self.place, 0
        for shift in range(0, 70, 7):
            if self.place == self.end:
                break
            byte = self.plan[self.place]
            self.place += 1
            value |= (byte & 127) << shift
            if byte < 128:
                return value
        raise PlanError(f"byte {place}: expected a varint")


def braced(name: str, lines: list[str]) -> list[str]:
    """A message's lines in braces behind its name, on one line where they fit."""
    line = f"{name} {{ {'  '.join(lines)} }}" if lines else f"{name} {{}}"
    if len(line) <= WIDTH and not any(line.endswith("{") for line in lines):
        return [line]
    return [f"{name} {{"] + [f"  {line}" for line in lines] + ["}"]


def quoted(payload: bytes) -> str:
    """A string in quotes. Bytes that are no text, and marks that would end it, are escaped."""
    text = payload.decode("utf-8", "surrogateescape").replace("\\", "\\\\").replace('"', '\\"')
    return '"' + "".join(c if c.isprintable() else octal(c) for c in text) + '"'


def octal(character: str) -> str:
    """A character by its bytes in octal."""
    return "".join(f"\\{byte:03o}" for byte in character.encode("utf-8", "surrogateescape"))


# --- the command -------------------------------------------------------------------------------------------------


def print_text(plan: str) -> None:
    """Prints the plan in the file as text."""
    with open(plan, "rb") as file:
        content = file.read()
    print("\n".join(BytesReader(content, 0, len(content)).lines("Plan")))


def write_plan(text: str, plan: str) -> None:
    """Writes the plan whose text is in the one file to the other, once the whole text is read."""
    with open(text, encoding="utf-8") as file:
        content = TextReader(file.read()).plan()
    with open(plan, "wb") as file:
        file.write(content)


def main(words: list[str]) -> int:
    """Runs the command; the number that it ends with."""
    if len(words) != 2:
        print(__doc__, file=sys.stderr)
        return 2
    try:
        if words[0] == "--text":
            print_text(words[1])
        else:
            write_plan(words[0], words[1])
    except (OSError, UnicodeDecodeError, PlanError) as error:
        print(error, file=sys.stderr)
        return 1
    except RecursionError:
        print("too many levels of messages", file=sys.stderr)
        return 1
    return 0


if __name__ == "__main__":
    sys.exit(main(sys.argv[1:]))
