"""The bytes of FIX 4.4 messages: where one begins and ends, its fields, its length and checksum."""
import re
from collections.abc import Iterator
from dataclasses import dataclass

SOH = b"\x01"
BEGIN = b"8=FIX.4.4"
# A message begins where a field or a text line begins with the tag BeginString.
MESSAGE_START = re.compile(rb"(?:^|(?<=[\x01\n\r]))8=FIX")
FIELD = re.compile(rb"([1-9][0-9]{0,4})=([^\x01]+)\x01")
MESSAGE_END = re.compile(rb"(?<=\x01)10=[0-9]{3}\x01")
ENDING = re.compile(rb"10=([0-9]{3})\x01")


class Garbled(Exception):
    """The bytes are no message of FIX 4.4 that can be relied on; the words say why."""


@dataclass
class Message:
    """A message with a right length and checksum: its place in the text, from 1, and its fields in order."""

    place: int
    fields: list[tuple[int, str]]

    def get(self, tag: int) -> str | None:
        """The first value of a tag."""
        return next((value for each, value in self.fields if each == tag), None)

    def count(self, tag: int) -> int:
        return sum(each == tag for each, _ in self.fields)

    @property
    def kind(self) -> str:
        """The MsgType."""
        return self.fields[2][1]


def checksum(text: bytes) -> bytes:
    return b"%03d" % (sum(text) % 256)


def cut(text: bytes) -> Iterator[bytes]:
    """The messages of a text. Bytes before the first, or behind a message's checksum and before the next, are a piece of their own."""
    starts = [found.start() for found in MESSAGE_START.finditer(text)]
    for start, stop in zip([0, *starts], [*starts, len(text)]):
        ending = MESSAGE_END.search(text, start, stop)
        middle = ending.end() if ending else stop
        yield from filter(None, (text[start:middle].strip(b"\r\n"), text[middle:stop].strip(b"\r\n")))


def body_of(text: bytes) -> bytes:
    """Checks the fields that frame a message, and answers all of it up to the checksum."""
    if not text.startswith(BEGIN + SOH + b"9="):
        raise Garbled("it does not begin with 8=FIX.4.4 and then a BodyLength (9)")
    length, _, _ = text[len(BEGIN) + 3:].partition(SOH)
    if not re.fullmatch(rb"[0-9]{1,9}", length):
        raise Garbled("the BodyLength (9) is not a number")
    begin = len(BEGIN) + 3 + len(length) + 1
    behind = text[begin + int(length):]
    ending = ENDING.fullmatch(behind)
    if not ending or not text[:begin + int(length)].endswith(SOH):
        raise Garbled(f"the BodyLength (9) is {int(length)}, and no CheckSum (10) stands there as the last field")
    whole = text[:begin + int(length)]
    if checksum(whole) != ending[1]:
        raise Garbled(f"the CheckSum (10) is {ending[1].decode()}, and the bytes add up to {checksum(whole).decode()}")
    return whole


def parse(place: int, text: bytes) -> Message:
    """The message of these bytes; whatever can't be relied on is Garbled."""
    whole = body_of(text)
    parts = FIELD.findall(whole)
    if sum(len(tag) + len(value) + 2 for tag, value in parts) != len(whole):
        raise Garbled("a field is not a tag, `=` and a value")
    fields = [(int(tag), value.decode("latin-1")) for tag, value in parts]
    if len(fields) < 3 or fields[2][0] != 35:
        raise Garbled("the third field is not the MsgType (35)")
    return Message(place, fields)


def built(fields: list[tuple[int, object]]) -> bytes:
    """The bytes of a message with these fields, the first of which is its MsgType (35)."""
    body = b"".join(b"%d=%b\x01" % (tag, str(value).encode("latin-1")) for tag, value in fields)
    whole = BEGIN + SOH + b"9=%d\x01" % len(body) + body
    return whole + b"10=%b\x01" % checksum(whole)
