"""A status word: what a card says of a command, beside the data."""
from . import names

DIGITS = 4


class Status(int):
    """The two bytes SW1 and SW2 as one number, which prints as its four digits and says what it means:

        answer.status == 0x6982        print(answer.status)        answer.status.meaning

    It compares with digits too (`answer.status == "6982"`), and has `startswith` as they have."""

    def __new__(cls, word):
        """Of a number, or of its digits."""
        return super().__new__(cls, int(word, 16) if isinstance(word, str) else word)

    @property
    def sw1(self) -> int:
        return self >> 8

    @property
    def sw2(self) -> int:
        return self & 0xFF

    @property
    def meaning(self) -> str:
        """What it says, in words."""
        return names.status(str(self))

    def startswith(self, beginning) -> bool:
        return str(self).startswith(beginning)

    def __str__(self):
        return f"{int(self):0{DIGITS}X}"

    def __repr__(self):
        return f"Status(0x{self})"

    def __eq__(self, other):
        return str(self) == other.upper() if isinstance(other, str) else int(self) == other

    def __ne__(self, other):
        return not self == other

    __hash__ = int.__hash__
