"""What the card holds, and who may read and update it."""
import pytest
from uicc import StatusError

NOT_SATISFIED = 0x6982


def test_name_of_the_network(card):
    card.select("EF.SPN")
    assert card.read_binary(10)[1:] == b"Nordlicht"


def test_phone_book_asks_for_the_pin(card):
    card.select("EF.ADN")
    with pytest.raises(StatusError) as refused:
        card.read_record(1)
    assert refused.value.status == NOT_SATISFIED
    assert refused.value.status.meaning == "the security status isn't satisfied"
    card.verify(1, "1234")
    assert card.read_record(1) == b"\xFF" * 28


def test_wrong_pins_are_counted(card):
    with pytest.raises(StatusError) as refused:
        card.verify(1, "0000")
    assert str(refused.value.status) == "63C2"
    assert card.tries(1) == 2


def test_unknown_file_is_told(card):
    answer = card.transmit("00A40004027FFF")
    assert (str(answer.status), answer.status.meaning) == ("6A82", "file not found")
