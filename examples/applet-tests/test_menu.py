"""What the applet shows where its entry of the menu is picked, whatever the terminal answers."""
import pytest
from uicc import PowerLost
from uicc.handset import BUSY

ENTRY = 7


def notes(card):
    """What the handset's user saw and heard."""
    return [line for line in card.trace if line.startswith("* ")]


def test_entry_is_in_the_menu(terminal):
    assert list(terminal.menu) == [ENTRY]


def test_text_and_then_tone(card, terminal):
    terminal.pick(ENTRY)
    assert notes(card)[-1] == "* text H"
    terminal.ok()
    assert notes(card)[-1] == "* tone 10"


@pytest.mark.parametrize("leave", ["back", "end", "none"])
def test_left_in_the_text(card, terminal, leave):
    """However the user leaves the text, the entry can be picked again."""
    terminal.pick(ENTRY)
    getattr(terminal, leave)()
    terminal.pick(ENTRY)
    assert notes(card).count("* text H") == 2


def test_screen_is_busy(card, terminal):
    terminal.answers["DISPLAY TEXT"] = BUSY
    terminal.pick(ENTRY)
    assert "* text H" not in notes(card)
    assert terminal.held is None


def test_key_at_another_location(card, terminal):
    terminal.line("net place 00F11000010002")
    assert terminal.held.value == b"?"
    terminal.type("5")
    assert terminal.held is None


@pytest.mark.parametrize("write", range(1, 4))
def test_power_is_lost_in_an_update(subscriber, write):
    """Whatever write is cut, the record is the old one or the new one."""
    before, after = (name.ljust(28, b"\xFF") for name in (b"\xFF", b"Anna"))
    subscriber.select("EF.ADN")
    subscriber.cut(write)
    with pytest.raises(PowerLost):
        subscriber.update_record(1, after)
    subscriber.reset()
    subscriber.verify(1, "1234")
    subscriber.select("EF.ADN")
    assert subscriber.read_record(1) in (before, after)
