"""The card and the terminal that the tests are given. Each test has new ones."""
import pathlib

import pytest

uicc = pytest.importorskip("uicc", reason="the module uicc isn't here: `pip install .` at the top of uicc_run")
PROFILE = pathlib.Path(__file__).with_name("card.toml")


@pytest.fixture
def card():
    """A new card of the profile, which is on."""
    with uicc.Card(PROFILE) as card:
        yield card


@pytest.fixture
def terminal(card):
    """A handset that was switched on over the card, and has shown its menu."""
    terminal = uicc.Terminal(card)
    terminal.start()
    return terminal


@pytest.fixture
def subscriber(card):
    """The card after PIN 1 was presented."""
    card.verify(1, "1234")
    return card
