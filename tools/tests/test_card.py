"""The module and the prompt over it, `tools/cuts --all` and the rest that wants the built program; skipped where it isn't there."""
import os
import pathlib
import tempfile
import tomllib
import unittest

from common import in_process
from uicc import Card, CardError, Ended, NoSuchFile, NotBuilt, PowerLost, Status, StatusError, cutting, image, importing, lint, process, profile, terminal

EXAMPLES = os.path.join(process.TOP, "examples")
USIM, MENU = (os.path.join(EXAMPLES, name + ".script") for name in ("usim", "menu"))


def is_built():
    try:
        return bool(process.program())
    except NotBuilt:
        return False


def tool(name, *words, text=""):
    return in_process(name, *words, text=text)


@unittest.skipUnless(is_built(), "the program isn't built")
class Cards(unittest.TestCase):
    def test_files(self):
        with Card(USIM) as card:
            shown = card.select("MF/DF.TELECOM/EF.ADN")
            self.assertEqual(shown["file descriptor"], "linear fixed EF, 50 records of 28 bytes")
            self.assertEqual(card.current, ("7F10", "6F3A"))
            with self.assertRaises(StatusError) as refused:
                card.read_record(1)
            self.assertEqual(refused.exception.status, "6982")
            self.assertIn("the security status isn't satisfied", str(refused.exception))
            card.verify(1, "1234")
            self.assertEqual(card.read_record(1)[:9], b"Voicemail")
            self.assertEqual(card.search_record(b"Anna"), [3])
            card.update_record(4, b"Bob".ljust(28, b"\xFF"))
            self.assertEqual(card.read_record(4), b"Bob".ljust(28, b"\xFF"))
            card.select("7F10/6F44")
            card.add_record(b"\x01" * 28)
            self.assertEqual(card.read_record(1), b"\x01" * 28)
            card.select("EF.ICCID")
            self.assertEqual(card.read_binary().hex().upper(), "989909010000103254F0")
            self.assertEqual(card.read_binary(2, 8).hex().upper(), "54F0")

    def test_what_a_card_is_made_of(self):
        """A path, a text, a profile or an image is known for what it is."""
        with open(USIM, encoding="latin-1") as script:
            text = script.read()
        table = {"like": "usim", "EF_SPN": {"spn": "Nordlicht"}}
        with tempfile.TemporaryDirectory() as folder:
            given, held, paged = (os.path.join(folder, name) for name in ("card.toml", "card.img", "paged.img"))
            with open(given, "w", encoding="ascii") as out:
                out.write('like = "usim"\n[EF_SPN]\nspn = "Nordlicht"\n')
            # what makes a card, what it says that it was made of, and the network's name
            made = [
                (lambda: Card(USIM), f"script {USIM}", b"Example Mobile"),
                (lambda: Card(pathlib.Path(USIM), image=held), f"script {USIM}", b"Example Mobile"),
                (lambda: Card(text), "text", b"Example Mobile"),
                (lambda: Card.from_text(text), "text", b"Example Mobile"),
                (lambda: Card(given, image=paged, store="pages"), f"profile {given}", b"Nordlicht"),
                (lambda: Card.from_profile(given), f"profile {given}", b"Nordlicht"),
                (lambda: Card(table), "profile", b"Nordlicht"),
                (lambda: Card(held), f"image {held}", b"Example Mobile"),
                (lambda: Card(USIM, image=held), f"image {held}", b"Example Mobile"),
                (lambda: Card.open(pathlib.Path(paged)), f"image {paged}", b"Nordlicht"),
            ]
            for make, source, name in made:
                with self.subTest(source=source), make() as card:
                    self.assertEqual(str(card.source), source)
                    card.select("EF.SPN")
                    self.assertEqual(card.read_binary()[1:].rstrip(b"\xFF"), name)
        for make, said in ((lambda: Card.from_text("df  7F10\n"), "the text, line 1: two spaces"), (lambda: Card({"like": "usin"}), "no such template"),
                           (lambda: Card.open("none.img"), "none.img isn't there")):
            with self.assertRaisesRegex(CardError, said):
                make()
        with self.assertRaises(ValueError):
            Card()

    # a status by its digits, the number that it is, and what it means
    STATUSES = [("9000", 0x9000, "done"), ("6a82", 0x6A82, "file not found"), ("63C2", 0x63C2, "2"), ("910B", 0x910B, "11")]

    def test_statuses(self):
        for digits, number, meaning in self.STATUSES:
            with self.subTest(digits=digits):
                status = Status(digits)
                self.assertEqual((status, str(status), f"{status}"), (number, digits.upper(), digits.upper()))
                self.assertTrue(status == digits and not status != digits and status.startswith(digits[0]))
                self.assertFalse(status == "6F00" or status == 0x6F00)
                self.assertEqual((status.sw1, status.sw2), divmod(number, 256))
                self.assertIn(meaning, status.meaning)
        with Card.from_text("") as card:
            answer = card.transmit("00A40004027FFF")
            self.assertEqual((answer.status, repr(answer.status), str(answer)), (0x6A82, "Status(0x6A82)", "6A82"))

    def test_pins(self):
        with Card(USIM) as card:
            self.assertEqual(card.tries(1), 3)
            with self.assertRaises(StatusError):
                card.verify(1, "0000")
            self.assertEqual(card.tries(1), 2)
            card.change_pin(1, "1234", "4321")
            card.disable_pin(1, "4321")
            card.enable_pin(1, "4321")
            card.unblock_pin(1, "12345678", "1111")
            card.reset()
            self.assertEqual(str(card.verify(1, "1111")), "9000")

    def test_toolkit(self):
        with Card(MENU) as card:
            card.profile()
            menu = card.fetch()
            self.assertEqual((menu.name, menu.text, menu.items), ("SET UP MENU", "Menu", {2: "Menu"}))
            card.respond()
            self.assertEqual(card.fetch().text, "Hi")
            card.respond()
            card.pick(2)
            chosen = card.fetch()
            self.assertEqual((chosen.name, chosen.items), ("SELECT ITEM", {1: "Text", 2: "Tone"}))
            card.respond(item=1)
            self.assertEqual(card.fetch().text, "Text")
            card.respond()
            self.assertIsNone(card.fetch())

    def test_what_a_user_cant_do(self):
        """An entry that isn't in the menu, and an answer that the command doesn't ask for, are told before anything is sent."""
        asks_for_a_key = "row 6 1 0005546F6F6C7343063F430210\n"
        with Card.from_text(asks_for_a_key) as card:
            card.profile()
            card.fetch()
            card.respond()
            sent = len(card.trace)
            with self.assertRaisesRegex(CardError, r"menu has no entry 6: 7 \(Tools\); an entry is the shelf of its applet plus one"):
                card.pick(6)
            self.assertEqual(len(card.trace), sent)
            self.assertEqual(card.envelope("D30782020181900106").status, "9000")
            card.pick(7)
            asked, sent = card.fetch(), len(card.trace)
            self.assertEqual((asked.name, asked.text), ("GET INKEY", "?"))
            for given, why in (({"text": "12"}, "GET INKEY asks for one character, and not for `12`"), ({"item": 4}, "GET INKEY offers no items")):
                with self.assertRaisesRegex(ValueError, why):
                    card.respond(**given)
            for result in (300, -1, "ok"):
                with self.assertRaisesRegex(ValueError, f"a result is a number of one byte, 0x00 to 0xFF, and not {result!r}"):
                    card.respond(result)
            self.assertEqual(len(card.trace), sent)
            card.respond(text="5")
            played = card.fetch()
            self.assertEqual((played.name, played.tone, played.text, played.items), ("PLAY TONE", 0x10, None, {}))
            self.assertEqual((played.value(0x0E), played.value(0x8E), played.value(0x0D)), (b"\x10", b"\x10", None))
            with self.assertRaisesRegex(ValueError, "PLAY TONE asks for no text"):
                card.respond(text="5")
            self.assertEqual(card.respond(objects="8D020435").status, "9000")
        with Card.from_text("row 1 1 00044D656E75\nstart\n") as card:
            card.profile()
            card.fetch()
            card.respond()
            card.pick(2)
            self.assertIsNone(card.fetch().tone)
            with self.assertRaisesRegex(ValueError, r"SELECT ITEM offers no item 4: 1 \(Text\), 2 \(Tone\)"):
                card.respond(item=4)
        with Card.from_text("") as card:
            card.profile()
            with self.assertRaisesRegex(CardError, "the card's menu has no entry 1: it is empty"):
                card.pick(1)

    def test_a_menu_that_wasnt_told(self):
        """Before TERMINAL PROFILE, and after a reset, the terminal has no menu of which a user could pick."""
        with Card.from_text("pin 0A 3838383838383838 on 3030303030303030\nrow 1 1 00044D656E75\nstart\n") as card:
            def lost():
                card.profile()
                card.cut(1)
                with self.assertRaises(PowerLost):
                    card.verify("adm", "88888888")
                card.reset()
            for prepare in (lambda: None, lambda: (card.profile(), card.reset()), lost):
                prepare()
                sent = len(card.trace)
                with self.assertRaisesRegex(CardError, "tells its menu once it knows the terminal: a `profile` comes first"):
                    card.pick(2)
                self.assertEqual(len(card.trace), sent)

    def test_faults(self):
        with Card(USIM) as card:
            card.verify(0x0A, "88888888")
            card.select("EF.SPN")
            before = card.read_binary()
            card.cut(1)
            with self.assertRaises(PowerLost):
                card.update_binary(b"\x00")
            with self.assertRaises(PowerLost):
                card.transmit("00A4000C023F00")
            card.reset()
            self.assertEqual(card.trace[-4:], ["! cut", "> 00A4000C023F00", "! off", "! reset"])
            card.select("EF.SPN")
            self.assertEqual(card.read_binary(), before)
            card.verify(0x0A, "88888888")
            card.select("EF.SPN")
            card.fail(1)
            with self.assertRaises(StatusError) as failed:
                card.update_binary(b"\x00")
            self.assertEqual(failed.exception.status, "6581")

    def test_a_fault_is_for_what_is_called_next(self):
        """It isn't spent on a SELECT, whether `write` sends that or the test does."""
        for act in (lambda card: card.write("EF.SPN", spn="Z"), lambda card: (card.select("EF.SPN"), card.update_binary(b"\x00"))):
            with Card(USIM) as card:
                card.verify("adm", "88888888")
                before = card.say("EF.SPN")
                card.cut(1)
                with self.assertRaises(PowerLost):
                    act(card)
                card.reset()
                self.assertEqual(card.say("EF.SPN"), before)
                card.verify("adm", "88888888")
                card.fail(1)
                with self.assertRaisesRegex(StatusError, "UPDATE BINARY .* 6581"):
                    act(card)
                card.fail_reading(1)
                with self.assertRaisesRegex(StatusError, "READ BINARY .* 6581"):
                    card.say("EF.SPN")
                card.verify("adm", "88888888")
                card.cut(1)
                card.transmit("00A4000C023F00")
                card.write("EF.SPN", spn="Z")
                self.assertEqual(card.say("EF.SPN"), {"spn": "Z"})

    def test_more_than_a_command_carries(self):
        """A transparent file is written in pieces, as it is read; anything else is refused in words."""
        with Card(USIM) as card:
            card.verify("adm", "88888888")
            card.create_ef("6F51", "t", 600)
            content = bytes(number % 251 for number in range(599))
            card.update_binary(content, 1)
            self.assertEqual(card.read_binary(), b"\xFF" + content)
            with self.assertRaisesRegex(ValueError, "a command carries at most 255 bytes, and not 300"):
                card.update_record(1, bytes(300))
            with self.assertRaisesRegex(StatusError, "from byte 510"):
                card.update_binary(bytes(601))

    def test_services_are_changed(self):
        """As in a profile: the others stay."""
        with Card.from_profile({"like": "usim"}) as card:
            card.verify("pin1", "1234")
            card.verify("adm", "88888888")
            before = set(card.say("EF.UST")["services"])
            card.write("EF.UST", services_on=[28, "FDN"])
            self.assertEqual(set(card.say("EF.UST")["services"]), before | {2, 28})
            card.write("EF.UST", services_off=[28])
            self.assertEqual(set(card.say("EF.UST")["services"]), before | {2})
            with self.assertRaisesRegex(ValueError, "services_on is of files with services"):
                card.write("EF.SPN", services_on=[1])

    def test_why_a_pin_command_is_refused(self):
        with Card(USIM) as card:
            for call, why in ((lambda: card.disable_pin("adm", "88888888"), "ADM1 can't be disabled, and has no UNBLOCK PIN"),
                              (lambda: card.unblock_pin("adm", "88888888", "88888888"), "ADM1 can't be disabled, and has no UNBLOCK PIN"),
                              (lambda: card.verify(5, "1234"), "the keys of PINs are 01, 81")):
                with self.assertRaisesRegex(StatusError, f"6A88: .*: {why}"):
                    call()
        with Card.from_text("pin 01 31323334FFFFFFFF on 3132333435363738\n") as card, self.assertRaisesRegex(StatusError, "the card has no PIN 2"):
            card.verify("pin2", "1234")

    def test_the_number_of_a_record(self):
        """0 is none; that of the card is the current record."""
        with Card(USIM) as card:
            card.verify("pin1", "1234")
            card.select("EF.ADN")
            for number in (0, 256, -1):
                with self.assertRaisesRegex(ValueError, "1 to 255"):
                    card.read_record(number)
            self.assertEqual(len(card.read_record(1)), 28)

    def test_a_fault_that_no_command_has(self):
        """It is refused before anything is sent, and the card goes on."""
        with Card(USIM) as card:
            for plan in (lambda: card.cut(0), lambda: card.cut(-1), lambda: card.cut("1"), lambda: card.cut(1, 65), lambda: card.cut(1, 0, 256),
                         lambda: card.fail(0), lambda: card.fail(1, -1), lambda: card.fail_reading(0)):
                with self.assertRaisesRegex(ValueError, " is a number from [01] to "):
                    plan()
            self.assertEqual(card.transmit("00A4000C023F00").status, "9000")

    def test_an_entry_that_the_menu_lacks_where_the_applets_are_not_known(self):
        """The menu that was fetched tells it."""
        with Card(MENU) as card:
            card.profile()
            while card.pending is not None:
                card.fetch()
                card.respond()
            card._toolkit.doubt = "the definitions are other ones"
            with self.assertRaisesRegex(CardError, r"the card's menu has no entry 99: 2 \(Menu\)"):
                card.pick(99)
            self.assertTrue(card.pick(2).status.startswith("91"))

    def test_a_card_that_ended(self):
        """It says so at each later call."""
        with Card(USIM) as card:
            pass
        for call in (card.select, card.reset, lambda: card.cut(1), lambda: card.transmit("00A4000C023F00"), card.fetch):
            with self.assertRaisesRegex(ValueError, "the card is closed"):
                call()
        with Card(USIM) as card:
            with self.assertRaisesRegex(Ended, "status 2"):
                card._simulator.exchange(b"", "no-word")
            for call in (card.select, card.reset):
                with self.assertRaisesRegex(Ended, "status 2"):
                    call()

    def test_an_image_is_kept(self):
        with tempfile.TemporaryDirectory() as folder:
            path = os.path.join(folder, "card.img")
            for store in (None, "pages"):
                with Card(USIM, path, store) as card:
                    card.verify(1, "1234")
                    card.select("EF.ADN")
                    card.update_record(9, b"\x41" * 28)
                with Card(image=path, store=store) as card:
                    self.assertEqual(card.holds.files[("7F10", "6F3A")].record(9), b"\x41" * 28)
                    card.select("EF.ADN")
                    card.verify(1, "1234")
                    self.assertEqual(card.read_record(9), b"\x41" * 28)
                with open(path, "rb") as content:
                    self.assertEqual(bytes(image.card_in(content.read()).files[("7F10", "6F3A")].record(9)), b"\x41" * 28)
                os.remove(path)

    def test_wrong_names_and_scripts(self):
        with Card(USIM) as card:
            for name in ("EF.NONE", "7F10/6F07", "MF/DF.TELECOM/EF.IMSI"):
                with self.assertRaises(NoSuchFile):
                    card.select(name)
        with tempfile.TemporaryDirectory() as folder:
            path = os.path.join(folder, "bad.script")
            with open(path, "w", encoding="ascii") as out:
                out.write("ef 2FE2 t 40000 2 -\nstart\n")
            with self.assertRaisesRegex(CardError, "line 1: SIZE is 1 to 32767"):
                Card(path)

    def test_a_profile_in_any_letters(self):
        """The comments of a script that a profile becomes may have letters which are no bytes."""
        with Card({"like": "usim", "EF_ADN": {"entries": [{"name": "Ελλάδα", "number": "+30210"}], "read": "always"}}) as card:
            self.assertEqual(card.say("EF.ADN"), {"entries": {"name": "Ελλάδα", "number": "+30210"}})

    def test_pins_and_numbers_in_words(self):
        """A PIN by its name, a value of eight bytes in digits; what is none is said before anything is sent."""
        with Card({"like": "usim", "pins": {"adm": {"value": "A1B2C3D4E5F60718"}}}) as card:
            self.assertEqual(card.verify("adm", "A1B2C3D4E5F60718").status, "9000")
            self.assertEqual((card.verify("PIN1", "1234").status, card.tries("pin2")), ("9000", 3))
            sent = len(card.trace)
            for act, kind, why in ((lambda: card.verify(1, "12"), ValueError, "four to eight digits, or eight bytes as 16 hexadecimal digits, and not `12`"),
                                   (lambda: card.verify(1, 0), TypeError, "a PIN is text or bytes, and not 0"),
                                   (lambda: card.verify("pin3", "1234"), ValueError, "no PIN is called `pin3`: pin1, pin2, adm"),
                                   (lambda: card.read_record(300), ValueError, "the number of a record is one byte, 1 to 255, and not 300"),
                                   (lambda: card.transmit("zz"), ValueError, "`zz` is no bytes"),
                                   (lambda: card.select(12), TypeError, "a file is named by text, as \"EF.ADN\" or \"7F10/6F3A\", and not by 12"),
                                   (lambda: card.select("ADF.USIM/EF.IMSI"), NoSuchFile, "a card here has no ADF: the files of a USIM lie in 7F20"),
                                   (lambda: card.select("7FFF"), NoSuchFile, "a card here has no ADF"),
                                   (lambda: card.increase(-1), ValueError, "the amount of INCREASE is a number of 3 bytes, and not -1"),
                                   (lambda: card.pick("x"), ValueError, "an entry of the menu is picked by its number, of one byte, and not by 'x'"),
                                   (lambda: card.write("EF.SPN"), ValueError, 'card.write("EF.SPN", spn="Example")')):
                with self.assertRaises(kind) as caught:
                    act()
                self.assertIn(why, str(caught.exception))
            self.assertEqual(len(card.trace), sent)
            with self.assertRaisesRegex(StatusError, r"6A88: .*: the keys of PINs are 01, 81 \(PIN 2\) and 0A"):
                card.verify(2, "9876")

    def test_what_is_left_of_an_image(self):
        with tempfile.TemporaryDirectory() as folder:
            path = os.path.join(folder, "card.img")
            with Card(USIM, image=path):
                pass
            os.truncate(path, 60_000)
            with self.assertRaisesRegex(CardError, "card.img: it is no image of a card: it has 60,000 bytes"):
                Card(path)

    def test_files_made_resized_and_deleted(self):
        with Card(USIM) as card:
            card.verify(0x0A, "88888888")
            card.create_df("5F50")
            card.create_ef("4F20", length=4, short=3)
            self.assertEqual((card.current, card.read_binary()), (("5F50", "4F20"), b"\xFF" * 4))
            card.update_binary("01020304")
            card.resize_file("4F20", 6)
            self.assertEqual((card.read_binary(), card.holds.files[card.current].size), (bytes.fromhex("01020304FFFF"), 6))
            card.create_ef("4F21", "l", 2, 3, rule=("2F06", 1))
            self.assertEqual(card.select("5F50/4F21")["security attributes"], "record 1 of 2F06")
            card.delete_file("4F21")
            with self.assertRaises(NoSuchFile):
                card.select("5F50/4F21")
            with self.assertRaisesRegex(StatusError, "6A89"):
                card.create_ef("4F20")
            sent = len(card.trace)
            for act, why in ((lambda: card.create_ef("6F02", "x", 10), "the structure of an EF is 't', 'l', 'c', and not 'x'"),
                             (lambda: card.create_ef("6F03", "l", 10, 300), "the count of records is a number from 1 to 254, and not 300"),
                             (lambda: card.create_ef("6F03", "c", 256), "the length of a record is a number from 1 to 255, and not 256"),
                             (lambda: card.create_ef("6F01", "t", 70_000), "the length of a transparent EF is a number from 1 to 65535, and not 70000"),
                             (lambda: card.create_ef("6F01", short=31), "an SFI is a number from 0 to 30, and not 31"),
                             (lambda: card.create_ef("6F01", rule="2F06"), "a rule is the identifier of an EF_ARR and the number of a record"),
                             (lambda: card.create_ef("6F01", rule=("2F06", 0)), "and not ('2F06', 0)"),
                             (lambda: card.create_ef("6F0"), "the identifier of a file is four hexadecimal digits as text, \"6F01\" say, and not '6F0'"),
                             (lambda: card.create_df(0x7F66), "and not 32614"), (lambda: card.delete_file("EF.ADN"), "and not 'EF.ADN'"),
                             (lambda: card.resize_file("4F20", -1), "a size is a number from 0 to 65535, and not -1")):
                with self.assertRaises(ValueError) as caught:
                    act()
                self.assertIn(why, str(caught.exception))
            self.assertEqual(len(card.trace), sent)
            card.create_ef("4F22", rule="2F06:1")
            self.assertEqual(card.select("5F50/4F22")["security attributes"], "record 1 of 2F06")
        done = tool("shell", USIM, text="verify adm 88888888\ncreate df 5F50\ncreate ef 4F20 t 4 - -\nread\nresize 4F20 2\nread\nls\ndelete 4F20\nls\n")
        self.assertEqual(done.returncode, 0, done.stdout)
        for part in ("  FFFFFFFF\n", "  FFFF\n", "4F20"):
            self.assertIn(part, done.stdout)
        for line in ("create ef", "create ef 5F504F20 t 4 - -", "create fill 4F20 0 00", "resize 4F20 70000", "delete"):
            self.assertEqual(tool("shell", USIM, text=line + "\n").returncode, 1, line)

    def test_the_prompt(self):
        done = tool("shell", USIM, text="select EF.ADN\nverify pin1\nverify pin1 1234\nread 1\nread EF.IMSI\nupdate EF.ADN 7 42\nread 7\n"
                    "apdu 00 A4 00 04 02 3F 00\ncut 1\nupdate EF.ADN 8 43\nreset\nls\ntree\ntrace\n")
        self.assertEqual(done.returncode, 1, done.stderr)
        for part in ("linear fixed EF, 50 records of 28 bytes", "3 tries are left", "Voicemail: +99990100100", "001010123456789",
                     "SELECT by identifier 3F00", "file descriptor: DF", "the power was lost in the command", "7F10 DF.TELECOM",
                     "! cut"):
            self.assertIn(part, done.stdout)
        self.assertEqual(tool("shell", USIM, text="no such word\n").returncode, 1)
        self.assertEqual(tool("shell", USIM, text="select EF.ICCID\nread\n").returncode, 0)


def read_out(card, file):
    """A file as pySim-shell's `export` writes it, with the control parameters that the card answers."""
    name = "/".join(("MF", *file.path))
    parameters = card.send(bytes((0x00, 0xA4, 0x08, 0x04, 2 * len(file.path))) + bytes.fromhex("".join(file.path))).data
    if file.structure == "t":
        lines = [f"update_binary {card.read_binary().hex()}"]
    else:
        lines = [f"update_record {number} {card.read_record(number).hex()}" for number in range(1, file.count + 1)]
    return "\n".join([f"# RAW FCP Template: {parameters.hex()}", f"select {name}", *lines, "#"]) + "\n"


def facts(card):
    return {file.path: (file.structure, file.length, file.count, file.short, bytes(file.content))
            for file in card.files.values() if file.path != profile.ARR}


@unittest.skipUnless(is_built(), "the program isn't built")
class Importing(unittest.TestCase):
    def test_a_card_that_was_read_out(self):
        with Card(USIM) as card:
            card.verify(1, "1234")
            held = card.holds
            done = importing.Import("".join(read_out(card, file) for file in held.files.values() if file.path and not file.is_df))
        self.assertEqual(done.faults, [])
        lines = profile.build(profile.merged({}, tomllib.loads(done.profile())))
        self.assertEqual(facts(lint.read("".join(line + "\n" for line in lines)).card), facts(held))


@unittest.skipUnless(is_built(), "the program isn't built")
class Cuts(unittest.TestCase):
    def outcomes(self, path, words):
        script = cutting.read_script(path, words[0])
        return cutting.all_outcomes(words, script, os.cpu_count(), terminal.Progress(0, ""))

    def test_nothing_is_torn(self):
        for name, words in (("torn", ["play"]), ("pins", ["play", "--store", "pages"]), ("install", ["play"]), ("day", ["phone"])):
            with self.subTest(script=name):
                outcomes = self.outcomes(os.path.join(EXAMPLES, name + ".script"), words)
                self.assertEqual([one.step.number for one in outcomes if one.counts["NEITHER"]], [])
                self.assertGreater(sum(one.counts["before"] for one in outcomes), 0)
                self.assertGreater(sum(one.counts["after"] for one in outcomes), 0)

    def test_an_update_has_four_writes(self):
        """As the example of torn updates says: the journal, its gate, the file, and the gate."""
        update = self.outcomes(os.path.join(EXAMPLES, "update.script"), ["play"])[-1]
        states = [[left.state for left in ways] for ways in update.writes]
        self.assertEqual(len(states), 4)
        self.assertEqual((states[0], states[3]), (["before"] * 3, ["after"] * 3))

    def test_examples_as_they_are(self):
        for name in sorted(os.listdir(EXAMPLES)):
            # bip is over no card, and with telephone nothing is done
            if name.endswith(".script") and name not in ("bip.script", "telephone.script"):
                for store in ("journal", "pages"):
                    words = [os.path.join(EXAMPLES, name), "--store", store] + ["--phone"] * (name == "day.script")
                    done = tool("cuts", *words)
                    self.assertEqual(done.returncode, 0, f"{words}: {done.stdout}{done.stderr}")

    def test_a_bad_script_is_told(self):
        with tempfile.TemporaryDirectory() as folder:
            path = os.path.join(folder, "bad.script")
            with open(path, "w", encoding="ascii") as out:
                out.write("# a comment\nef 2FE2 t 40000 2 -\nstart\napdu 00A4000C022FE2\n")
            done = tool("cuts", path)
            self.assertEqual(done.returncode, 2)
            self.assertIn("bad.script: line 2: SIZE is 1 to 32767, not 40000", done.stderr)

    def test_a_picture(self):
        with tempfile.TemporaryDirectory() as folder:
            path = os.path.join(folder, "cuts.svg")
            self.assertEqual(tool("cuts", os.path.join(EXAMPLES, "update.script"), "--all", "--picture", path).returncode, 0)
            with open(path, encoding="utf-8") as text:
                drawn = text.read()
            self.assertTrue(drawn.startswith("<svg"))
            # a stripe for each of three ways of four writes, and one for each of the five colours
            self.assertEqual(drawn.count("<title>"), 12)


if __name__ == "__main__":
    unittest.main()
