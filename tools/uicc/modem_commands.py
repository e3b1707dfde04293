"""The AT commands of the modem, a function each: it is given the modem and the command, and yields the lines that come before the
final result. A command that isn't here is answered ERROR."""
from . import at, contents, decode, names, process
from .at import DO, FULL, OFF, RADIO_OFF, READ, SET, TEST
from .card import pin_bytes
from .sim import PIN1, PIN2, error_of, is_done

MANUFACTURER, MODEL, REVISION, SERIAL = "uicc_run", "modem", "1", "004999010640000"
VERIFY, CHANGE_PIN, DISABLE_PIN, ENABLE_PIN, UNBLOCK_PIN = 0x20, 0x24, 0x26, 0x28, 0x2C
# what +CRSM calls its commands
GET_RESPONSE = 192
READING = {176: decode.READ_BINARY, 178: decode.READ_RECORD}
WRITING = {214: decode.UPDATE_BINARY, 220: decode.UPDATE_RECORD}
STATUS = 242
RESTRICTED = (176, 178, GET_RESPONSE, 214, 220, STATUS)
# this card has no ADF: the files of its USIM lie in a folder, which is selected where the application or its ADF is asked for
USIM_FOLDER, USIM_ADF, USIM_NAME = "7F20", "7FFF", "A0000000871002"
LONGEST_NAME = 16
BASIC_CHANNEL, MOST_CHANNELS = 0, 3
ICCID, IMSI = ("2FE2",), (USIM_FOLDER, "6F07")
LOCK, LOCK2 = "SC", "P2"
LONGEST_PIN, SHORTEST_PIN = 8, 4
PROFILE_OF_CLIENT = 0
NETWORK_NAME = "Example"
AUTOMATIC, ONLY_FORMAT = 0, 3
LONG_NAME, SHORT_NAME, NUMERIC = 0, 1, 2
AT_HOME, UNKNOWN_SIGNAL = 1, 99
AREA, CELL = "0001", "00000001"

LETTERS = ("IRA", "GSM", "UCS2")
PHONE_BOOK, TELECOM, ADN = "SM", "7F10", "6F3A"

COMMANDS = {}


def command(name, *kinds):
    """The function below carries out a command that is given in one of these ways."""
    def kept(function):
        for kind in kinds:
            COMMANDS[name, kind] = function
        return function
    return kept


def carry_out(modem, given):
    """The lines that a command is answered with before its final result. NoCommand, where there is no such command."""
    function = COMMANDS.get((given.name, given.kind))
    if function is None:
        raise at.NoCommand(given.name)
    return function(modem, given)


def quoted(text):
    return f'"{text}"'


# what a client sets

@command("E", SET)
def echo(modem, given):
    modem.has_echo = flag(given)
    return ()


@command("V", SET)
def words(modem, given):
    modem.has_words = flag(given)
    return ()


@command("Q", SET)
def quiet(modem, given):
    modem.is_quiet = flag(given)
    return ()


def flag(given):
    if given.number(0) > 1:
        raise at.Failed(at.BAD_PARAMETERS)
    return bool(given.number(0))


@command("Z", SET)
@command("&F", SET)
def as_at_first(modem, _):
    modem.has_echo, modem.has_words, modem.is_quiet, modem.error_form = True, True, False, 1
    return ()


@command("X", SET)
@command("&C", SET)
@command("&D", SET)
@command("S0", SET)
@command("S3", SET)
@command("S4", SET)
@command("S5", SET)
@command("H", SET)
def nothing_to_set(_modem, _given):
    """What says how a modem dials, answers and hangs up."""
    return ()


@command("D", SET)
def dial(_modem, _given):
    raise at.Final("NO CARRIER")


@command("+CMEE", SET)
def set_errors(modem, given):
    if given.number(0, 0) > 2:
        raise at.Failed(at.BAD_PARAMETERS)
    modem.error_form = given.number(0, 0)
    return ()


@command("+CMEE", READ)
def errors(modem, _):
    return (f"+CMEE: {modem.error_form}",)


@command("+CMEE", TEST)
def error_forms(_modem, _given):
    return ("+CMEE: (0-2)",)


@command("+CSCS", SET)
def set_letters(modem, given):
    """In which letters the phone book has its names."""
    if given.text(0).upper() not in LETTERS:
        raise at.Failed(at.NOT_SUPPORTED)
    modem.letters = given.text(0).upper()
    return ()


@command("+CSCS", READ)
def letters(modem, _):
    return (f"+CSCS: {quoted(modem.letters)}",)


@command("+CSCS", TEST)
def all_letters(_modem, _given):
    return (f"+CSCS: ({','.join(map(quoted, LETTERS))})",)


# who the modem is

@command("I", SET)
def about(_modem, _given):
    return (f"{MANUFACTURER} {MODEL} {REVISION}",)


@command("+GMI", DO)
@command("+CGMI", DO)
def manufacturer(_modem, _given):
    return (MANUFACTURER,)


@command("+GMM", DO)
@command("+CGMM", DO)
def model(_modem, _given):
    return (MODEL,)


@command("+GMR", DO)
@command("+CGMR", DO)
def revision(_modem, _given):
    return (REVISION,)


@command("+GSN", DO)
@command("+CGSN", DO)
def serial(_modem, _given):
    return (SERIAL,)


@command("+CGMI", TEST)
@command("+CGMM", TEST)
@command("+CGMR", TEST)
@command("+CGSN", TEST)
@command("+CIMI", TEST)
@command("+CLCC", TEST)
@command("+CCHO", TEST)
@command("+CCHC", TEST)
@command("+CSIM", TEST)
@command("+CRSM", TEST)
@command("+CGLA", TEST)
@command("+CPINR", TEST)
@command("+CUSATT", TEST)
@command("+CUSATE", TEST)
def is_there(_modem, _given):
    return ()


@command("+GCAP", DO)
def capabilities(_modem, _given):
    return ("+GCAP: +CGSM",)


# power

@command("+CFUN", READ)
def functionality(modem, _):
    return (f"+CFUN: {modem.functionality}",)


@command("+CFUN", TEST)
def functionalities(_modem, _given):
    return (f"+CFUN: ({OFF},{FULL},{RADIO_OFF}),(0,1)",)


@command("+CFUN", SET)
def set_functionality(modem, given):
    """With a second argument of 1 the modem is reset before."""
    given.at_most(2)
    wanted, is_reset = given.number(0, FULL), given.number(1, 0)
    if wanted not in (OFF, FULL, RADIO_OFF) or is_reset > 1:
        raise at.Failed(at.BAD_PARAMETERS)
    if is_reset:
        modem.set_functionality(OFF)
    modem.set_functionality(wanted)
    return ()


# PINs

@command("+CPIN", READ)
def pin(modem, _):
    return ("+CPIN: " + (modem.pin_state() if modem.has_power else "NOT READY"),)


@command("+CPIN", TEST)
def pin_is_there(_modem, _given):
    return ()


@command("+CPIN", SET)
def enter_pin(modem, given):
    given.at_most(2)
    state = modem.pin_state()
    if state == "READY":
        raise at.Failed(at.NOT_ALLOWED)
    if state == "SIM PUK":
        if len(given.arguments) < 2:
            raise at.Failed(at.PUK_WANTED)
        present(modem, UNBLOCK_PIN, PIN1, given.text(0), given.text(1))
    else:
        if len(given.arguments) > 1:
            raise at.Failed(at.BAD_PARAMETERS)
        present(modem, VERIFY, PIN1, given.text(0))
    modem.note_ready()
    return ()


def present(modem, ins, key, *values):
    """A command that presents PINs. A wrong one is WRONG_PASSWORD, also where it was the last try."""
    data = b"".join(map(pin_value, values))
    answer = modem.exchange(bytes((0, ins, 0, key, len(data))) + data)
    if answer.status.startswith("63C"):
        raise at.Failed(at.WRONG_PASSWORD)
    if not is_done(answer.status):
        raise at.Failed(error_of(answer.status))


def pin_value(digits):
    """A PIN of four to eight digits, filled up."""
    if not (digits.isascii() and digits.isdigit() and SHORTEST_PIN <= len(digits) <= LONGEST_PIN):
        raise at.Failed(at.WRONG_PASSWORD)
    return pin_bytes(digits)


@command("+CPINR", DO)
def retries(modem, _):
    return retries_of(modem, tuple(CODES))


@command("+CPINR", SET)
def retries_of_one(modem, given):
    given.at_most(1)
    if given.text(0) not in CODES:
        raise at.Failed(at.BAD_PARAMETERS)
    return retries_of(modem, (given.text(0),))


# what +CPINR counts: the command that asks for the tries, and the key
CODES = {"SIM PIN": (VERIFY, PIN1), "SIM PUK": (UNBLOCK_PIN, PIN1), "SIM PIN2": (VERIFY, PIN2), "SIM PUK2": (UNBLOCK_PIN, PIN2)}


def retries_of(modem, codes):
    found = ((code, modem.tries(*CODES[code])) for code in codes)
    return tuple(f"+CPINR: {code},{left}" for code, left in found if left is not None)


@command("+CLCK", TEST)
def locks(_modem, _given):
    return (f'+CLCK: ({quoted(LOCK)})',)


@command("+CLCK", SET)
def lock(modem, given):
    given.at_most(4)
    if given.text(0).upper() != LOCK:
        raise at.Failed(at.NOT_SUPPORTED)
    mode = given.number(1)
    if mode == 2:
        return (f"+CLCK: {int(modem.is_enabled(PIN1))}",)
    if mode > 2:
        raise at.Failed(at.BAD_PARAMETERS)
    present(modem, ENABLE_PIN if mode else DISABLE_PIN, PIN1, given.text(2))
    return ()


@command("+CPWD", TEST)
def passwords(_modem, _given):
    return (f"+CPWD: ({quoted(LOCK)},{LONGEST_PIN}),({quoted(LOCK2)},{LONGEST_PIN})",)


@command("+CPWD", SET)
def change_password(modem, given):
    given.at_most(3)
    keys = {LOCK: PIN1, LOCK2: PIN2}
    if given.text(0).upper() not in keys:
        raise at.Failed(at.NOT_SUPPORTED)
    present(modem, CHANGE_PIN, keys[given.text(0).upper()], given.text(1), given.text(2))
    return ()


# the SIM's bytes

@command("+CSIM", SET)
def any_command(modem, given):
    """A command as its bytes, on any channel."""
    given.at_most(2)
    return (f"+CSIM: {response_to(modem, counted(given, 0))}",)


def counted(given, place):
    """The bytes of a command, a string, before which stands the number of their digits."""
    content = given.quoted_content(place + 1)
    if given.number(place) != 2 * len(content) or not 1 <= len(content) <= process.LONGEST_COMMAND:
        raise at.Failed(at.BAD_PARAMETERS)
    return content


def response_to(modem, content):
    answer = modem.exchange(content)
    digits = decode.hexed(answer.data) + str(answer.status)
    return f"{len(digits)},{quoted(digits)}"


@command("+CCHO", SET)
def open_channel(modem, given):
    """A channel of the application with a name; the USIM of this card is a folder."""
    given.at_most(1)
    name = given.content(0)
    if len(name) > LONGEST_NAME:
        raise at.Failed(at.BAD_PARAMETERS)
    answer = modem.done(bytes((0, decode.CHANNEL, 0, 0, 1)))
    channel = answer.data[0] if answer.data else BASIC_CHANNEL
    if not BASIC_CHANNEL < channel <= MOST_CHANNELS:
        raise at.Failed(at.SIM_FAILURE)
    selected = modem.exchange(selection_of(name, channel)) if name else answer
    if not is_done(selected.status):
        modem.exchange(bytes((0, decode.CHANNEL, 0x80, channel)))
        raise at.Failed(error_of(selected.status))
    modem.channels.add(channel)
    return (f"+CCHO: {channel}",)


def selection_of(name, channel):
    if decode.hexed(name).startswith(USIM_NAME):
        return bytes((channel, decode.SELECT, 8, 0x0C, 2)) + bytes.fromhex(USIM_FOLDER)
    return bytes((channel, decode.SELECT, 4, 0x0C, len(name))) + name


def channel_of(modem, given):
    """The channel that a client opened by +CCHO."""
    channel = given.number(0)
    if channel not in modem.channels:
        raise at.Failed(at.NOT_FOUND)
    return channel


@command("+CCHC", SET)
def close_channel(modem, given):
    given.at_most(1)
    channel = channel_of(modem, given)
    modem.done(bytes((0, decode.CHANNEL, 0x80, channel)))
    modem.channels.discard(channel)
    return ("+CCHC",)


@command("+CGLA", SET)
def command_on_channel(modem, given):
    """A command on a channel that was opened, which is put into its class."""
    given.at_most(3)
    channel, content = channel_of(modem, given), counted(given, 1)
    return (f"+CGLA: {response_to(modem, bytes((content[0] & 0xFC | channel,)) + content[1:])}",)


# the SIM's files

@command("+CRSM", SET)
def restricted(modem, given):
    """A command on a file, which is selected before. Without a path it lies where the standard has it."""
    given.at_most(7)
    kind, file = given.number(0), given.number(1, 0)
    p1, p2, p3 = (given.number(place, 0) for place in (2, 3, 4))
    data, path = given.content(5, ""), given.content(6, "")
    if kind not in RESTRICTED:
        raise at.Failed(at.NOT_SUPPORTED)
    if max(p1, p2, p3) > 255 or file > 0xFFFF or len(path) % 2 or (kind in WRITING and len(data) != p3):
        raise at.Failed(at.BAD_PARAMETERS)
    answer = selected(modem, file, path) if file and kind != STATUS else None
    if answer is None or is_done(answer.status) and kind != GET_RESPONSE:
        answer = modem.exchange(on_file(kind, p1, p2, p3, data))
    return (crsm(answer),)


def on_file(kind, p1, p2, p3, data):
    if kind in WRITING:
        return bytes((0, WRITING[kind], p1, p2, p3)) + data
    if kind == STATUS:
        return bytes((0x80, decode.STATUS, p1, p2, p3))
    if kind == GET_RESPONSE:
        return bytes((0x80, decode.STATUS, 0, 0, p3))
    return bytes((0, READING[kind], p1, p2, p3))


def crsm(answer):
    return f"+CRSM: {answer.status.sw1},{answer.status.sw2}" + (f",{quoted(decode.hexed(answer.data))}" if answer.data else "")


def selected(modem, file, folder):
    """The answer to the SELECT of a file in a folder, or without a folder in the first of those where the standard has it."""
    identifier = f"{file:04X}"
    answer = None
    for path in [path_of(folder, identifier)] if folder else places(identifier):
        answer = modem.exchange(selection(path))
        if answer.status != "6A82":
            break
    return answer


def selection(path):
    """SELECT by path from the MF, which has its own identifier."""
    if not path:
        return bytes((0, decode.SELECT, 0, 4, 2, 0x3F, 0x00))
    content = bytes.fromhex("".join(path))
    return bytes((0, decode.SELECT, 8, 4, len(content))) + content


def path_of(folder, identifier):
    """A path as a client gives it, with or without 3F00 before it, and the file in it."""
    parts = [decode.hexed(folder[n:n + 2]) for n in range(0, len(folder), 2)]
    parts = [USIM_FOLDER if part == USIM_ADF else part for part in parts if part != "3F00"]
    return (*parts, *(() if identifier == "3F00" or parts[-1:] == [identifier] else (identifier,)))


def places(identifier):
    """The paths at which a file may lie, by its identifier: first that of the USIM, then those of other folders, and the MF."""
    if identifier == "3F00":
        return [()]
    folders = [folder for entry in names.files_of(identifier) for folder in entry["in"]]
    found = list(dict.fromkeys((*FOLDERS[folder], identifier) for folder in FOLDERS if folder in folders))
    return found or [(USIM_FOLDER, identifier), ("7F10", identifier), (identifier,)]


FOLDERS = {"USIM": (USIM_FOLDER,), "GSM": (USIM_FOLDER,), "TELECOM": ("7F10",), "MF": (), "PHONEBOOK": ("7F10", "5F3A"),
           "GRAPHICS": ("7F10", "5F50")}


def content_of(modem, path):
    """What a transparent file holds."""
    modem.done(selection(path))
    return modem.done(bytes((0, decode.READ_BINARY, 0, 0, 0))).data


@command("+CIMI", DO)
def imsi(modem, _):
    return (decoded(contents.decode_imsi, content_of(modem, IMSI)),)


@command("+CCID", DO)
@command("+CCID", READ)
@command("+ICCID", DO)
def iccid(modem, _):
    return ("+CCID: " + decoded(contents.digits_of, content_of(modem, ICCID)),)


def decoded(decode_content, content):
    try:
        return decode_content(content)
    except (contents.BadContent, IndexError):
        raise at.Failed(at.SIM_FAILURE) from None


# the phone book

@command("+CPBS", TEST)
def books(_modem, _given):
    return (f"+CPBS: ({quoted(PHONE_BOOK)})",)


@command("+CPBS", READ)
def book(_modem, _given):
    return (f"+CPBS: {quoted(PHONE_BOOK)}",)


@command("+CPBS", SET)
def set_book(_modem, given):
    given.at_most(1)
    if given.text(0).upper() != PHONE_BOOK:
        raise at.Failed(at.NOT_SUPPORTED)
    return ()


@command("+CPBR", TEST)
def book_size(modem, _):
    count, length = book_shape(modem)
    return (f"+CPBR: (1-{count}),{LONGEST_NUMBER},{length - contents.DIALLING}",)


LONGEST_NUMBER = 20


def book_shape(modem):
    """How many records EF_ADN has, and of how many bytes."""
    fcp = modem.done(selection((TELECOM, ADN))).data
    shape = decode.descriptor_in(fcp)
    if len(shape) != 5 or shape[4] == 0 or shape[3] < contents.DIALLING:
        raise at.Failed(at.SIM_FAILURE)
    return shape[4], shape[3]


@command("+CPBR", SET)
def entries(modem, given):
    """The entries that are used, of one place or from one up to another."""
    given.at_most(2)
    count, length = book_shape(modem)
    first = given.number(0)
    last = given.number(1, first)
    if not 1 <= first <= last <= count:
        raise at.Failed(at.INVALID_INDEX)
    found = ((place, modem.done(bytes((0, decode.READ_RECORD, place, 4, length))).data) for place in range(first, last + 1))
    return [entry(modem, place, record) for place, record in found if not contents.is_blank(record)]


def entry(modem, place, record):
    name, number, kind = decoded(contents.dialling_parts, record)
    return f"+CPBR: {place},{quoted(number)},{kind},{quoted(lettered(name, modem.letters))}"


def lettered(text, letters):
    """A text in the letters that a client wants; in those of seven bits without what they can't write."""
    if letters == "UCS2":
        return decode.hexed(text.encode("utf-16-be"))
    return "".join(letter if " " <= letter < "\x7F" and letter != '"' else "?" for letter in text)


# a network that never calls

@command("+CREG", READ)
@command("+CGREG", READ)
@command("+CEREG", READ)
def registration(modem, given):
    form = modem.registration_forms.get(given.name, 0)
    return (f"{given.name}: {form},{registration_state(modem, form)}",)


def registration_state(modem, form):
    """Whether the modem is registered, and in form 2 where."""
    if modem.functionality != FULL or not modem.has_power or modem.pin_state() != "READY":
        return "0"
    return f"{AT_HOME},{quoted(AREA)},{quoted(CELL)}" if form == 2 else str(AT_HOME)


@command("+CREG", TEST)
@command("+CGREG", TEST)
@command("+CEREG", TEST)
def registrations(_modem, given):
    return (f"{given.name}: (0-2)",)


@command("+CREG", SET)
@command("+CGREG", SET)
@command("+CEREG", SET)
def set_registration(modem, given):
    """In which form it is told; of changes nothing is told, as there are none."""
    given.at_most(1)
    if given.number(0, 0) > 2:
        raise at.Failed(at.BAD_PARAMETERS)
    modem.registration_forms[given.name] = given.number(0, 0)
    return ()


@command("+COPS", READ)
def operator(modem, _):
    forms = {LONG_NAME: NETWORK_NAME, SHORT_NAME: NETWORK_NAME, NUMERIC: network_code(modem)}
    if modem.functionality != FULL:
        return (f"+COPS: {AUTOMATIC}",)
    return (f"+COPS: {AUTOMATIC},{modem.operator_format},{quoted(forms[modem.operator_format])}",)


def network_code(modem):
    """The codes of the country and the network that the subscriber is of; test networks' where the IMSI can't be read."""
    try:
        return decoded(contents.decode_imsi, content_of(modem, IMSI))[:5]
    except at.Failed:
        return "00101"


@command("+COPS", SET)
def set_operator(modem, given):
    if given.number(0) not in (AUTOMATIC, 1, 2, ONLY_FORMAT, 4) or given.number(1, 0) > NUMERIC:
        raise at.Failed(at.BAD_PARAMETERS)
    if len(given.arguments) > 1:
        modem.operator_format = given.number(1, 0)
    return ()


@command("+COPS", TEST)
def operators(modem, _):
    return (f"+COPS: (2,{quoted(NETWORK_NAME)},{quoted(NETWORK_NAME)},{quoted(network_code(modem))}),,(0-4),(0-2)",)


@command("+CLCC", DO)
def calls(_modem, _given):
    return ()


@command("+CSQ", DO)
def signal(_modem, _given):
    return (f"+CSQ: {UNKNOWN_SIGNAL},{UNKNOWN_SIGNAL}",)


# the toolkit

@command("+CUSATR", TEST)
@command("+CUSATW", TEST)
def storages(_modem, given):
    return (f"{given.name}: ({PROFILE_OF_CLIENT})",)


@command("+CUSATR", DO)
@command("+CUSATR", READ)
@command("+CUSATR", SET)
def profile(modem, given):
    """The profile that TERMINAL PROFILE has; there is one alone."""
    given.at_most(1)
    if given.number(0, PROFILE_OF_CLIENT) != PROFILE_OF_CLIENT:
        raise at.Failed(at.BAD_PARAMETERS)
    return (f"+CUSATR: {PROFILE_OF_CLIENT},{quoted(decode.hexed(modem.profile))}",)


@command("+CUSATW", SET)
def set_profile(modem, given):
    """Another profile, for the next TERMINAL PROFILE."""
    given.at_most(2)
    content = given.content(1)
    if given.number(0) != PROFILE_OF_CLIENT or not 1 <= len(content) <= 255:
        raise at.Failed(at.BAD_PARAMETERS)
    modem.profile = content
    return ()


@command("+CUSATD", TEST)
def activations(_modem, _given):
    return ("+CUSATD: (0,1),(0,1)",)


@command("+CUSATD", READ)
def activation(modem, _):
    return (f"+CUSATD: {int(modem.is_told)},{int(modem.is_reporting)}",)


@command("+CUSATD", SET)
def activate(modem, given):
    """Whether TERMINAL PROFILE is sent now, and whether commands are told."""
    given.at_most(2)
    is_sent, is_reporting = given.number(0, 0), given.number(1, int(modem.is_reporting))
    if max(is_sent, is_reporting) > 1:
        raise at.Failed(at.BAD_PARAMETERS)
    modem.is_reporting = bool(is_reporting)
    if is_sent:
        modem.tell_profile()
    return ()


@command("+CUSATT", SET)
def respond(modem, given):
    """TERMINAL RESPONSE."""
    given.at_most(1)
    modem.done(toolkit(decode.RESPONSE, given.content(0)))
    if not modem.pending:
        modem.notice("+CUSATEND")
    return ()


@command("+CUSATE", SET)
def envelope(modem, given):
    """ENVELOPE. The second number of its answer says that the SIM was busy."""
    given.at_most(1)
    answer = modem.exchange(toolkit(decode.ENVELOPE, given.content(0)))
    if answer.status == "9300":
        return (f"+CUSATER: {decode.hexed(answer.data)},1",)
    if not is_done(answer.status):
        raise at.Failed(error_of(answer.status))
    return (f"+CUSATER: {decode.hexed(answer.data)}",)


def toolkit(ins, data):
    if not 1 <= len(data) <= 255:
        raise at.Failed(at.BAD_PARAMETERS)
    return bytes((0x80, ins, 0, 0, len(data))) + data


# the words of phonesim

@command("+SIMSTATE", READ)
def is_sim_there(modem, given):
    if not modem.is_phonesim:
        raise at.NoCommand(given.name)
    return (f"+SIMSTATE: {int(modem.has_power)}",)
