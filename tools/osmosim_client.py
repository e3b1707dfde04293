"""Speaks to the card in the first reader by libosmosim over T=0, for tools/check. Wants Debian's libosmosim2.

A line of standard input is a command in hexadecimal digits, as ISO 7816-4 codes it with a short Lc and Le: its answer is printed. By
T=0 libosmosim fetches data (61XX) and mends lengths (6CXX) by itself; a length that is less than what comes ends the program, as there
is no room for more.

The structures are those of osmocom/sim/sim.h and osmocom/core/msgb.h. Version 1.7.0 answers each command with -EIO, whatever the card
says: it takes the status from a message only where its l2h is set (get_sw of src/sim/reader.c), and sets none in the messages that it
sends (transceive_apdu_t0). What a reader does is a client's to give, so here each message comes back from the reader with l2h."""
import ctypes
import sys

LIBRARY = "libosmosim.so.2"
PCSC, T0 = 0, 0
HEADER = 5


class Links(ctypes.Structure):
    _fields_ = [("next", ctypes.c_void_p), ("before", ctypes.c_void_p)]


class Control(ctypes.Structure):
    """What libosmosim keeps in a message's control buffer."""
    _fields_ = [("case", ctypes.c_int), ("sent", ctypes.c_uint16), ("wanted", ctypes.c_uint16), ("status", ctypes.c_uint16)]


class Message(ctypes.Structure):
    _fields_ = [
        ("list", Links), ("dst", ctypes.c_void_p), ("lchan", ctypes.c_void_p), ("l1h", ctypes.c_void_p), ("l2h", ctypes.c_void_p),
        ("l3h", ctypes.c_void_p), ("l4h", ctypes.c_void_p), ("cb", ctypes.c_ulong * 5), ("data_len", ctypes.c_uint16),
        ("len", ctypes.c_uint16), ("head", ctypes.c_void_p), ("tail", ctypes.c_void_p), ("data", ctypes.c_void_p)]

    def control(self):
        return Control.from_buffer(self.cb)


TRANSCEIVE = ctypes.CFUNCTYPE(ctypes.c_int, ctypes.c_void_p, ctypes.POINTER(Message))


class Operations(ctypes.Structure):
    _fields_ = [
        ("name", ctypes.c_char_p), ("reader_open", ctypes.c_void_p), ("card_open", ctypes.c_void_p), ("card_reset", ctypes.c_void_p),
        ("card_close", ctypes.c_void_p), ("transceive", TRANSCEIVE)]


class Reader(ctypes.Structure):
    _fields_ = [
        ("list", Links), ("operations", ctypes.POINTER(Operations)), ("proto_supported", ctypes.c_uint32), ("priv", ctypes.c_void_p),
        ("card", ctypes.c_void_p)]


class Card(ctypes.Structure):
    """As far as it is used: the first of the channels is the basic one."""
    _fields_ = [("list", Links), ("reader", ctypes.c_void_p), ("prof", ctypes.c_void_p), ("proto", ctypes.c_int), ("channels", Links)]


def library():
    """libosmosim, or None where it isn't here."""
    try:
        found = ctypes.CDLL(LIBRARY)
    except OSError:
        return None
    found.osim_reader_open.argtypes = [ctypes.c_int, ctypes.c_int, ctypes.c_char_p, ctypes.c_void_p]
    found.osim_reader_open.restype = ctypes.POINTER(Reader)
    found.osim_card_open.argtypes = [ctypes.POINTER(Reader), ctypes.c_int]
    found.osim_card_open.restype = ctypes.POINTER(Card)
    found.osim_card_close.argtypes = [ctypes.POINTER(Card)]
    found.osim_new_apdumsg.argtypes = [ctypes.c_uint8] * 4 + [ctypes.c_uint16] * 2
    found.osim_new_apdumsg.restype = ctypes.POINTER(Message)
    found.osim_transceive_apdu.argtypes = [ctypes.c_void_p, ctypes.POINTER(Message)]
    found.msgb_free.argtypes = [ctypes.POINTER(Message)]
    return found


def mended(theirs):
    """The operations of a reader, from which messages come back with l2h."""
    def transceive(reader, message):
        failed = theirs.transceive(reader, message)
        message.contents.l2h = message.contents.data
        return failed
    ours = Operations.from_buffer_copy(theirs)
    ours.transceive = TRANSCEIVE(transceive)
    return ours


def parts(command):
    """The data of a command, and how many bytes its Le wants."""
    body = command[HEADER - 1:]
    if len(body) < 2:
        return b"", (body[0] or 256) if body else 0
    data, le = body[1:1 + body[0]], body[1 + body[0]:]
    return data, (le[0] or 256) if le else 0


def answered(osmosim, channel, command):
    data, wanted = parts(command)
    message = osmosim.osim_new_apdumsg(*command[:HEADER - 1], len(data), wanted)
    content = message.contents
    ctypes.memmove(content.tail, data, len(data))
    content.tail += len(data)
    content.len += len(data)
    status = osmosim.osim_transceive_apdu(channel, message)
    if status < 0:
        raise OSError(-status, f"{command.hex().upper()} was not answered")
    told = ctypes.string_at(content.l2h + HEADER + len(data), content.control().wanted)
    osmosim.msgb_free(message)
    return (told + status.to_bytes(2, "big")).hex().upper()


def main():
    osmosim = library()
    reader = osmosim.osim_reader_open(PCSC, 0, None, None)
    operations = mended(reader.contents.operations.contents)
    reader.contents.operations = ctypes.pointer(operations)
    card = osmosim.osim_card_open(reader, T0)
    for line in map(str.strip, sys.stdin):
        print(answered(osmosim, card.contents.channels.next, bytes.fromhex(line)), flush=True)
    osmosim.osim_card_close(card)


if __name__ == "__main__":
    main()
