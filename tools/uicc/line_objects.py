"""What differs between a line of a trace that was expected and the one that is shown, object by object."""
import difflib

from . import decode, names, tlv, trace


def objects_of(line, command, of_terminal):
    """What a line says, as a list of (label, text); `command` is the line of the command before it. ValueError where its bytes are
    none of a trace."""
    sign, content = line[:2], line[2:]
    if line.startswith(trace.EVENT):
        return labelled(decode.template(bytes.fromhex(line[len(trace.EVENT):]), "bad envelope"))
    if sign == "> " and of_terminal:
        return labelled(decode.proactive(bytes.fromhex(content)))
    if sign == "> ":
        apdu = decode.Apdu(bytes.fromhex(content))
        return [("command", decode.title(apdu)), *labelled(decode.details(apdu))]
    if sign == "< " and of_terminal:
        return labelled(decode.response(bytes.fromhex(content)))
    if sign == "< ":
        return objects_of_answer(bytes.fromhex(content), command)
    return []


def objects_of_answer(answer, command):
    status = decode.hexed(answer[-2:])
    return [("status", f"{status} {names.status(status)}"), *labelled(data_of_answer(answer[:-2], command))]


def data_of_answer(data, command):
    """What the data of an answer say, where the command tells it or they are control parameters."""
    apdu = decode.Apdu(bytes.fromhex(command[2:])) if command else None
    if data and apdu and apdu.ins == decode.FETCH:
        return decode.proactive(data)
    if data[:1] == b"\x62":
        return decode.fcp(data)
    return [decode.Line(0, "data", decode.hexed(data) or "none")]


def labelled(lines):
    """The lines that say something, without their depth."""
    return [(line.label, line.text) for line in lines if line.text]


def differences(wanted, shown, command, of_terminal):
    """What differs between two lines, as a list of (label, expected, shown); None for what isn't there. Nothing where the lines can't be
    compared so."""
    try:
        first, second = (objects_of(line, command, of_terminal) for line in (wanted, shown))
    except (ValueError, tlv.BadTlv):
        return []
    if wanted[:2] != shown[:2]:
        return []
    return list(told(first, second))


def told(first, second):
    """The objects that aren't the same, paired by their labels where they stand in the same order."""
    matcher = difflib.SequenceMatcher(a=[label for label, _ in first], b=[label for label, _ in second], autojunk=False)
    for _, begin, end, other, last in matcher.get_opcodes():
        if end - begin == last - other and [label for label, _ in first[begin:end]] == [label for label, _ in second[other:last]]:
            for (label, expected), (_, found) in zip(first[begin:end], second[other:last]):
                if expected != found:
                    yield (label, *apart(expected, found))
        else:
            yield from ((label, text, None) for label, text in first[begin:end])
            yield from ((label, None, text) for label, text in second[other:last])


def apart(expected, found):
    """Two texts; of two rows of hexadecimal digits from the first byte on that differs."""
    if not (is_hex(expected) and is_hex(found)):
        return expected, found
    at = next((n for n in range(0, min(len(expected), len(found)), 2) if expected[n:n + 2] != found[n:n + 2]), min(len(expected), len(found)))
    at -= at % 2
    return tuple(f"byte {at // 2 + 1}: {text[at:at + 16] or 'none'}{'..' if len(text) > at + 16 else ''}" for text in (expected, found))


def is_hex(text):
    return len(text) > 8 and all(letter in "0123456789ABCDEF" for letter in text)
