"""How long a text of an applet may be: a command has at most 255 bytes, and the titles and entries of a list are short. The prover says so
of the code; here it is seen from the definitions alone."""
from . import antt, toolkit

# most letters of the title of a list, and of an entry
SHORT = 10
LONGEST = 255
# the commands with a text: the text's place among their parts, and what makes the others as short as they can be
TEXTS = {"DisplayText": (), "GetInkey": (), "GetInput": (False, 0, 0), "IdleText": ()}
IN_WORDS = {"DisplayText": "DISPLAY TEXT", "GetInkey": "GET INKEY", "GetInput": "GET INPUT", "IdleText": "SET UP IDLE MODE TEXT"}


def room_of(command):
    """How many letters the text of a command may have."""
    return next(count for count in range(LONGEST, 0, -1)
                if len(toolkit.SPELLED[command](bytes(count), *TEXTS[command]).spelled(1)) <= toolkit.LONGEST_COMMAND)


# what has room for so many letters
ROOMS = {command: (room_of(command), IN_WORDS[command]) for command in TEXTS}
TITLE, ENTRY = (SHORT, "the title of a list"), (SHORT, "an entry of a list")
MOST = max(room for room, _ in ROOMS.values())


class Uses:
    """What the texts are used for in some definitions."""

    def __init__(self, definitions):
        self.definitions = definitions

    def of(self, name):
        """The room for each text that a definition names, with what it is used for: pairs of its name and the room."""
        return [found for _, body in self.definitions[name] for found in self._in_body(body)]

    def _in_body(self, body):
        """The same of a body, whatever it is used for itself."""
        found = []
        if body[0] == "call" and body[1][0] == "name":
            for place, part in enumerate(body[2]):
                for room in self._rooms(body[1][1], place):
                    found += self._named(part, room)
        if body[0] == "record" and "text" in body[2]:
            found += self._named(body[2]["text"], ENTRY)
        return found + [each for part in antt.parts_of(body) for each in self._in_body(part)]

    def _rooms(self, called, place, seen=()):
        """What room there is for what is passed at a place of a call."""
        if called == "SelectItem" and place == 0:
            return [TITLE]
        if called in ROOMS and place == 0:
            return [ROOMS[called]]
        found = []
        for patterns, body in self.definitions.get(called, ()) if called not in seen else ():
            if place < len(patterns) and patterns[place][0] == "bound":
                found += self._passed(body, patterns[place][1], (*seen, called))
        return found

    def _passed(self, body, name, seen):
        """What room there is for what a body calls by a name."""
        found = [room for part in antt.parts_of(body) for room in self._passed(part, name, seen)]
        if body[0] == "call" and body[1][0] == "name":
            for place, part in enumerate(body[2]):
                if ["name", name] in joined(part):
                    found += self._rooms(body[1][1], place, seen)
        return found

    @staticmethod
    def _named(body, room):
        """The texts that stand in a body as a whole, or as a part that is joined to others, with the room for them."""
        return [(part[1][1], room) for part in joined(body) if part[0] == "field" and part[2] == "now" and part[1][0] == "name"]


def joined(body):
    """The parts of which `++` makes a text, or the text alone."""
    return [part for side in body[1:] for part in joined(side)] if body[0] == "++" else [body]


def room_for(collected, name):
    """The least room for a text among the definitions that name it, and what it is used for; None where none uses it."""
    uses = Uses(collected.definitions)
    return min((room for each in collected.definitions for used, room in uses.of(each) if used == name), default=None)


def why_too_long(name, length, room):
    return f"{name} has {length} characters, and {room[1]} has room for {room[0]}"


def findings(collected):
    """The texts that are too long for what the definitions use them for: a file, a line and why, each."""
    uses, found = Uses(collected.definitions), []
    for name in collected.definitions:
        file = collected.file(collected.places[name])
        for used, room in uses.of(name):
            length = len(collected.constants.get(used, ()))
            if length > room[0]:
                line = next((line + file.offset_of(text, used) for line, text in file.texts(name) if used in text), 1)
                found.append((file.path, line, f"{name}: {why_too_long(used, length, room)}"))
    return sorted(set(found))
