"""Makes a profile of a dump (`dump`), as far as its files fit on a card here."""
from . import access, dump, grammar, layout, names, profile, profile_text, rules
from .coding import BadContent
from .dump import Unread

# who may do what with a file of which no rule is told, and the PINs: what no dump tells
DEFAULT = {"read": "always", "update": "adm", "deactivate": "adm", "activate": "adm"}
HEAD = """# the dump has no PINs: these are examples
[pins]
pin1 = { value = "1234", unblock = "12345678" }
pin2 = { value = "5678", unblock = "87654321" }
adm = { value = "88888888" }

"""
DEFAULT_HEAD = """# what holds for a file that says nothing else
[default]
"""
OWN = {"read": "always", "update": "adm"}
NO_SHORT = 0
MOST_RECORDS = 254


class Import:
    """The files of a dump that fit on a card, and a line for each thing that doesn't, or isn't read."""

    def __init__(self, text):
        self.card, self.kept = layout.Card(), {}
        files, self.faults = dump.read(text)
        self.with_usim = any("ADF.USIM" in file.name.split("/") for file in files)
        # EF_ARR first: it takes up room that others then haven't got
        arr, others = [], []
        for file in files:
            (arr if self._is_arr(file) else others).append(file)
        for file in arr[:1]:
            self._keep_or_say(file)
        if profile.ARR not in self.kept:
            self._room_for_rules()
        for file in arr[1:] + others:
            self._keep_or_say(file)
        self._rules()

    def _keep_or_say(self, file):
        try:
            self._keep(file)
        except (Unread, BadContent, layout.Wrong) as fault:
            self.faults.append(f"{file.name}: {fault}")

    def _is_arr(self, file):
        try:
            return file.path() == profile.ARR
        except Unread:
            return False

    def _room_for_rules(self):
        """EF_ARR, as the default rules have it written."""
        written = [rules.written(words) for words in (DEFAULT, OWN)]
        self.card.add(grammar.Ef(profile.ARR, "l", max(map(len, written)), len(written), 6, None))

    def _keep(self, file):
        path = file.path()
        if self.with_usim and path[0] == "7F20" and "ADF.USIM" not in file.name.split("/"):
            raise Unread("the files of ADF.USIM lie in DF.GSM here")
        for depth in range(1, len(path)):
            if path[:depth] in self.card.files and not self.card.files[path[:depth]].is_df:
                raise Unread(f"{names.shown(path[:depth])} is no DF")
        if path in self.card.files:
            raise Unread(f"{names.shown(path)} is there already")
        shape, records = told_shape(file, path)
        if path == profile.ARR:
            # the records of the words for files of which no rule is told may come after these
            shape = grammar.Ef(path, shape.structure, shape.length, min(shape.count + 2, MOST_RECORDS), shape.short, None)
        shape = self._with_short(file, path, shape)
        self._add(shape)
        kept = self.card.files[path]
        if path == profile.ARR:
            kept.count = shape.count - 2
        kept.content = bytearray(b"".join(record.ljust(shape.length, b"\xFF") for record in records).ljust(kept.size, b"\xFF"))
        self.kept[path] = file
        if file.shape.is_deactivated:
            self.faults.append(f"{file.name}: is deactivated there, and activated in a card that is made of a profile")

    def _rules(self):
        """The rule that each file names, where the dump tells its EF_ARR, or the words of a SIM's conditions."""
        untold = {}
        for path, file in self.kept.items():
            kept = self.card.files[path]
            if not file.shape.rule:
                continue
            kept.rule = file.shape.rule
            arr = self.card.rule_file(kept)
            if arr is None or arr.path not in self.kept or not self._tells(arr, file.shape.rule[1]):
                kept.rule = None
                untold.setdefault(file.shape.rule, []).append(file.name)
        for rule, files in untold.items():
            self.faults.append(f"{files[0]}: its rule {rule[0]}:{rule[1]} isn't in the dump{access.others(files)}")

    def _tells(self, arr, number):
        records = self.kept[arr.path].records
        return number in records if records else number == 1 and arr.structure == "t"

    def _with_short(self, file, path, shape):
        """The short identifier that is told, or else the standard's; none where another file of the folder has it."""
        short = file.shape.short if file.shape.short is not None else (names.file(path) or {}).get("short", NO_SHORT)
        taken = [other for other in self.card.children(path[:-1]) if short and other.short == short]
        if taken:
            self.faults.append(f"{file.name}: comes without its SFI {short}, which {names.shown(taken[0].path)} has")
        return grammar.Ef(path, shape.structure, shape.length, shape.count, short if 1 <= short <= 30 and not taken else None, None)

    def _add(self, shape):
        """The file and the folders that it lies in, or nothing."""
        added = []
        try:
            for said in said_lines(shape, self.card):
                self.card.add(said)
                added.append(said.path)
        except layout.Wrong:
            for path in added:
                del self.card.files[path]
            raise

    def open_files(self):
        """The paths of the files of which no rule is told, which everybody can read in the profile."""
        return [path for path, file in self.kept.items() if path != profile.ARR and not self.card.files[path].rule and not file.shape.words]

    def profile(self):
        """The profile's text."""
        kept = layout.Card()
        kept.files = {path: file for path, file in self.card.files.items() if path in self.kept or file.is_df}
        by_words = {path: file.shape.words for path, file in self.kept.items() if file.shape.words and not self.card.files[path].rule}
        comments = {path: file.name for path, file in self.kept.items()}
        lines = profile_text.word_lines(DEFAULT)
        if not by_words and not any(file.rule for file in kept.files.values()):
            head = DEFAULT_HEAD + "\n".join(lines) + "\n\n"
            return HEAD + head + profile_text.Writer(kept, untold_arr=lines, comments=comments).text()
        return HEAD + profile_text.Writer(kept, words=by_words, untold=lines, untold_arr=lines, comments=comments).text()


def said_lines(shape, card):
    """What the lines of a script say of a file and of folders that aren't there yet; Wrong where no line may say it."""
    for depth in range(1, len(shape.path)):
        if shape.path[:depth] not in card.files:
            yield grammar.read_line(f"df {''.join(shape.path[:depth])}")
    bounds = shape.length if shape.structure == "t" else f"{shape.length} {shape.count}"
    yield grammar.read_line(f"ef {''.join(shape.path)} {shape.structure} {bounds} {shape.short or '-'} -")


# the shape

def told_shape(file, path):
    """The shape of a file, by what is told of it or else by what it holds, and the bytes of its records."""
    structure = file.shape.structure or ("l" if file.records else "t")
    if structure == dump.FOREIGN:
        raise Unread("it is neither transparent, linear fixed nor cyclic")
    if structure == "t":
        if file.records:
            raise Unread("it is transparent, and records are given")
        content = dump.bytes_of(file.whole, path, file.shape.size)
        size = len(content) if file.shape.size is None else file.shape.size
        if len(content) > size:
            raise Unread(f"it has {size} bytes, and {len(content)} are given")
        return grammar.Ef(path, "t", size, 1, None, None), [content]
    if file.whole is not None:
        raise Unread("it has records, and one content is given")
    records = {number: dump.bytes_of(value, path, file.shape.length) for number, value in file.records.items()}
    length = max(map(len, records.values())) if file.shape.length is None else file.shape.length
    count = max(records) if file.shape.count is None else file.shape.count
    if count > MOST_RECORDS:
        raise Unread(f"a file here has at most {MOST_RECORDS} records, and this one {count}")
    for number, content in records.items():
        if not 1 <= number <= count or len(content) > length:
            raise Unread(f"it has {count} records of {length} bytes, and a record {number} of {len(content)} is given")
    return grammar.Ef(path, structure, length, count, None, None), [records.get(number, b"") for number in range(1, count + 1)]
