"""Profiles: a card in TOML, with names in place of numbers. Reads one, over a template, and writes the script that it says."""
import contextlib
import copy
import os
import re
import tomllib
import typing

from . import checking, coding, contents, dump, fields, forms, lint, located, names
from .building import Builder, described, nearest_arr
from .profile_faults import OF_FILE, faults_at_top, faults_of_file
from .profile_names import (
    ARR, OPERATIONS, PIN_KEYS, BadProfile, Fault, is_arr_in_folder, is_file_table, parts_of, path_of, path_or_none, same_path, shown_name,
    told_origin)

__all__ = ["ARR", "OF_FILE", "PIN_KEYS", "BadProfile", "build", "described", "is_arr_in_folder", "is_usim", "made", "made_in", "made_of",
           "merged", "nearest_arr", "path_of", "path_or_none", "tables_in", "template"]

TEMPLATES = os.path.join(names.DATA, "profiles")
# the keys of a file's table that say its shape
SHAPE = ("size", "length", "count", "cyclic")
# what a profile says of an access control class that is the last digit of the IMSI
BY_IMSI = "imsi"
# what a table of services says of a few of them
CHANGES_OF_SERVICES = ("services_on", "services_off")
# the key Kc of a SIM
KC = ("7F20", "6F20")
# what a reason says of the lines of a script
OF_SCRIPT = re.compile(r" \(line \d+\)")


class Made(typing.NamedTuple):
    """What a profile becomes: the lines of a script, and what is doubtful in it."""
    lines: list
    warnings: list

    @property
    def text(self):
        return "".join(line + "\n" for line in self.lines)


def made_of(path):
    """What a profile in a file becomes. BadProfile, and the warnings, name lines of the file."""
    with open(path, "rb") as file:
        content = file.read()
    return made_in(content, path)


def made_in(content, name):
    """What a profile's bytes become, which are called so. BadProfile, with all that is wrong."""
    given, text, unread = read(content, name)
    tables, faults = laid_over_template(given)
    lines, warnings, more = judged(tables, bool(faults or unread), given)
    if unread or faults or more:
        raise BadProfile(with_lines(faults + more, name, text, unread))
    return Made(lines, [fault.reason for fault in with_lines(warnings, name, text)])


def tables_in(content, name):
    """The tables of a profile's bytes, over its template. BadProfile, where no script can be made of them."""
    made_in(content, name)
    return with_services(over_template(read(content, name)[0]))[0]


def read(content, name):
    """The tables of a profile's bytes as they stand, its text, and what can't be read of it, a line and a reason each. BadProfile, where
    nothing can be read after that."""
    given, text, unread = located.read_on(content)
    if given is None:
        raise BadProfile([Fault((), f"{name}{f', line {fault.line}' if fault.line else ''}: {fault}") for fault in unread])
    return given, text, unread


def with_lines(faults, name, text, unread=()):
    """Faults with the lines of a file that they are of, in the order of these."""
    if not faults and not unread:
        return []
    lines = located.Lines(text)
    found = {(lines.of(path), reason) for path, reason in faults} | {(fault.line, str(fault)) for fault in unread}
    return [Fault((), f"{name}, line {line}: {reason}") for line, reason in sorted(found)]


def over_template(given):
    """A profile over the template that it is like. BadProfile, where it can't be laid over one."""
    found, faults = laid_over_template(given)
    if faults:
        raise BadProfile(faults)
    return found


def laid_over_template(given):
    """A profile over the template that it is like, as far as it can be, and why it can't be."""
    like, faults, base = given.get("like", "none"), [], {}
    wrong = forms.TEXT.wrong(like)
    if wrong:
        faults.append(Fault(("like",), f"{forms.about('like', wrong)}: like = \"usim\""))
    else:
        try:
            base = template(like)
        except BadProfile as bad:
            faults += bad.faults
    base, more = without_files(base, given.get("without", []), given)
    own = {name: value for name, value in given.items() if name not in ("like", "without")}
    faults += more
    return merged(with_own_rules(base, given), own, faults), faults


def without_files(base, left_out, given):
    """A template without the files that a profile leaves out, and what is wrong with that. Of a DF all files in it go."""
    faults = [Fault(("without",), f"{forms.about('without', wrong)}: without = [\"EF_NETPAR\"]") for wrong in forms.TEXTS.faults(left_out)]
    for word in left_out if not faults else ():
        try:
            path = path_of(word)
        except BadProfile as bad:
            faults.append(Fault(("without",), f"without: {bad}"))
            continue
        gone = [name for name, value in base.items() if is_file_table(name, value) and path_of(name)[:len(path)] == path]
        named = next((name for name, value in given.items() if is_file_table(name, value) and path_or_none(name) == path), None)
        if named:
            faults.append(Fault((named,), f"{shown_name(named)} stands there, and `without` leaves it out"))
        elif not gone:
            faults.append(Fault(("without",), f"without: {dump.printable(word)} is no file of the template"))
        base = {name: value for name, value in base.items() if name not in gone}
    return base, faults


def with_own_rules(base, given):
    """A template whose files keep the rules of its own [default], where a profile has another one: that is for the files which the
    template hasn't got, so that naming a file changes nothing but what is said of it."""
    if not isinstance(given.get("default"), dict):
        return base
    return {name: {**base.get("default", {}), **value} if is_file_table(name, value) and goes_by_default(name, value) else value
            for name, value in base.items()}


def goes_by_default(name, given):
    """Whether the words of [default] hold for a file: EF_ARR has a rule of its own, and a folder has none."""
    return "rule" not in given and given != {"folder": True} and path_of(name) != ARR


def template(name):
    if name == "none":
        return {}
    if name not in template_names():
        raise BadProfile(f"like = \"{dump.printable(name)}\": there is no such template, but {', '.join(template_names())} and none", "like")
    with open(os.path.join(TEMPLATES, name + ".toml"), "rb") as text:
        return tomllib.load(text)


def template_names():
    return sorted(file.removesuffix(".toml") for file in os.listdir(TEMPLATES))


def merged(base, given, faults=None):
    """The tables of a template with those of a profile over them; a file is one whatever it is called, and a PIN keeps what isn't told
    anew. What is wrong is put to `faults`, where there are such, and is a BadProfile otherwise."""
    found, faults, is_raised = copy.deepcopy(base), [] if faults is None else faults, faults is None
    for name, value in given.items():
        at = same_file(found, name) if is_file_table(name, value) else name
        if at != name and at in given:
            faults.append(Fault((name,), f"{shown_name(name)} is the same file as {shown_name(at)}"))
            continue
        if isinstance(value, dict) and isinstance(found.get(at), dict):
            value = laid_over(found[at], value)
        # it is called as here from now on, where that leads to the same place
        found = {name if key == at and same_path(at, name) else key: each for key, each in found.items()}
        found[name if name in found else at] = value
    if is_raised and faults:
        raise BadProfile(faults)
    return found


def laid_over(base, given):
    """The keys of a table over those of another one. What a file holds is said by one key, and a rule in place of its words."""
    kept = {key: value for key, value in base.items()
            if not (key in fields.KEYS and any(other in fields.KEYS for other in given))
            and not (key in OPERATIONS and "rule" in given) and not (key == "rule" and any(other in OPERATIONS for other in given))}
    return {**kept, **{key: {**kept[key], **value} if isinstance(value, dict) and isinstance(kept.get(key), dict) and key in PIN_KEYS else value
                       for key, value in given.items()}}


def same_file(found, name):
    """The name under which a file stands there already, or this one."""
    try:
        wanted = parts_of(name)
        for other, value in found.items():
            if is_file_table(other, value):
                parts = parts_of(other)
                if wanted[-1:] == parts[-1:] and (same_path(name, other) or len(wanted) == 1 and "/" not in name):
                    return other
    except BadProfile:
        pass
    return name


def build(profile):
    """The lines of the script of a profile, which `uicc_run` takes. BadProfile, where it can't be had."""
    return made(profile)[0]


def made(profile):
    """The lines of the script of a profile, and what is doubtful in it: a fault each. BadProfile, with all that is wrong."""
    lines, doubtful, faults = judged(profile)
    if faults:
        raise BadProfile(faults)
    return lines, doubtful


def judged(profile, is_part=False, own=()):
    """The lines of the script of a profile, what is doubtful in it and what is wrong with it: a fault each. A key with a fault is left out
    for what is found after it; what may come of that is no fault, and neither is what may be missing in the part of a profile. Of the
    files that are named in `own`, it is doubtful too what the standard has otherwise."""
    profile, faults = with_class_by_imsi(profile)
    profile, more = with_services(profile)
    faults += [*more, *faults_at_top(profile)]
    tables, usim = tables_of_files(profile), is_usims(profile)
    for name, value in tables:
        found = list(faults_of_file(name, value, usim))
        faults += found + list(faults_beside(name, value, found, usim))
    nameless = [(name,) for name, _ in tables if path_or_none(name) is None]
    builder = Builder(without(profile, [fault.path for fault in faults] + nameless), usim)
    builder.build()
    faults += [fault for fault in builder.faults if is_own(fault, faults, is_part)]
    script = lint.read("".join(line + "\n" for line in builder.lines))
    bad, doubtful = findings_in(script, builder.origins)
    spoilt = {part_of(fault.path) for fault in faults}
    faults += [fault for fault in bad if not is_part and part_of(fault.path) not in spoilt]
    doubtful += [] if faults else [*faults_by_standard(script.card, own, usim), *faults_of_kind(dict(own), usim)]
    return builder.lines, builder.doubts + doubtful, faults


def tables_of_files(profile):
    return [(name, value) for name, value in profile.items() if is_file_table(name, value)]


def is_usims(profile):
    """Whether a profile is of a USIM, by the files of its tables."""
    return is_usim(path for name, _ in tables_of_files(profile) if (path := path_or_none(name)))


def faults_of_kind(own, usim):
    """A fault for each table that has the name of a file which the other kind of card has at its place, as EF_SST has that of a USIM's EF_UST;
    and for the key Kc of a SIM, where a profile of a USIM names it."""
    one, other = ("USIM", "SIM") if usim else ("SIM", "USIM")
    for name, _ in tables_of_files(own):
        path, named = path_or_none(name), names.by_name(name.rpartition("/")[2])
        entry = names.file(path, usim) if path else None
        if entry and entry not in named and names.file(path, not usim) in named:
            yield Fault((name,), f"{shown_name(name)} is a file of a {other}, and this card is a {one}'s: it is taken for its "
                                 f"[{entry['name'].replace('.', '_')}], which is at that place")
        if usim and path == KC:
            yield Fault((name,), f"{shown_name(name)} is that of a SIM, {'/'.join(KC)}: a USIM's is [\"5F3B/EF_Kc\"], in DF.GSM-ACCESS")


def with_class_by_imsi(profile):
    """A profile whose `acc = "imsi"` is the class that the last digit of its IMSI says; none where the file of the IMSI is blank or wrong.
    And why there is none, where it has no such file."""
    by_path = {path: name for name, value in profile.items() if is_file_table(name, value) and (path := path_or_none(name))}
    acc, imsi = (by_path.get(path) for path in (checking.ACC, checking.IMSI))
    if acc is None or profile[acc].get("acc") != BY_IMSI:
        return profile, []
    faults = [] if imsi else [Fault((acc, "acc"), f"{shown_name(acc)} acc = \"{BY_IMSI}\" is the last digit of the IMSI, and there is no "
                                    "EF_IMSI")]
    classes = [int(digit) for digit in last_digit(profile.get(imsi, {}))]
    return {**profile, acc: {**profile[acc], "acc": classes}}, faults


def with_services(profile):
    """A profile whose services are all told by `services`: where a table of a file says `services_on` or `services_off`, the others stay
    as they are. And what is wrong with those words."""
    found, faults, usim = {}, [], is_usims(profile)
    for name, given in tables_of_files(profile):
        if any(key in given for key in CHANGES_OF_SERVICES) and path_or_none(name):
            found[name], more = services_changed(name, given, usim)
            faults += more
    return {**profile, **found}, faults


def services_changed(name, given, usim):
    """The table of a file with all its services, and what is wrong with the change of them. It grows where it has no room for one."""
    kept, faults, changes = {key: value for key, value in given.items() if key not in CHANGES_OF_SERVICES}, [], {}
    kind = (names.file(path_of(name), usim) or {}).get("content")
    for key in filter(given.__contains__, CHANGES_OF_SERVICES):
        try:
            changes[key] = numbers_of(key, given[key], kind)
        except contents.BadContent as fault:
            faults.append(Fault((name, key), f"{shown_name(name)} {fault}"))
    both = sorted(set.intersection(*changes.values())) if len(changes) == len(CHANGES_OF_SERVICES) else []
    if both:
        faults.append(Fault((name, CHANGES_OF_SERVICES[1]), f"{shown_name(name)} services_off: {', '.join(map(str, both))} is in services_on too"))
    if faults:
        return kept, faults
    with contextlib.suppress(ValueError, TypeError):
        # a ValueError or TypeError: the services that are told are wrong, which is said of them
        numbers = set(contents.services(kept.get("services", []), kind)) | changes.get("services_on", set())
        numbers -= changes.get("services_off", set())
        kept["services"] = sorted(numbers)
        needed = -(-max(numbers, default=1) * contents.SERVICES[kind] // 8)
        if isinstance(kept.get("size"), int) and kept["size"] < needed:
            kept["size"] = needed
    return kept, []


def numbers_of(key, given, kind):
    """The numbers of the services that a change names. BadContent, where it can't be."""
    if kind not in contents.SERVICES:
        raise contents.BadContent(f"{key} is of files with services: EF_UST, EF_SST, EF_IST and EF_EST")
    wrong = fields.SERVICES.wrong(given)
    if wrong:
        raise contents.BadContent(f"{forms.about(key, wrong)}: {key} = [\"FDN\"]")
    try:
        return set(contents.services(given, kind))
    except contents.BadContent as fault:
        raise contents.BadContent(f"{key}: {fault}") from None


def last_digit(given):
    """The last digit of the IMSI that the table of its file says; nothing where it says none."""
    with contextlib.suppress(ValueError, IndexError, TypeError):
        told = given["imsi"] if "imsi" in given else contents.decode_imsi(bytes.fromhex(given.get("hex", "")))
        return told[-1] if isinstance(told, str) and coding.is_digits(told) else ""
    return ""


def faults_by_standard(card, own, usim):
    """What `check` tells of files of a card, by the tables of a profile that name them: a fault each, of the first of the tables."""
    named = {path: name for name in own if is_file_table(name, own[name]) and (path := path_or_none(name))}
    faults = []
    for finding in checking.found(card, "usim" if usim else "sim") if named else ():
        about = [(path, name) for path in finding.paths for own_path, name in named.items() if own_path[:len(path)] == path]
        if about and not finding.is_of_rules:
            (path, name), text = about[0], finding.text
            shown, origin = names.shown(path, usim), told_origin((name,))
            faults.append(Fault((name,), origin + text.removeprefix(shown) if text.startswith(shown) else f"{origin}: {text}"))
    return faults


def faults_beside(name, given, faults, usim):
    """What is wrong with the entries of a list that are of the right form, where others of it aren't, and nothing else of the file is wrong."""
    key = next((key for key in given if key in fields.KEYS), None)
    if not faults or any(fault.path != (name, key) for fault in faults) or not isinstance(given[key], list):
        return
    path = path_of(name)
    with contextlib.suppress(ValueError):
        # a ValueError: the file holds nothing of the kind
        form = fields.kind_for(key, names.file(path, usim)).form
        found = [(place, entry) for place, entry in enumerate(given[key], 1) if isinstance(form, forms.ListOf) and not list(form.one.faults(entry))]
        for place, entry in found:
            try:
                described(path, given | {key: [entry]}, usim)
            except ValueError as fault:
                yield Fault((name, key), dump.printable(f"{shown_name(name)} {key}: entry {place}: {fault}"))


def findings_in(script, origins):
    """What lint finds bad in the lines that were made, and what doubtful: a fault each. `origins` are the keys that say each line."""
    bad, doubtful = [], []
    for finding in script.findings:
        origin = origins[min(finding.line, len(origins)) - 1]
        fault = Fault(origin, f"{told_origin(origin)}: {OF_SCRIPT.sub('', finding.reason)}")
        (bad if finding.kind in lint.STATUSES else doubtful).append(fault)
    return bad, doubtful


def part_of(path):
    """The keys that lead to the file, the PIN or the applet that keys lead to."""
    return path[:2] if path[:1] in (("pins",), ("applet",)) else path[:1]


def is_own(fault, before, is_part):
    """Whether a fault is none that may come of those before it in its table: it is of a key, and none of these is of the file's shape."""
    part = part_of(fault.path)
    found = [other.path for other in before if part_of(other.path) == part]
    if not found and (not is_part or part[0] == "applet"):
        return True
    return len(fault.path) > len(part) and not any(key in SHAPE for path in found for key in path[len(part):])


def without(profile, paths):
    """A profile without the keys at some paths."""
    found = copy.deepcopy(profile)
    # from the last entry of a list to the first
    for *above, last in sorted(set(paths), key=lambda path: [(isinstance(key, int), str(key).zfill(9)) for key in path], reverse=True):
        table = found
        for key in above:
            table = table[key] if isinstance(table, list) or key in table else {}
        if isinstance(table, list):
            # the others keep their places
            table[last] = None
        else:
            table.pop(last, None)
    return found


def is_usim(paths):
    """Whether files at these paths are a USIM's."""
    return names.is_usim(set(paths))
