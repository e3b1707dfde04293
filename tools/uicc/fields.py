"""What standard files hold, as values of TOML: the key by which a profile says it, what the value has to be, the bytes that it becomes,
and the value that bytes say."""
import dataclasses
import typing

from . import contents, forms, rules, structured
from .contents import BadContent

HEX = "hex"
RECORDS = "records"


@dataclasses.dataclass(frozen=True)
class Kind:
    """A kind of content. `form` is that of the whole value; `encode` is given it with the size of the file, or where the file has
    records each entry of it with their length. `value` is what bytes say, of a whole file or of one record; None where it can't be said."""
    key: str
    form: forms.Form
    example: str
    encode: typing.Callable
    value: typing.Callable | None = None
    of_records: bool = False
    usual: int | None = None

    def encoded(self, given, size):
        """The bytes of a transparent file, or those of each record."""
        return [self.encode(entry, size) for entry in given] if self.of_records else self.encode(given, size)


def texts_of(shown):
    """The texts that are shown as a list in a line."""
    return [] if shown == "none" else shown.split(", ")


def encode_application(given, length):
    aid, label = structured.hexadecimal(given["aid"]), contents.coded_text(given.get("label", ""))
    if not 5 <= len(aid) <= 16:
        raise BadContent(f"an AID has 5 to 16 bytes, and {given['aid']} has {len(aid)}")
    content = rules.spelled(0x4F, aid) + (rules.spelled(0x50, label) if label else b"")
    return rules.spelled(0x61, content).ljust(length or 0, b"\xFF")


def application_of(record):
    if contents.is_blank(record):
        return {}
    found = dict(rules.objects(record[2:2 + record[1]]))
    label = contents.text_of(found.get(0x50, b""))
    return {"aid": found[0x4F].hex().upper()} | ({"label": label} if label else {})


def encode_emergency(given, length):
    """A number, or a table with its name and the category of its service."""
    given = given if isinstance(given, dict) else {"number": given}
    length = length or 4 + len(contents.coded_text(given.get("name", "")))
    if length < 4:
        raise BadContent(f"a record of emergency numbers has at least 4 bytes, and not {length}")
    name = contents.coded_text(given.get("name", ""), length - 4).ljust(length - 4, b"\xFF")
    category = given.get("category", 0xFF)
    return contents.packed(given["number"], 3) + name + bytes((category,))


def emergency_of(record):
    if contents.is_blank(record):
        return {}
    number, name = contents.digits_of(record[:3]), contents.text_of(record[3:-1])
    if not name and record[-1] == 0xFF:
        return number
    return {"number": number} | ({"name": name} if name else {}) | ({"category": record[-1]} if record[-1] != 0xFF else {})


def encode_name(given, size):
    """The name of the provider, or a table that says too when it is shown."""
    given = given if isinstance(given, dict) else {"name": given}
    return contents.encode_spn(given["name"], size or 17, given.get("with_network", True) | (not given.get("abroad", True)) << 1)


def name_of(content):
    name = contents.text_of(content[1:])
    return name if content[0] == 1 else {"name": name, "with_network": bool(content[0] & 1), "abroad": not content[0] & 2}


def encode_barred(entry, length):
    return contents.encode_dialling(entry, length - 1).ljust(length, b"\xFF")


def encode_minutes(minutes, _):
    if minutes % 6 or not 0 <= minutes <= 6 * 255:
        raise BadContent(f"it is a multiple of 6 from 0 to {6 * 255}, and not {minutes}")
    return bytes((minutes // 6,))


def services_of(content):
    bits = int.from_bytes(content, "little")
    return [number + 1 for number in range(bits.bit_length()) if bits >> number & 1]


def sim_services_of(content):
    bits = int.from_bytes(content, "little")
    return [number // 2 + 1 for number in range(0, bits.bit_length(), 2) if bits >> number & 3]


def dialling_of(record):
    if contents.is_blank(record):
        return {}
    name, rest = contents.text_of(record[:-14]), record[-14:]
    number = contents.dialled_digits(rest[2:1 + rest[0]], rest[1]) if rest[0] != 0xFF else ""
    return {"name": name} | ({"number": number} if number else {})


def mode_of(content):
    return {"mode": contents.MODES[content[0]], "network_digits": content[3] & 15}


def loci_of(content):
    return {"tmsi": content[:4].hex().upper(), "plmn": contents.decode_plmn(content[4:7]), "area": content[7:9].hex().upper(),
            "status": contents.UPDATES[content[10] & 7]}


TEXT, TEXTS, NUMBER, TRUTH, TABLE = forms.TEXT, forms.TEXTS, forms.NUMBER, forms.TRUTH, forms.TableOf
BYTE = forms.Bounded(0, 255)
SERVICES = forms.ListOf(forms.NUMBER_OR_TEXT, "numbers or names of services")
PLMNS = forms.ListOf(TEXT, "PLMNs in quotes")
ENTRIES, ENTRY = forms.ListOf(TABLE({"name": TEXT, "number": TEXT}), "tables"), '[{ name = "Anna", number = "+491701234567" }]'
EMERGENCY = TABLE({"number": TEXT, "name": TEXT, "category": BYTE}, ("number",))
LOCATION = TABLE(dict.fromkeys(("guti", "plmn", "area", "status"), TEXT), ("plmn",))
AREAS = forms.ListOf(TABLE({"plmn": TEXT, "from": TEXT, "to": TEXT, "name": forms.Bounded(0, 254)}, ("plmn", "name")), "tables")

# by the kind of content, as data/files.json names it
KINDS = {
    "iccid": Kind("iccid", TEXT, '"8999901000000123450"', lambda value, _: contents.encode_iccid(value), contents.digits_of),
    "imsi": Kind("imsi", TEXT, '"262019876543210"', lambda value, _: contents.encode_imsi(value), contents.decode_imsi),
    "spn": Kind("spn", forms.OneOf(TEXT, TABLE({"name": TEXT, "with_network": TRUTH, "abroad": TRUTH}, ("name",))), '"Nordlicht"', encode_name,
                name_of),
    "acc": Kind("acc", forms.ListOf(NUMBER, "numbers"), "[9]", lambda value, _: contents.encode_acc(value), contents.classes_of),
    "ad": Kind("ad", TABLE({"mode": TEXT, "network_digits": NUMBER}), '{ mode = "normal", network_digits = 2 }',
               lambda value, _: contents.encode_ad(value), mode_of),
    "loci": Kind("loci", TABLE({"tmsi": TEXT, "plmn": TEXT, "area": TEXT, "status": TEXT}, ("plmn",)),
                 '{ plmn = "001-01", area = "0000", status = "not updated" }', lambda value, _: contents.encode_loci(value), loci_of),
    "languages": Kind("languages", TEXTS, '["de", "en"]', lambda value, _: contents.encode_languages(value),
                      lambda content: texts_of(contents.decode_languages(content))),
    "minutes6": Kind("minutes", NUMBER, "30", encode_minutes, lambda content: 6 * content[0]),
    "plmns": Kind("plmns", PLMNS, '["262-01", "001-01"]', lambda value, _: contents.encode_plmns(value),
                  lambda content: texts_of(contents.decode_plmns(content))),
    "plmns-act": Kind("plmns", PLMNS, '["262-01 by GSM+UTRAN"]', lambda value, _: contents.encode_plmns_act(value),
                      contents.plmns_act),
    "ust": Kind("services", SERVICES, "[19, 21]", contents.encode_ust, services_of),
    "sst": Kind("services", SERVICES, "[1, 2, 4]", contents.encode_sst, sim_services_of),
    "dialling": Kind("entries", ENTRIES, ENTRY, contents.encode_dialling, dialling_of, True, 28),
    "barred": Kind("entries", ENTRIES, ENTRY, encode_barred, lambda record: dialling_of(record[:-1]), True, 29),
    "application": Kind("applications", forms.ListOf(TABLE({"aid": TEXT, "label": TEXT}, ("aid",)), "tables"),
                        '[{ aid = "A0000000871002FFFFFFFF8907090000", label = "USIM" }]', encode_application, application_of, True),
    "ecc": Kind("emergency", forms.ListOf(forms.OneOf(TEXT, EMERGENCY), "numbers in quotes"), '["112"]', encode_emergency,
                emergency_of, True),
    "psloci": Kind("psloci", TABLE(dict.fromkeys(("ptmsi", "signature", "plmn", "area", "routing", "status"), TEXT), ("plmn",)),
                   '{ plmn = "001-01", area = "0001", routing = "01", status = "updated" }',
                   lambda value, _: structured.encode_packet_location(value), structured.packet_location_of),
    "epsloci": Kind("epsloci", LOCATION, '{ plmn = "001-01", area = "0001", status = "updated" }',
                    lambda value, _: structured.encode_location(value, 12, 2), lambda content: structured.location_of(content, 12, 2)),
    "5gsloci": Kind("loci_5gs", LOCATION, '{ plmn = "001-01", area = "000001", status = "updated" }',
                    lambda value, _: structured.encode_location(value, 13, 3), lambda content: structured.location_of(content, 13, 3)),
    "ist": Kind("services", SERVICES, "[1, 6]", lambda value, size: contents.encode_ust(value, size, "ist"), services_of),
    "est": Kind("services", SERVICES, "[1]", lambda value, size: contents.encode_ust(value, size, "est"), services_of),
    "smsp": Kind("parameters", forms.ListOf(TABLE({"name": TEXT, "destination": TEXT, "centre": TEXT, "protocol": BYTE, "coding": BYTE,
                                                   "validity": NUMBER}), "tables"),
                 '[{ name = "Nordlicht", centre = "+491710760000", validity = 1440 }]', structured.encode_parameters,
                 structured.parameters_of, True, 44),
    "pnn": Kind("network_names", forms.ListOf(TABLE({"full": TEXT, "short": TEXT}), "tables"), '[{ full = "Nordlicht", short = "NL" }]',
                structured.encode_names, structured.names_of, True),
    "opl": Kind("areas", AREAS, '[{ plmn = "262-01", from = "0000", to = "FFFE", name = 1 }]',
                lambda entry, _: structured.encode_areas(entry, 2), lambda record: structured.areas_of(record, 2), True),
    "opl5g": Kind("areas", AREAS, '[{ plmn = "262-01", from = "000000", to = "FFFFFE", name = 1 }]',
                  lambda entry, _: structured.encode_areas(entry, 3), lambda record: structured.areas_of(record, 3), True),
    "spdi": Kind("plmns", PLMNS, '["262-01", "001-01"]', lambda value, _: structured.encode_displayed(value), structured.displayed_of),
    "mbi": Kind("mailboxes", forms.ListOf(TABLE(dict.fromkeys(structured.MAILBOXES, forms.Bounded(0, 254))), "tables"), "[{ voice = 1 }]",
                structured.encode_mailboxes, structured.mailboxes_of, True, 4),
    "access-identities": Kind("access_identities", forms.ListOf(NUMBER, "numbers"), "[1]",
                              lambda value, _: structured.encode_access_identities(value), structured.access_identities_of),
    "routing": Kind("routing", TEXT, '"0123"', lambda value, _: structured.encode_routing(value), structured.routing_of),
    "suci": Kind("suci", TABLE({"schemes": forms.ListOf(TABLE({"scheme": BYTE, "key": BYTE}, ("scheme",)), "tables"),
                                "keys": forms.ListOf(TABLE({"id": BYTE, "key": TEXT}, ("id", "key")), "tables")}, ("schemes",)),
                 '{ schemes = [{ scheme = 1, key = 1 }], keys = [{ id = 27, '
                 'key = "5A8D38864820197C3394B92613B20B91633CBD897119273BF8E4A6F4EEC0A650" }] }',
                 lambda value, _: structured.encode_concealing(value), structured.concealing_of),
    "supi-nai": Kind("identifiers", TABLE(dict.fromkeys(structured.IDENTIFIERS, TEXT)), '{ network_specific = "user@example.org" }',
                     lambda value, _: structured.encode_identifiers(value), structured.identifiers_of),
    "uri": Kind("text", TEXT, '"user@ims.example.org"', lambda value, _: structured.encode_uri(value, None), structured.uri_of),
    "uris": Kind("texts", TEXTS, '["sip:user@ims.example.org"]', structured.encode_uri, structured.uri_of, True),
    "servers": Kind("servers", TEXTS, '["pcscf.example.org", "192.0.2.1"]', structured.encode_address, structured.server_of, True),
}
# what any file may be told by
PLAIN = {
    HEX: Kind(HEX, TEXT, '"0102FF"', lambda value, _: structured.hexadecimal(value)),
    RECORDS: Kind(RECORDS, TEXTS, '["0102", "0304"]', lambda entry, _: structured.hexadecimal(entry), None, True),
}
# keys that stand at the top of a profile, and how they are written
AT_TOP = {"like": '"usim"', "without": '["EF_NETPAR"]'}
KEYS = list(dict.fromkeys([kind.key for kind in KINDS.values()] + list(PLAIN)))


def kind_for(key, entry):
    """The kind of content that a key says of a standard file, or of another one, `entry` being None. BadContent, where it says none."""
    if key in PLAIN:
        return PLAIN[key]
    own = KINDS.get(entry.get("content")) if entry else None
    if own and own.key == key:
        return own
    if own:
        raise BadContent(f"is nothing that {entry['name']} holds: `{own.key} = {own.example}` is")
    return next(kind for kind in KINDS.values() if kind.key == key)


def about_unknown(key, entry):
    """What is said of a key that no file is told by."""
    if key in AT_TOP:
        return f"isn't known in a table: `{key} = {AT_TOP[key]}` stands at the top of a profile, before the first table"
    own = KINDS.get(entry.get("content")) if entry else None
    meant = forms.near(key, KEYS)
    if own and (meant in (own.key, None) or key in getattr(own.form, "keys", ())):
        return f"isn't known: `{own.key} = {own.example}` is"
    return f"isn't known: `{meant}` is" if meant else (f"isn't known: what a file holds is said by `{HEX}` or `{RECORDS}`, "
                                                       "and its shape by `size`, or `length` and `count`")


def written(key, value, entry, size, record=None):
    """The bytes that a key and its value say of a file of this size: the whole of a transparent one, or those of each record of this length.
    With the number of a record the value is one entry. BadContent, where they say none."""
    if key not in KEYS:
        raise BadContent(f"{key} {about_unknown(key, entry or {})}")
    try:
        kind = kind_for(key, entry)
    except BadContent as fault:
        raise BadContent(f"{key} {fault}") from None
    given = value if record is None else [value]
    if record is not None and kind.of_records and isinstance(value, list):
        # the list that a profile has, of one entry
        if len(value) != 1:
            raise BadContent(f"{key} has {len(value)} entries, and record {record} holds one")
        given = value
    wrong = kind.form.wrong(given)
    if wrong:
        raise BadContent(f"{forms.about(key, wrong)}: {key} = {kind.example}")
    content = kind.encoded(given, size)
    longest = max(map(len, content), default=0) if kind.of_records else len(content)
    if longest > size:
        raise BadContent(f"{key} has {longest} bytes, and there is room for {size}")
    return [part.ljust(size, b"\xFF") for part in content] if kind.of_records else content.ljust(size, b"\xFF")


def said(content, entry):
    """The key and the value by which a profile says what a transparent file or a record holds; in hexadecimal digits where no words do."""
    kind = KINDS.get(entry.get("content")) if entry else None
    is_blank = contents.is_blank(content)
    if kind and kind.value and (not is_blank or not kind.of_records):
        try:
            value = kind.value(content)
            # of a blank file words say alone that a list is empty
            if (not is_blank or value == []) and kind.form.wrong([value] if kind.of_records else value) is None:
                return kind.key, value
        except (ValueError, KeyError, IndexError):
            pass
    return HEX, content.hex().upper()
