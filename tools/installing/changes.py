"""What CHANGELOG.md says: the versions, each with its day and its changes."""
import dataclasses
import datetime
import re
import textwrap

from . import staging

HEADING = re.compile(r"## ([0-9]+\.[0-9]+\.[0-9]+), ([0-9]{4}-[0-9]{2}-[0-9]{2})")
MAINTAINER = "Wulidang <dev@wulidang.example>"


@dataclasses.dataclass
class Version:
    number: str
    day: datetime.datetime
    changes: list

    @property
    def seconds(self):
        """The time that all files of a package of this version have."""
        return int(self.day.timestamp())


def versions():
    """All versions, the last one first."""
    found = []
    for line in staging.read("CHANGELOG.md").decode().splitlines():
        heading = HEADING.fullmatch(line)
        if heading:
            day = datetime.datetime.fromisoformat(heading[2]).replace(hour=12, tzinfo=datetime.timezone.utc)
            found.append(Version(heading[1], day, []))
        elif found and line.startswith("- "):
            found[-1].changes.append(line.removeprefix("- "))
        elif found and line.startswith("  ") and found[-1].changes:
            found[-1].changes[-1] += " " + line.strip()
    if not found:
        raise staging.Missing("CHANGELOG.md names no version")
    return found


def for_debian():
    """The changes in the form of Debian."""
    parts = []
    for version in versions():
        changes = "\n".join(textwrap.fill(change, 78, initial_indent="  * ", subsequent_indent="    ") for change in version.changes)
        day = version.day.strftime("%a, %d %b %Y %H:%M:%S +0000")
        parts.append(f"uicc-run ({version.number}) unstable; urgency=medium\n\n{changes}\n\n -- {MAINTAINER}  {day}\n")
    return "\n".join(parts)
