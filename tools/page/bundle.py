"""Puts JavaScript modules into one script that needs no other file: each becomes a function's body that answers what it exports."""
import os
import re

IMPORT = re.compile(r'^import \{([^}]*)\} from "\./(\w+)\.js";\n', re.M)
EXPORT = re.compile(r"^export ((?:async function|function|class|const) (\w+))", re.M)
SCRIPTS = os.path.join(os.path.dirname(os.path.abspath(__file__)), "scripts")


def read(name):
    with open(os.path.join(SCRIPTS, name + ".js"), encoding="utf-8") as text:
        return text.read()


def bundle(entry, made=None):
    """The script of a module with all that it imports. `made` has the texts of modules that are in no file, by their names."""
    made, done, exports = made or {}, {}, {}

    def take(name):
        if name in done:
            return
        text = made[name] if name in made else read(name)
        done[name], exports[name] = None, exported(text)
        for names, other in IMPORT.findall(text):
            take(other)
            missing = [each for each in re.findall(r"\w+", names) if each not in exports[other]]
            if missing:
                raise ValueError(f"{name}.js imports {', '.join(missing)} of {other}.js, which exports no such name")
        # after those that it imports
        del done[name]
        done[name] = body(name, text)
    take(entry)
    return '"use strict";\n' + "\n".join(done.values())


def exported(text):
    return [found[1] for found in EXPORT.findall(text)]


def body(name, text):
    names = ", ".join(exported(text))
    text = IMPORT.sub(lambda found: f"const {{{found[1]}}} = of_{found[2]};\n", text)
    text = EXPORT.sub(r"\1", text)
    if re.search(r"^(import|export)\b", text, re.M):
        raise ValueError(f"{name}.js has an import or an export of another form")
    return f"const of_{name} = (() => {{\n{text}\nreturn {{ {names} }};\n}})();\n"
