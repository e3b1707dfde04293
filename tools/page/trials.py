"""What a person does at the page, and what has to come of it. Each trial is given a browser that has the page open, and answers in
words what it tried; it wants nothing but the page."""
import json
import os
import tempfile

WIDE, NARROW = (1280, 800), (390, 844)
# a file of ten bytes, and lines that read it
READS = "ef 2FE2 t 10 2 -\nstart\n" + "apdu 00B0820004\n" * 60
# an applet with a menu of two entries: a choice, and a text
MENU = "row 1 1 00044D656E75\nstart\n"


class Wrong(Exception):
    pass


def expect(what, found, wanted):
    if found != wanted:
        raise Wrong(f"{what}: {str(found)[:400]}, where {str(wanted)[:400]} is wanted")


# whether each cut of the chosen line of this run was tried
CUTS_ARE_DONE = ("uicc.cut.trials && uicc.cut.trials.played === uicc.played && uicc.cut.trials.line === uicc.line"
                 " && uicc.cut.trials.outcomes.size === 4 * uicc.cut.trials.writes.length")


# whether the card is shown as it stands after the last step of this run
CARD_IS_SHOWN = ("document.querySelector('#files .tree')"
                 " && document.getElementById('files').innerText.includes(`after line ${uicc.played.steps.at(-1).line},`)")


def play(browser, mode, script, then=""):
    """Plays a script in the page, and answers its trace. `then` is done at once after it."""
    browser.evaluate(f"""(async () => {{
        document.getElementById("mode").value = {json.dumps(mode)};
        uicc.script.text = {json.dumps(script)};
        await uicc.play();
        {then};
    }})()""")
    return trace_shown(browser)


def trace_shown(browser):
    return browser.evaluate("uicc.played.result.trace.map((line) => line + '\\n').join('')")


def has_lines(count):
    return f"uicc.played?.script.lines.length === {count}"


def text_of(browser, selector):
    return browser.evaluate(f"document.querySelector({json.dumps(selector)}).textContent")


# writing a script

def go_to(browser, line):
    """Puts the caret at the end of a line of the script, of which the beginning is in sight."""
    browser.evaluate(f"""(() => {{
        const area = document.getElementById("script");
        const end = area.value.split("\\n").slice(0, {line}).join("\\n").length;
        area.focus();
        area.setSelectionRange(end, end);
        area.scrollTop = 0;
    }})()""")


def typing(browser):
    """While somebody writes, the script stays where it is, and the step of the line that is written is chosen."""
    play(browser, "play", READS)
    go_to(browser, 10)
    browser.type("\nreset")
    browser.wait(f"{has_lines(63)} && uicc.line === 11 && uicc.trace.number === 8")
    expect("how far the script is scrolled", browser.evaluate("document.getElementById('script').scrollTop"), 0)
    expect("where the caret is", browser.evaluate("uicc.script.caretLine"), 11)
    for _ in range(3):
        browser.press("ArrowUp")
    browser.wait("uicc.line === 8 && uicc.trace.number === 5")
    expect("how far the script is scrolled", browser.evaluate("document.getElementById('script').scrollTop"), 0)
    go_to(browser, 1)
    browser.type(" ")
    browser.wait("uicc.played.result.status === 2")
    expect("where the caret is", browser.evaluate("uicc.script.caretLine"), 1)
    # a step that is chosen in the trace is shown in the script
    play(browser, "play", READS)
    browser.click("#trace")
    browser.press("End")
    browser.wait("uicc.line === 62")
    expect("whether the line of the last step is in sight", browser.evaluate("document.getElementById('script').scrollTop > 0"), True)
    return "a script that is written while it is played"


# loading, and taking back

def choose_file(browser, kind, name, content):
    """Gives the page a file of these bytes, to be loaded as a script, a trace or an image."""
    with tempfile.TemporaryDirectory(prefix="uicc-page-") as folder:
        path = os.path.join(folder, name)
        with open(path, "wb") as out:
            out.write(content)
        browser.choose_file(f"#load-{kind}", path)
        # the file is read, and what is to be loaded is played or refused
        browser.wait(f"document.getElementById('load-{kind}').value === '' && !uicc.isRunning")


def stands(browser):
    return browser.evaluate("[uicc.script.text, uicc.mode, uicc.store, uicc.played.result.status]")


def refuses(browser):
    """What can't be loaded takes the place of nothing, and why is said."""
    play(browser, "play", READS)
    before = stands(browser)
    image = bytes(browser.evaluate("Array.from(uicc.played.result.image)"))
    wrong = (
        ("image", "notes.txt", b"no memory\n",
         "notes.txt: no card is in it: byte 0 isn't as a card has it; it has 10 bytes, and a memory has 65,536 or 71,680. Nothing was replaced."),
        ("image", "other.img", image[:832] + b"\x09" + image[833:],
         "other.img: no card is in it: byte 832 isn't as a card has it. Nothing was replaced."),
        ("image", "long.img", bytes(2_000_000), "long.img: it has 2,000,000 bytes, and a memory has at most 1,048,576. Nothing was replaced."),
        ("script", "card.img", image, f"card.img: its byte {image.index(0)} is 00, and a script is a text. Nothing was replaced."),
        ("script", "card.toml", b'# mine\nlike = "usim"\n[EF_SPN]\nspn = "A"\n',
         "card.toml: it is a profile, of which tools/profile build makes a script. Nothing was replaced."),
        ("script", "list.csv", b"imsi;ICCID\n", "list.csv: it is a list of cards, of which tools/profile batch makes scripts. Nothing was replaced."),
        ("script", "card.trace", b"> 00B0820001\n< 019000\n", "card.trace: it is a trace, which `Load` of the trace takes. Nothing was replaced."),
        ("image", "blank.img", b"\xFF" * 65_536, "blank.img: no card is in it: the memory is blank, all its bytes are FF. Nothing was replaced."),
        ("trace", "card.script", READS.encode(), "card.script: its line 1 is none of a trace. Nothing was replaced."),
        ("trace", "empty", b"", "empty: it is empty. Nothing was replaced."),
    )
    for kind, name, content, why in wrong:
        choose_file(browser, kind, name, content)
        expect(f"what is said of {name}", text_of(browser, f"#{kind}-told"), why)
        expect(f"what stands after {name}", stands(browser), before)
    play(browser, "play", "df\nstart\n")
    before = stands(browser)
    browser.evaluate("uicc.goOn()")
    expect("what is said of a run that left no card", text_of(browser, "#image-told"),
           "The memory of the last run: no card is in it: the memory is blank, all its bytes are FF. Nothing was replaced.")
    expect("what stands after it", stands(browser), before)
    return f"{len(wrong)} files that can't be loaded"


# a script that is loaded, how it was played before, and how it is played then
LOADED = (
    ("ef 2FE2 t 4 2 -\nstart\napdu 00B0820001\n", "phone", "play"), ("ef 2FE2 t 4 2 -\nstart\nuser ok\n", "play", "phone"),
    ("ef 2FE2 t 4 2 -\nstart\n", "open", "play"), ("start\nreset\n", "open", "open"), ("ef 2FE2 t 4 2 -\nstart\nreset\n", "phone", "phone"),
)


def played_as_it_is_for(browser):
    """A script that is loaded is played to a card where it sends commands, and to a handset where it says what happens there."""
    for script, before, after in LOADED:
        play(browser, before, "start\n")
        choose_file(browser, "script", "card.script", script.encode())
        expect(f"what `{script.splitlines()[-1]}` is played to", browser.evaluate("uicc.mode"), after)
        browser.click("#undo")
        browser.wait(f"uicc.mode === '{before}' && !uicc.isRunning")
    return f"{len(LOADED)} scripts, each played as it is for"


def takes_back(browser):
    """What was replaced can be had again, and so can what replaced it."""
    browser.evaluate("document.getElementById('store').value = 'pages'")
    play(browser, "play", READS)
    image = bytes(browser.evaluate("Array.from(uicc.played.result.image)"))
    browser.evaluate("document.getElementById('store').value = 'journal'")
    play(browser, "play", "start\n")
    choose_file(browser, "image", "card.img", image)
    opened = ["start\n", "open", "pages", 0]
    expect("what stands after a memory is loaded", stands(browser), opened)
    expect("what `Undo` takes back", browser.evaluate("document.getElementById('undo').title"), "Take back: card.img")
    browser.evaluate("document.getElementById('script').focus()")
    browser.type("reset\n")
    # the browser may be slow, so that a part of the line is played before
    browser.wait(f"{has_lines(2)} && uicc.played.result.status === 0")
    written = stands(browser)
    choose_file(browser, "script", "latin.script", b"# \xE9\nstart\n")
    expect("the letters of another encoding", browser.evaluate("uicc.script.text"), "# \u00e9\nstart\n")
    browser.evaluate("document.getElementById('mode').value = 'play'")
    browser.click("#undo")
    browser.wait(f"{has_lines(2)} && uicc.mode === 'open' && !uicc.isRunning")
    expect("what stands after a script is taken back", stands(browser), written)
    browser.click("#undo")
    browser.wait(f"{has_lines(1)} && uicc.mode === 'play' && !uicc.isRunning")
    expect("what stands after a memory is taken back", stands(browser), ["start\n", "play", "journal", 0])
    browser.click("#redo")
    browser.wait(f"{has_lines(2)} && uicc.mode === 'open' && !uicc.isRunning")
    expect("what stands after it is done again", stands(browser), written)
    return "what was replaced, taken back and done again"


# a narrow screen

def narrow(browser):
    """On a narrow screen the page stays where it is, and isn't wider than the screen."""
    browser.size(*NARROW)
    play(browser, "phone", MENU)
    browser.evaluate("scrollTo(0, 0)")
    play(browser, "play", READS)
    expect("how far the page is scrolled after a run", browser.evaluate("scrollY"), 0)
    play(browser, "phone", MENU)
    keys = ("user pick 2", "user pick 1", "user ok", "net poll", "time 60", "reset")
    for count, key in enumerate(keys, 3):
        browser.evaluate(f"document.querySelector('#handset [data-key=\"{key}\"]').scrollIntoView({{ block: 'center' }})")
        at = browser.evaluate("scrollY")
        browser.click(f'#handset [data-key="{key}"]')
        browser.wait(has_lines(count))
        moved = abs(browser.evaluate("scrollY") - at)
        expect(f"by how much the page is scrolled after `{key}`", moved if moved > 1 else 0, 0)
    expect("by how much the page is wider than the screen",
           browser.evaluate("document.documentElement.scrollWidth - document.documentElement.clientWidth"), 0)
    browser.size(*WIDE)
    return f"{len(keys)} keys on a narrow screen"


def turned(browser):
    """The line of the chosen step stays in sight where the screen becomes a narrow one; one that wasn't in sight stays out of it."""
    in_sight = "uicc.script.isInSight(uicc.script.bands.chosen.line)"
    play(browser, "play", "# a comment\n" * 60 + "start\n" + "reset\n" * 5)
    for scrolled, wanted in (("", True), ("uicc.script.area.scrollTop = 0;", False)):
        browser.size(*WIDE)
        browser.evaluate(f"uicc.script.reveal(uicc.script.bands.chosen.line); {scrolled} 0")
        browser.wait(f"uicc.script.isChosenInSight === {in_sight}")
        expect("whether the chosen line is in sight", browser.evaluate(in_sight), wanted)
        browser.size(*NARROW)
        browser.wait("uicc.script.area.clientHeight < 400")
        browser.evaluate("new Promise((done) => requestAnimationFrame(() => requestAnimationFrame(() => done(0))))")
        expect("whether the chosen line is in sight on a narrow screen", browser.evaluate(in_sight), wanted)
    browser.size(*WIDE)
    return "a screen that is turned"


# by keyboard

FOCUSED = "document.activeElement.dataset.key ?? document.activeElement.className"


def keyboard(browser):
    """After an answer to the card the focus is on what comes next, which is said and which a second Enter doesn't answer."""
    play(browser, "phone", MENU)
    browser.evaluate("document.querySelector('[data-key=\"user pick 2\"]').focus()")
    browser.press("Enter")
    browser.press("Enter")
    browser.wait(has_lines(3))
    browser.press("Enter")
    expect("the focus after a choice", browser.evaluate(FOCUSED), "screen")
    expect("what is said", text_of(browser, "#handset [role=status]"), "Pick, 1 Text, 2 Tone")
    browser.press("Tab")
    expect("the focus after the key Tab", browser.evaluate(FOCUSED), "user pick 1")
    browser.press("Enter")
    browser.wait(has_lines(4))
    expect("the focus after another choice", browser.evaluate(FOCUSED), "screen")
    expect("what is said", text_of(browser, "#handset [role=status]"), "Text")
    browser.press("Tab")
    expect("the focus after the key Tab", browser.evaluate(FOCUSED), "user ok")
    browser.press("Enter")
    browser.wait(has_lines(5))
    expect("the focus after OK", browser.evaluate(FOCUSED), "screen")
    expect("what is said", text_of(browser, "#handset [role=status]"), "Menu, 2 Menu")
    browser.evaluate("document.querySelector('[data-key=\"net poll\"]').focus()")
    browser.press("Enter")
    browser.wait(has_lines(6))
    expect("the focus after a poll", browser.evaluate(FOCUSED), "net poll")
    expect("the script", browser.evaluate("uicc.script.text"), MENU + "user pick 2\nuser pick 1\nuser ok\nnet poll\n")
    return "the handset by keyboard"


# the toolkit

APPLETS = "row 2 1 014000\nrow 5 2 0140044E6F7465\nrow 1 3 00044D656E75\nstart\n"


def toolkit(browser):
    """What each applet is doing is shown as it is after the chosen step; a card without applets shows nothing of it."""
    play(browser, "phone", APPLETS)
    browser.evaluate("uicc.trace.choose(uicc.played.steps.findIndex((step) => step.text.startsWith('> 8014')))")
    expect("what the toolkit is doing", browser.evaluate("[...document.querySelectorAll('#toolkit li')].map((item) => item.textContent)"), [
        "terminal profile: received",
        "outstanding command: TIMER MANAGEMENT, number 2, of the applet on shelf 2: waits to be fetched",
        "applet on shelf 1 (has a menu, priority 3): idle",
        "applet on shelf 2 (keeps a clock, priority 1): asked: waits for the response to TIMER MANAGEMENT",
        "applet on shelf 5 (keeps a note, priority 2): waiting: has GET INPUT to send, as number 1 of 1",
        "timer 1: held by the applet on shelf 2",
        "event 40 profile download: wakes shelf 2 (priority 1), shelf 5 (priority 2)",
    ])
    # a commit that was cut: what the applet keeps is read from the memory
    play(browser, "phone", APPLETS + "cut 3\nuser type Milk\nreset\n")
    expect("whether the note that was kept is shown", "asked: waits for the response to DISPLAY TEXT" in text_of(browser, "#toolkit")
           or "waiting: has DISPLAY TEXT to send" in text_of(browser, "#toolkit"), True)
    expect("whether anything is in doubt", "not sure" in text_of(browser, "#toolkit"), False)
    play(browser, "play", READS)
    expect("whether a card without applets has a toolkit", browser.evaluate("document.getElementById('toolkit-part').hidden"), True)
    return "what the toolkit is doing"


# what is read at first sight

def first_sight(browser):
    """The page says what it is, stands on a wide screen as a whole, and has what is proved in a window of its own."""
    expect("whether the page says what it is", "smart card of a mobile telephone (UICC)" in text_of(browser, "header p"), True)
    for script in (MENU, READS):
        play(browser, "phone" if script == MENU else "play", script)
        expect("by how much the page is higher than the screen", browser.evaluate("document.documentElement.scrollHeight - innerHeight"), 0)
    browser.click("#about")
    expect("whether it is said what is proved", browser.evaluate("document.getElementById('about-text').innerText.includes('every function of it')"), True)
    browser.press("Escape")
    browser.wait("!document.getElementById('about-text').open")
    return "what the page is"


def colour(browser, words):
    """The colour of the words in the trace."""
    return browser.evaluate(f"""(() => {{
        const found = [...document.querySelectorAll("#trace span")].findLast((span) => span.textContent.includes({json.dumps(words)}));
        return getComputedStyle(found).color;
    }})()""")


def colours(browser):
    """A refusal and a loss of power are red; a reset, and tries that are left, aren't."""
    pin = "pin 01 31323334FFFFFFFF on 3132333435363738\n"
    ends = "apdu 0020000100\napdu 00A40004026F07\nreset\ncut 1\napdu 002000010831323334FFFFFFFF\n"
    play(browser, "play", pin + "start\n" + ends)
    red = colour(browser, "file not found")
    expect("the colour of a loss of power", colour(browser, "the power was lost"), red)
    for words in ("the card was reset", "tries left: 3"):
        expect(f"whether `{words}` is red", colour(browser, words) == red, False)
    return "colours of a trace"


# a card whose refusals have many causes
GUARDED = """pin 01 31323334FFFFFFFF on 3132333435363738
pin 0A 3838383838383838 on 3838383838383838
ef 2F06 l 40 3 - -
rec 2F06 1 8001019000800102A010A406830101950108A40683010A950108
rec 2F06 2 8001019700800102A406830181950108
rec 2F06 3 800103AF10A406830101950108A40683010A950108
ef 2F01 t 4 1 2F06:1
ef 2F02 t 4 2 2F06:2
ef 2F03 t 4 3 2F06:3
ef 2F04 t 4 4 2F06:9
ef 2F05 t 32000 5 -
df 7F10
ef 7F106F01 t 4 - -
row 4 1 014504426172733132
start
"""
ACCESS = "6982 the security status isn't satisfied: "
CONDITIONS = "6985 conditions of use aren't satisfied: "
ROOM = "6A84 there is no room: "
# commands, and what is said of the answer; nothing where the command is done
NO_ADF = "a card here has no ADF: the files of a USIM lie in 7F20, and those of an ISIM in 7FF2"
CAUSES = (
    ("00A4040C07A0000000871002", "6A82 file not found: " + NO_ADF),
    ("00A4040007A0000000871002", "6A86 wrong P1 or P2: " + NO_ADF),
    ("00A4080C047FFF6F07", "6A82 file not found: " + NO_ADF),
    ("00D6810001AA", ACCESS + "rule 2F06:1 asks for PIN 1 or ADM1 to update; PIN 1 isn't verified, ADM1 isn't verified"),
    ("00B0820001", ACCESS + "rule 2F06:2 lets nobody read"),
    ("00D6820001AA", ACCESS + "rule 2F06:2 asks for PIN 2 to update; PIN 2 isn't on the card"),
    ("00B0840001", ACCESS + "rule 2F06:9 allows nothing: 2F06 EF.ARR has 3 records"),
    ("00E40000027F10", ACCESS + "ADM1 isn't verified"),
    ("F0E4000400", ACCESS + "ADM1 isn't verified"),
    ("002000010831323334FFFFFFFF", ""),
    ("00D6810001AA", ""),
    ("00B0830001", ACCESS + "rule 2F06:3 asks for PIN 1 and ADM1 to read; ADM1 isn't verified"),
    ("0028000108" + "31323334FFFFFFFF", CONDITIONS + "the PIN is enabled already"),
    ("8012000010", CONDITIONS + "no command waits to be fetched"),
    ("801400000C810301250082028281830100", CONDITIONS + "no command that was fetched waits for a response"),
    ("0070800200", CONDITIONS + "that channel is closed already"),
    ("0020000A083838383838383838", ""),
    ("00A4000C022F06", ""),
    ("00DC010428" + "80010190008001029700" + "FF" * 30, ""),
    ("00D6810001AA", ACCESS + "rule 2F06:1 lets nobody update"),
    ("00E40000027F10", CONDITIONS + "7F10/6F01 lies in it"),
    ("00A4000C027F10", ""),
    ("00E40000026F01", ""),
    ("00A4000C023F00", ""),
    ("0070000001", ""),
    ("01A4000C027F10", ""),
    ("00E40000027F10", CONDITIONS + "it is the current DF of channel 1"),
    ("F0E6010403014000", CONDITIONS + "an applet is registered there already"),
    ("F0E6010B03014500", CONDITIONS + "the applet on shelf 4 has call control already"),
    ("00E0000010620E8202412183022F5080027FFF8800", ROOM + "32,767 bytes are wanted, and 27,384 are free"),
    ("00A4000C022F05", ""),
    ("00040000", ""),
    ("00B0850001", CONDITIONS + "2F05 EF.PL is deactivated"),
    ("00A4000C022F02", ""),
)


def causes(browser):
    """A refusal says which condition of a rule wasn't met, which condition of use, or of what there is no room."""
    commands = [command for command, _ in CAUSES]
    play(browser, "play", GUARDED + "".join(f"apdu {command}\n" for command in commands))
    found = browser.evaluate("[...document.querySelectorAll('#trace .outcome')].map((span) => span.textContent)")
    for (command, wanted), outcome in zip(CAUSES, found, strict=True):
        expect(f"what is said of {command}", "" if outcome.startswith("9000") else outcome, wanted)
    return f"why {sum(bool(wanted) for _, wanted in CAUSES)} commands are refused"


def terms(browser):
    """What the page says is in the standard's terms."""
    play(browser, "play", GUARDED + "apdu 00A4000C023F00\napdu 00A40004023F00\n")
    browser.wait(CARD_IS_SHOWN)
    trace, card = (browser.evaluate(f"document.getElementById('{part}').innerText") for part in ("trace", "files"))
    for words, text in (("no data returned", trace), ("PIN 1 enabled", trace), ("PIN 1 enabled, 1234, 3 tries left; UNBLOCK PIN 12345678", card),
                        ("ADM1 enabled, 88888888, 3 tries left; can't be unblocked", card), ("kept data", card)):
        expect(f"whether `{words}` is said", words in text, True)
    return "words of the standard"


def bad_line(browser):
    """Why a line is bad is said once, at the script."""
    play(browser, "play", "df 7F10\nef 2FE2 t 40000 2 -\nstart\n")
    expect("the reason of a bad line", text_of(browser, "#bad-line"), "Line 2: SIZE is 1 to 32767, not 40000")
    expect("how often the line is told", browser.evaluate("document.querySelector('main').innerText.match(/\\bwrong\\b|no room|is 1 to/g).length"), 1)
    return "a bad line"


def signs(browser):
    """The sign of a line of the trace stands beside the first of its bytes."""
    play(browser, "play", "ef 2FE2 t 200 2 -\nstart\napdu 00B08200C8\n")
    for size in (NARROW, WIDE):
        browser.size(*size)
        expect("on how many lines a sign and its first digit stand", browser.evaluate("""(() => {
            const range = document.createRange();
            return [...document.querySelectorAll("#trace .passed")].map(({ firstChild: text }) => {
                range.setStart(text, 0);
                range.setEnd(text, 3);
                return new Set([...range.getClientRects()].map(({ top }) => Math.round(top))).size;
            });
        })()"""), [1, 1])
    return "a command and a long answer"


# the bytes of names in a file, and what the page shows of them
NAMES = [
    ("610062", "a@b"), ("0211", "$_"), ("7B7C7E1E05", "\u00E4\u00F6\u00FC\u00DF\u00E9"), ("1B281B651B2F", "{\u20AC\\"), ("1B410A", "\\1BA\\0A"),
    ("80011B0061", "\u011Ba"), ("810308A1C2C0", "\u0421\u0442\u0440"), ("8204047F80818261", "\u047F\u0480\u0481a"),
]


def names_in_files(browser):
    """A name in a file is read in each form that it may have."""
    records = "".join(f"rec 7F106F3A {number} {digits.ljust(28, 'F')}{'FF' * 14}\n" for number, (digits, _) in enumerate(NAMES, 1))
    play(browser, "play", f"df 7F10\nef 7F106F3A l 28 {len(NAMES)} - -\n{records}start\nreset\n")
    browser.wait(CARD_IS_SHOWN)
    shown = text_of(browser, "#files")
    expect("the names that aren't shown", [name for _, name in NAMES if f"{name}: no number" not in shown], [])
    return f"{len(NAMES)} names"


def many_writes(browser):
    """The cuts of a line with many writes are all in sight, from side to side; those of the line before end with the next run."""
    play(browser, "play", "ef 2FE2 t 10 2 -\nstart\napdu 00D6820001AB\n")
    browser.wait(CUTS_ARE_DONE)
    play(browser, "play", "ef 2FE2 t 255 2 -\nstart\napdu 00D68200FF" + "AB" * 255 + "\n",
         "globalThis.left = uicc.cut.trials === null && document.getElementById('cut').inert")
    expect("whether the cuts of another script are left", browser.evaluate("left"), True)
    browser.wait(CUTS_ARE_DONE)
    expect("whether these cuts can be chosen", browser.evaluate("document.getElementById('cut').inert"), False)
    count = browser.evaluate("uicc.cut.trials.writes.length")
    expect("whether the line makes many writes", count > 6, True)
    for size in (WIDE, NARROW):
        browser.size(*size)
        expect("how many rows there are", browser.evaluate("document.querySelectorAll('#cut tr').length"), 1 + count)
        expect("by how much the cuts are wider than their place", browser.evaluate(
            "(({ scrollWidth, clientWidth }) => scrollWidth - clientWidth)(document.querySelector('.grid-frame'))"), 0)
    browser.size(*WIDE)
    return f"the cuts of {count} writes"


def words_of_a_script(browser):
    """There is help for each word that the linter takes, and the linter takes the lines that it shows."""
    play(browser, "play", READS)
    browser.click("#help summary")
    found = browser.evaluate("[...document.querySelectorAll('#help dt')].map((term) => term.dataset.word)")
    taken = [word for word in (*found, "cmd", "wrong") if "no line begins" not in browser.evaluate(
        f"uicc.read({json.dumps(word)} + ' -\\n', 'play').firstBad?.reason ?? ''")]
    expect("the words that there is help for", found, taken)
    lines = browser.evaluate("[...document.querySelectorAll('#help .example')].map((code) => code.textContent)")
    at = lines.index("start")
    groups = {"phone": [line for line in lines[at:] if not line.startswith(("apdu", "tpdu"))],
              "play": [line for line in lines[at:] if not line.startswith(("user", "net", "time"))]}
    for mode, rest in groups.items():
        script = "".join(line + "\n" for line in [*lines[:at], *rest])
        expect(f"the bad line among the lines of help for `{mode}`", browser.evaluate(f"uicc.read({json.dumps(script)}, '{mode}').firstBad"), None)
    go_to(browser, 1)
    browser.press("End")
    browser.wait("document.querySelector('#help .current')?.dataset.word === 'ef'")
    go_to(browser, 10)
    browser.wait("document.querySelector('#help .current')?.dataset.word === 'apdu'")
    expect("whether what the line says is in sight", browser.evaluate("""(() => {
        const list = document.getElementById("help-words").getBoundingClientRect();
        const { bottom } = document.querySelector("#help .current + dd").getBoundingClientRect();
        return bottom <= list.bottom;
    })()"""), True)
    browser.click("#help summary")
    return f"help for {len(found)} words"


# the rest


def link(browser):
    script = "row 1 1 00044D656E75\nstart\nuser pick 2\n"
    play(browser, "phone", script)
    browser.evaluate("uicc.makeLink()")
    browser.wait("location.hash.startsWith('#script=phone.journal.')")
    address = browser.evaluate("location.hash")
    play(browser, "play", "start\n")
    browser.evaluate(f"history.replaceState(null, '', {json.dumps(address)}); uicc.useLink()")
    browser.wait(f"uicc.mode === 'phone' && {has_lines(3)}")
    expect("the script of the link", browser.evaluate("uicc.script.text"), script)
    return "a link"


def trap(browser):
    """A run that fails in the worker is told, and the next one works."""
    told = browser.evaluate("uicc.runner.run({ words: 7, script: new Uint8Array(), image: new Uint8Array() }).catch((fault) => fault.message)")
    expect("whether the fault is told", bool(told), True)
    expect("the trace after it", play(browser, "play", "start\nreset\n"), "! reset\n")
    return "a module that stops is made anew"


ALL = (
    typing, refuses, played_as_it_is_for, takes_back, narrow, turned, keyboard, toolkit, first_sight, colours, causes, terms, bad_line, many_writes,
    names_in_files, signs, words_of_a_script, link, trap,
)
