#!/usr/bin/env python3
"""Writes the computed facts of crates/vectors, crates/register_vectors and crates/window_vectors from tests/vectors, and the lists of what they
unfold, the first to crates/computing."""
import glob, os, re, textwrap

ROOT = os.path.dirname(os.path.dirname(os.path.abspath(__file__)))
SPECS = os.path.join(ROOT, "crates/vectors/specs")
COMPUTING_SPECS = os.path.join(ROOT, "crates/computing/specs")
DEFINITIONS = ["base", "scanning", "cards", "syntax", "validation", "values", "machine", "encoding", "calls"]
PER_FILE = 20
REGISTER_SPECS = os.path.join(ROOT, "crates/register_vectors/specs")
REGISTER_DEFINITIONS = ["base", "cards", "values", "register"]
LONG = 100  # bytes of a line that is written out
REGISTER_SIZE = 8192
HOUSE = b"EUR"
WINDOW_SPECS = os.path.join(ROOT, "crates/window_vectors/specs")
WINDOW_DEFINITIONS = ["base", "cards", "encoding", "window"]
FIVE = re.compile(rb"[A-Z0-9]{1,8},[A-Z]{2},[1-9][0-9]{0,4},[1-9][0-9]{0,5},[A-Z]{3}")  # good from wish 10 on


def text(data):
    """An antt text whose characters have the bytes' values as codes."""
    out = []
    for b in data:
        c = chr(b)
        if c in '"\\':
            out.append("\\" + c)
        elif c in "\0\t\n\r":
            out.append({"\0": "\\0", "\t": "\\t", "\n": "\\n", "\r": "\\r"}[c])
        elif 32 <= b < 127:
            out.append(c)
        else:
            out.append("\\u{%x}" % b)
    return '"' + "".join(out) + '"'


def unfoldable(crates):
    """Every definition that a computed fact unfolds, by its whole path."""
    names = []
    for crate in crates:
        for path in sorted(glob.glob(os.path.join(ROOT, "crates", crate, "specs", "*.antt"))):
            module = os.path.basename(path)[:-5]
            source = open(path).read()
            own = re.findall(r"^ *unfoldable pub (\S+) :", source, re.M)
            for block in re.findall(r"^( *)unfoldable mutual\n((?:\1 +.*\n|\n)*)", source, re.M):
                own += re.findall(r"^ *pub (\S+) :", block[1], re.M)
            names += [f"Rattle.{crate}.specs.{module}.{n}" for n in own]
    return names


def write(name, lines, specs=SPECS):
    with open(os.path.join(specs, name + ".antt"), "w") as f:
        f.write("\n".join(lines) + "\n")


def write_everything(module, crates, specs):
    """The module that unfolds every definition of these crates."""
    write(module, [
        "-- A fact about closed values is proved by computing, with every definition unfolded: `unfolding everything`. Assumes nothing.",
        "",
        "unfoldable pub everything : Unit {0}",
        "unfolding",
    ] + ["    " + n for n in unfoldable(crates)] + ["everything = tt"], specs)


def line_of(data):
    """A line of the register: quoted, bytes from 128 on as numbers; of a long one the piece that it repeats once."""
    if len(data) > LONG:
        before, many, piece, behind = re.fullmatch(rb"(.*?)((.+?)\3{3,})(.*)", data).groups()
        assert max(data) < 128 and len(before + piece + behind) <= LONG
        out = f"times {len(many) // len(piece)} (bytes {text(piece)})"
        out += f" ++ bytes {text(behind)}" if behind else ""
        return f"(bytes {text(before)} ++ ({out}))" if before else f"({out})"
    out = "[]"
    for part in reversed([part for part in re.split(b"([\x80-\xff])", data) if part]):
        if part[0] >= 128:
            out = f"({part[0]} ∷ {out})"
        else:
            out = f"(bytes {text(part)})" if out == "[]" else f"(bytes {text(part)} ++ {out})"
    return out


def lines_of(data):
    """The lines of a script or of its answers; the last may lack byte 10."""
    return data.removesuffix(b"\n").split(b"\n") if data else []


def bytes_of(word, rest):
    """The bytes that a command gives behind its word, which ends in `hex` where they are written so."""
    return rest if not word.endswith(b"hex") else b"" if rest == b"-" else bytes.fromhex(rest.decode())


def commands_of(script, answers):
    """A script's commands, each a word and what is given with it, with their answers, each a number and a line handed out or bytes put."""
    given = lines_of(answers)
    for command in lines_of(script):
        if command.startswith(b"#"):
            continue
        word, _, rest = command.partition(b" ")
        number, _, back = given.pop(0).partition(b"|")
        if word == b"report":
            end = given.index(b"--")
            back = b"".join(record + b"\n" for record in given[:end])
            del given[:end + 1]
        if word in (b"open", b"openhex", b"offer", b"offerhex"):
            yield word.removesuffix(b"hex").decode(), bytes_of(word, rest), int(number), b""
        elif word in (b"get", b"report", b"size"):
            yield word.decode(), int(rest), int(number), back
        else:
            assert word in (b"old", b"reset")
            yield word.decode(), rest.decode(), int(number), b""
    assert not given


def on_lists(commands):
    """The commands that can be said on lists: `size`, and what is asked while too little is lent, can't."""
    short = False
    for command in commands:
        if command[0] == "size":
            short = command[1] < REGISTER_SIZE
        elif command[0] == "reset":
            short = False
            yield command
        elif not short:
            yield command


def as_opened(commands):
    """Commands of before wish 10, with the register opened at each start, and what they answer then."""
    start = ("open", HOUSE, 0, b"")
    yield start
    held = 0
    for word, given, number, back in commands:
        if word == "offer":
            if FIVE.fullmatch(given):
                continue
            held += number == 0
        elif word == "get":
            back = back and back + b"," + HOUSE
        elif word == "report" and not held:
            number, back = 0, b""
        elif word == "report":
            given += 4 * (held + 1)
            if back:
                *records, total = lines_of(back)
                records = [record + b"," + HOUSE for record in records]
                back = b"".join(line + b"\n" for line in records + [total.replace(b"TOTAL", b"TOTAL," + HOUSE)])
        yield word, given, number, back
        if word == "reset":
            yield start
            held = 0


def entry_of(word, given, number, back):
    """A command with its answer, as Script has it."""
    if word == "open":
        return f"(opening {line_of(given)}, number {number})"
    if word == "offer":
        return f"(offer {line_of(given)}, number {number})"
    if word == "get":
        return f"(get {given}, handed {number} {line_of(back)})"
    if word == "report":
        return f"(report {given}, reported {number} {f'(bytes {text(back)})' if back else '[]'})"
    if word == "reset":
        return f"(reset, number {number})"
    assert word == "old"
    return f"(old {given.removesuffix('.register').replace('-', '_')}, number {number})"


def old_lines(path):
    """The definitions of a folder's old registers, by the lines that were offered to each."""
    out = []
    for old in sorted(glob.glob(os.path.join(path, "old-*.register"))):
        name = os.path.basename(old)[:-9].replace("-", "_")
        offers = [command.partition(b" ") for command in lines_of(open(old, "rb").read())]
        assert all(word in (b"offer", b"offerhex") for word, _, _ in offers)
        lines = [line_of(bytes_of(word, rest)) for word, _, rest in offers] + ["[]"]
        out += ["", f"abbrev {name} : Lines", f"{name} =" + ("\n    " if offers else " ") + "\n    ∷ ".join(lines)]
    return out


def scripts(module, folder, opened, comment, names, computed):
    """The scripts of a folder as the facts of a module, with what the module uses of Script and what of it is computed."""
    facts = []
    path = os.path.join(ROOT, "tests/vectors", folder)
    for answers in sorted(glob.glob(os.path.join(path, "*.answers"))):
        name = os.path.basename(answers)[:-8]
        script = open(os.path.join(path, name + ".register"), "rb").read()
        given = list(commands_of(script, open(answers, "rb").read()))
        said = list(on_lists(given))
        facts.append("")
        if script.startswith(b"#"):
            facts.append("-- " + script.split(b"\n")[0][1:].decode().strip())
        if len(said) < len(given):
            facts.append(f"-- commands about buffers, left out: {len(given) - len(said)}")
        entries = [entry_of(*command) for command in (as_opened(said) if opened else said)]
        fact = name.replace("-", "_")
        facts += [f"{fact} : Answered (", "    " + "\n    ∷ ".join(entries + ["[])"]), "unfolding everything " + " ".join(computed), f"{fact} = refl"]
    comment = (f"The scripts of tests/vectors/{folder} with their answers, on lists. {comment} `size`, and commands while fewer than 8,192 bytes are lent, "
               "are about buffers and left out. Assumes nothing.")
    old = old_lines(path)
    write(module, ["-- " + line for line in textwrap.wrap(comment, 147)] + [
        "use Rattle.std.specs.Prelude.{[], ◌∷◌, ◌++◌, refl}",
        "use Rattle.base.specs.Text.{bytes}",
    ] + ["use Rattle.register.specs.Register.{Lines}"] * bool(old) + [
        "use Rattle.register_vectors.specs.Everything.{everything}",
        f"use Rattle.register_vectors.specs.Script.{{{', '.join(names)}}}",
        f"use Rattle.register_vectors.specs.Script.{{{', '.join(['Answered'] + computed)}}}",
    ] + old + facts, REGISTER_SPECS)


def register():
    write_everything("Everything", REGISTER_DEFINITIONS, REGISTER_SPECS)
    before = (
        "They are from before wish 10, and so is what is said of each. Here the register is opened with EUR at every start, so a line handed out has "
        "its currency behind it, and an offer of five fields of good form is left out.")
    longer = "A report has the currencies too, and is lent as many bytes more as it is longer; that of the empty register is empty."
    scripts("Scripts", "register02", True, before, ["opening", "offer", "get", "reset", "number", "handed"], ["answers", "times"])
    scripts("Reports", "register04", True, f"{before} {longer}", ["opening", "offer", "get", "report", "reset", "number", "handed", "reported"],
            ["answers", "times"])
    scripts("Currencies", "register10", False, "First the lines that were offered to each register of wishes 2 to 9.",
            ["opening", "offer", "get", "report", "old", "reset", "number", "handed", "reported"], ["answers", "times"])


def window():
    """The scripts of the window as facts."""
    write_everything("Everything", WINDOW_DEFINITIONS, WINDOW_SPECS)
    computed = ["price_back", "asking_back", "answers_by_prices", "answers_by_bytes"]
    facts = []
    for path in sorted(glob.glob(os.path.join(ROOT, "tests/vectors/window13/*.window"))):
        script = open(path).read().splitlines()
        commands = [command for command in script if not command.startswith("#")]
        answers = open(path.removesuffix(".window") + ".answers").read().splitlines()
        assert len(commands) == len(answers)
        entries = [f"({command}, {' ∷ '.join(answer.split())} ∷ [])" for command, answer in zip(commands, answers)]
        name = os.path.basename(path).removesuffix(".window").replace("-", "_")
        facts += [""] + ["--" + line[1:] for line in script if line.startswith("#")]
        facts += [f"{name} : Answered (", "    " + "\n    ∷ ".join(entries + ["[])"])]
        facts += ["unfolding everything " + " ".join(computed), f"{name} = (refl, refl)"]
    write("Scripts", [
        "-- The scripts of tests/vectors/window13 with their answers, by the prices and by the bytes. Assumes nothing.",
        "use Rattle.std.specs.Prelude.{[], ◌∷◌, refl}",
        "use Rattle.window_vectors.specs.Everything.{everything}",
        f"use Rattle.window_vectors.specs.Script.{{{', '.join(['price', 'ask', 'size', 'reset', 'Answered'] + computed)}}}",
    ] + facts, WINDOW_SPECS)


def decks(folder, prefix):
    """The decks of a folder as facts, in modules whose names begin so; the names of these."""
    modules = []
    found = sorted(glob.glob(os.path.join(ROOT, "tests/vectors", folder, "*.deck")))
    for i in range(0, len(found), PER_FILE):
        module = "%sDecks%02d" % (prefix, i // PER_FILE)
        modules.append(module)
        lines = ["-- Decks with their inputs and traces. Assumes nothing.", "use Rattle.std.specs.Prelude.{true, ◌≡◌, refl}",
                 "use Rattle.vectors.specs.Trace.{agrees, agrees_whole}"]
        for deck in found[i:i + PER_FILE]:
            name = os.path.basename(deck)[:-5].replace("-", "_")
            whole = os.path.exists(deck[:-5] + ".out")
            data = [open(deck[:-5] + ext, "rb").read() for ext in (".deck", ".in", ".trace") + ((".out",) if whole else ())]
            test = "agrees_whole" if whole else "agrees"
            lines += ["", f"{name} : {test} {' '.join(text(d) for d in data)} ≡ true", f"unfolding {test}", f"{name} = refl"]
        write(module, lines)
    return modules


def main():
    write_everything("Lib", DEFINITIONS, COMPUTING_SPECS)
    for old in glob.glob(os.path.join(SPECS, "*Decks*.antt")) + glob.glob(os.path.join(SPECS, "Scans*.antt")):
        os.remove(old)
    modules = ["Scans", "Trace"] + decks("decks", "")
    for wish in sorted(os.path.basename(path) for path in glob.glob(os.path.join(ROOT, "tests/vectors/wish*"))):
        modules += decks(wish, wish.capitalize())
    scans = open(os.path.join(ROOT, "tests/vectors/scans.txt")).read().splitlines()
    lines = ["-- Scans with their answers, some hundred a fact. Assumes nothing.", "use Rattle.std.specs.Prelude.{true, ◌≡◌, refl}",
             "use Rattle.vectors.specs.Trace.{scans_agree}"]
    for i in range(0, len(scans), 100):
        name = "scans%02d" % (i // 100)
        lines += ["", f"{name} : scans_agree {text(''.join(l + chr(10) for l in scans[i:i + 100]).encode())} ≡ true",
                  "unfolding scans_agree", f"{name} = refl"]
    write("Scans", lines)
    write("Lib", ["-- The definitions answer the vectors, as computed facts: how an answer is written (Trace), decks (Decks.., Wish..Decks..), scans (Scans)."]
          + ["pub mod " + m for m in sorted(modules)])
    register()
    window()


main()
