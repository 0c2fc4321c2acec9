"""Of the older kit, but for `stop` and `to_root`: today's `rt` writes no such goals, and `rt check` prints the names at each.

What `rt goals CRATE` wrote of a function: its places and its needs. Used by places, expand and fold.

A place is a point of the code at which facts are known: Start, Then1 and Else1 (the two ways of the first `if`), After-x (behind
the call or statement x), At-loop, In-loop, After-loop. A place has the field `before`, the place before it, and fields of its own
with what became known there. A need is a fact that the borrow checker leaves to us; it stands at one place, which its answer calls c.
"""
import glob, os, re, sys


def stop(text):
    sys.exit(f"{os.path.basename(sys.argv[0])}: {text}")


def to_root():
    """Goes to the repository's root."""
    while not os.path.exists("crates.txt"):
        if os.getcwd() == "/":
            stop("no crates.txt in this folder or above it")
        os.chdir("..")


def functions(crate):
    """The functions of a crate that have a proof file, as the folders below proofs/ name them."""
    if not os.path.isdir(f"crates/{crate}"):
        stop(f"no crate {crate}")
    files = sorted(glob.glob(f"crates/{crate}/proofs/**/Proof.antt", recursive=True))
    return [os.path.relpath(os.path.dirname(f), f"crates/{crate}/proofs") for f in files]


def proof_file(crate, name):
    """The proof file of a function."""
    file = f"crates/{crate}/proofs/{name}/Proof.antt"
    if not os.path.exists(file):
        stop(f"there is no {file}; a function in a module is MODULE/FUNCTION")
    return file


class Function:
    def __init__(self, crate, name):
        self.crate, self.proof = crate, proof_file(crate, name)
        found = glob.glob(f"target/goals/{crate}/*proofs/proofs/{name}/Lts.antt")
        if not found:
            stop(f"no goals of {name} in target/goals/{crate}: run `rt goals {crate}`")
        self.file = found[0]
        self.before, self.fields, self.facts, self.needs = {}, {}, {}, {}
        self.read(open(self.file).read())

    def read(self, text):
        place = need = own = None
        for line in text.split("\n"):
            record = re.match(r"\s+pub record (\S+?)(·own)? : ", line)
            field = re.match(r"\s+pub (\S+) :(?: (\S+))?", line)
            definition = re.match(r"\s+Need-(\S+) =(.*)", line)
            if record:
                place, own = record.group(1), record.group(2)
                (self.facts if own else self.fields).setdefault(place, [])
            elif field and place:
                name, kind = field.groups()
                if own:
                    self.facts[place].append(name)
                elif name == "before":
                    self.before[place] = kind
                else:
                    self.fields[place].append(name)
            elif definition:
                place, need, line = None, definition.group(1), definition.group(2)
            at = re.search(r"\(c : ([\w-]+)\)", line)
            if need and at:
                self.needs[need], need = at.group(1), None

    def way(self, place):
        """The places from this one back to the start."""
        while place:
            yield place
            place = self.before.get(place)

    def check_fresh(self):
        """Stops where the code is newer than the goals."""
        lines = [line.split("#")[0] for line in open("crates.txt")]
        uses = [line.split(":")[1].split() for line in lines if line.split(":")[0].strip() == self.crate]
        for crate in [self.crate] + (uses[0] if uses else []):
            for file in glob.glob(f"crates/{crate}/src/**/*.rt", recursive=True):
                if os.path.getmtime(file) > os.path.getmtime(self.file):
                    stop(f"{file} is newer than the goals: run `rt goals {self.crate}`")


def declarations(lines, function):
    """Each line with the place that `c` stands for in it, or None: from a line `x : tie.Need-x` or `x : (c : tie.PLACE ..` on, up to
    the next declaration."""
    place = None
    for line in lines:
        if re.match(r"(?:pub |abbrev |unfoldable )*[^\s:-]\S* :(?: |$)", line):
            need = re.match(r"\S+ : tie\.Need-(\S+)", line)
            over = re.match(r"\S+ : \(c : tie\.([\w-]+)", line)
            place = None
            if need:
                if need.group(1) not in function.needs:
                    stop(f"{function.proof}: the goals have no need {need.group(1)}; they have: {' '.join(function.needs)}")
                place = function.needs[need.group(1)]
            if over:
                place = over.group(1)
                if place not in function.fields:
                    stop(f"{function.proof}: the goals have no place {place}; they have: {' '.join(function.before)}")
        yield line, None if line.lstrip().startswith("--") else place


def answers(function, text):
    """The arguments of tie.spec as they follow from the file, each as its name and its text: a loop's invariant and measure, each need by
    the name of its declaration, and a need without one as `search needs`."""
    loops = re.findall(r"^abbrev ((?:Inv|μ)-\S+) :", text, re.M)
    declared = set(re.findall(r"^(\S+) : tie\.Need-", text, re.M))
    search = lambda n: "(λ c κs. search needs)" if re.search(r"-requires(-\d+)?$", n) else "(λ c. search needs)"
    return [(n, n) for n in loops] + [(n, n if n in declared else search(n)) for n in function.needs]


def spec(text):
    """The text up to tie.spec, the arguments behind it, whether they stand on lines of their own, and the rest. None where it has no tie.spec."""
    at = text.find("tie.spec")
    if at < 0:
        return None
    begin = i = at + len("tie.spec")
    depth, words, word = 0, [], ""
    while depth or text[i] != ")":
        depth += (text[i] in "({") - (text[i] in ")}")
        if depth or not text[i].isspace():
            word += text[i]
        elif word:
            words, word = words + [word], ""
        i += 1
    return text[:begin], words + [word] * bool(word), "\n" in text[begin:i], text[i:]


def listed(words, lines):
    """Arguments, behind tie.spec."""
    return "".join(("\n    " if lines else " ") + word for word in words)
