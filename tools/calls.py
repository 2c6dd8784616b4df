"""What the checks of this folder read in the sources: the crates, their functions, and which of these are public calls of the product."""
import os, re

ROOT = os.path.dirname(os.path.dirname(os.path.abspath(__file__)))


def read(*path):
    with open(os.path.join(ROOT, *path), encoding="utf-8") as f:
        return f.read()


def crates():
    """crates.txt: each crate with its dependencies, in order."""
    lines = (line.split("#")[0].split(":") for line in read("crates.txt").splitlines())
    return {l[0].split()[0]: l[1].split() for l in lines if len(l) == 2}


def sources(crate):
    """The text of each file of a crate's src/, by its name."""
    names = sorted(os.listdir(os.path.join(ROOT, "crates", crate, "src")))
    return {name: read("crates", crate, "src", name) for name in names if name.endswith(".rt")}


def public_calls(crate):
    """The public functions that stand in no module `inner`, of a crate that a heading of docs/CALLS.md names."""
    return public_functions(crate) if re.search(r"^## .*`%s`" % crate, read("docs/CALLS.md"), re.M) else []


def public_functions(crate):
    """The public functions of a crate that stand in no module `inner`."""
    texts = [text for name, text in sources(crate).items() if name != "inner.rt"]
    return [name for text in texts for name in re.findall(r'^ *pub (?:extern "C" )?fn (\w+)', text, re.M)]


class Function:
    """Where a function stands in the files of its crate. Without a module, as in `states::get`, it is sought in all files but inner.rt."""

    def __init__(self, files, function):
        module, _, name = function.rpartition("::")
        names = [module + ".rt"] if module else [n for n in files if n != "inner.rt"]
        head = re.compile(r'^( *)(?:pub )?(?:extern "C" )?fn %s\b' % name, re.M)
        found = [(n, m) for n in names for m in head.finditer(files.get(n, ""))]
        if len(found) != 1:
            raise ValueError("%d functions `%s`" % (len(found), function))
        self.file, m = found[0]
        text, indent = files[self.file], m[1]
        self.start = re.compile(r"^%s\{\n| \{\n" % indent, re.M).search(text, m.start()).end()
        self.end = text.index("\n%s}\n" % indent, self.start - 1) + 1
        self.head, self.body = text[m.start() : self.start], text[self.start : self.end]
        path = [self.file[:-3]] if self.file not in ("lib.rt", "main.rt") else []
        path += re.findall(r"^impl (\w+) ", text[: m.start()], re.M)[-1:] if indent else []
        self.path = "::".join(path + [name])
