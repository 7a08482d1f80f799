"""docs/READING.md is what has to be believed: the definitions that the promises of the public functions, and the
statements of crate theorems, reach through `use` lines stand in crates/spec/specs and nowhere else; each file there is
reached, and stands in the list; and they have at most 600 lines besides imports, blank lines and comments."""
import glob
import os
import re
import sys

os.chdir(os.path.dirname(os.path.dirname(os.path.dirname(os.path.realpath(__file__)))))
FOLDER = "crates/spec/specs/"
MOST = 600
FUNCTIONS = (("rewriter", "lib", "rewrite"), ("checker", "lib", "check"), ("books", "lib", "read_book"),
             ("books", "lib", "tunesatchel_read_book"), ("contents", "lib", "load"), ("contents", "lib", "entry"),
             ("contents", "table", "load_table"), ("admission", "lib", "lead_of"), ("admission", "lib", "is_admitted"),
             ("admission", "lib", "size_of"))
# what a file brings in from the crates here; the kit's own words (Rattle.std, mathlib) are the language's
USE = re.compile(r"^\s*(?:(?:pub|ghost|unfoldable|abbrev) )*use (Rattle\.(?:%s)\.\S+?)\.\{([^}]*)\};?\s*$" % "|".join(sorted(os.listdir("crates"))))
TYPE = re.compile(r"Rattle\.spec\.specs\.declared\.")


def text(path):
    with open(path) as file:
        return file.read()


def path_of(module):
    crate, kind, rest = re.match(r"Rattle\.(\w+)\.(specs|proofs)\.(.+)$", module).groups()
    return "crates/%s/%s/%s.antt" % (crate, kind, rest.replace(".", "/"))


def imports(path):
    """Pairs of a name that the file brings in and the module that it is of."""
    for line in text(path).splitlines():
        found = USE.match(line)
        for name in found.group(2).split(",") if found else ():
            yield name.strip().split(" as ")[-1], found.group(1)


def cited(path, statement):
    """The modules of the names that a statement has, types apart."""
    words = set(re.findall(r"[^\s(){}\[\];,.⌜⌝«»]+", statement))
    return {module for name, module in imports(path) if name in words and not TYPE.match(module)}


def promises():
    for crate, module, function in FUNCTIONS:
        path = "crates/%s/src/%s.rt" % (crate, module)
        found = re.search(r"^pub (?:extern \"C\" )?fn %s\b.*?^\{" % function, text(path), re.S | re.M)
        if not found:
            sys.exit("reading: there is no %s in %s" % (function, path))
        yield path, found.group(0)


def theorems():
    for path in sorted(glob.glob("crates/theorems/proofs/*.antt")):
        for signature in re.findall(r"^\s*(?:pub \S+ :|module _) .*?(?=^\s*\S+(?: \S+)* = |\bwhere$|\Z)", text(path), re.S | re.M):
            yield path, signature


def reached():
    """Each file that is reached, and from where."""
    todo = [(path_of(module), path) for path, statement in (*promises(), *theorems()) for module in cited(path, statement)]
    seen = {}
    while todo:
        path, source = todo.pop()
        if path not in seen:
            seen[path] = source
            todo += [(path_of(module), path) for _, module in imports(path) if not TYPE.match(module)]
    return seen


def solid(path):
    return sum(1 for line in text(path).splitlines() if line.strip() and not re.match(r"\s*((pub )?use |--)", line))


seen = reached()
there = {path for path in glob.glob(FOLDER + "**/*.antt", recursive=True) if not path.endswith("/Lib.antt")}
listed = [FOLDER + name for name in re.findall(r"^\d+\. (\S+\.antt):", text("docs/READING.md"), re.M)]
lines = sum(map(solid, there))
faults = ["%s, which %s uses, does not stand in %s" % (path, seen[path], FOLDER) for path in seen if path not in there]
faults += ["%s is reached by no promise and no theorem" % path for path in there - set(seen)]
faults += ["%s is not in docs/READING.md" % path for path in there - set(listed)]
faults += ["docs/READING.md lists %s, which is not there" % path for path in set(listed) - there]
if len(listed) != len(set(listed)):
    faults.append("docs/READING.md lists a file twice")
if lines > MOST:
    faults.append("%d lines to believe, more than %d" % (lines, MOST))
print("\n".join(sorted(faults)) or "%d lines to believe in %d files, all in %s" % (lines, len(there), FOLDER))
sys.exit(1 if faults else 0)
