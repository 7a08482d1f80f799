"""docs/PROMISES.md keeps up with the crates: it names every public function, and every name that it
has in backquotes stands somewhere in the crates, as a word of code or proofs, a file or an edit."""
import glob
import os
import re
import sys

os.chdir(os.path.dirname(os.path.dirname(os.path.dirname(os.path.realpath(__file__)))))
with open("docs/PROMISES.md") as file:
    promises = re.sub(r"```.*?```", "", file.read(), flags=re.S)

known = set(os.listdir("crates")) | {"crates", "must-fail"}
public = []
for path in glob.glob("crates/*/**/*", recursive=True):
    if path.split("/")[2] == "out":
        continue # what rt built
    name, kind = os.path.splitext(os.path.basename(path))
    known |= {name, os.path.basename(path)}
    if kind not in (".antt", ".rt"):
        continue
    with open(path) as file:
        text = file.read()
    known |= set(re.findall(r"[^\s(){}\[\];,.:⌜⌝]+", text))
    if kind == ".rt":
        public += [(path, f) for f in re.findall(r'^ *pub (?:extern "C" )?fn (\w+)', text, re.M)]

quotes = re.findall(r"`([^`\n]+)`", promises)
named = {word for quoted in quotes for word in re.findall(r"\w+", quoted)}
faults = ["%s: `%s` is not in docs/PROMISES.md" % one for one in public if one[1] not in named]
for quoted in quotes:
    for word in re.findall(r"[^\s(){}\[\];,.:→×≡λ⊥∈≤<+*−/]+", quoted):
        if len(word) > 1 and not word.isdigit() and word not in known and quoted != "..-once":
            faults.append("docs/PROMISES.md: `%s`: there is no %s" % (quoted, word))
print("\n".join(sorted(set(faults))) or "%d public functions, and every name is there" % len(public))
sys.exit(1 if faults else 0)
