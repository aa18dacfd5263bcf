"""Facts that stand in the contracts of three functions or more: python3 tools/facts.py, at the top of the
repository. A fact is a part of a `requires` or `ensures` between two `×`, without .now, .old, .new; what says
what the result is (`result ≡`) is none."""
import collections, glob, re

facts = collections.defaultdict(set)
for path in sorted(glob.glob("crates/*/src/*.rt")):
    text = re.sub(r"//[^\n]*", "", open(path).read())
    text = re.sub(r"\[([\w\[\]]+); \w+\]", r"[\1]", text)  # an array's length is no end of a signature
    for f in re.finditer(r"fn (\w+)[^;{]*?\)(?P<rest>.*?)\n\s*\{\n", text, re.S):
        for clause in re.finditer(r"(?:requires|ensures)\s*(?:\w+\s*)?\{(.*?)\}\s*(?=requires|ensures|$)", f["rest"], re.S):
            for fact in clause[1].split("×"):
                fact = " ".join(re.sub(r"\.(now|old|new)\b", "", fact).split()).strip("() ")
                if fact and not fact.startswith("result"):
                    facts[fact].add((path, f[1]))
many = sorted((f for f in facts if len(facts[f]) > 2), key=lambda f: -len(facts[f]))
for f in many:
    print(len(facts[f]), f)
print(len(many), "facts")
