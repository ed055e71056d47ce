# Makes the inputs of docs/SPEED.md: python3 docs/speed/inputs.py FOLDER
import sys
folder = sys.argv[1]
inputs = {
    "brackets": ["form " + "(" * 1_000_000 + "true" + ")" * 1_000_000],
    "body": ["body if " + "true and " * 262_139 + "true then a else b"],
    "formulas": [
        "form not le(a, dbl(b)) and (plus(a, 3) = b or a = dbl(a)) -> le(plus(dbl(a), b), 7) -> b = a"
    ] * 20_000,
    "terms": ["term plus(dbl(plus(a, b)), plus(dbl(a), plus(s(b), 2)))"] * 50_000,
}


def theory(size, line, front):
    lines = ["theory t"] + front
    left = size - sum(len(l) + 1 for l in lines)
    number = 0
    while left >= len(line(number)) + 1:
        left -= len(line(number)) + 1
        lines.append(line(number))
        number += 1
    return lines


order = ["rel le(nat, nat)", "clause le(x, 0) <-> x = 0", "clause le(x, s(y)) <-> x = s(y) or le(x, y)"]
for name, size in [("whole", 4_194_304), ("half", 2_097_152), ("quarter", 1_048_576)]:
    inputs[f"axioms-{name}"] = theory(size, lambda n: f"axiom a{n:06}: all x: nat. le(x, s(x)) or x = 0", order)
    inputs[f"relations-{name}"] = theory(size, lambda n: f"rel r{n:06}(nat)\nclause r{n:06}(x) <-> x = 0", [])
inputs["line"] = ["theory t", "axiom a: " + "(" * 1_000_000 + "true" + ")" * 1_000_000]



def chain(length):
    """`k1(x)` is `s(x)`, and each further function `s` of the one before; the derivation unfolds one after another."""

    def nested(outer, j):
        return "s(" * outer + (f"k{j}(a)" if j else "a") + ")" * outer

    lines = ["theory chain"]
    for j in range(1, length + 1):
        body = f"k{j - 1}(x)" if j > 1 else "x"
        lines += [f"fun k{j}(nat): nat", f"clause k{j}(x) = s({body})"]
    lines += ["--", "spec chain", "program c(a: nat): z: nat", f"ensures z = k{length}(a)", "--", "derivation 1"]
    lines.append(f"1 goal: goal ?1 = {nested(0, length)} | ?1")
    for i in range(length):
        j, row = length - i, 2 * i + 1
        body = f"k{j - 1}(?1)" if j > 1 else "?1"
        lines.append(f"{row + 1} def k{j} 1: assertion k{j}(?1) = s({body})")
        lines.append(f"{row + 2} equal {row + 1} - lr {row} 2{'.1' * i}: goal ?1 = {nested(i + 1, j - 1)} | ?1")
    lines.append(f"{2 * length + 2} reflex {2 * length + 1} -: goal true | {nested(length, 0)}")
    return lines


for length in [3, 250, 500, 1000]:
    for what in ["read", "print", "check"]:
        inputs[f"chain-{length}-{what}"] = [what] + chain(length)

for name, lines in inputs.items():
    with open(f"{folder}/{name}", "w") as file:
        file.write("\n".join(lines) + "\n")
