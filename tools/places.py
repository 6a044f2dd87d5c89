#!/usr/bin/env python3
"""Lists the places of docs/DESIGN-PASS.md in crates/*/src, a line of code each.

    python3 tools/places.py          the counts, a line for each point
    python3 tools/places.py 3        the places of point 3
    git stash; python3 tools/places.py     and so for another state of the sources

Points 1, 3 and 4 are found by the form of a line. Points 2, 5, 6 and 7 are groups: what is found is each function of a group, by a form that
the members have in common. A form that is found and is none of the old ones (an enum of the subject, say) is in the table of the page too.
"""
import glob
import re
import sys

BYTES = r"&(mut )?\[(u8|Parity|Mark|Weight|MoveCell|Coefficient)\]"

FORMS = {
    1: [
        ("an enum of the repository", r"^\s*(pub )?enum \w+"),
        ("a flag in a struct", r"^\s+(pub )?\w+: bool,"),
        ("a fault as a number", r"fn \w*(fault|lent|or_else)\w*\(.*-> u8\b"),
        ("a kind or a fault as a constant", r"^pub const [A-Z_]+: u8 = \d+;$"),
        ("a test of a fault's number", r"if fault (!=|==) 0"),
        ("a refusal passed on", r"if let Reply::Refused \{"),
        ("a kind as a number", r"\b(kind|first|second): u8\b"),
    ],
    2: [
        ("a twin by type", r"fn (copy_bytes|copy_parities|put_parities)\("),
        ("a twin by size", r"fn ([lqc]_entry|[lqc]_of)\("),
        ("a twin by a constant", r"fn (weights_call_fault|marks_call_fault|marks_fault|lent_fault|short_fault|first_row|row_most)\("),
        ("a twin by step", r"fn (reduce|grow|half_of|all_apart|all_lone|pair_at|name_set)\("),
        ("a twin in C", r"fn \w*in_c\("),
        ("a twin of a reply", r"^pub (enum|struct) (Reply|Written|Moved|Answered|TextReply|TrimReply|Finding|Compared)\b"),
    ],
    3: [
        ("a loop that counts an index", r"^\s+('\w+: )?while \w+ < "),
        ("a for over a range", r"^\s+('\w+: )?for \w+ in .*\.\."),
        ("a loop without a condition", r"^\s+loop \{"),
    ],
    4: [
        ("equality by hand", r"fn (same_rows|contains)\("),
        ("order by hand", r"fn (larger|largest)\("),
        ("copying by hand", r"fn (copied|copy_bytes|copy_parities|put_parities|put)\("),
        ("conversion by hand", r"fn (kind_of|phase_of|wire_of|wide|index_of|as_second|told|end_of|line_bytes|\w*in_c|reason_of)\("),
        ("printing by hand", r"fn (put_\w+|last_digit)\("),
    ],
    5: [
        ("product table and columns", r"products: &\[u64; PARITIES\]"),
        ("slots", r"(vec|by|member): &(mut )?\[(u64|Parity); PRODUCT_BITS\]"),
        ("marks of their length", r"requires.*length marks\.(now|old) ≡ table_bytes"),
        ("a table for so many wires", r"requires.*(SoundWeights|SoundMarks|Marked) "),
        ("masks of their number", r"requires.*(length (masks|rows)\.(old|now) ≡ max_wires|Shaped)"),
        ("no more weights than parities", r"requires.*length w\.now ≤ parities"),
        ("a wire count in range", r"requires.*n ≤ max_wires"),
        ("a number for a parity", r"requires.*[a-z] < parities"),
    ],
    6: [
        ("gates with their number beside", r"gates: &mut \[u8\], k: usize"),
        ("an output with its place beside", r"out: &mut \[u8\],? ?(at: usize)?"),
        ("a list with its number beside", r"list: &mut \[Parity; PARITIES\]"),
        ("bytes cut by hand", r"GATE_BYTES \* (k|i|m|counts)\b"),
        ("parallel arrays", r"let mut (vec|by|member) = "),
    ],
    7: [
        ("a switch on a step", r"of: Degree|match of \{"),
    ],
}


def lines():
    for path in sorted(glob.glob("crates/*/src/*.rt")):
        for number, line in enumerate(open(path, encoding="utf-8"), 1):
            code = line.split("//")[0].rstrip("\n")
            if code.strip():
                yield path, number, code


def places(point):
    found = []
    for path, number, code in lines():
        for name, form in FORMS[point]:
            if re.search(form, code):
                found.append((path, number, name, code.strip()))
                break
    return found


def main():
    if len(sys.argv) > 1:
        for path, number, name, code in places(int(sys.argv[1])):
            print(f"{path}:{number}: {name}: {code}")
        return
    for point in FORMS:
        found = places(point)
        kinds = {}
        for _, _, name, _ in found:
            kinds[name] = kinds.get(name, 0) + 1
        print(f"{point}: {len(found)}  (" + "; ".join(f"{n} {k}" for k, n in kinds.items()) + ")")


main()
