"""Lists the lines of src/ that may show an older form, point by point, as they stand at a commit or in the files.

    python3 tools/design_places.py [COMMIT]      prints `POINT file:line: text` for each, and a count for each point

Each line that it prints is read by hand: docs/DESIGN-PASS.md says which of them are places, and what became of each.
"""
import re
import subprocess
import sys

POINTS = {
    "1 option-or-result": [
        r"^\s*(pub(\(\w+\))? )?enum ",
        r"\b[a-z_]+: bool\b",
        r"-> bool\b",
        r"\b(kind|state|layer|number|refusal): u(8|16|32)\b",
        r"fn (number|layer|meaning|standing)\b",
        r"=> (0|16),$",
        r"^\s*(return )?(0|16|ROWS)(;|$)",
        r"Err\((fault|f)\) =>|return Err\(fault\)|if let Err",
        r"let (Some|Ok)\(.*else \{",
        r"\b(asked|seal|sealed_count|count)\((2|4|6),",
    ],
    "2 twins": [
        r"^\s*(pub(\([a-z]+\))? )?(extern \"C\" )?fn ",
    ],
    "3 loops": [
        r"^\s*('[a-z]+: )?(for|while|loop)\b",
    ],
    "4 by hand": [
        r"\.value\(\) (==|!=) .*value\(\)",
        r"\bfn (is_same|is_of|is_like|is_in_round|is_waiting|value|new|capped|number|state_of|high|low|digit|numeral|same_places|meaning|standing)\b",
        r"^\s*impl.* (From|TryFrom|Display|PartialEq|Clone)\b.* for ",
        r"\bprint(ln)?!\(",
    ],
    "5 facts and parameters": [
        r"^\s*requires\b",
        r"^\s*ghost [a-z]+: \{",
        r"^\s*ensures (few|most|some|many|low|space|size)\b",
        r"plan: &Plan,",
        r"\b(at|start): usize,",
    ],
    "6 buffers": [
        r"^\s*(pub )?[a-z_]+: (&'a (mut )?)?\[[^\]]*\],",
        r"^\s*(pub )?(len|size|count|k_max|entries|high|at): (u8|u16|usize),",
    ],
    "7 switches": [
        r"match (sort|asked|hall)\b|\(Sort::|Sort::(Cards|Slips) =>",
        r"trait \w+User\b|\bdyn\b|\bfn\(",
    ],
}


def lines_at(commit):
    args = ["git", "grep", "-n", "", *([commit] if commit else []), "--", "crates/*/src/*.rt"]
    out = subprocess.run(args, capture_output=True, text=True, check=True).stdout
    for line in out.splitlines():
        if commit:
            line = line.split(":", 1)[1]
        file, number, text = line.split(":", 2)
        if not text.lstrip().startswith("//"):
            yield file, number, text


def main():
    commit = sys.argv[1] if len(sys.argv) > 1 else None
    lines = list(lines_at(commit))
    for point, patterns in POINTS.items():
        pattern = re.compile("|".join(patterns))
        found = [(f, n, t) for f, n, t in lines if pattern.search(t)]
        for f, n, t in found:
            print(f"{point.split()[0]} {f}:{n}: {t.strip()}")
        print(f"{point}: {len(found)} lines")


main()
