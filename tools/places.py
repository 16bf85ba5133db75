#!/usr/bin/env python3
"""Counts in src/ the places that docs/DESIGN-PASS.md speaks of, point by point and crate by crate. `python3 tools/places.py [FOLDER]`."""
import re
import sys
from pathlib import Path

ROOT = Path(sys.argv[1] if len(sys.argv) > 1 else Path(__file__).resolve().parent.parent)
WORDS = {
    '1 enums like Option or Result': r'^\s*(?:pub(?:\(crate\))? )?enum (?:Check|Answer|Token|Next|Worth|Got|Section|Past|\w+Got|Slack|Solution|Wish|Step|Seen|Reading|Written|Joining)\b',
    '1 a flag or a count with a value beside it': r'\bstruct (?:Tally|Choice|Solving|Ground|Reply|Sight)\b',
    '1 a bool that says that a call failed': r'fn (?:subtract|step|each|reduce|round|sweep|add_row|seat\w*)\([^{]*\) -> bool',
    '1 a refusal passed on by hand': r'\b(?:Refused|Failed)\((?:why|other)\)(?: =>|\) =|\) = )|if \w+\.over\b|Over =>|Uneven =>|NoRoom =>',
    '1 a number that stands for none': r'\bn <= [fg]\b|order\.len\(\) <= k|fn find_blocking\([^{]*\) -> usize|fn first_changed\([^{]*\) -> usize|fn blocking_column\([^{]*\) -> usize',
    '3 while and loop': r'^\s+(?:while |loop \{)',
    '4 conversions and comparisons by own functions': r'\b(?:less|magnitude|is_zero|natural|signed|positive|negative|negated|at_most|half)\(',
    '4 copying and wiping by own functions': r'\b(?:copy|wipe)\(',
    '4 a struct copied field by field': r'\b(\w+): (?:\w+)\.\1,',
    '5 a basis and how it lies, as two parameters': r'view: Basis\b',
    '5 the eight lists as parameters': r'^\s+ideals2?: &(?:mut )?\[i64\],$',
    '6 places in packed records': r'\b(?:WIDTH|SIZE_WIDTH|NOTE_WIDTH)\b|at \+ (?:LOWER|UPPER|LOW|HIGH|GIVEN|WISH)\b',
    '7 a switch on the step to take': r'(?:Way|Rule)::\w+ =>',
}


def code(path):
    """The text of a source file without its comments and clauses' ghost uses."""
    return '\n'.join(line for line in path.read_text().split('\n') if not line.lstrip().startswith('//'))


def main():
    crates = sorted(p.name for p in (ROOT / 'crates').iterdir() if (p / 'src').is_dir())
    texts = {c: '\n'.join(code(p) for p in sorted((ROOT / 'crates' / c / 'src').rglob('*.rt'))) for c in crates}
    for name, word in WORDS.items():
        found = {c: len(re.findall(word, texts[c], re.M)) for c in crates}
        found = {c: n for c, n in found.items() if n}
        print(f"{sum(found.values()):5} {name}: " + ', '.join(f'{c} {n}' for c, n in found.items()))
    wide = {}
    for c in crates:
        for m in re.finditer(r'fn (\w+)(?:<[^(]*>)?\(([^)]*)\)', texts[c]):
            if len([p for p in m.group(2).split(',') if ':' in p]) >= 7:
                wide.setdefault(c, []).append(m.group(1))
    print(f"{sum(map(len, wide.values())):5} 5 functions of seven parameters or more: " + ', '.join(f'{c} {len(v)}' for c, v in wide.items()))
    lines = {c: sum(len(p.read_text().split('\n')) - 1 for p in (ROOT / 'crates' / c / 'proofs').rglob('*.antt')) for c in crates}
    answers = {c: sum(len(re.findall(r'^pub [\w-]+ : goal\.', p.read_text(), re.M)) for p in (ROOT / 'crates' / c / 'proofs').rglob('Answers.antt')) for c in crates}
    print(f"{sum(answers.values()):5} 8 answers to goals: " + ', '.join(f'{c} {n}' for c, n in answers.items() if n))
    print(f"{sum(lines.values()):5} 8 lines of proofs: " + ', '.join(f'{c} {n}' for c, n in lines.items() if n))


if __name__ == '__main__':
    main()
