#!/usr/bin/env python3
"""The places in src/ that docs/DESIGN-PASS.md counts, by point: `tools/count_places.py` prints how many, with -l each one too.

    tools/count_places.py [-l] [FOLDER]     FOLDER: the top of a checkout, this one where none is given

It goes by text: clauses and comments are left out where code is counted. What it finds is a place to look at, and not always one to
change.
"""
import re
import sys
from collections import defaultdict
from pathlib import Path

REFUSALS = 'STATE STORE PORT ROW CHAR ROUNDS STOPPED NOTRUN EMPTY FULL'.split()


class Function:
    def __init__(self, path, name, line, parameters, result, clauses, body):
        self.path, self.name, self.line = path, name, line
        self.parameters, self.result, self.clauses, self.body = parameters, result, clauses, body

    def place(self):
        return f'{self.path}:{self.line} {self.name}'


def without_comments(text):
    return re.sub(r'//[^\n]*', '', text)


def closed(text, at, pair='{}'):
    """The place behind the bracket that closes the one at `at`."""
    depth = 0
    for k in range(at, len(text)):
        if text[k] == pair[0]:
            depth += 1
        elif text[k] == pair[1]:
            depth -= 1
            if depth == 0:
                return k + 1
    return len(text)


def functions(path, text):
    for found in re.finditer(r'\bfn (\w+)(<[^(]*>)?\(', text):
        opening = found.end() - 1
        end = closed(text, opening, '()')
        rest = end
        clauses = []
        result = ''
        while True:
            clause = re.match(r'\s*(where\s+)?(requires|ensures)\b\s*\w*\s*\{', text[rest:])
            if clause:
                brace = rest + clause.end() - 1
                after = closed(text, brace)
                clauses.append((clause.group(2), ' '.join(text[brace + 1:after - 1].split())))
                rest = after
                continue
            answer = re.match(r'\s*->\s*(?:[^{;\[]|\[[^\]]*\])*?(?=\s*(where|requires|ensures|\{|;))', text[rest:])
            if answer and not result:
                result = ' '.join(answer.group(0).split())
                rest += answer.end()
                continue
            break
        body = re.match(r'\s*\{', text[rest:])
        if not body:
            continue
        brace = rest + body.end() - 1
        inner = text[brace + 1:closed(text, brace) - 1]
        line = text.count('\n', 0, found.start()) + 1
        yield Function(path, found.group(1), line, text[opening + 1:end - 1], result, clauses, inner)


def parameters(function):
    depth, part, parts = 0, '', []
    for c in function.parameters:
        depth += c in '([<{'
        depth -= c in ')]>}'
        if c == ',' and depth == 0:
            parts.append(part)
            part = ''
        else:
            part += c
    parts.append(part)
    return [' '.join(p.split()) for p in parts if p.strip()]


def shape(body):
    """A body with every name but a keyword, and every number, left out."""
    words = re.findall(r'[A-Za-z_]\w*|\d\w*|[^\s\w]', body)
    keep = 'if else match while for in let mut return true false as Some None Ok Err self loop'.split()
    return ' '.join(w if w in keep or not re.match(r'\w', w) else 'x' for w in words), len(words)


def enums(path, text):
    for found in re.finditer(r'\benum (\w+)[^{]*\{', text):
        inner = text[found.end():closed(text, found.end() - 1) - 1]
        variants = [v.strip() for v in re.split(r',(?![^(]*\))', inner) if v.strip()]
        yield found.group(1), text.count('\n', 0, found.start()) + 1, variants


def option_shaped(variants):
    return len(variants) == 2 and sorted('(' in v or '{' in v for v in variants) in ([False, True], [True, True])


def count(top):
    places = defaultdict(list)
    every = []
    for path in sorted(Path(top).glob('crates/*/src/**/*.rt')):
        name = str(path.relative_to(top))
        text = without_comments(path.read_text())
        for enum, line, variants in enums(name, text):
            if option_shaped(variants):
                places['1 own enums of the shape of Option or Result'].append(f'{name}:{line} {enum}')
        code = '\n'.join('' if l.startswith(('ghost use', 'use ')) else l for l in text.split('\n'))
        for k, line in enumerate(code.split('\n')):
            here = f'{name}:{k + 1} {line.strip()}'
            constant = re.match(r'\s*(pub(\(crate\))? )?const (\w+): (u8|u16|u32|usize) =', line)
            if constant and constant.group(3) in REFUSALS and name == 'crates/vocabulary/src/lib.rt':
                places['1 refusals as numbers'].append(here)
            elif re.search(r'\b(' + '|'.join(REFUSALS) + r') as u32\b|vocabulary::(' + '|'.join(REFUSALS) + r')\b|'
                           r'\brefuse\(.*\b(' + '|'.join(REFUSALS) + r')\b', line):
                places['1 refusals as numbers'].append(here)
            if constant and constant.group(4) in ('u8', 'u32') and name.split('/')[1] in ('characters', 'link'):
                places['1 kinds as numbers: constants'].append(here)
            if re.search(r'^\s*(pub(\(crate\))? )?\w+: bool,$', line):
                places['1 flags in a record'].append(here)
        for f in functions(name, text):
            every.append(f)
            if re.search(r'\b(kind|state|number|column|next|s): u(8|32)\b', f.parameters) or re.search(
                    r'^-> u(8|32)$', f.result) and re.search(r'(number|kind|state|refusal)$', f.name):
                places['1 kinds and refusals as numbers: functions'].append(f.place())
            for loop in re.findall(r'\b(while|loop)\b', f.body):
                places['3 loops that count by hand'].append(f.place())
            for ladder in re.findall(r'\{\s*(?:true|false)\s*\}\s*else|else\s*\{\s*(?:true|false)\s*\}|=> (?:true|false),', f.body):
                places['4 truths by branches'].append(f.place())
            if re.search(r'(_number|_words|_of|_value|_kind|^kind|^value|^number|^wide|^narrow|^byte|^fitted|^truth\w*|^differ_in)$', f.name):
                places['4 conversions and comparisons as functions'].append(f.place())
            if re.match(r'(say|tell|write|show)', f.name) and '/' in name and re.search(r'(demo|incident|cases)', name):
                places['4 printing as functions'].append(f.place())
            if len([p for p in parameters(f) if re.search(r'&(mut )?\[', p)]) and [p for p in parameters(f) if re.match(r'(at|len|length): usize', p)]:
                places['6 a buffer with a place or length beside it'].append(f.place())
    shapes = defaultdict(list)
    for f in every:
        form, length = shape(f.body)
        if length >= 12:
            shapes[form].append(f)
    for form, twins in shapes.items():
        if len(twins) > 1:
            places['2 functions of one shape'] += [f.place() + f'   [{twins[0].name}]' for f in twins]
    facts = defaultdict(list)
    for f in every:
        for kind, clause in f.clauses:
            for fact in re.split(r' × ', clause):
                if kind == 'requires':
                    fact = re.sub(r'\b[a-z]\w*\b(?! [a-z])', '_', fact.strip('() '), count=1)
                    facts[fact].append(f)
    for fact, where in facts.items():
        if len(set(f.place() for f in where)) >= 3:
            places['5 facts required in three functions or more'] += [f'{f.place()}   [{fact}]' for f in where]
    together = defaultdict(list)
    for f in every:
        names = [p.split(':')[0].replace('mut ', '') for p in parameters(f) if ':' in p]
        for a in range(len(names)):
            for b in range(a + 1, len(names)):
                together[(f.path.split('/')[1], names[a], names[b])].append(f)
    for pair, where in sorted(together.items()):
        if len(where) >= 5:
            places['5 pairs of parameters in five functions or more'].append(f'{pair[0]}: {pair[1]}, {pair[2]} in {len(where)}')
    for proof in sorted(Path(top).glob('crates/*/proofs/**/*.antt')):
        kind = {'Proof.antt': '8 walked proofs', 'Answers.antt': '8 files of answers', 'Invariants.antt': '8 files of invariants'}
        places[kind.get(proof.name, '8 files of laws')].append(str(proof.relative_to(top)))
    return places


def main():
    arguments = [a for a in sys.argv[1:] if a != '-l']
    top = Path(arguments[0]) if arguments else Path(__file__).resolve().parent.parent
    for point, where in sorted(count(top).items()):
        print(f'{len(where):5} {point}')
        if '-l' in sys.argv and not point.startswith('8'):
            for place in where:
                print(f'        {place}')


main()
