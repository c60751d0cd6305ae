#!/usr/bin/env python3
"""Counts the places in src/ that today's Rattle lets one write better, by point, and names them.

    python3 tools/places.py [FOLDER] [--list]

The patterns go by text: a place that stays for a reason is counted too, until its text is another.
docs/DESIGN-PASS.md has the numbers at the beginning and at the end, and says why what is left is left."""
import collections
import glob
import re
import sys

folder = next((a for a in sys.argv[1:] if not a.startswith('--')), '.')
listing = '--list' in sys.argv[1:]

WORDS = {'fn', 'let', 'mut', 'if', 'else', 'match', 'return', 'for', 'in', 'while', 'loop', 'as', 'Some', 'None', 'Ok', 'Err', 'true', 'false', 'self', 'break', 'continue', 'ref', 'move'}


def sources():
    for path in sorted(glob.glob(folder + '/crates/*/src/**/*.rt', recursive=True)):
        yield path[len(folder) + 1:], open(path).read().split('\n')


def code(line):
    """A line without its comment."""
    return re.sub(r'\s*//.*$', '', line)


def line_places(pattern, but=None):
    for path, lines in sources():
        for number, line in enumerate(lines, 1):
            text = code(line)
            if re.search(pattern, text) and not (but and re.search(but, text)):
                yield f'{path}:{number}', text.strip()


def enums_like_option():
    """Enums with a case that says nothing, missing or bad."""
    for path, lines in sources():
        for number, line in enumerate(lines, 1):
            if not re.match(r'\s*(pub )?enum ', line):
                continue
            body = []
            for below in lines[number:]:
                if re.match(r'\s*}', below):
                    break
                body.append(code(below).strip().rstrip(','))
            if any(case in ('Nobody', 'Nothing', 'Free', 'Missing', 'Bad', 'Out', 'Cut', 'Other') for case in body) and ' Act ' not in line and ' Verb ' not in line and ' Fault ' not in line:
                yield f'{path}:{number}', line.strip()


def functions():
    """Each function: where, its name, the text of its signature, of its clauses and of its body."""
    for path, lines in sources():
        number = 0
        while number < len(lines):
            line = lines[number]
            if re.match(r'\s*(pub(\([a-z]+\))? )?(extern "C" )?(const )?fn ', line):
                begun = number
                indent = re.match(r'\s*', line).group(0)
                text = []
                while number < len(lines):
                    text.append(code(lines[number]))
                    if number > begun and lines[number] in (indent + '}', indent + '{}') or re.search(r';$', lines[number]) and '{' not in ''.join(text):
                        break
                    if number == begun and re.search(r'\{.*\}\s*$', lines[number]):
                        break
                    number += 1
                whole = '\n'.join(text)
                cut = re.search(r'\n' + indent + r'\{(.*)', whole, re.S) or re.search(r'\{\n(.*)', whole, re.S)
                head = whole[:cut.start()] if cut else whole
                body = cut.group(1) if cut else ''
                signature = re.split(r'\n\s*(?:requires|ensures)\b', head)[0]
                yield f'{path}:{begun + 1}', re.search(r'fn ([a-z_0-9]+)', line).group(1), signature, head[len(signature):], body
            number += 1


def numbers_for_refusals():
    for where, name, signature, _, body in functions():
        if re.search(r'Result<.*, (u8|u32|u64|usize)>', signature.split('->')[-1]):
            yield where, f'{name}: a number for a refusal'
        elif re.search(r'-> (u8|usize)$', signature.strip()) and re.search(r'return 0;|^\s*0\s*$', body, re.M) and name != 'left':
            yield where, f'{name}: 0 for nothing'
        elif re.search(r'-> bool$', signature.strip()) and '&mut self' in signature:
            yield where, f'{name}: a flag for a refusal'


def twins():
    """Functions whose bodies are the same but for names, numbers and texts."""
    shapes = collections.defaultdict(list)
    for where, name, _, _, body in functions():
        tokens = re.findall(r'[A-Za-z_][A-Za-z_0-9]*!?|"[^"]*"|b?\'[^\']*\'|\d[\d_a-z]*|[^\sA-Za-z_0-9]', body)
        shape = ' '.join(t if t in WORDS or not re.match(r'[A-Za-z_\d"\']', t) else 'x' for t in tokens)
        if len(tokens) >= 24:
            shapes[shape].append((where, name))
    for shape, places in shapes.items():
        if len(places) > 1:
            for where, name in places:
                yield where, f'{name}: as {", ".join(n for w, n in places if w != where)}'


def same_name_elsewhere():
    """Functions of one name that read, write or walk, with a body of their own in each of several crates; methods apart."""
    by_name = collections.defaultdict(list)
    for where, name, signature, _, body in functions():
        if body.strip() and 'self' not in signature and name in ('after', 'digit', 'number', 'is_show', 'is_home', 'home_of', 'hex_digit', 'ring_from'):
            by_name[name].append(where)
    for name, places in by_name.items():
        crates = {p.split('/')[1] for p in places}
        if len(crates) > 1:
            for p in places:
                yield p, f'{name}, in {len(crates)} crates'


def repeated_requires():
    seen = collections.defaultdict(list)
    for where, name, _, clauses, _ in functions():
        for clause in re.findall(r'requires (?:[a-z_]+ )?\{(.*)\}', clauses):
            crate = where.split('/')[1]
            fact = re.sub(r'self(\.queue|\.now|\.old)?|queue\.old', 'self', clause.strip())
            seen[crate, re.sub(r'\b\d+\b', 'N', fact)].append((where, name, clause.strip()))
    for places in seen.values():
        if len(places) >= 3:
            for where, name, clause in places:
                yield where, f'{name}: requires {clause}'


def many_parameters():
    for where, name, signature, _, _ in functions():
        inside = re.search(r'\((.*)\)', signature.replace('\n', ' '), re.S)
        count = len(re.findall(r'(?:^|,)\s*(?:mut )?(?:&(?:\'\w+ )?(?:mut )?)?self\b|[a-z_]+\s*:', inside.group(1))) if inside else 0
        if count >= 6:
            yield where, f'{name}: {count} parameters'


def buffers_and_parallels():
    for path, lines in sources():
        number = 0
        while number < len(lines):
            if re.match(r'\s*(pub )?struct .*\{$', lines[number]):
                begun = number
                body = []
                while not re.match(r'\s*}', lines[number]):
                    body.append(code(lines[number]))
                    number += 1
                text = '\n'.join(body)
                arrays = len(re.findall(r': \[[^;\]]+; [A-Z0-9a-z_]+\]', text))
                if arrays and re.search(r'\b(used|length|count): usize', text):
                    yield f'{path}:{begun + 1}', lines[begun].strip() + ' a buffer with a length'
                elif arrays >= 2:
                    yield f'{path}:{begun + 1}', lines[begun].strip() + f' {arrays} arrays side by side'
            number += 1


def step_switches():
    yield from line_places(r'enum Next\b|enum Turn\b')
    yield from line_places(r'else if let Some\(text\) = ')
    for where, name, _, _, body in functions():
        if 'effects.abandon()' in body:
            yield where, f'{name}: effects gathered, or left, by hand'


def conversions():
    for where, name, signature, _, body in functions():
        if re.search(r'^\s*match (\*?self|[a-z_]+|text|word) \{', body, re.M) and name in ('number', 'byte', 'holder', 'reply', 'verdict', 'refused_for', 'from_word', 'act_of', 'refusal', 'fault_text', 'act_word', 'answer_byte', 'holder_byte', 'hex_digit'):
            yield where, f'{name}: converts by hand'
        elif re.search(r'_text$|^line$', name) and 'String' in signature:
            yield where, f'{name}: prints into a String'
        elif name in ('is_same', 'is_engine', 'is_own'):
            yield where, f'{name}: compares by hand'


POINTS = [
    ('1. enums of the shape of Option or Result', enums_like_option),
    ('1. numbers and flags for refusals and for nothing', numbers_for_refusals),
    ('2. twins: the same body but for names', twins),
    ('2. a reader, writer or walk written in several crates', same_name_elsewhere),
    ('3. loops that count: `for .. in a..b`', lambda: line_places(r'\bfor \w+ in .*\.\.', r'\.\.\]|u64::MAX')),
    ('3. loops that count: `while`, `loop`', lambda: line_places(r'(^|\s|:)(while|loop)\b')),
    ('4. numbers inside types compared', lambda: line_places(r'\.0 (==|!=) |(==|!=) [a-z_.()]+\.0\b')),
    ('4. conversion, printing and equality by hand', conversions),
    ('5. a fact required in three or more contracts', repeated_requires),
    ('5. six or more parameters', many_parameters),
    ('6. buffers with a length, arrays side by side', buffers_and_parallels),
    ('7. switches on which step to run', step_switches),
]

if __name__ == '__main__':
    for title, places in POINTS:
        found = list(places())
        print(f'{len(found):4}  {title}')
        if listing:
            for where, what in found:
                print(f'        {where}  {what}')
    answers = glob.glob(folder + '/crates/*/proofs/**/Answers.antt', recursive=True)
    lines = sum(len(open(p).read().split('\n')) - 1 for p in answers)
    helpers = [p for p in glob.glob(folder + '/crates/*/proofs/*.antt') if not p.endswith('/Lib.antt')]
    total = sum(len(open(p).read().split('\n')) - 1 for p in glob.glob(folder + '/crates/*/proofs/**/*.antt', recursive=True))
    print(f'{len(answers):4}  8. files of answers, of {lines} lines; {len(helpers)} files of lemmas; {total} lines in proofs/ in all')
