"""Counts the places of docs/DESIGN-PASS.md in crates/*/src: `python3 tools/design_places.py POINT [FOLDER]` prints each place of
the point, a line each, and their number; without a point, the numbers of all. FOLDER is the top of a checkout."""
import glob
import os
import re
import sys
from collections import defaultdict

SIGNATURE = re.compile(
    r'^ *(?:pub )?(?:const )?(?:extern "C" )?fn (\w+)(?:<[^(]*>)?\((.*?)\)(?: -> ([^\n{]*?))?\s*(?=\n *(?:requires|ensures|where)|\{)', re.M | re.S)
NUMBER_TYPE = r'\b(?:u8|u16|u32|u64|usize)\b'


def sources(top):
    for path in sorted(glob.glob(os.path.join(top, 'crates', '*', 'src', '*.rt'))):
        text = re.sub(r'//[^\n]*', '', open(path, encoding='utf-8').read())
        yield os.path.relpath(path, top), text


def end_of_block(text, start):
    """The place after the brace that closes the one at start."""
    depth = 0
    for place in range(start, len(text)):
        depth += {'{': 1, '}': -1}.get(text[place], 0)
        if depth == 0:
            return place + 1
    return len(text)


def functions(top):
    """File, name, parameters, result, clauses and body of each function."""
    for path, text in sources(top):
        for match in SIGNATURE.finditer(text):
            name, params, result = match.group(1), match.group(2), match.group(3) or ''
            place, clauses = match.end(), []
            while True:
                clause = re.compile(r'\s*(requires|ensures)( \w+)? *\{').match(text, place)
                if not clause:
                    break
                place = end_of_block(text, clause.end() - 1)
                clauses.append((clause.group(1), text[clause.end():place - 1].strip()))
            opening = text.find('{', place)
            if opening >= 0:
                yield path, name, params, result, clauses, text[opening:end_of_block(text, opening)]


def lines_with(top, pattern):
    for path, text in sources(top):
        for line in text.split('\n'):
            if re.search(pattern, line) and not line.strip().startswith(('use ', 'ghost ', 'requires', 'ensures', '×', '→')):
                yield f'{path}: {line.strip()}'


def enums_and_numbers(top):
    """1: own enums; lines where a number says which refusal or which kind; words that stand for no value."""
    yield from lines_with(top, r'^(pub )?enum ')
    yield from lines_with(top, r'Refused\(\d+\)|^\s*return \d+;|=> \d+,|(Host|Author)\(\w*\d+\)|const (SHORT|NONE_NOTED|NO_VALUE|SPENT)\b')


def twins(top):
    """2: functions of the same shape: equal once names, types and numbers are left out."""
    shapes = defaultdict(list)
    for path, name, params, result, clauses, body in functions(top):
        words = re.findall(r'\w+|[^\w\s]', re.sub(NUMBER_TYPE, 'T', params + ' -> ' + result + body))
        if len(words) < 30:
            continue
        names, shape = {}, []
        for word in words:
            if re.match(r'\d', word):
                shape.append('0')
            elif re.match(r'\w', word) and word not in ('let', 'mut', 'if', 'else', 'while', 'for', 'in', 'return', 'match', 'T'):
                shape.append(str(names.setdefault(word, len(names))))
            else:
                shape.append(word)
        shapes[' '.join(shape)].append(f'{path}: {name}')
    for group in shapes.values():
        if len(group) > 1:
            yield ' ~ '.join(group)


def counted_loops(top):
    """3: loops that are not a `for`."""
    yield from lines_with(top, r'^\s*(while|loop)\b')


def by_hand(top):
    """4: conversions by `as` or by a function of ours, and functions that compare, copy, fill or print."""
    yield from lines_with(top, r'\bas (u8|u16|u32|u64|usize)\b|\bwide\(')
    for path, name, *_ in functions(top):
        if re.match(r'(comes_before|put_bytes|put_row|fill|clear|print_ending|put_ending|ending_number|put_all)$', name):
            yield f'{path}: fn {name}'


def parameters(params):
    return [p.strip() for p in re.split(r',(?![^<\[(]*[>\])])', params) if p.strip()]


def travelling(top):
    """5: functions of more than six parameters; clauses that three or more functions require."""
    required = defaultdict(list)
    for path, name, params, result, clauses, body in functions(top):
        count = len(parameters(params))
        if count > 6:
            yield f'{path}: {name} takes {count}'
        for kind, clause in clauses:
            if kind == 'requires':
                for fact in re.split(r' × (?![^()]*\))', clause):
                    required[re.sub(r'\s+', ' ', re.sub(r'\.(now|old)\b', '', fact)).strip('() ')].append(f'{path}: {name}')
    for fact, places in required.items():
        if len(places) > 2:
            yield f'{len(places)} functions require {fact}'


def lengths_beside(top):
    """6: a slice and how much of it counts, side by side in a function's parameters."""
    for path, name, params, *_ in functions(top):
        for first, second in zip(parameters(params), parameters(params)[1:]):
            if re.search(r': &(mut )?\[', first) and re.fullmatch(r'(n|m|d|c|held|listed|size): usize', second):
                yield f'{path}: {name}({first}, {second})'


def switches(top):
    """7: functions handed about, and matches on which step to run."""
    yield from lines_with(top, r'\bdyn \w|: fn\(|\[fn\(|match (step|phase|mode) \{')


def answers(top):
    """8: files with the answers of a function's proof."""
    for path in sorted(glob.glob(os.path.join(top, 'crates', '*', 'proofs', '*', '*.antt'))):
        yield f'{os.path.relpath(path, top)}: {sum(1 for line in open(path, encoding="utf-8") if line.strip())} lines'


POINTS = [enums_and_numbers, twins, counted_loops, by_hand, travelling, lengths_beside, switches, answers]


def main():
    top = sys.argv[2] if len(sys.argv) > 2 else '.'
    if len(sys.argv) > 1:
        places = list(POINTS[int(sys.argv[1]) - 1](top))
        print('\n'.join(places))
        print(len(places))
        return
    for number, point in enumerate(POINTS, 1):
        print(number, len(list(point(top))))


if __name__ == '__main__':
    main()
