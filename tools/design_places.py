#!/usr/bin/env python3
"""Prints the places of src/ where an older form stands, by the points of docs/DESIGN-PASS.md, each with its count.

usage: python3 tools/design_places.py [--list] [COMMIT]    the files of the commit, or those that lie here
"""
import re
import subprocess
import sys
from collections import defaultdict
from difflib import SequenceMatcher

listed = '--list' in sys.argv
commit = next((a for a in sys.argv[1:] if not a.startswith('--')), None)


def run(*args):
    return subprocess.run(args, capture_output=True, text=True, check=True).stdout


def files(pattern):
    if commit:
        names = [n for n in run('git', 'ls-tree', '-r', '--name-only', commit).split('\n') if re.fullmatch(pattern, n)]
        return {n: run('git', 'show', f'{commit}:{n}') for n in names}
    names = [n for n in run('git', 'ls-files').split('\n') if re.fullmatch(pattern, n)]
    return {n: open(n).read() for n in names}


sources = files(r'crates/[^/]+/src/.*\.rt')


def functions():
    """Each function: file, line, name, signature with clauses, body."""
    for name, text in sources.items():
        for m in re.finditer(r'^( *)(?:pub(?:\([a-z]+\))? )?(?:const )?(?:extern "C" )?fn (\w+)', text, re.M):
            end = text.find(f'\n{m[1]}}}', m.start())
            if end < 0 or re.search(r'\{\}$', text[m.start():end].split('\n')[0]):
                end = text.find('\n', m.start())
            whole = text[m.start():end]
            cut = whole.find(f'\n{m[1]}{{')
            if cut < 0:
                cut = whole.find(' {\n')
            yield name, text.count('\n', 0, m.start()) + 1, m[2], whole[:cut], whole[cut:]


every = list(functions())
coded = {name.split('/')[1] for name, *_ in every} - {'board', 'matching', 'theorems'}
proofs = {n: t for n, t in files(r'crates/[^/]+/proofs/.*\.antt').items() if n.split('/')[1] in coded}


def lines(*patterns, flags=0):
    return [f'{name}:{n}: {line.strip()}' for name, text in sources.items() for n, line in enumerate(text.split('\n'), 1)
            if any(re.search(p, line, flags) for p in patterns)]


def show(point, what, places):
    print(f'{point}  {len(places):4}  {what}')
    if listed:
        for p in places:
            print(f'            {p}')


# 1
show('1a', 'variants of an enum in the shape of Option or Result', lines(r'^ +(Bad|Other|Refused\(u8\)|Failed|Whole),$'))
show('1b', 'numbers for refusals: fields, parameters, results', lines(r'\b(refusal|number): u8\b', r'^(pub )?fn (first_row|refusal|number_of|count_into)\b.*-> u8', r'^\) -> u8$'))
show('1c', 'a flag with a value beside it', lines(r'^ +(pub )?(found|opened|whole|ended): bool', r'\(.*, bool\)[,;]'))
show('1d', 'numbers for kinds', lines(r'const (ADMITTED|BAKED|GIVEN_UP|WITHDRAWN): u32', r'\bkind: u32'))
show('1e', 'a value that stands for none, by its comment', lines(r'^ *//.*(\b0 for none|0 where there (is|are) no|all 0 where|both 0 where|0 says that there|for none\b|where none has|past the places where)'))
# 2
twins = []
norm = [re.sub(r'\b[a-z_]\w*\b|\d+|b\'.\'|"[^"]*"', 'x', b) for *_, b in every]
for i, a in enumerate(every):
    for j in range(i):
        b = every[j]
        if min(norm[i].count('\n'), norm[j].count('\n')) < 4 or abs(len(norm[i]) - len(norm[j])) > 0.3 * len(norm[i]):
            continue
        if SequenceMatcher(None, a[4], b[4], autojunk=False).ratio() >= 0.75:
            twins.append(f'{b[0]}:{b[1]} {b[2]} ~ {a[0]}:{a[1]} {a[2]}')
show('2 ', 'pairs of functions of four lines and more whose bodies are three quarters alike', twins)
# 3
loops = []
for name, line, fn, sig, body in every:
    for m in re.finditer(r'while ([^{]*)\{', body):
        names = set(re.findall(r'\b[a-z_]\w*\b', m[1]))
        if any(re.search(rf'\b{v} [+-]= 1;', body) for v in names):
            loops.append(f'{name}:{line + (sig + body[:m.start()]).count(chr(10))} {fn}: while {m[1].strip()}')
show('3 ', 'loops that count an index by hand', loops)
# 4
show('4 ', 'comparison, conversion, digits and text by hand', [f'{n}:{k} {f}' for n, k, f, s, b in every if f in (
    'is_blank', 'is_digit', 'with_digit', 'number_at', 'status_of', 'key', 'place', 'put_number', 'put_pair', 'digit_count', 'put_right', 'column_byte',
    'lesser', 'fmt', 'write_str', 'before_number', 'wide', 'width', 'is_smaller', 'size_below_zero', 'one_if_baked', 'new_page', 'zero', 'no_bytes', 'blank')])
# 5
facts = defaultdict(list)
groups = defaultdict(list)
for name, line, fn, sig, body in every:
    for clause in re.findall(r'requires \w*\s*\{(.*?)\}$', sig, re.M):
        for fact in re.split(r' × ', clause):
            facts[re.sub(r'\.(now|old)\b', '', fact).strip(' ()')].append(fn)
    head = sig.split('\n    requires')[0].split('\n    ensures')[0]
    inside = head[head.find('(') + 1:]
    params = [p.strip() for p in re.findall(r'(?:^|[,(\n])\s*(?:mut )?(\w+: [^,\n]+?)(?=,|\n|\)$|\) ->)', '\n' + inside)]
    for size in (3,):
        for i in range(len(params) - size + 1):
            groups[', '.join(re.sub(r'&mut |&', '', p) for p in params[i:i + size])].append(fn)
show('5a', 'facts in the requires of three functions or more', [f'{len(v)} x {k}: {", ".join(v)}' for k, v in facts.items() if len(v) >= 3])
show('5b', 'three parameters in a row that three functions or more share', [f'{len(v)} x {k}: {", ".join(v)}' for k, v in groups.items() if len(v) >= 3])
# 6
show('6 ', 'an array or a slice with its length beside it; arrays side by side', lines(r'^ +(pub )?(count|len): usize,$', r'^ +tickets: &(mut )?\[', r'^ +(pub )?tickets: \[u32'))
# 7
show('7 ', 'a match that chooses the step to run', lines(r'^ +(let _ = )?match (asked|program|letter|answer)\b'))
# 8
seen = defaultdict(set)
for name, text in proofs.items():
    rows = [(i, r.strip()) for i, r in enumerate(text.split('\n'), 1) if r.strip() and not r.startswith(('use ', '--', 'unfolding'))]
    for k in range(len(rows) - 2):
        seen['\n'.join(r for _, r in rows[k:k + 3])].add(name)
show('8 ', 'files of proofs/, of crates with functions, that share three lines in a row with another', sorted({n for v in seen.values() if len(v) > 1 for n in v}))
