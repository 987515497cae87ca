#!/usr/bin/env python3
"""Lists the places in src/ where code has one of eight older forms; docs/DESIGN-PASS.md says what came of each.

usage: python3 tools/forms.py [-l] [FOLDER]    FOLDER is a checkout, by default this one; -l lists each place, else there are counts alone
"""
import collections
import glob
import os
import re
import sys

WORD = r'[A-Za-z_][A-Za-z_0-9]*'


def sources(top):
    for path in sorted(glob.glob(os.path.join(top, 'crates/*/src/**/*.rt'), recursive=True)):
        with open(path, encoding='utf-8') as f:
            yield os.path.relpath(path, os.path.join(top, 'crates')), f.read().split('\n')


def functions(lines):
    """Each function with a body: its name, first line, header and body."""
    i = 0
    while i < len(lines):
        m = re.match(r'(\s*)(?:pub(?:\(crate\))? )?(?:const |unsafe |extern "C" )*fn (' + WORD + ')', lines[i])
        if not m:
            i += 1
            continue
        indent, name, start = m.group(1), m.group(2), i
        while i < len(lines) and not re.search(r'\{$', lines[i]) and not re.search(r';$', lines[i]):
            i += 1
        if i >= len(lines) or lines[i].endswith(';'):
            i += 1
            continue
        head = lines[start:i + 1]
        body = []
        i += 1
        while i < len(lines) and lines[i] != indent + '}':
            body.append(lines[i])
            i += 1
        yield name, start + 1, ' '.join(x.strip() for x in head), body
        i += 1


def shape(body):
    """A body without comments, and with one word for each type and number."""
    text = '\n'.join(re.sub(r'//.*', '', x).strip() for x in body)
    text = re.sub(r'\b0x[0-9a-fA-F_]+\b|\b\d[\d_]*(?:u8|u16|u32|u64|u128|usize)?\b', 'N', text)
    text = re.sub(r'\b(?:u8|u16|u32|u64|u128|usize)\b', 'T', text)
    text = re.sub(r'\b[A-Z][A-Za-z0-9]*\b', 'T', text)
    return text


def grep(files, *patterns):
    found = []
    for path, lines in files:
        for number, line in enumerate(lines, 1):
            if not line.lstrip().startswith('//') and any(re.search(p, line) for p in patterns):
                found.append('%s:%d: %s' % (path, number, line.strip()))
    return found


def outcomes(files):
    """1: own outcomes, flags beside values, numbers for refusals, texts for errors."""
    found = grep(files, r'^\s*(?:pub(?:\(crate\))? )?enum (?:Outcome|Told|Answer)\b', r'^\s*(?:pub(?:\(crate\))? )?struct (?:Outcome|Told)\b',
                 r"Result<[^>]*, &'static str>", r'return REFUSED|=> REFUSED', r'^fn .*\ballowed: bool|^pub fn .*\ballowed: bool', r'^\s*(?:pub(?:\(crate\))? )?number: u\d+,$')
    for path, lines in files:
        for name, at, head, body in functions(lines):
            if re.search(r'-> bool', head) and '&mut' in head:
                found.append('%s:%d: fn %s writes and answers a flag' % (path, at, name))
    return found


def twins(files):
    """2: functions and types of one shape, which differ in types, names of types and numbers alone."""
    groups = collections.defaultdict(list)
    for path, lines in files:
        for name, at, head, body in functions(lines):
            if len([x for x in body if x.strip()]) >= 3:
                groups[shape(body)].append('%s:%d: fn %s' % (path, at, name))
        for at, line in enumerate(lines):
            if re.match(r'impl\b.*\{$', line) and '}' in lines[at:]:
                body = lines[at + 1:at + lines[at:].index('}')]
                groups[shape([re.sub(r'\b(?:b|k|q|u|_)\b', '_', x) for x in body])].append('%s:%d: %s' % (path, at + 1, line))
    names = collections.defaultdict(list)
    for path, lines in files:
        for number, line in enumerate(lines, 1):
            m = re.match(r'(?:pub(?:\(crate\))? )?(?:struct|enum|trait) (' + WORD + ')', line)
            if m:
                names[m.group(1)].append('%s:%d: %s' % (path, number, line.strip()))
    found = []
    for group in list(groups.values()) + list(names.values()):
        if len(group) > 1:
            found.append(' ~ '.join(group))
    return found


def loops(files):
    """3: loops over a range, and while."""
    return grep(files, r'^\s*for [^{]* in [^{]*\.\.', r'^\s*while ')


def conversions(files):
    """4: casts to a wider type, names and texts by a match, sameness by a function of its own."""
    found = grep(files, r'\b(?:number\(\)|place\(\)|step\.[jk]|cell|value|a|b|to|u|x|c|need|used|product|power|width|modulus) as (?:u16|u32|u64|usize)\b',
                 r"-> &'static str$", r"-> &'static str \{", r'^fn (?:equal|is_table|same_\w+|told_\w+)\b', r'^trait Number|^pub(?:\(crate\))? trait Number')
    return found


def repeated(files):
    """5: clauses of requires and ensures that stand in three or more functions of the same crate, and three or more parameters that go together through three or more functions."""
    found = []
    clauses = collections.defaultdict(list)
    params = collections.defaultdict(set)
    for path, lines in files:
        crate = path.split('/')[0]
        for number, line in enumerate(lines, 1):
            m = re.match(r'\s+requires [^{]*(\{.*\})$', line)
            if m:
                clauses[crate, m.group(1)].append('%s:%d' % (path, number))
        for name, at, head, body in functions(lines):
            m = re.search(r'\((.*?)\)(?: ->| requires| ensures| where| \{)', head)
            if m:
                taken = sorted(set(x.strip() for x in re.findall(r'(?:mut )?(' + WORD + r': [^,]+)', m.group(1)) if not x.startswith('rt:')))
                for i in range(len(taken)):
                    for j in range(i + 1, len(taken)):
                        for k in range(j + 1, len(taken)):
                            params[crate, taken[i], taken[j], taken[k]].add('%s:%d' % (path, at))
    for (crate, clause), at in sorted(clauses.items()):
        if len(at) >= 3:
            found.append('%s: requires %s at %s' % (crate, clause, ', '.join(at)))
    for key, at in sorted(params.items()):
        if len(at) >= 3:
            found.append('%s: (%s) at %s' % (key[0], ', '.join(key[1:]), ', '.join(sorted(at))))
    return found


def buffers(files):
    """6: an array with how much of it is used beside it, and arrays of one length beside one another."""
    found = []
    for path, lines in files:
        text = '\n'.join(lines)
        for m in re.finditer(r'struct (' + WORD + r')[^{;]*\{\n(.*?)\n\}', text, re.S):
            fields = m.group(2)
            arrays = re.findall(r'(' + WORD + r'): \[[^\]]*; ([^\]]+)\]', fields)
            at = text[:m.start()].count('\n') + 1
            if arrays and re.search(r'\b(?:len|stored|kept|size|used|count): (?:usize|u8)', fields):
                found.append('%s:%d: struct %s: an array and how much of it is used' % (path, at, m.group(1)))
            if len(arrays) > len(set(n for _, n in arrays)):
                found.append('%s:%d: struct %s: arrays of one length' % (path, at, m.group(1)))
        for name, at, head, body in functions(lines):
            arrays = re.findall(r'let (?:mut )?(' + WORD + r') = \[[^\];]*; ([^\]]+)\];', '\n'.join(body))
            if len(arrays) > len(set(n for _, n in arrays)):
                found.append('%s:%d: fn %s: arrays of one length' % (path, at, name))
            if re.search(r'&mut \[', head) and re.search(r'-> usize', head):
                found.append('%s:%d: fn %s: a buffer, and how much or from where of it' % (path, at, name))
    return found


def switches(files):
    """7: a match that only picks which function runs."""
    found = []
    for path, lines in files:
        for name, at, head, body in functions(lines):
            text = '\n'.join(body)
            for m in re.finditer(r'match [^{]*\{\n(.*?)\n\s*\}', text, re.S):
                arms = [x for x in m.group(1).split('\n') if '=>' in x]
                if len(arms) >= 3 and sum(bool(re.search(r'=> (?:Some\()?(?:self\.)?[a-z_:]+(?:::<.*>)?\(.*\),?$', x)) for x in arms) * 2 > len(arms):
                    found.append('%s:%d: fn %s' % (path, at, name))
    return found + grep(files, r'\[fn\(|: fn\(')


def proofs(top):
    """8: files of answers, and lines of answers and of lemmas."""
    answers = glob.glob(os.path.join(top, 'crates/*/proofs/**/Answers.antt'), recursive=True)
    lemmas = [x for x in glob.glob(os.path.join(top, 'crates/*/proofs/*.antt')) if not x.endswith('/Lib.antt')]
    count = lambda paths: sum(sum(1 for _ in open(p, encoding='utf-8')) for p in paths)
    return len(answers), count(answers), len(lemmas), count(lemmas)


def main():
    args = [x for x in sys.argv[1:] if x != '-l']
    top = args[0] if args else '.'
    files = list(sources(top))
    for number, find in enumerate([outcomes, twins, loops, conversions, repeated, buffers, switches], 1):
        found = find(files)
        print('%d  %3d  %s' % (number, len(found), find.__doc__.split(': ', 1)[1]))
        if '-l' in sys.argv:
            for place in found:
                print('        ' + place)
    print('8  %d files of answers with %d lines, %d files of lemmas with %d lines' % proofs(top))


main()
