#!/usr/bin/env python3
"""Counts, in the sources of all crates, the places where an older form may stand: tools/places.py [POINT] [-q].

Each point has a test of its own below; with a number only that point is listed, with -q only the counts.
A place is a function, a type or a table, but for points 3 (a loop) and 5 (a fact, or parameters that travel together).
The list is of candidates: whether a place is one to change is for a reader to say.
"""
import collections
import glob
import re
import sys

ITEM = re.compile(r'^( *)(?:pub(?:\([a-z]+\))? )?(?:const )?(?:unsafe )?(fn|struct|enum|trait|const|static|type|impl)\b[ <](.*)')


def items():
    """All items: (file, line, kind, name, text)."""
    for path in sorted(glob.glob('crates/*/src/**/*.rt', recursive=True)):
        lines = open(path).read().split('\n')
        i = 0
        while i < len(lines):
            m = ITEM.match(lines[i])
            if not m:
                i += 1
                continue
            indent, kind = m.group(1), m.group(2)
            end = i
            if not re.search(r'[;}]\s*$', lines[i]) or kind == 'impl':
                closing = indent + ('];' if kind in ('const', 'static') and lines[i].rstrip().endswith('[') else '}')
                end = i + 1
                while end < len(lines) and not (lines[end].startswith(closing) and not lines[end].startswith(indent + ' ')):
                    if kind in ('fn',) and lines[end].rstrip().endswith(';') and lines[end].startswith(indent + '    ensures'):
                        break
                    end += 1
            text = '\n'.join(lines[i:end + 1])
            name = re.match(r'[A-Za-z_0-9]*', m.group(3).lstrip('<')).group(0)
            if kind == 'impl':
                name = owner_of(lines[i])
                yield path, i + 1, kind, name, text
                i += 1
                continue
            yield path, i + 1, kind, name, text
            i = end + 1


def owner_of(line):
    """The type that an impl block is for, without parameters."""
    rest = line[line.index('impl') + 4:]
    depth = 0
    for n, c in enumerate(rest):
        depth += (c == '<') - (c == '>')
        if depth == 0:
            rest = rest[n + 1:] if c == '>' else rest
            break
    return re.match(r'\w*', rest.split(' for ')[-1].strip()).group(0)


def code(text):
    """The text without comments, clauses and ghost lines."""
    kept = []
    for line in text.split('\n'):
        s = line.strip()
        if s.startswith('//') or re.match(r'(requires|ensures\*?|ghost)\b', s):
            continue
        kept.append(line)
    return '\n'.join(kept)


def signature(text):
    return code(text).split('{')[0]


INTEGER = r'u(?:8|16|32|64|size)'
CASES = re.compile(r'crates/\w*cases/')


def point1():
    """An enum of two cases one of which holds a value; a number where an outcome, a kind or a refusal is meant; a Result that can only be Ok.
    In a test program each table, each constant and each list of cases is a candidate, as its numbers may be outcomes."""
    for path, line, kind, name, text in items():
        body, head = code(text), signature(text)
        why = None
        if kind == 'enum' and '(' in body and body.count(',\n') == 2:
            why = 'an enum of two cases'
        elif kind == 'struct' and re.search(r'\b(rule|kind|number|code|wanted|flag): *' + INTEGER, body):
            why = 'a number for a kind in a type'
        elif kind == 'struct' and CASES.match(path) and re.search(r'\w\(.*\bu8\b', body):
            why = 'numbers in a row'
        elif kind == 'fn' and re.search('-> *' + INTEGER, head) and re.search(r'\b(Err|Ok|Some)\(|\bNone\b|\bself as u8', body):
            why = 'an outcome or a kind as a number'
        elif kind == 'fn' and re.search(r'-> *u(8|size)$', head.strip()) and re.search(r'\{\s*1\s*\} else \{\s*0\s*\}', body):
            why = 'a yes or a no as a number'
        elif kind == 'fn' and re.search(r'\b(number|wanted|rule): *' + INTEGER, head):
            why = 'a number for an outcome or a kind as a parameter'
        elif kind == 'fn' and (re.search(r'ensures[^{]*\{[^\n]*result ≡ Ok', text) and 'None' not in text or 'Result<Result<' in head):
            why = 'a Result that can only be Ok, or one in another'
        elif kind in ('const', 'static') and CASES.match(path) and re.search(r': \[|: *' + INTEGER + r' =|= \w+\(', body):
            why = 'a table or a constant of a test program'
        elif kind == 'type' and CASES.match(path) and '(' in body:
            why = 'a row of a test program'
        elif kind == 'fn' and CASES.match(path) and re.search(r'for \(.*\) in \[', body):
            why = 'a list of cases'
        if why:
            yield path, line, name, why


KEYWORDS = set('for in if else match return let mut Ok Err Some None fn pub self while loop true false as ref move'.split())


def shape(text):
    """The tokens of a body, with every other name by the order in which it comes and every number alike."""
    body = code(text)
    cut = body.find('{')
    body = body[cut:]
    names, out = {}, []
    for token in re.findall(r'[A-Za-z_][A-Za-z_0-9]*!?|0x[0-9a-f_]+|\d[\d_]*|"[^"]*"|[^\s\w]', body):
        if token in KEYWORDS:
            out.append(token)
        elif re.match(r'[A-Za-z_]', token):
            out.append('n%d' % names.setdefault(token, len(names)))
        elif re.match(r'\d|"', token):
            out.append('#')
        elif token != ',':
            out.append(token)
    return ' '.join(out)


def point2():
    """Functions whose bodies have one shape, names and numbers aside; types with the same functions, three of them or more."""
    groups, methods = collections.defaultdict(list), collections.defaultdict(dict)
    owner = None
    for path, line, kind, name, text in items():
        if kind == 'impl':
            owner = name
        if kind == 'fn' and '{' in code(text):
            form = shape(text)
            if len(form.split()) >= 14:
                groups[form].append((path, line, name))
            if text.startswith(' ') and owner:
                methods[owner].setdefault(name, (path, line))
    for group in groups.values():
        for n, (path, line, name) in enumerate(group):
            if len(group) > 1:
                yield path, line, name, 'of one shape with ' + ', '.join(g[2] for m, g in enumerate(group) if m != n)
    for one in methods:
        for other in methods:
            if one != other and len(methods[one]) >= 3 and set(methods[one]) == set(methods[other]):
                path, line = next(iter(methods[one].values()))
                yield path, line, one, 'a type with the functions of ' + other


def point3():
    """A loop over a range of numbers, and any while or loop."""
    for path in sorted(glob.glob('crates/*/src/**/*.rt', recursive=True)):
        for n, line in enumerate(open(path), 1):
            if re.match(r' *for .* in .*\.\.', line) or re.match(r' *(while|loop)\b', line):
                yield path, n, line.strip(' {\n'), 'a counted loop'


def point4():
    """Equality, order, copying, conversion and printing by hand."""
    for path, line, kind, name, text in items():
        body = code(text)
        if kind != 'fn':
            continue
        if re.search(r'Ok\((\(\)|_)\) => Ok\(\(\)\),\s*Err\(\w+\) => Err\(', body) or re.search(r'Ok\(_?\w*\) => (Ok\(\(\)\)|Ok\(None\)|Ok\(\w+\)),\s*Err\((\w+)\) => (Err\(|Ok\(Some)', body):
            yield path, line, name, 'a Result mapped by hand'
        elif re.search(r'Some\((\w+)\) => Some\(|None => None|=> \w+\.saturating_add\(1\),\s*None', body):
            yield path, line, name, 'an Option mapped by hand'
        elif re.match(r'(eq|ne|cmp|same_\w+|is_for|number|refusal|bare|encode|decode|low|high|from_\w+|to_\w+|as_\w+|\w+_at|set_\w+|\w+_of|\w+_field)$', name) and '-> ' in signature(text):
            yield path, line, name, 'equality, conversion or words by hand'
        elif re.search(r'let \(?Some\(?.*else \{\s*return None', body):
            yield path, line, name, 'an Option handed on by hand'


def point5():
    """A fact in the contracts of three functions or more; parameters that travel together in four functions or more."""
    facts, pairs = collections.defaultdict(list), collections.defaultdict(list)
    for path, line, kind, name, text in items():
        if kind != 'fn':
            continue
        for fact in set(re.findall(r'^ *requires[^{]*\{ (.*) \}$', text, re.M)):
            fact = re.sub(r'\.(old|new|now)\b', '.now', fact)
            facts[fact].append(name)
        sig = re.sub(r'\s+', ' ', signature(text))
        params = re.findall(r'(\w+): *([^,()]+)', sig.split('(', 1)[-1].split(')')[0])
        params = [p for p, t in params if p not in ('rt',)]
        for a in range(len(params)):
            for b in range(a + 1, len(params)):
                pairs[params[a], params[b]].append('%s/%s' % (path.split('/')[1], name))
    for fact, names in sorted(facts.items(), key=lambda f: -len(f[1])):
        if len(names) >= 3:
            yield '-', len(names), fact, 'required by ' + ', '.join(names)
    for (a, b), names in sorted(pairs.items(), key=lambda f: -len(f[1])):
        if len(names) >= 4:
            yield '-', len(names), a + ', ' + b, 'together in ' + ', '.join(names)


def point6():
    """A buffer of fixed length with the count of what is used beside it, in a type or in parameters."""
    for path, line, kind, name, text in items():
        sig = signature(text) if kind == 'fn' else code(text)
        if kind not in ('fn', 'struct'):
            continue
        if re.search(r'\[[^\]]+; *\d+\]|Buffer|Block; 32', sig) and re.search(r'\b(count|entries|len|n|size|filled|limit): *(usize|u16|u8)', sig):
            yield path, line, name, 'a buffer with a number beside it'
        elif kind == 'fn' and re.search(r'&mut \[\w+\]', sig) and re.search(r'\bfilled: *usize', sig):
            yield path, line, name, 'a buffer with a number beside it'


def point7():
    """A switch on which call to make, function pointers and dyn."""
    for path, line, kind, name, text in items():
        body = code(text)
        if kind == 'fn' and re.search(r'match (step|by|kind|call)\b', body):
            yield path, line, name, 'a switch on what to do'
        elif kind == 'fn' and re.search(r'\bdyn\b|: fn\(', body):
            yield path, line, name, 'a function pointer or dyn'
        elif kind == 'trait' and text.count('fn ') == 1:
            yield path, line, name, 'a trait of one function'


def point8():
    """The proof files of functions, by crate: answers and their lines."""
    for crate in sorted(glob.glob('crates/*')):
        files = glob.glob(crate + '/proofs/**/*.antt', recursive=True)
        if files:
            answers = [f for f in files if f.endswith(('Answers.antt', 'Invariants.antt'))]
            lines = sum(len(open(f).read().split('\n')) - 1 for f in files)
            yield crate, lines, crate.split('/')[1], '%d answer files of %d, %d lines in all' % (len(answers), len(files), lines)


def main():
    wanted = [a for a in sys.argv[1:] if a.isdigit()] or '12345678'
    for p in wanted:
        places = list(globals()['point' + p]())
        print('point %s: %d' % (p, len(places)))
        if '-q' not in sys.argv:
            for path, line, name, why in places:
                print('  %s:%s %s: %s' % (path, line, name, why))


main()
