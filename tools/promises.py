#!/usr/bin/env python3
"""Holds docs/PROMISES.md against the sources that it quotes.

A block of Rattle stands in a file of src/ of one of the crates that its section names, as a function, a type or an impl
begins there. Each definition of a block of antt stands in the file whose path stands above the block. Without an argument
it says which quotes no longer stand and fails if there are any; with --write it puts today's text in place of those whose
name still stands.
"""
import difflib
import pathlib
import re
import sys
import textwrap

TOP = pathlib.Path(__file__).resolve().parent.parent
PAGE = TOP / 'docs' / 'PROMISES.md'
ITEM = re.compile(r'^\s*(?:pub(?:\([a-z]+\))? )?(?:const fn|fn|struct|enum|trait|impl|type)\b')
NAME = re.compile(r'\b(?:fn|struct|enum|trait|type) (\w+)|^impl.*')


def items(path):
    """The functions with their clauses, and the types, traits and impls whole, of a source file."""
    lines = path.read_text().split('\n')
    for i, line in enumerate(lines):
        if not ITEM.match(line):
            continue
        indent = len(line) - len(line.lstrip())
        if re.search(r'\bfn\b', line.split('{')[0]) and not line.lstrip().startswith('impl'):
            yield 'fn', head_of(lines, i, indent)
        else:
            yield 'type', whole(lines, i, indent)


def head_of(lines, i, indent):
    out = [lines[i]]
    if lines[i].rstrip().endswith(';'):
        return textwrap.dedent('\n'.join(out))
    for line in lines[i + 1:]:
        if line == ' ' * indent + '{' or line == ' ' * indent + '{}':
            break
        if not line.strip():
            break
        out.append(line)
        if line.rstrip().endswith(';') and not line.rstrip().endswith('};') or line.rstrip().endswith('};'):
            break
    return textwrap.dedent('\n'.join(out)).rstrip()


def whole(lines, i, indent):
    out = [lines[i]]
    if lines[i].rstrip().endswith((';', '{}')):
        return textwrap.dedent(lines[i])
    for line in lines[i + 1:]:
        out.append(line)
        if line.startswith(' ' * indent + '}'):
            break
    text = [l for l in out if not l.strip().startswith(('///', '//'))]
    return textwrap.dedent('\n'.join(text))


def definitions(path):
    """The definitions of a specs file by their names, each with its comment."""
    body = path.read_text()
    found = {}
    for part in re.split(r'\n\n+', body):
        rows = [r for r in part.split('\n') if not r.startswith(('use ', 'pub use', 'ghost use'))]
        text = '\n'.join(rows).strip('\n')
        match = re.search(r'^(?:abbrev pub|pub abbrev|unfoldable pub|pub record|pub data|record|data|abbrev|pub) (\S+)', text, re.M)
        if match:
            found[match.group(1)] = text
    return found


def name_of(text):
    match = re.search(r'\b(?:fn|struct|enum|trait|type) (\w+)', text)
    if text.startswith('impl'):
        return text.split('\n')[0]
    return match.group(1) if match else None


def definition_name(text):
    match = re.search(r'^(?:abbrev pub|pub abbrev|unfoldable pub|pub record|pub data|record|data|abbrev|pub) (\S+)', text, re.M)
    return match.group(1) if match else None


def main():
    write = '--write' in sys.argv
    page = PAGE.read_text()
    sources = []
    for path in sorted(TOP.glob('crates/*/src/**/*.rt')):
        sources += [(path, kind, text) for kind, text in items(path)]
    stale = []

    def block(match):
        above, kind, text = match.group(1), match.group(2), match.group(3)
        if kind == 'antt':
            return '%s```antt\n%s```' % (above, quoted(above, text))
        if any(text.rstrip('\n') == found for _, _, found in sources):
            return match.group(0)
        name = name_of(text)
        same = [found for _, _, found in sources if name_of(found) == name]
        if not same:
            stale.append('no %s in src/' % name)
            return match.group(0)
        best = max(same, key=lambda found: difflib.SequenceMatcher(None, found, text).ratio())
        stale.append('%s stands otherwise in src/' % name)
        return '%s```rust\n%s\n```' % (above, best)

    def quoted(above, text):
        paths = re.findall(r'`(crates/\S+\.antt)`', above)
        if not paths or not (TOP / paths[-1]).exists():
            stale.append('no file %s' % (paths[-1:] or above.strip()[-60:]))
            return text
        today = definitions(TOP / paths[-1])
        body = (TOP / paths[-1]).read_text()
        parts = []
        for part in re.split(r'\n\n+', text.strip('\n')):
            name = definition_name(part)
            if part in body:
                parts.append(part)
                continue
            if name not in today:
                stale.append('no %s in %s' % (name, paths[-1]))
            else:
                if today[name] != part:
                    stale.append('%s stands otherwise in %s' % (name, paths[-1]))
                parts.append(today[name])
        return '\n\n'.join(parts) + '\n'

    fresh = re.sub(r'((?:`crates/[^\n]*`\n\n)?)```(rust|antt)\n(.*?)```', block, page, flags=re.S)
    for line in stale:
        print(line)
    if write:
        PAGE.write_text(fresh)
    print('%d quotes no longer stand' % len(stale))
    return 0 if write or not stale else 1


if __name__ == '__main__':
    sys.exit(main())
