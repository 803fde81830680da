#!/usr/bin/env python3
"""types_only.py SRC DST CRATE..: copies crates with their definitions and types alone.

Of each crate its specs/ stay whole, and of each file of its src/ the items mod, use (of types), ghost use, struct, enum,
const, type and impl Model. What stands above such copies can be checked before the crates themselves are proved
(docs/PROVING.md, "A library below is not proved yet")."""
import os
import re
import shutil
import sys

VISIBLE = r'(pub(\([a-z]+\))? )?'
KEPT_DERIVES = ('Clone', 'Copy', 'Drop')


def end_of_item(lines, start):
    """The place of the last line of the item that begins here, in formatted text."""
    first = lines[start].rstrip()
    if first.endswith(';') or (first.endswith('}') and '{' in first and not first.startswith('pub enum')):
        return start
    for place in range(start + 1, len(lines)):
        line = lines[place].rstrip()
        if line.startswith('}') or line.startswith(');') or (line and line[0] != ' ' and line.endswith(';')):
            return place
    return len(lines) - 1


def items(text):
    """The items of a file, each with the comments and attributes before it."""
    lines, before, place = text.split('\n'), [], 0
    while place < len(lines):
        line = lines[place]
        if line == '' or line.startswith('//') or line.startswith('#'):
            before.append(line)
            place += 1
            continue
        last = end_of_item(lines, place)
        yield before, lines[place:last + 1]
        before, place = [], last + 1


def of_types(use):
    """The `use` with its types alone; none where it has none."""
    text = ' '.join(line.strip() for line in use)
    head, path = re.match(r'^((?:pub(?:\([a-z]+\))? )?use )(.*);$', text).groups()
    if '{' in path:
        base, rest = path.split('{', 1)
        names = [name.strip() for name in rest.rsplit('}', 1)[0].split(',') if name.strip()]
        kept = [name for name in names if is_type(name)]
        return f'{head}{base}{{{", ".join(kept)}}};' if kept else None
    return f'{head}{path};' if is_type(path) else None


def is_type(path):
    return path.split(' as ')[0].split('::')[-1][:1].isupper()


def derives(before):
    """The lines of derives with the traits that copies keep."""
    for line in before:
        found = re.match(r'#\[derive\((.*)\)', line)
        names = [name.strip() for name in found.group(1).split(',') if name.strip() in KEPT_DERIVES] if found else []
        if names:
            yield f'#[derive({", ".join(names)})]'


def types_of(text):
    made = []
    for before, body in items(text):
        first = body[0]
        made += [line for line in before if line.startswith('#![') or line.startswith('//!')]
        if first.startswith('ghost use') or re.match(r'^(pub )?mod ', first):
            made += body
        elif re.match(rf'^{VISIBLE}use ', first):
            made += [use for use in [of_types(body)] if use]
        elif re.match(rf'^{VISIBLE}(struct|enum|const|type) ', first):
            made += ['', *derives(before), *body]
        elif re.match(r'^impl(<[^>]*>)? Model for ', first):
            made += ['', *body]
    return '\n'.join(made) + '\n'


def copy_crate(source, target):
    shutil.rmtree(target, ignore_errors=True)
    os.makedirs(f'{target}/src')
    if os.path.isdir(f'{source}/specs'):
        shutil.copytree(f'{source}/specs', f'{target}/specs')
    for root, _, names in os.walk(f'{source}/src'):
        for name in names:
            path = os.path.relpath(os.path.join(root, name), f'{source}/src')
            os.makedirs(os.path.dirname(f'{target}/src/{path}'), exist_ok=True)
            with open(os.path.join(root, name), encoding='utf-8') as file:
                text = types_of(file.read())
            with open(f'{target}/src/{path}', 'w', encoding='utf-8') as file:
                file.write(text)


if __name__ == '__main__':
    source, target, *crates = sys.argv[1:]
    for crate in crates:
        copy_crate(f'{source}/{crate}', f'{target}/{crate}')
