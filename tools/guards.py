#!/usr/bin/env python3
"""Proves that each guard tests enough, by checked calls:

    python3 tools/guards.py                proves the checked calls; status 1 if one isn't proved
    python3 tools/guards.py --faults       tries those in which one guard is weaker; status 1 if one is proved
    python3 tools/guards.py --print        prints the checked calls
    python3 tools/guards.py --rows         looks that tests break each guard of a public call: status 1 if one isn't broken

A function that can be called from outside and requires something begins with guards, `prove!(..)`, and is marked
`#[track_caller]`, but for a list. It has a checked call, with its parameters and without preconditions: that returns if
what a guard tests is false, and then calls the function. So it is proved only if the guards imply the preconditions; of
a parameter of type `usize` it knows that it is one. They are a crate over the libraries that `rt ci` left proved.
"""
import re
import sys
import tempfile
from pathlib import Path

sys.dont_write_bytecode = True
import erase
import libraries
from parts import ROOT, erase_list as given

# What the crate of checked calls begins with.
TOP = (ROOT / 'tools/parts/checked_calls.rt.in').read_text()
# Functions with a precondition that no guard at their beginning tests, so that there is no checked call of them: why.
# What a closure counted is known once it has returned. Of those of `TESTED` the body has a guard further on, which
# tests in rust/tests break.
UNGUARDED = {
    'a slice of Rust tests its indices': 'Storage::part Storage::part_mut Storage::element Storage::element_mut',
    'Rust knows that a closure can be called':
        'RingOver::enqueue_one_with RingOver::dequeue_one_with PacketsOver::dequeue_with',
}
TESTED = {
    'Rust knows that a closure can be called; what it counts is tested after the call':
        'RingOver::enqueue_many_with RingOver::dequeue_many_with PacketsOver::enqueue_with_infallible '
        'ReceiverOver::read_with FiniteReceiverOver::read_with ReceivingEndOver::read_with',
    'no public call tells where the bytes before the read index begin': 'PacketsOver::last_dequeued_mut',
}
BOUND = '"in any `usize`"'
HEADER = re.compile(r'impl(?:<(.*?)>)? (?:\S+ for )?(\w+)(<.*>)?\s*')
SIGNATURE = re.compile(r'fn (\w+)(?:<(.*?)>)?\(([^()]*)\)', re.S)


def guards_of(eraser, body):
    """What the guards test that a body begins with."""
    j = eraser.next(body + 1)
    while eraser.tokens[j][1] == 'prove':
        begin = eraser.next(j + 2)
        end = eraser.group(begin)
        if BOUND not in eraser.source(begin, end):
            yield eraser.source(begin + 1, eraser.until(begin + 1, ',', ')')).strip()
        j = eraser.next(end + 1)


def guarded():
    """The functions that can be called from outside and require something, or have guards: name, header of the impl,
    signature, what the guards test."""
    tested = {*' '.join(TESTED.values()).split()}
    unguarded = left = tested | {*' '.join(UNGUARDED.values()).split()}
    for crate, path, text in erase.sources():
        eraser = erase.Eraser(text, crate)
        eraser.run()
        for owner, header, k, head, begin, body, pub in eraser.functions:
            signature, name = eraser.source(k, begin), f'{owner}::{eraser.name(k)}'.removeprefix('::')
            is_operator = 'ghost can_' in text[text.rfind(header, 0, eraser.tokens[k][2]):eraser.tokens[body][2]] \
                if owner else False
            is_called = pub is not None or is_operator or header.startswith(('trait', 'pub trait'))
            # Of heads, and of parts that have heads, callers test what is required.
            is_left = owner.endswith('Head') or pub and re.search(r'Head\b|Parts<', signature)
            if not is_called or crate == given.EXPORTS or is_left:
                continue
            asked = any(word[:1] == 'r' for kind, word, _ in eraser.tokens[begin:body] if kind == 'clause')
            end = eraser.group(body) if eraser.tokens[body][1] == '{' else body
            tests = [*guards_of(eraser, body)] if end > body else []
            if name in unguarded:
                left = left - {name}
                if name in tested and not re.search(rf'prove!\((?:(?!prove!|{BOUND})[^;])*;', eraser.source(body, end)):
                    raise SystemExit(f'crates/{crate}/src/{path}: {name} has no guard: TESTED of tools/guards.py')
            elif asked or is_operator or tests:
                if {*tests} - {'N >= 1'} and 'track_caller' not in eraser.source(head, k):
                    raise SystemExit(f'crates/{crate}/src/{path}: {name} has no #[track_caller]')
                yield name, header, signature, tests
    if left:
        raise SystemExit(f'tools/guards.py: there are no such functions: {left}')


def unbroken():
    """The guards of public calls that no row of a test `panics.rs` breaks, with their messages. That `N` is something is
    tested when a program is compiled, by src/refused.txt."""
    rows = {row for path in given.PACKAGES.values() for row in re.findall(
        r'panics\(\s*"([\w:]+)"', (ROOT / path).parent.joinpath('tests/panics.rs').read_text())}
    listed = (ROOT / 'tools/public_items.txt').read_text()
    public = {f'{owner}::{call}' for owner, call in re.findall(r'(\w+): pub (?:const )?fn (\w+)', listed)}
    wanted = {name for name, header, _, tests in guarded()
              if {*tests} - {'N >= 1'} and (name in public or ' for ' in header)} | {*' '.join(TESTED.values()).split()} & public
    return [f'{name}: no row of a test panics.rs breaks it' for name in sorted(wanted - rows)] + \
        [f'{name}: a row of a test panics.rs has it, and it has no guard' for name in sorted(rows - wanted)]


def weaker(test):
    """Tests that are true of more than this one."""
    found = [test.replace(a, b) for a, b in ((' < ', ' <= '), (' > ', ' >= '), (' == ', ' >= ')) if a in test]
    found += [re.sub('(.*) <= (.*)', r'\1 <= (\2).saturating_add(1)', test)]
    found += [re.sub(r'(, |\()(\w+(?:\.len\(\))?)\)$', r'\1\2 / 2)', test)]
    return ['true', *(other for other in found if other != test)]


def faulty():
    """The same, one of their guards weaker."""
    for name, header, signature, tests in guarded():
        for k, test in enumerate(tests):
            for other in weaker(test):
                yield name, header, signature, [*tests[:k], other, *tests[k + 1:]]


def parts(text):
    """The parts of a list of parameters."""
    return [part.strip() for part in re.split(r',(?![^<]*>)', text) if part.strip()]


def checked(title, header, signature, tests):
    """The checked call of a function, under another name. What it takes by value can be dropped; what it makes is
    returned, since the type of a result fits the memory."""
    outer, owner, arguments = HEADER.fullmatch(header).groups('') if header else ('', '', '')
    name, inner, parameters = SIGNATURE.search(signature).groups('')
    parameters = [part.removeprefix('mut ') for part in parts(parameters)]
    path = f'{owner}::{arguments}' if arguments else owner
    passed, called = [part.split(':')[0] for part in parameters], f'{path}::{name}'.removeprefix('::')
    if passed and passed[0].endswith('self'):
        parameters[0] = f'this: {passed[0][:-4]}{owner}{arguments}'
        passed, called = passed[1:], f'this.{name}'
    bounds = dict(re.findall(r'(\w+): (\w+)', signature.partition('where')[2]))
    bounded = [part + (f': {bounds[part]}' if part in bounds else '') for part in parts(outer) + parts(inner)]
    generics = ', '.join(part if part.startswith('const ') else part + (' + ' if ':' in part else ': ') + 'Drop'
                         for part in bounded)
    tests = [re.sub(r'\bself\b', 'this', re.sub(r'\bSelf\b', path, test)) for test in tests]
    lengths = [part.split(':')[0] for part in parameters if part.endswith(': usize')]
    call = f'{called}({", ".join(passed)})'
    result, refused, last = '', 'return', f'let _ = {call};'
    if '-> Self' in signature:
        result, refused, last = f' -> Option<{owner}{arguments}>', 'return None', f'Some({call})'
    return (f'pub fn {title}{f"<{generics}>" * bool(generics)}({", ".join(parameters)}){result} {{\n'
            + ''.join(f'    is_usize({length});\n' for length in lengths)
            + ''.join(f'    if !({test}) {{\n        {refused};\n    }}\n' for test in tests) + f'    {last}\n}}\n')


def check(text):
    """What the check of this crate says, and its status."""
    with tempfile.TemporaryDirectory() as folder:
        source = Path(folder, 'src/lib.rt')
        source.parent.mkdir()
        source.write_text(text)
        return libraries.over([crate for crate in given.CRATES if crate != given.EXPORTS], 'check', 'checked', folder,
                              Path(folder, 'kept'))


def main(arguments):
    if arguments == ['--rows']:
        wrong = unbroken()
        print(*wrong, f'{len(wrong)} guards differ from the rows of tests', sep='\n')
        return bool(wrong)
    is_faulty = arguments == ['--faults']
    functions = [*(faulty() if is_faulty else guarded())]
    names = [f'call_{k}_{re.sub("[^a-z]+", "_", function[0].lower())}' for k, function in enumerate(functions)]
    text = '\n'.join([TOP, *(checked(name, *function[1:]) for name, function in zip(names, functions))])
    if arguments == ['--print']:
        print(text, end='')
        return 0
    said, status = check(text)
    if is_faulty:
        unseen = [f'not refused: {function[0]} {function[3]}' for name, function in zip(names, functions)
                  if not re.search(rf'fn checked::{name}: no proof.* `{function[0].split("::")[-1]}-requires', said)]
        print(*unseen, f'{len(names) - len(unseen)} of {len(names)} weaker guards are refused', sep='\n')
        return bool(unseen)
    print(said if status else f'the guards of {len(names)} functions test enough')
    return status


if __name__ == '__main__':
    sys.exit(main(sys.argv[1:]))
