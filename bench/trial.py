#!/usr/bin/env python3
"""What bench/trial needs besides the shell.

trial.py copy FOLDER    the crates' code in a repository of its own, with a program `trial` that calls each of the calls once.
trial.py export MODULE  takes out of the module's text what a try checks, and gives it the calls as C calls them, in place of the program.
"""
import re
import shutil
import sys
from pathlib import Path

CALL = re.compile(r'pub fn (spokeshaver_\w+)\(([^)]*)\)')
# What a try adds to the code: places filled before they are used, checks, and what stands where one fails.
CHECK = re.compile(r'  (?:call void @llvm\.memset\.p0\.i64\(ptr %\w+, i8 -86, i64 \d+, i1 false\)|call void @"rattle-(?:llvm-checks::\w+|try::site-\d+)"\([^)]*\))\n')
ATTRIBUTES = re.compile(r'^(attributes #\d+ = \{.*?) sanitize_address "frame-pointer"="all"(.*)"target-cpu"="x86-64"', re.M)


def calls(code):
    """The calls of a crate's root: name and the types of the parameters."""
    for name, parameters in CALL.findall(code):
        yield name, [p.split(':')[1].strip() for p in parameters.split(',') if ':' in p]


def program(code):
    """A program that makes each of that code's calls once, with what it refuses at once."""
    lines = ['#![tactic(auto)]', '']
    lines += [f'use spokeshaver::{name};' for name, _ in calls(code)]
    lines += ['', 'fn main() {', '    let bytes = [0u8; 1];', '    let mut first = [0u8; 1];', '    let mut second = [0u8; 1];']
    for name, types in calls(code):
        lent = iter(['&mut first', '&mut second'])
        words = [{'&[u8]': '&bytes', '&mut [u8]': None}.get(t, '0') or next(lent) for t in types]
        lines.append(f'    {name}({", ".join(words)});')
    return '\n'.join(lines) + '\n}\n'


def copy(folder):
    lines = [line for line in Path('crates.txt').read_text().splitlines() if ':' in line and not line.startswith('#') and ' staticlib' not in line]
    for crate in [line.split(':')[0] for line in lines]:
        shutil.copytree(f'crates/{crate}/src', folder / 'crates' / crate / 'src')
    trial = folder / 'crates' / 'trial'
    (trial / 'src').mkdir(parents=True)
    (trial / 'src' / 'main.rt').write_text(program(Path('crates/spokeshaver/src/lib.rt').read_text()))
    (folder / 'crates.txt').write_text('\n'.join(lines) + '\ntrial: spokeshaver\n')


def wrapper(name, types):
    """A function that C can call."""
    given = [f'{kind} %p{number}' for number, kind in enumerate(types)]
    return f'define i64 @{name}({", ".join(given)}) {{\n  %r = call i64 @"spokeshaver::{name}"({", ".join(given)})\n  ret i64 %r\n}}\n'


def export(module):
    text = CHECK.sub('', module.read_text())
    text = ATTRIBUTES.sub(r'\1\2"target-cpu"="x86-64"', text)
    assert not re.search(r'call [^\n]*@"rattle-(?:llvm-checks|try)::', text), 'the module still has what a try checks'
    found = re.findall(r'^define internal noundef i64 @"spokeshaver::(spokeshaver_\w+)"\(([^)]*)\)', text, re.M)
    text = re.sub(r'^define i32 @main\(\).*?^}\n', '', text, flags=re.M | re.S)
    module.write_text(text + ''.join(wrapper(name, re.findall(r'\b(ptr|i\d+) noundef', types)) for name, types in found))


if __name__ == '__main__':
    {'copy': copy, 'export': export}[sys.argv[1]](Path(sys.argv[2]))
