#!/usr/bin/env python3
"""Writes the rows of the words from outside, which the program `sheet` runs. From the repository's root:

    python3 tools/word_rows.py > crates/sheet/data/words.txt

Each word of reference/tests/data/sandybridge-words.txt is a case: shortening gives the listed short word or a refusal, with source document 000's
dictionary. Each listed short word is a case more: expanding it gives the long word. The gate does not run this script: it reads the file, which is committed.
"""

DATA = 'reference/tests/data/'


def lines(name):
    return [l.split() for l in open(DATA + name) if l.strip() and not l.startswith('#')]


def dwords(text):
    """The dwords of bytes in memory order, the lowest first."""
    octets = bytes.fromhex(text)
    return ['%08x' % int.from_bytes(octets[i:i + 4], 'little') for i in range(0, len(octets), 4)]


def wrote(numbers):
    for i, d in enumerate(numbers):
        print('wrote %x %s' % (4 * i, d))


def main():
    print('# Words from outside, written by tools/word_rows.py from reference/tests/data. sheet.txt says how rows are written.')
    print("# Source document 000's dictionary (5.5.1.1)")
    for n, (table, index, number) in enumerate(lines('dictionary-000.txt')):
        print('number %x %x' % (n, int(number, 16)))
    for n, (name, long, short) in enumerate(lines('sandybridge-words.txt'), 1):
        print('case %d %s shortened' % (n, name))
        print('long', *dwords(long))
        print('room 8\nshorten')
        if short == '-':
            print('answer d 0 0')
            wrote(['0', '0'])
            continue
        print('answer 0 0 8')
        wrote(dwords(short))
        print('case %d %s expanded' % (n, name))
        print('short', *dwords(short))
        print('room 10\nexpand\nanswer 0 0 10')
        wrote(dwords(long))


main()
