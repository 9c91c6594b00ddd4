#!/usr/bin/env python3
"""Writes crates/decode_text/stdin, the vectors of the program decode_text, and crates/decode_text/stdout, what it must answer.

The answers come from the Unicode Standard's rule and from none of our code: Table 3-7 gives the well-formed sequences, and
"U+FFFD Substitution of Maximal Subparts" (section 3.9) says that each maximal subpart of what is ill-formed becomes U+FFFD,
the subpart being the longest start of a well-formed sequence there, or one byte. Each answer, and how many U+FFFD were put
into it, is held to Python's own decoder,
and those of Tables 3-8 to 3-11 to its results as entered below by hand.
"""
import codecs
import os
import sys

if len(sys.argv) > 1:
    sys.exit('usage: decode_text_vectors.py')

# Table 3-7, Well-Formed UTF-8 Byte Sequences: the range of each byte
ROWS = [
    [(0x00, 0x7F)],
    [(0xC2, 0xDF), (0x80, 0xBF)],
    [(0xE0, 0xE0), (0xA0, 0xBF), (0x80, 0xBF)],
    [(0xE1, 0xEC), (0x80, 0xBF), (0x80, 0xBF)],
    [(0xED, 0xED), (0x80, 0x9F), (0x80, 0xBF)],
    [(0xEE, 0xEF), (0x80, 0xBF), (0x80, 0xBF)],
    [(0xF0, 0xF0), (0x90, 0xBF), (0x80, 0xBF), (0x80, 0xBF)],
    [(0xF1, 0xF3), (0x80, 0xBF), (0x80, 0xBF), (0x80, 0xBF)],
    [(0xF4, 0xF4), (0x80, 0x8F), (0x80, 0xBF), (0x80, 0xBF)],
]
CODE_POINTS = ['0000..007F', '0080..07FF', '0800..0FFF', '1000..CFFF', 'D000..D7FF', 'E000..FFFF', '10000..3FFFF', '40000..FFFFF', '100000..10FFFF']
REPLACEMENT = b'\xEF\xBF\xBD'


def matched(row, text):
    """How many bytes at the start of text are in the row's ranges, one after another."""
    n = 0
    while n < len(row) and n < len(text) and row[n][0] <= text[n] <= row[n][1]:
        n += 1
    return n


def decode(text):
    """The decoding, and how many U+FFFD it puts in."""
    out, replaced = b'', 0
    while text:
        n, whole = max((matched(row, text), matched(row, text) == len(row)) for row in ROWS)
        if whole:
            out, text = out + text[:n], text[n:]
        else:
            out, replaced, text = out + REPLACEMENT, replaced + 1, text[max(n, 1):]
    return out, replaced


def spaced(text):
    return ' '.join(f'{b:02X}' for b in text)


stdin, stdout = [], []


def remark(line=''):
    stdin.append(line)
    stdout.append(line)


def vector(line, text):
    """A line of the input as it is written, and the bytes that it means."""
    answer, replaced = decode(text)
    faults = []
    codecs.register_error('counted', lambda fault: (faults.append(fault), ('\uFFFD', fault.end))[1])
    assert answer == text.decode('utf-8', 'counted').encode('utf-8'), spaced(text)
    assert replaced == len(faults), spaced(text)
    stdin.append(line)
    stdout.append(f'{len(answer)}, replaced {replaced}:' + ''.join(f' {b:02X}' for b in answer))


def text(*parts):
    whole = b''.join(bytes(p) for p in parts)
    vector(spaced(whole), whole)


def standard(table, given, printed):
    """An example of the standard; printed has FFFD or a byte for each character of the answer."""
    remark(f'# The Unicode Standard, chapter 3, {table}')
    given = bytes.fromhex(given)
    wanted = b''.join(REPLACEMENT if p == 'FFFD' else bytes.fromhex(p) for p in printed.split())
    assert decode(given) == (wanted, printed.split().count('FFFD'))
    text(given)


standard('Table 3-8, non-shortest forms', 'C0 AF E0 80 BF F0 81 82 41', 'FFFD FFFD FFFD FFFD FFFD FFFD FFFD FFFD 41')
standard('Table 3-9, surrogates', 'ED A0 80 ED BF BF ED AF 41', 'FFFD FFFD FFFD FFFD FFFD FFFD FFFD FFFD 41')
standard('Table 3-10, other ill-formed sequences', 'F4 91 92 93 FF 41 80 BF 42', 'FFFD FFFD FFFD FFFD FFFD 41 FFFD FFFD 42')
standard('Table 3-11, truncated sequences', 'E1 80 E2 F0 91 92 F1 BF 41', 'FFFD FFFD FFFD FFFD 41')

remark()
remark('# Document 01, Exercises: one, two and three U+FFFD')
text([0xE2, 0x82])
text([0xC0, 0x80])
text([0xED, 0xA0, 0x80])

remark()
remark('# Document 02, Point 1: a U+FFFD that was there is not replaced, and a subpart may be as long as what replaces it')
text(REPLACEMENT)
text([0xF0, 0x90, 0x80])
text(REPLACEMENT, [0xEF, 0xBF], REPLACEMENT)

for row, points in zip(ROWS, CODE_POINTS):
    remark()
    remark(f'# Table 3-7, U+{points}: the first and the last sequence')
    edges = [bytes(low for low, high in row), bytes(high for low, high in row)]
    for edge in edges:
        text(edge)
    if len(row) > 1:
        remark('# cut short, at the end and before a letter')
        for edge in edges:
            for n in range(1, len(row)):
                text(edge[:n])
                text(edge[:n], b'A')
    remark('# a byte just below or above its range')
    damaged = [
        edge[:i] + bytes([outside]) + edge[i + 1:]
        for i, (low, high) in enumerate(row)
        for edge in edges
        for outside in (low - 1, high + 1)
        if 0 <= outside <= 255
    ]
    for sequence in dict.fromkeys(damaged):
        text(sequence, b'A')

remark()
remark('# Texts of some length: letters around 32 and 64 bytes, then a character, a damaged one, and letters again')
for n in (31, 32, 33, 63, 64, 65):
    text(b'a' * n, 'é€😀'.encode(), b'\xE2\x82', b'z' * n)
remark('# the longest line that is taken: 512 bytes, each of which becomes U+FFFD')
vector('FF' * 512, b'\xFF' * 512)

remark()
remark('# The notation: small digits, no blanks, blanks around, a remark at the end, and the empty text')
vector('c3 a9', b'\xC3\xA9')
vector('C3A9', b'\xC3\xA9')
vector('  C3  A9  ', b'\xC3\xA9')
vector('C3 A9 # a letter', b'\xC3\xA9')
vector(' # no byte', b'')


def wrong(line, what):
    stdin.append(line)
    stdout.append(f'line {len(stdin)}: {what}')


remark()
remark('# Lines that end with a carriage return and a newline: a remark, a blank line, bytes, no byte, and the longest line')
for line in ('# a remark', ''):
    stdin.append(line + '\r')
    stdout.append(line)
vector('C3 A9\r', b'\xC3\xA9')
vector(' # no byte\r', b'')
vector('FF' * 512 + '\r', b'\xFF' * 512)

remark('# A remark with control bytes, which are escaped, and one with other characters, which are not')
stdin.append('# \x1B[31m, \x01\t\r\x1F, \x7F')
stdout.append(r'# \x1B[31m, \x01\x09\x0D\x1F, \x7F')
remark(r'# \x1B, ~, é')

remark()
remark('# Lines that are refused')
wrong('C3 A', 'no byte in hexadecimal at A')
wrong('C3 G9', 'no byte in hexadecimal at G9')
wrong('0 0', 'no byte in hexadecimal at 0 0')
wrong('41' * 512 + ' ', 'more than 1024 characters')
wrong('41' * 512 + ' \r', 'more than 1024 characters')
wrong('41' * 512 + '\r\r', 'more than 1024 characters')
wrong('41 \x1B[31m', r'no byte in hexadecimal at \x1B[31m')
wrong('41\r42\r', r'no byte in hexadecimal at \x0D42')
remark('# The last line has no end')
vector('41', b'A')

here = os.path.join(os.path.dirname(os.path.abspath(__file__)), '..', 'crates', 'decode_text')
with open(os.path.join(here, 'stdin'), 'w', encoding='utf-8') as f:
    f.write('\n'.join(stdin))
with open(os.path.join(here, 'stdout'), 'w', encoding='utf-8') as f:
    f.write('\n'.join(stdout) + '\n')
