#!/usr/bin/env python3
"""Writes crates/show_tracks/stdin, a section for the program show_tracks, and crates/show_tracks/stdout, what it must print; and
for each input NAME.in of crates/round_trip/samples what it must print of that, NAME.tracks.

    show_tracks_sample.py
    show_tracks_sample.py compare PROGRAM [COUNT [SEED]]

The second form runs the program on COUNT random sections instead, and on every kind of binary32, and compares what it prints.

What must be printed comes from document 01 ('The section', 'Flat record'), from the names in the Rust's anim_info.rs, targets.rs
and curves.rs, and from Python's own decoders and its exact decimals, and from none of our code.
"""
import codecs
import decimal
import pathlib
import random
import struct
import subprocess
import sys

LONGEST, WORDS, TEXT_BYTES = 65536, 16384, 65536

# the letters, their AnimInfoType, and the enum of their targets
COLORS = 'Red Green Blue Alpha'.split()


def colored(*stems):
    return [stem + color for stem in stems for color in COLORS]


XYZ = ['TranslateX', 'TranslateY', 'TranslateZ', 'RotateX', 'RotateY', 'RotateZ']
CORNERS = ['LeftTop', 'RightTop', 'LeftBottom', 'RightBottom']
INFOS = {
    'FLCC': ('PerCharacterTransformCurveAnim', XYZ + colored('LeftTop', 'LeftBottom') + ['ScaleX', 'ScaleY']),
    'FLCT': ('PerCharacterTransformAnim', ['EvalTimeOffset', 'EvalTimeWidth']),
    'FLPA': ('PaneSrtAnim', XYZ + ['ScaleX', 'ScaleY', 'SizeX', 'SizeY']),
    'FLVC': ('VertexColorAnim', colored(*CORNERS) + ['PaneAlpha']),
    'FLVI': ('VisibilityAnim', ['Visibility']),
    'FLDS': (
        'DropShadowAnim',
        ['StrokeSize', *colored('StrokeColor', 'OuterGlowColor'), 'OuterGlowSpread', 'OuterGlowSize', *colored('DropShadowColor')]
        + ['DropShadow' + what for what in ('Angle', 'Distance', 'Spread', 'Size')],
    ),
    'FLMT': ('MaskTextureAnim', ['TranslateX', 'TranslateY', 'Rotate', 'ScaleX', 'ScaleY']),
    'FLPS': (
        'ProceduralShapeAnim',
        [stem + corner for stem in ('Exp', 'Radius') for corner in CORNERS]
        + ['InnerStrokeSize', *colored('InnerStrokeColor', 'InnerShadowColor')]
        + ['InnerShadow' + what for what in ('Angle', 'Distance', 'Size')]
        + colored('ColorOverlayColor')
        + [f'GradationOverlayControl{n}' for n in range(4)]
        + colored(*(f'GradationOverlayColor{n}' for n in range(4)))
        + ['GradationOverlayAngle', *colored('OuterShadowColor')]
        + ['OuterShadow' + what for what in ('Angle', 'Distance', 'Size')],
    ),
    'FLWN': ('WindowAnim', ['Top', 'Bottom', 'Left', 'Right']),
    'FSMA': ('StateMachineAnim', ['PostToChild']),
    'FLAC': ('AlphaCompareAnim', ['CompareReference']),
    'FLFS': ('FontShadowAnim', ['Black' + color for color in COLORS[:3]] + colored('White')),
    'FLIM': ('IndirectSrtAnim', ['Rotate', 'ScaleU', 'ScaleV']),
    'FLMC': ('MaterialColorAnim', colored('Buffer', 'Constant0', *(f'Color{n}' for n in range(5)))),
    'FLTS': ('TextureSrtAnim', ['TranslateU', 'TranslateV', 'Rotate', 'ScaleU', 'ScaleV']),
    'FLTP': ('TexturePatternAnim', ['Image']),
    'FTBR': ('BrickRepeatAnim', ['CountX', 'CountY', 'OffsetX', 'OffsetY', 'LocalScaleX', 'LocalScaleY', 'LocalRotate']),
    'FVGA': ('VectorGraphicsAnim', ['Time']),
    'FLEU': ('ExtendedUserDataAnim', []),
}
# how many target numbers document 01 gives each of the letters
COUNTS = 'FLCC 16, FLCT 2, FLPA 10, FLVC 17, FLVI 1, FLDS 19, FLMT 5, FLPS 52, FLWN 4, FSMA 1, FLAC 1, FLFS 7, FLIM 3, FLMC 28, FLTS 5, FLTP 1, FTBR 7, FVGA 1, FLEU 0'
assert {k: len(names) for k, (_, names) in INFOS.items()} == {k: int(n) for k, n in (c.split() for c in COUNTS.split(', '))}
TYPES = ['Pane', 'Material', 'User', 'PaneExt', 'StateMachine']
CURVES = ['Constant', 'Step', 'Hermite']


# What must be printed


class Refusal(Exception):
    pass


class Section:
    """Document 01's reading: each read at a position, in its order. The lines are made on the way."""

    def __init__(self, data):
        self.data, self.pos = data, 0
        self.lines, self.words, self.text_bytes, self.replaced = [], 4, 0, 0

    def take(self, n):
        if self.pos + n > len(self.data):
            self.short(self.pos, n)
        self.pos += n
        return self.data[self.pos - n : self.pos]

    def short(self, offset, requested):
        many = '1 byte' if requested == 1 else f'{requested} bytes'
        raise Refusal(f'refused 3 ({offset}, {requested}): the section asks for {many} at offset {offset}, past its end')

    def number(self, n):
        return int.from_bytes(self.take(n), 'little')

    def seek(self, pos):
        if pos > len(self.data):
            self.short(len(self.data), pos - len(self.data))
        self.pos = pos

    def table(self, count):
        return [self.number(4) for _ in range(count)]

    def ended(self):
        end = self.data.find(b'\0', self.pos)
        if end < 0:
            raise Refusal(f'refused 4 ({self.pos}): the text at offset {self.pos} has no zero byte at its end')
        text = self.data[self.pos : end]
        self.pos = end + 1
        return self.text(text)

    def fixed(self, n):
        text = self.take(max(1, min(n, len(self.data) - self.pos)) if self.pos < len(self.data) else n)
        return self.text(text.split(b'\0')[0])

    def text(self, raw):
        """The text in quotes, without and with the remark that it is ill-formed and how many characters were replaced."""
        faults = []
        codecs.register_error('counted', lambda fault: (faults.append(fault), ('\uFFFD', fault.end))[1])
        decoded = raw.decode('utf-8', 'counted')
        self.replaced += len(faults)
        self.words += 1
        self.text_bytes += len(decoded.encode())
        shown = '"' + ''.join(escaped(c) for c in decoded) + '"'
        return shown, shown + (f' (ill-formed, replaced {len(faults)})' if decoded.encode() != raw else '')

    def read(self):
        letters, size = self.take(4), self.number(4)
        if letters != b'pai1':
            shown = ''.join(escaped(chr(b)) if b < 0x80 else f'\\x{b:02X}' for b in letters)
            raise Refusal(f'refused 1 ({int.from_bytes(letters, "little")}): the section\'s letters are "{shown}" and not "pai1"')
        frames, looping, _ = self.number(2), self.number(1), self.number(1)
        textures, contents, table = self.number(2), self.number(2), self.number(4)
        self.lines.append(
            f'section: frames {frames}, looping {"yes" if looping else "no"}, textures {textures}, contents {contents}'
        )
        for i, offset in enumerate(self.table(textures)):
            self.seek(20 + offset)
            self.lines.append(f'texture {i}: {self.ended()[1]}')
        self.seek(table)
        for i, offset in enumerate(self.table(contents)):
            self.content(i, offset)
        self.seek(size)
        if self.words > WORDS or self.text_bytes > TEXT_BYTES:
            raise Refusal(
                f'refused 5 ({self.words}, {self.text_bytes}): the record has more than the 16384 words or the 65536 text bytes that there is room for'
            )
        self.lines[0] += f', replaced {self.replaced}'
        return self.lines

    def content(self, i, start):
        self.seek(start)
        name, remarked = self.fixed(28)
        count, kind, _ = self.number(1), self.number(1), self.number(2)
        self.words += 2
        kind = TYPES[kind if kind < len(TYPES) else 0]
        if kind == 'User':
            self.seek(start + self.number(4))
        self.lines.append(f'content {i}: {remarked}, {kind}, infos {count}')
        for k, offset in enumerate(self.table(count)):
            self.info(f'{i} {k}', name, start + offset)

    def info(self, place, name, start):
        self.seek(start)
        letters, count, _, _ = self.take(4).decode('latin-1'), self.number(1), self.number(1), self.number(2)
        self.words += 2
        shown = f'{letters} {INFOS[letters][0]}' if letters in INFOS else '---- Invalid'
        if letters == 'FLEU':
            self.lines.append(f'info {place}: {shown}, data {count}')
            for i in range(count):
                self.datum(f'{place} {i}', name)
            return
        self.lines.append(f'info {place}: {shown}, targets {count}')
        targets = INFOS[letters][1] if letters in INFOS else None
        for i, offset in enumerate(self.table(count)):
            self.target(f'{place} {i}', f'{name} {shown}', targets, start + offset)

    def target(self, place, above, names, start):
        self.seek(start)
        layer, raw, curve, _, count, _ = (self.number(n) for n in (1, 1, 1, 1, 2, 2))
        self.seek(start + self.number(4))
        name = 'Invalid' if names is None else names[raw if raw < len(names) else 0]
        if curve > 2:
            curve, count = 0, 0
        keys = ''
        for _ in range(count):
            key = [self.float()]
            if curve == 1:
                key.append(str(self.number(2)))
                self.pos += 2
            if curve == 2:
                key += [self.float(), self.float()]
            keys += f' ({", ".join(key)})'
        self.words += 4 + count * (curve + 1)
        self.lines.append(f'track {place}: {above} {name}, layer {layer}, {CURVES[curve]}, keys {count}:{keys}')

    def datum(self, place, name):
        header = [self.number(n) for n in (4, 2, 2, 4, 4)]
        fields = ''.join(f', {f} {n}' for f, n in zip(('header_size', 'unk_1', 'unk_2', 'base_count', 'unk_3'), header))
        lists = ''.join(f' [{", ".join([self.float() for _ in range(header[3])])}]' for _ in range(3))
        self.words += 5 + 3 * header[3]
        at = self.pos
        self.seek(at + self.number(4))
        self.lines.append(f'datum {place}: {name} {self.ended()[1]}{fields}:{lists}')

    def float(self):
        return shown_float(self.take(4))


def escaped(c):
    if c in '"\\':
        return '\\' + c
    if ord(c) < 0x20 or 0x7F <= ord(c) < 0xA0 or c in '\u2028\u2029':
        return ''.join(f'\\x{b:02X}' for b in c.encode())
    return c


def shown_float(pattern):
    (value,) = struct.unpack('<f', pattern)
    if value - value != 0:
        return f'0x{int.from_bytes(pattern, "little"):08X}'
    shown = format(decimal.Decimal(value), 'f')
    return shown.rstrip('0').rstrip('.') if '.' in shown else shown


def printed(data):
    if len(data) > LONGEST:
        lines = ['refused 2: the input is longer than 65536 bytes']
    else:
        try:
            lines = Section(data).read()
        except Refusal as refusal:
            lines = [str(refusal)]
    return ''.join(line + '\n' for line in lines).encode()


# Sections


def aligned(data):
    return data + bytes(-len(data) % 4)


def laid_out(start, parts):
    """An offset table, then the parts; the table's offsets count from `start` bytes before it."""
    offsets, body = [], b''
    for part in parts:
        offsets.append(start + 4 * len(parts) + len(body))
        body += part
    return struct.pack(f'<{len(parts)}I', *offsets) + body


def section(frames, looping, textures, contents):
    names = laid_out(0, [t + b'\0' for t in textures])
    table = 20 + len(aligned(names))
    body = aligned(names) + laid_out(table, [aligned(c) for c in contents])
    return b'pai1' + struct.pack('<IHBBHHI', 20 + len(body), frames, looping, 0, len(textures), len(contents), table) + body


def content(name, kind, infos):
    head = name.ljust(28, b'\0')[:28] + bytes([len(infos), kind, 0, 0])
    if kind == 2:
        head += struct.pack('<II', 40, 0)
    return head + laid_out(len(head), infos)


def info(letters, targets):
    return letters + bytes([len(targets), 0, 0, 0]) + laid_out(8, targets)


def target(layer, number, curve, keys, count=None):
    return struct.pack('<BBBBHHI', layer, number, curve, 0, len(keys) if count is None else count, 0, 12) + b''.join(keys)


def extended(*data):
    return b'FLEU' + bytes([len(data), 0, 0, 0]) + b''.join(data)


def datum(key, header_size, unk_1, unk_2, unk_3, lists):
    values = b''.join(floats(*values) for values in lists)
    return struct.pack('<IHHII', header_size, unk_1, unk_2, len(lists[0]), unk_3) + values + struct.pack('<I', 4) + key + b'\0'


def floats(*values):
    """Numbers, or patterns as they are."""
    return b''.join(v if isinstance(v, bytes) else struct.pack('<f', v) for v in values)


def bits(pattern):
    return struct.pack('<I', pattern)


def step(frame, value):
    return floats(frame) + struct.pack('<HH', value, 0)


def sample():
    base = content(
        b'P_base',
        0,
        [
            info(
                b'FLPA',
                [
                    target(0, 0, 2, [floats(0, 1.5, 0), floats(30, 2, -0.25), floats(60, 1.5, 0)]),
                    target(1, 9, 0, [floats(0.1), floats(-0.0)]),
                    # a number that the letters do not have, and a curve that there is not
                    target(2, 10, 3, [], count=9),
                ],
            ),
            info(b'FLVI', [target(0, 0, 1, [step(0, 1), step(29.5, 0), step(59, 65535)])]),
        ],
    )
    edges = content(
        # 28 bytes, without a zero
        b'Twenty-eight bytes of a name',
        1,
        [
            info(
                b'FLMC',
                [
                    # a NaN with a payload, the infinities, the largest and the smallest numbers
                    target(0, 27, 2, [floats(bits(0x7FC00000), bits(0x7F800001), bits(0xFFFFFFFF))]),
                    target(0, 4, 0, [bits(0x7F800000), bits(0xFF800000), bits(0x7F7FFFFF), bits(0x00000001), bits(0x80800000)]),
                ],
            ),
            info(b'FLPS', [target(255, 51, 0, [floats(16777216)]), target(0, 51, 2, [])]),
            info(b'none', [target(3, 7, 1, [step(1, 2)])]),
        ],
    )
    user = content(
        b'U_data',
        2,
        [
            extended(
                datum(b'speed', 20, 1, 2, 3, [(1, 2), (0.5, bits(0x7FC00001)), (-1, 1e-3)]),
                datum(b'', 4294967295, 65535, 65535, 4294967295, [(), (), ()]),
                datum('clé "k"\\'.encode(), 0, 0, 0, 0, [(1,), (2,), (3,)]),
            )
        ],
    )
    ill = content(b'P_\xE2\x82\xC0\x80', 4, [info(b'FSMA', [target(0, 0, 1, [step(12, 7)])]), info(b'FLTP', [])])
    other_type = content('日本\u2028語'.encode(), 5, [])
    textures = [b'icon', 'kÿ\u0085\u009f¡'.encode(), b'line\nend\ttab\x7f "quoted" \\', b'', b'caf\xE9', '\ufffd is well-formed here'.encode()]
    return section(60, 2, textures, [base, edges, user, ill, other_type])


# Comparing


def random_float(rng):
    if rng.random() < 0.5:
        return bits(rng.getrandbits(32))
    return floats(rng.choice([0, 1, 0.5, 60, -0.25, 100.125, 1 / 3, 1e-3, rng.uniform(-1000, 1000), rng.randrange(65536)]))


def random_text(rng):
    n = rng.choice([0, 1, 3, 8, 27, 28, 40])
    kind = rng.randrange(4)
    if kind == 0:
        return bytes(rng.randrange(97, 123) for _ in range(n))
    if kind == 1:
        return ''.join(rng.choice('aé€😀"\\\n\x1b\x7f\x80\x9f\xa0\u2027\u2028\u2029\u202a\ufffd') for _ in range(n // 2)).encode()
    if kind == 2:
        return bytes(rng.choice(b'a\xC2\x80\x85\x9F\xA0\xE2\xA8\xA9\xAA\xF0\x90"\\') for _ in range(n))
    return bytes(rng.randrange(1, 256) for _ in range(n))


def random_target(rng):
    curve = rng.choice([0, 1, 2, 2, 3, 255])
    keys = []
    for _ in range(rng.randrange(5)):
        if curve == 1:
            keys.append(random_float(rng) + struct.pack('<HH', rng.getrandbits(16), rng.getrandbits(16)))
        else:
            keys.append(b''.join(random_float(rng) for _ in range(3 if curve == 2 else 1)))
    return target(rng.randrange(256), rng.choice([rng.randrange(8), rng.randrange(60), rng.randrange(256)]), curve, keys)


def random_info(rng):
    if rng.random() < 0.25:
        data = []
        for _ in range(rng.randrange(4)):
            n = rng.randrange(4)
            lists = [[random_float(rng) for _ in range(n)] for _ in range(3)]
            key = random_text(rng).replace(b'\0', b'')
            data.append(datum(key, rng.getrandbits(32), rng.getrandbits(16), rng.getrandbits(16), rng.getrandbits(32), lists))
        return extended(*data)
    letters = rng.choice([k.encode() for k in INFOS if k != 'FLEU'] + [bytes(rng.randrange(256) for _ in range(4))])
    return info(letters, [random_target(rng) for _ in range(rng.randrange(4))])


def random_section(rng):
    contents = [
        content(random_text(rng), rng.choice([0, 1, 2, 3, 4, 5, 255]), [random_info(rng) for _ in range(rng.randrange(4))])
        for _ in range(rng.randrange(4))
    ]
    textures = [random_text(rng) for _ in range(rng.randrange(4))]
    return section(rng.getrandbits(16), rng.randrange(3), textures, contents)


def damaged(rng, data):
    """The section, cut, with some bytes changed, or noise."""
    kind = rng.randrange(6)
    if kind == 0:
        return data[: rng.randrange(len(data) + 1)]
    if kind == 1:
        data = bytearray(data)
        for _ in range(rng.randrange(1, 4)):
            data[rng.randrange(len(data))] = rng.randrange(256)
        return bytes(data)
    if kind == 2:
        # an offset or a count, most likely to something that is there
        data = bytearray(data)
        at = rng.randrange(len(data) // 4) * 4
        data[at : at + 4] = bits(rng.randrange(len(data) + 8))
        return bytes(data)
    if kind == 3 and rng.random() < 0.3:
        return b'pai1' * rng.randrange(2) + bytes(rng.getrandbits(8) for _ in range(rng.randrange(80)))
    return data


def float_sections():
    """Every exponent with both signs and many fractions, in sections of Constant keys."""
    rng = random.Random(32)
    patterns = []
    for exponent in range(256):
        fractions = [0, 1, 2, 0x400000, 0x7FFFFF, 0x7FFFFE, 0x555555, 0x2AAAAA, 0x333333]
        fractions += [1 << k for k in range(23)] + [rng.getrandbits(23) for _ in range(60)]
        for fraction in fractions:
            for sign in (0, 1):
                patterns.append(bits(sign << 31 | exponent << 23 | fraction))
    for i in range(0, len(patterns), 12000):
        yield section(0, 0, [], [content(b'F', 0, [info(b'FLAC', [target(0, 0, 0, patterns[i : i + 12000])])])])


def edge_sections():
    """Inputs of the longest length and one more, and records that fill a table or have a word or a byte more."""
    small = section(1, 0, [], [])
    for n in (LONGEST, LONGEST + 1, 3 * LONGEST):
        yield small + bytes(n - len(small))
    # two targets of one info at the same place: 4 + 3 + 2 + 2 * (4 + keys) words, and one for each texture
    keys = target(0, 0, 0, [floats(k) for k in range(8183)])
    twice = b'FLAC' + bytes([2, 0, 0, 0]) + struct.pack('<II', 16, 16) + keys
    for textures in ([b'a'], [b'a', b'b']):
        yield section(1, 0, textures, [content(b'F', 0, [twice])])
    # two textures at one text of half the room, and a third at its last byte or its end
    half = TEXT_BYTES // 2
    for third in (half, half - 1):
        yield (
            b'pai1' + struct.pack('<IHBBHHIIII', 32 + half + 1, 1, 0, 0, 3, 0, 32, 12, 12, 12 + third) + b'x' * half + b'\0'
        )
    # many short texts, each of which is found by itself
    yield section(1, 0, [b'\xFF'] * 10000, [])


def names_section():
    """A target of every number below every letters, and the numbers above."""
    infos = [info(k.encode(), [target(0, n, 0, []) for n in range(len(names) + 2)]) for k, (_, names) in INFOS.items() if names]
    return section(0, 1, [], [content(b'N', kind, infos) for kind in range(7)])


def compare(program, count, seed):
    rng = random.Random(seed)
    cases = [sample(), names_section(), *float_sections(), *edge_sections()]
    cases += [damaged(rng, random_section(rng)) for _ in range(count)]
    tally, wrong = {}, 0
    for n, data in enumerate(cases):
        wanted = printed(data)
        got = subprocess.run([program], input=data, stdout=subprocess.PIPE).stdout
        kind = wanted.split(b'(')[0].split(b':')[0].decode().strip()
        tally[kind] = tally.get(kind, 0) + 1
        if got != wanted:
            wrong += 1
            if wrong <= 3:
                print(f'case {n}: {data.hex()}\nwanted {wanted}\ngot    {got}')
    print(f'{len(cases)} sections, {wrong} differences; {tally}')
    sys.exit(wrong > 0)


def store():
    crates = pathlib.Path(__file__).resolve().parent.parent / 'crates'
    (crates / 'show_tracks' / 'stdin').write_bytes(sample())
    (crates / 'show_tracks' / 'stdout').write_bytes(printed(sample()))
    for given in (crates / 'round_trip' / 'samples').glob('*.in'):
        given.with_suffix('.tracks').write_bytes(printed(given.read_bytes()))


match sys.argv[1:]:
    case []:
        store()
    case ['compare', program, *numbers] if len(numbers) <= 2 and all(n.isdecimal() for n in numbers):
        compare(program, *(int(n) for n in [*numbers, *['1000', '1'][len(numbers) :]]))
    case _:
        sys.exit('usage: show_tracks_sample.py\n       show_tracks_sample.py compare PROGRAM [COUNT [SEED]]')
