# What tests/intel_hex compares with the tools: images, the texts that a tool writes of them, and what is read from these.
#   intel_hex_images.py make FOLDER                 the images as raw bytes, low byte first: program-00.bin .., data-00.bin .. and preset-00.bin ..
#   intel_hex_images.py write FOLDER TOOL           each image as texts, in every form that the tool has and the rules take
#   intel_hex_images.py presets FOLDER WRITER       each preset as the library writes it: the texts of the tool "library"
#   intel_hex_images.py load FOLDER TOOL LOADER     the loader fills the same image from each of these texts
#   intel_hex_images.py read FOLDER TOOL READER     and another tool reads it
#   intel_hex_images.py same FOLDER TOOL            in some of its forms the tool writes presets as the library does
#   intel_hex_images.py count FOLDER                how many images and texts there are
# TOOL and READER are srec_cat, objcopy or intelhex; TOOL may be chance, whose texts are written here, and library. LOADER and WRITER are the
# programs of tests/c/load.c and tests/c/write.c.
import pathlib
import random
import subprocess
import sys

import intelhex

CELLS = {'program': 512, 'data': 512, 'preset': 128}
WIDTH = {'program': 4, 'data': 2, 'preset': 2}
BITS = {'program': 23, 'data': 13, 'preset': 16}
RANDOM_IMAGES = 8


def size_of(kind):
    return CELLS[kind] * WIDTH[kind]


def raw_of(cells, kind):
    return b''.join(cell.to_bytes(WIDTH[kind], 'little') for cell in cells)


def cells_of(raw, kind):
    return [int.from_bytes(raw[place:place + WIDTH[kind]], 'little') for place in range(0, len(raw), WIDTH[kind])]


def run(*command, **options):
    """Status and whatever was said."""
    ran = subprocess.run(command, stdout=subprocess.PIPE, stderr=subprocess.STDOUT, **options)
    return ran.returncode, ran.stdout.decode(errors='replace')


def must(*command):
    status, said = run(*command)
    if status or said:
        sys.exit(f'{" ".join(map(str, command))[:300]}: status {status}\n{said}')


# The images.

def images(kind):
    limit, widest, size, cells = 1 << BITS[kind], (1 << 8 * WIDTH[kind]) - 1, size_of(kind), CELLS[kind]
    chance = random.Random(f'intel hex, {kind}')
    for cell in [0, widest, 1, limit - 1, widest - 1]:
        yield raw_of([cell] * cells, kind)
    yield raw_of(range(cells), kind)
    yield bytes(place % 256 for place in range(size))
    # The characters that mean something in a text.
    yield bytes(chance.choice(b':\n\r\x1a 0F\x00') for _ in range(size))
    if limit <= widest:
        # Cells too wide for the chip, and one among others.
        yield raw_of([limit] * cells, kind)
        yield raw_of([limit if place == 300 else chance.randrange(limit) for place in range(cells)], kind)
    else:
        # High bytes alone, low bytes alone, and one bit.
        yield raw_of([chance.randrange(256) << 8 for _ in range(cells)], kind)
        yield raw_of([chance.randrange(256) for _ in range(cells)], kind)
        yield raw_of([1 << 15 if place == 100 else 0 for place in range(cells)], kind)
    for number in range(RANDOM_IMAGES):
        yield raw_of([chance.randrange(limit if number % 2 else widest + 1) for _ in range(cells)], kind)


def make(folder):
    for kind in WIDTH:
        for number, raw in enumerate(images(kind)):
            (folder / f'{kind}-{number:02}.bin').write_bytes(raw)


# What each tool writes. Each function is given the file of an image, its kind and, for a form's name, the file to write.

SREC_CAT_FORMS = [
    '-address-length=1', '-address-length=2', '-address-length=2 -crlf', '-address-length=2 -execution-start-address=0x10',
    '-address-length=2 -output-block-size=7 -output-block-packing', '-address-length=2 -output-block-size=24 -output-block-alignment -crlf',
    *(f'-address-length=2 -output-block-size={size}' for size in [1, 2, 3, 4, 16, 33, 100, 255]),
    *(f'-address-length=2 -line-length={length}' for length in [13, 44, 80, 521]),
]


def write_by_srec_cat(image, kind, text_file):
    for form in SREC_CAT_FORMS:
        must('srec_cat', image, '-binary', '-o', text_file(form), '-intel', *form.split())
    # Cell by cell, and srec_cat's own low byte first.
    cells = []
    for place, cell in enumerate(cells_of(image.read_bytes(), kind)):
        start, end = place * WIDTH[kind], (place + 1) * WIDTH[kind]
        cells += ['-generate', str(start), str(end), '-constant-little-endian', str(cell), str(WIDTH[kind])]
    must('srec_cat', *cells, '-o', text_file('cells'), '-intel', '-address-length=2')


def write_by_objcopy(image, kind, text_file):
    raw, width = image.read_bytes(), WIDTH[kind]
    part, rest = text_file('part').with_suffix('.raw'), text_file('rest').with_suffix('.raw')

    def objcopy(form, source, *options, target='binary'):
        part.write_bytes(source)
        must('objcopy', '-I', target, '-O', 'ihex', *options, part, text_file(form))

    objcopy('plain', raw)
    objcopy('start', raw, '--set-start=0')
    cells = [raw[place:place + width] for place in range(0, len(raw), width)]
    objcopy('reversed', b''.join(cell[::-1] for cell in cells), f'--reverse-bytes={width}')
    objcopy('interleaved', b''.join(cell + b'\x5a' * width for cell in cells), f'--interleave={2 * width}', f'--interleave-width={width}', '--byte=0')
    # Not shorter than half: objcopy takes no empty file.
    cut = max(len(raw.rstrip(b'\xff')), len(raw) // 2)
    objcopy('padded', raw[:cut], f'--pad-to={len(raw)}', '--gap-fill=0xFF')
    # At an odd address.
    odd = len(raw) // 3 | 1
    rest.write_bytes(raw[odd:])
    objcopy('sections', raw[:odd], '--add-section', f'.rest={rest}', '--set-section-flags', '.rest=alloc,load,contents',
            '--change-section-address', f'.rest={odd}')
    source = text_file('source').with_suffix('.raw')
    for form, options in [('short', '-intel -output-block-size=5'), ('extended', '-intel'), ('s-records', '-motorola')]:
        must('srec_cat', image, '-binary', '-o', source, *options.split())
        objcopy(form, source.read_bytes(), target='srec' if form == 's-records' else 'ihex')
    # In reverse order each record is a section of its own.
    must('srec_cat', image, '-binary', '-o', source, '-intel', '-address-length=2', '-output-block-size=13')
    *records, end = source.read_text().splitlines(keepends=True)
    objcopy('backwards', ''.join([*reversed(records), end]).encode(), target='ihex')


def write_by_intelhex(image, kind, text_file):
    whole = intelhex.IntelHex()
    whole.loadbin(str(image))
    for count in [1, 3, 16, 32, 100, 255]:
        for ending in ['native', 'CRLF']:
            whole.write_hex_file(str(text_file(f'{count} {ending}')), byte_count=count, eolstyle=ending)
    whole.start_addr = {'EIP': 16}
    whole.write_hex_file(str(text_file('no start')), write_start_addr=False)
    whole.start_addr = None
    whole.tofile(str(text_file('tofile')), format='hex')
    intelhex.bin2hex(str(image), str(text_file('bin2hex')))
    if WIDTH[kind] == 2:
        # Cell by cell, and intelhex's own low byte first.
        by_cells = intelhex.IntelHex16bit()
        for place, cell in enumerate(cells_of(image.read_bytes(), kind)):
            by_cells[place] = cell
        by_cells.write_hex_file(str(text_file('cells')))


def record(kind, address, data):
    body = bytes([len(data), address // 256, address % 256, kind]) + data
    return ':' + (body + bytes([-sum(body) % 256])).hex().upper()


def write_by_chance(image, kind, text_file):
    """Records of any length and in any order, some without data, letters and endings as they fall, any address in the end record."""
    raw, chance = image.read_bytes(), random.Random(image.name)
    for longest in [1, 4, 16, 40, 255]:
        records, place = [], 0
        while place < len(raw):
            length = chance.randrange(longest + 1)
            records.append(record(0, place if length else chance.randrange(65536), raw[place:place + length]))
            place += length
        chance.shuffle(records)
        records.append(record(1, chance.randrange(65536), b''))
        letters = ''.join(line + chance.choice(['\n', '\r\n']) for line in records)
        text_file(f'{longest}').write_bytes(''.join(chance.choice([letter, letter.lower()]) for letter in letters).encode())


WRITERS = {'srec_cat': write_by_srec_cat, 'objcopy': write_by_objcopy, 'intelhex': write_by_intelhex, 'chance': write_by_chance}


def images_of(folder, kind):
    return sorted(folder.glob(f'{kind}-??.bin'))


def text_of(image, tool, form):
    name = ''.join(letter if letter.isalnum() else '-' for letter in form).strip('-')
    return image.with_name(f'{image.stem}.{tool}.{name}.hex')


def write(folder, tool):
    for kind in WIDTH:
        for image in images_of(folder, kind):
            WRITERS[tool](image, kind, lambda form, image=image: text_of(image, tool, form))


# The library's own writer, and the forms in which a tool writes a preset as it does; objcopy ends lines with carriage return and line feed.

SAME_FORMS = {
    'srec_cat': ['-address-length=2 -output-block-size=16', '-address-length=2 -line-length=44'],
    'objcopy': ['plain', 'reversed', 'interleaved'],
    'intelhex': ['16 native', 'no start', 'tofile', 'bin2hex', 'cells'],
}


def written(writer, image, text):
    """The text of a preset by the library."""
    must(writer, image, text)
    return text.read_bytes()


def presets(folder, writer):
    for image in images_of(folder, 'preset'):
        written(writer, image, text_of(image, 'library', 'written'))


def same(folder, tool):
    for image in images_of(folder, 'preset'):
        expected = text_of(image, 'library', 'written').read_bytes()
        for form in SAME_FORMS[tool]:
            text = text_of(image, tool, form).read_bytes()
            if (text.replace(b'\r\n', b'\n') if tool == 'objcopy' else text) != expected:
                sys.exit(f'{image.name}: {tool}, {form}, writes\n{text.decode()}and the library\n{expected.decode()}')


# What is read: of each tool the status and whatever it said.

def read_by_srec_cat(text, raw):
    return run('srec_cat', text, '-intel', '-o', raw, '-binary')


def read_by_objcopy(text, raw):
    return run('objcopy', '-I', 'ihex', '-O', 'binary', text, raw)


def read_by_intelhex(text, raw):
    try:
        intelhex.IntelHex(str(text)).tobinfile(str(raw))
    except (intelhex.IntelHexError, ValueError) as reason:
        return 1, f'{type(reason).__name__}: {reason}'
    return 0, ''


READERS = {'srec_cat': read_by_srec_cat, 'objcopy': read_by_objcopy, 'intelhex': read_by_intelhex}


def loaded(loader, kind, texts):
    """Of each text the number, the line, and the cells of the image that the call leaves."""
    ran = subprocess.run([loader, kind, *texts], capture_output=True, text=True)
    lines = ran.stdout.splitlines()
    if ran.returncode or ran.stderr or len(lines) != len(texts):
        sys.exit(f'{loader}: status {ran.returncode}, {len(lines)} answers for {len(texts)} texts\n{ran.stderr}')
    answers = [line.split() for line in lines]
    return [(int(number), int(line), [int(cell, 16) for cell in cells]) for number, line, *cells in answers]


def untouched(kind):
    """What tests/c/load.c puts into an image before a call."""
    return [(0x5A5A0000 if kind == 'program' else 0x5A00) + place for place in range(CELLS[kind])]


def kinds_of(tool):
    return ['preset'] if tool == 'library' else WIDTH


def texts_of(folder, kind, tool):
    texts = sorted(folder.glob(f'{kind}-??.{tool}.*.hex'))
    if not texts:
        sys.exit(f'there is no text of {tool} for a {kind}')
    return texts


def raw_for(text):
    return text.with_name(text.name.split('.')[0] + '.bin').read_bytes()


def load(folder, tool, loader):
    for kind in kinds_of(tool):
        texts = texts_of(folder, kind, tool)
        for text, (number, line, cells) in zip(texts, loaded(loader, kind, texts)):
            lines = text.read_bytes().count(b'\n')
            if (number, line) != (0, lines):
                sys.exit(f'{text.name}: the loader answers {number}, line {line}; expected 0, line {lines}')
            expected = cells_of(raw_for(text), kind)
            if cells != expected:
                place = next(place for place in range(CELLS[kind]) if cells[place] != expected[place])
                sys.exit(f'{text.name}: cell {place} is {cells[place]:X}H, not {expected[place]:X}H')


def read(folder, tool, reader):
    raw = folder / 'read.raw'
    for kind in kinds_of(tool):
        for text in texts_of(folder, kind, tool):
            status, said = READERS[reader](text, raw)
            # srec_cat warns of records that are out of order or have no data.
            if status or said and (tool, reader) != ('chance', 'srec_cat'):
                sys.exit(f'{text.name}: {reader} ends with status {status}\n{said}')
            if raw.read_bytes() != raw_for(text):
                sys.exit(f'{text.name}: {reader} reads another image')
            raw.unlink()


def count(folder):
    print(f'{len(list(folder.glob("*-??.bin")))} images, {len(list(folder.glob("*-??.*.hex")))} texts')


if __name__ == '__main__':
    name, folder, *more = sys.argv[1:]
    {'make': make, 'write': write, 'presets': presets, 'load': load, 'read': read, 'same': same, 'count': count}[name](pathlib.Path(folder), *more)
