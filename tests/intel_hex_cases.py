# The cases, mends and commands of docs/INTEL-HEX.md, tried: what the document says is what is expected.
#   intel_hex_cases.py rows DOCUMENT FOLDER               each row of the document has a case, and each case a row
#   intel_hex_cases.py told DOCUMENT FOLDER LOADER        number and line of each case; a refused image is not touched
#   intel_hex_cases.py read DOCUMENT FOLDER TOOL          what srec_cat, objcopy or intelhex does with each case
#   intel_hex_cases.py mends DOCUMENT FOLDER LOADER       each row's mend gives a text that fills the image
#   intel_hex_cases.py commands DOCUMENT FOLDER LOADER    so do the commands that write a text; the examples are what they say
#   intel_hex_cases.py presets DOCUMENT FOLDER LOADER WRITER    the commands for presets write what the library writes, and read it
#   intel_hex_cases.py count DOCUMENT FOLDER              how many cases there are
# FOLDER is for what is written meanwhile; LOADER and WRITER are the programs of tests/c/load.c and tests/c/write.c.
import pathlib
import random
import re
import shutil
import sys

from intel_hex_images import CELLS, READERS, WIDTH, cells_of, images, loaded, raw_of, record, run, size_of, untouched, written

# What the cases are of.
KINDS = ['program', 'data']
DATA_RECORDS = 128
END = record(1, 0, b'')
# What stands in the column of mends and is no command.
NO_COMMAND = {'-', 'again', 'by hand'}


def text(lines, ending='\n'):
    return ''.join(line + ending for line in lines).encode()


class Base:
    """An image, and its text of 128 data records and the end record in line 129."""

    def __init__(self, kind):
        chance = random.Random(f'cases, {kind}')
        self.kind, self.size = kind, size_of(kind)
        self.step = self.size // DATA_RECORDS
        # No byte is 0 or FFH: a gap shows, whatever it is filled with.
        self.raw = bytes(chance.randrange(1, 255) for _ in range(self.size))
        self.lines = [*self.records(self.raw), END]

    def records(self, raw, address=0):
        return [record(0, address + place, raw[place:place + self.step]) for place in range(0, len(raw), self.step)]

    def with_line(self, number, *new):
        """The lines with others in place of one."""
        return [*self.lines[:number - 1], *new, *self.lines[number:]]

    def with_end(self, *new):
        return self.with_line(len(self.lines), *new)

    def with_zeros(self, start, end):
        return self.raw[:start] + bytes(end - start) + self.raw[end:]

    def high_byte_first(self):
        return b''.join(cell.to_bytes(WIDTH[self.kind], 'big') for cell in cells_of(self.raw, self.kind))


class Case:
    """A text, the image that it says, and the image after the row's mend."""

    def __init__(self, text, says, mended=None):
        self.text, self.says, self.mended = text, says, says if mended is None else mended


def with_check(line, change):
    return f'{line[:-2]}{(int(line[-2:], 16) + change) % 256:02X}'


def cases_of_one_image(base):
    """The cases whose text says the image of the base, or should; line 5 is changed where it does not matter which."""
    lines, raw, step, size = base.lines, base.raw, base.step, base.size
    line, place = lines[4], 4 * step
    uneven = [(start + offset, length) for start in range(0, size, 2 * step) for offset, length in [(0, 1), (1, 2 * step - 1)]]
    other = bytes([raw[place] ^ 1]) + raw[place + 1:place + step]
    return {
        'nothing unusual': text(lines),
        'carriage return and line feed as endings': text(lines, '\r\n'),
        'both endings by turns': b''.join(text([one], ['\n', '\r\n'][number % 2]) for number, one in enumerate(lines)),
        'small letters': text(lines).lower(),
        'capitals and small letters by turns': text([one.lower() if number % 2 else one for number, one in enumerate(lines)]),
        'the data records in reverse order': text([*reversed(lines[:-1]), END]),
        'data records of unequal length': text([*(record(0, start, raw[start:start + length]) for start, length in uneven), END]),
        'a data record without data': text(base.with_line(5, record(0, place, b''), line)),
        'a data record without data, its address outside': text(base.with_line(5, record(0, 0x8000, b''), line)),
        'an address in the end record': text(base.with_end(record(1, 0x10, b''))),

        'a blank line at the beginning': text(['', *lines]),
        'a blank line between records': text(base.with_line(5, '', line)),
        'a line of blanks': text(base.with_line(5, '   ', line)),
        'a title in the first line': text(['CHANNEL 3', *lines]),
        'a comment line': text(base.with_line(5, '; channel 3', line)),
        'blanks before the colon': text(base.with_line(5, '  ' + line)),
        'a blank behind the check byte': text(base.with_line(5, line + ' ')),
        'a comment behind the check byte': text(base.with_line(5, line + ' ; channel 3')),
        'carriage returns alone as endings': text(lines, '\r'),
        'two carriage returns and a line feed as endings': text(lines, '\r\r\n'),
        'line feed and carriage return as endings': text(lines, '\n\r'),
        'the last line without its ending': text(lines)[:-1],
        'a byte order mark': b'\xef\xbb\xbf' + text(lines),
        'characters of two bytes (UTF-16)': text(lines).decode().encode('utf-16'),
        'bytes of 0 before the first record': bytes(50) + text(lines),
        'a record without its colon': text(base.with_line(5, line[1:])),
        'two colons': text(base.with_line(5, ':' + line)),
        'two records in one line': text([*lines[:4], line + lines[5], *lines[6:]]),
        'a record over two lines': text(base.with_line(5, line[:15], line[15:])),
        'a letter O in place of a 0': text(base.with_line(5, line.replace('0', 'O', 1))),
        'a byte more than the length says': text(base.with_line(5, line + '00')),
        'a byte fewer than the length says': text(base.with_line(5, line[:-2])),
        'the text cut within a line': text(lines[:64]) + lines[64][:9].encode(),
        'an end record with data': text(base.with_end(record(1, 0, b'\0'))),

        'a wrong check byte': text(base.with_line(5, with_check(line, 1))),
        'a wrong check byte in the end record': text(base.with_end(with_check(END, 1))),

        'an extended address (04) of 0': text([record(4, 0, b'\0\0'), *lines]),
        'an extended address (02) of 0': text([record(2, 0, b'\0\0'), *lines]),
        'an extended address (04) that is not 0': text([record(4, 0, b'\0\1'), *lines]),
        'a start address (03) before the end record': text(base.with_end(record(3, 0, b'\0\0\0\x10'), END)),
        'a start address (05) at the beginning': text([record(5, 0, b'\0\0\0\x10'), *lines]),
        'a type that is none (06)': text(base.with_line(5, record(6, 0, b''), line)),

        'no text at all': b'',
        'the end record alone': text([END]),
        'the text cut behind a line': text(lines[:64]),
        'the end record first': text([END, *lines[:-1]]),
        'the end record amid the others': text([*lines[:4], END, *lines[4:-1]]),
        'a record outside': text(base.with_end(record(0, size, raw[:step]), END)),
        'a record partly outside': text(base.with_line(DATA_RECORDS, record(0, size - step, raw[-step:] + b'\0'))),
        'an image filled up to 4096 bytes': text([*base.records(raw.ljust(4096, b'\xff')), END]),
        'the whole image at 1000H': text([*base.records(raw, 0x1000), END]),
        'a record that goes on at 0 behind FFFFH': text(base.with_line(1, record(0, 0x10000 - step, bytes(step) + raw[:step]))),
        'a record twice': text(base.with_line(5, line, line)),
        'records that overlap': text(base.with_line(5, record(0, place, raw[place:place + step + 1]))),
        'a record again with another value': text(base.with_line(5, line, record(0, place, other))),

        'no end record': text(lines[:-1]),
        'an end record of type 00': text(base.with_end(record(0, 0, b''))),
        'a second end record': text([*lines, END]),
        'a blank line behind the end record': text([*lines, '']),
        'Ctrl-Z behind the end record': text(lines) + b'\x1a',
        'bytes of 0 behind the end record': text(lines) + bytes(50),
        'a comment behind the end record': text([*lines, '; channel 3']),
        'a record behind the end record': text([*lines, record(0, 0, raw[:step])]),
    }


def cases(base):
    """All cases, by the words in the first column of the document."""
    lines, raw, step, size = base.lines, base.raw, base.step, base.size
    found = {name: Case(one, raw) for name, one in cases_of_one_image(base).items()}
    place = 4 * step
    other = bytes([raw[place] ^ 1]) + raw[place + 1:place + step]
    altered = record(0, place, other)[:-2] + lines[4][-2:]
    short = record(0, place, raw[place:place + step - 1])
    wide, swapped = b'\xff' * size, base.high_byte_first()
    found |= {
        'cells too wide for the chip': Case(text([*base.records(wide), END]), wide),
        'the high byte of a cell first': Case(text([*base.records(swapped), END]), swapped, raw),
        'a byte that was changed by hand, its check byte not':
            Case(text(base.with_line(5, altered)), raw, raw[:place] + other + raw[place + step:]),
        'a record missing': Case(text(base.with_line(5)), raw, base.with_zeros(place, place + step)),
        'the first record missing': Case(text(base.with_line(1)), raw, base.with_zeros(0, step)),
        'a byte missing': Case(text(base.with_line(5, short)), raw, base.with_zeros(place + step - 1, place + step)),
        'the first half only': Case(text([*lines[:64], END]), raw, base.with_zeros(size // 2, size)),
    }
    program, data = Base('program'), Base('data')
    both = text(program.lines) + text(data.lines)
    if base.kind == 'program':
        three = bytes(byte for place, byte in enumerate(raw) if place % 4 != 3)
        widened = bytes(0 if place % 4 == 3 else byte for place, byte in enumerate(raw))
        found |= {
            'three bytes a word': Case(text([*base.records(three), END]), raw, widened),
            "a data ROM's text, loaded as a program": Case(text(data.lines), data.raw),
            "a program's text and a data ROM's behind it, loaded as a program": Case(both, raw),
        }
    else:
        found |= {
            'no cells 0 and 1, as of a masked data ROM': Case(text(base.with_line(1, record(0, 4, raw[4:step]))), raw, base.with_zeros(0, 4)),
            "a program's text, loaded as a data ROM": Case(text(program.lines), program.raw),
            "a program's text and a data ROM's behind it, loaded as a data ROM": Case(both, raw),
        }
    return found


def all_cases():
    return [(kind, name, case) for kind in KINDS for name, case in cases(Base(kind)).items()]


# The document.

def tables(document):
    """Each table's header and rows, as lists of their columns."""
    found, rows = [], []
    for line in [*document.read_text().splitlines(), '']:
        if line.startswith('|'):
            rows.append([column.strip() for column in line.strip('|').split('|')])
        elif rows:
            found.append((rows[0], rows[2:]))
            rows = []
    return found


def rows_of(document):
    """By the case: what is told, what each tool does, and the mend."""
    found = {}
    for header, rows in tables(document):
        if header[:2] == ['in the text', 'told']:
            for name, *columns in rows:
                if name in found or len(columns) != len(header) - 1:
                    sys.exit(f'the row "{name}" stands twice, or has another number of columns')
                found[name] = dict(zip(header[1:], columns))
    return found


def mends_of(document):
    for header, rows in tables(document):
        if header[:2] == ['mend', 'command']:
            return {row[0]: row[1].strip('`') for row in rows}
    sys.exit('there is no table of mends')


def blocks(document, name):
    found = re.findall(rf'^```{name}\n(.*?)^```$', document.read_text(), re.M | re.S)
    if not found:
        sys.exit(f'there is no block of "{name}"')
    return found


def for_kind(command, kind):
    """A command of the document, which is for a program; for a data ROM as the document says."""
    if kind == 'data':
        for old, new in [('program.', 'data.'), ('2048', '1024'), ('-byte-swap 4', '-byte-swap 2'), ('--reverse-bytes=4', '--reverse-bytes=2')]:
            command = command.replace(old, new)
    return command


# What is tried. Whatever differs is told, and not only the first.

def check_rows(document, folder):
    rows, wrong = rows_of(document), []
    tried = {name for _, name, _ in all_cases()}
    for name in sorted(tried ^ set(rows)):
        wrong.append(f'"{name}" has no {"case" if name in rows else "row in the document"}')
    used, listed = {row['mend'] for row in rows.values()} - NO_COMMAND, set(mends_of(document))
    for name in sorted(used ^ listed):
        wrong.append(f'the mend "{name}" is {"not listed" if name in used else "used by no row"}')
    return wrong


def check_told(document, folder, loader):
    rows, wrong = rows_of(document), []
    for kind in KINDS:
        found = cases(Base(kind))
        files = [folder / f'{kind}-{number}.hex' for number in range(len(found))]
        for file, case in zip(files, found.values()):
            file.write_bytes(case.text)
        for (name, case), (number, line, cells) in zip(found.items(), loaded(loader, kind, files)):
            told = f'{number}, line {line}'
            if told != rows[name]['told']:
                wrong.append(f'{kind}: {name}: the loader tells {told}, the document {rows[name]["told"]}')
            if cells != (untouched(kind) if number else cells_of(case.says, kind)):
                wrong.append(f'{kind}: {name}: after {told} the image is another')
    return wrong


def check_read(document, folder, tool):
    rows, wrong = rows_of(document), []
    column = 'python3-intelhex' if tool == 'intelhex' else tool
    file, raw = folder / 'case.hex', folder / 'case.raw'
    for kind, name, case in all_cases():
        file.write_bytes(case.text)
        raw.write_bytes(b'')
        status, said = READERS[tool](file, raw)
        does = 'refused' if status else 'warns' if said else 'taken'
        if not status and raw.read_bytes() != case.says:
            does += ', other'
        if does != rows[name][column]:
            wrong.append(f'{kind}: {name}: {column}: {does}, in the document {rows[name][column]}\n{said}'.rstrip())
    return wrong


def run_alone(command, folder, files):
    """What the command says, in a folder with these files alone."""
    if folder.exists():
        shutil.rmtree(folder)
    folder.mkdir()
    for name, content in files.items():
        (folder / name).write_bytes(content)
    status, said = run('sh', '-e', '-c', command, cwd=folder)
    if status:
        sys.exit(f'{command}: status {status}\n{said}')
    return said


class Filled:
    """Texts that must be taken, each with its image; they are loaded together."""

    def __init__(self, folder, loader):
        self.folder, self.loader, self.texts = folder, loader, {kind: [] for kind in WIDTH}

    def add(self, kind, file, raw, what):
        kept = self.folder / f'{kind}-{len(self.texts[kind])}.hex'
        file.rename(kept)
        self.texts[kind].append((kept, raw, what))

    def wrong(self):
        found = []
        for kind, texts in self.texts.items():
            answers = loaded(self.loader, kind, [kept for kept, _, _ in texts])
            for (_, raw, what), (number, line, cells) in zip(texts, answers):
                if number:
                    found.append(f'{kind}: {what}: the loader tells {number}, line {line}')
                elif cells != cells_of(raw, kind):
                    found.append(f'{kind}: {what}: another image is loaded')
        return found


def check_mends(document, folder, loader):
    rows, mends, filled = rows_of(document), mends_of(document), Filled(folder, loader)
    for kind, name, case in all_cases():
        mend = rows[name]['mend']
        if mend not in NO_COMMAND:
            run_alone(for_kind(mends[mend], kind), folder / 'mend', {'in.hex': case.text})
            filled.add(kind, folder / 'mend/out.hex', case.mended, f'{name}, mended by {mend}')
    return filled.wrong()


def check_commands(document, folder, loader):
    place, filled = folder / 'command', Filled(folder, loader)
    for kind in KINDS:
        base = Base(kind)
        short = base.raw[:20]
        for name, raw, image, fillers in [
                ('sh whole', base.raw, base.raw, []),
                ('sh short', short, short.ljust(base.size, b'\0'), []),
                ('sh short', short, short.ljust(base.size, b'\xff'), [('-fill 0 ', '-fill 0xFF '), ('-fill=0 ', '-fill=0xFF ')]),
                ('sh high byte first', base.high_byte_first(), base.raw, [])]:
            for command in blocks(document, name):
                command = for_kind(command.strip(), kind)
                for old, new in fillers:
                    command = command.replace(old, new)
                run_alone(command, place, {f'{kind}.bin': raw})
                filled.add(kind, place / f'{kind}.hex', image, command)
    words = [int(word.rstrip('H'), 16) for word in blocks(document, 'text words')[0].split()]
    zeros = [record(0, address, bytes(16)) for address in range(16, size_of('program'), 16)]
    (place / 'example.hex').write_bytes(text([*blocks(document, 'text record')[0].splitlines(), *zeros, END]))
    filled.add('program', place / 'example.hex', raw_of(words + [0] * (CELLS['program'] - len(words)), 'program'), 'the example')
    said = run_alone(blocks(document, 'sh gaps')[0], place, {'in.hex': cases(Base('program'))['a record missing'].text})
    wrong = [] if said == blocks(document, 'text gaps')[0] else [f'srec_info says\n{said}']
    return wrong + filled.wrong()


def check_presets(document, folder, loader, writer):
    place, text, filled, wrong = folder / 'preset', folder / 'written.hex', Filled(folder, loader), []
    for raw in images('preset'):
        image = folder / 'preset.bin'
        image.write_bytes(raw)
        expected = written(writer, image, text)
        for command in blocks(document, 'sh preset'):
            said = run_alone(command, place, {'preset.bin': raw})
            if said or (place / 'preset.hex').read_bytes() != expected:
                wrong.append(f'{command}writes another text than the library\n{said}')
            filled.add('preset', place / 'preset.hex', raw, command)
        for command in blocks(document, 'sh preset back'):
            said = run_alone(command, place, {'preset.hex': expected})
            if said or (place / 'preset.bin').read_bytes() != raw:
                wrong.append(f'{command}reads another preset\n{said}')
    return wrong + filled.wrong()


def count(document, folder):
    print(f'{len(rows_of(document))} cases')


CHECKS = {'rows': check_rows, 'told': check_told, 'read': check_read, 'mends': check_mends, 'commands': check_commands, 'presets': check_presets,
          'count': count}

if __name__ == '__main__':
    check, document, folder, *more = sys.argv[1:]
    wrong = CHECKS[check](pathlib.Path(document), pathlib.Path(folder), *more)
    sys.exit('\n'.join(wrong) if wrong else 0)
