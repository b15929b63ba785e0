# What tests/report needs besides the desk and a browser.
#   report_page.py sources FOLDER          four sources in FOLDER: booth, floor, relay and the room
#   report_page.py faults FOLDER           the wrong tracks in FOLDER, from those that the desk has mixed there
#   report_page.py read FILE.html          what a coordinator reads first: the heading, and a line a track
#   report_page.py outside FILE.html       whatever on a page could run or be fetched, one a line
#   report_page.py requests NET-LOG.json   what a page has asked for, by the browser's own log, one address a line
import array
import html.parser
import json
import pathlib
import random
import sys
import wave

RATE = 8000
SECONDS = 20


def write(file, samples):
    with wave.open(str(file), 'wb') as sound:
        sound.setnchannels(1)
        sound.setsampwidth(2)
        sound.setframerate(RATE)
        sound.writeframes(array.array('h', samples).tobytes())


def read_sound(file):
    with wave.open(str(file), 'rb') as sound:
        return array.array('h', sound.readframes(sound.getnframes()))


def speech(seed, loudest):
    """Noise in syllables and pauses."""
    chance = random.Random(seed)
    samples = []
    while len(samples) < RATE * SECONDS:
        loudness = chance.choice([0, 0.3, 0.5, 0.7, 0.8, 0.9, 1]) * loudest
        samples += [int(chance.uniform(-loudness, loudness)) for _ in range(chance.randrange(800, 4000))]
    return samples[:RATE * SECONDS]


def sources(folder):
    for seed, (name, loudest) in enumerate([('booth', 20000), ('floor', 16000), ('relay', 12000), ('room', 3000)]):
        write(folder / f'{name}.wav', speech(seed, loudest))


def faults(folder):
    right, exchanged = read_sound(folder / 'right.wav'), read_sound(folder / 'exchanged.wav')
    since = 7 * RATE
    write(folder / 'french.wav', right[:since] + exchanged[since:])
    flipped = right[:]
    flipped[10 * RATE] ^= 0x40
    write(folder / 'portuguese.wav', flipped)
    record = (folder / 'hungarian.record').read_bytes()
    (folder / 'hungarian.record').write_bytes(record[:len(record) * 2 // 3])
    (folder / 'maltese.wav').write_bytes(b'no sound at all')


class Page(html.parser.HTMLParser):
    """The texts of the heading and of the cells of the first table; what could run or be fetched."""

    def __init__(self):
        super().__init__()
        self.lines, self.outside, self.cells = [], [], []
        self.text = self.body = None

    def handle_starttag(self, tag, attributes):
        if tag in ('h1', 'td', 'th') and (tag == 'h1' or self.body):
            self.text = ''
        if tag == 'tbody' and self.body is None:
            self.body = True
        if tag in ('script', 'img', 'iframe', 'link', 'object', 'embed', 'base', 'form', 'audio', 'video', 'image'):
            self.outside.append(f'<{tag}>')
        for name, value in attributes:
            if name.startswith('on') or name in ('src', 'srcset', 'action') or 'href' in name and not (value or '').startswith('#'):
                self.outside.append(f'{tag} {name}={value}')

    def handle_data(self, data):
        if self.text is not None:
            self.text += data
        squeezed = data.replace(' ', '')
        if 'url(' in squeezed.replace('url(#', '') or '@import' in squeezed:
            self.outside.append(f'a style with an address: {data[:60]!r}')

    def handle_endtag(self, tag):
        if tag in ('h1', 'td', 'th') and self.text is not None:
            self.cells.append(' '.join(self.text.split()))
            self.text = None
        if tag in ('h1', 'tr') and self.cells:
            self.lines.append(' | '.join(cell for cell in self.cells if cell))
            self.cells = []
        if tag == 'tbody':
            self.body = False


def page(file):
    parsed = Page()
    parsed.feed(pathlib.Path(file).read_text(encoding='utf-8'))
    return parsed


def requests(file):
    """The browser has requests of its own; those of a page have an initiator, which for a file is the origin `null`."""
    log = json.loads(pathlib.Path(file).read_text(encoding='utf-8'))
    kind = log['constants']['logEventTypes']['URL_REQUEST_START_JOB']
    jobs = [event['params'] for event in log['events'] if event['type'] == kind and 'url' in event.get('params', {})]
    return sorted({job['url'] for job in jobs if job.get('initiator') != 'not an origin'})


TOLD = {'read': lambda file: page(file).lines, 'outside': lambda file: page(file).outside, 'requests': requests}


def main(command, argument):
    if command == 'sources':
        sources(pathlib.Path(argument))
    elif command == 'faults':
        faults(pathlib.Path(argument))
    else:
        for line in TOLD[command](argument):
            print(line)


if __name__ == '__main__':
    main(*sys.argv[1:])
