"""The cases of differ as the checker prints them: lists, texts, indexes and positions in an index; and simpler ones to try for each."""
from sizes import ERROR_WORDS, EVENT_WORDS

SPARE = (EVENT_WORDS, ERROR_WORDS)  # words for each entry of a list that is tried with ample room
MOST_ITEMS = 1000000  # tokens, bytes or events of all the smaller cases that are tried at once


def without_runs(items):
    """The items without a run of them, long runs first. Of many items short runs are left out: that would be too many cases to hold."""
    size, found = len(items), []
    while size and len(items) // size * len(items) <= MOST_ITEMS:
        found += [items[:at] + items[at + size:] for at in range(0, len(items), size)]
        size //= 2
    return found


class List:
    """A list at an entry, as chunks of 6 bytes, the last perhaps shorter, with its mode, base and room."""

    def __init__(self, mode, entry, base, rooms, chunks):
        self.mode, self.entry, self.base, self.rooms, self.chunks = mode, entry, base, rooms, chunks

    @staticmethod
    def of(mode, words):
        """The case in the words `ENTRY BASE EVENTWORDS ERRORWORDS x:HEX`, or with the entry `fits` `fits BASE EVENTWORDS x:HEX`."""
        entry, base, *rooms, records = words
        data = bytes.fromhex(records[2:])
        return List(mode, entry, int(base), tuple(map(int, rooms)), [data[at:at + 6] for at in range(0, len(data), 6)])

    def name(self):
        return f'list of {len(self.chunks)} records'

    def line(self):
        return ' '.join([*self.mode, self.entry, str(self.base), *map(str, self.rooms), 'x:' + b''.join(self.chunks).hex()])

    def shown(self):
        """The line with tokens as kind:length where the records are whole."""
        words = [*self.mode, self.entry, str(self.base), *map(str, self.rooms)]
        for chunk in self.chunks:
            length, kind = (int.from_bytes(part, 'little') for part in (chunk[:4], chunk[4:]))
            words.append(f'{kind}:{length}' if len(chunk) == 6 else 'x:' + chunk.hex())
        return ' '.join(words)

    def smaller(self):
        """Simpler cases to try: with fewer tokens, long runs first; then with base 0, lengths of 1, and ample room."""
        chunks = self.chunks
        found = [List(self.mode, self.entry, self.base, self.rooms, fewer) for fewer in without_runs(chunks)]
        if self.base:
            found.append(List(self.mode, self.entry, 0, self.rooms, chunks))
        for at, chunk in enumerate(chunks if len(chunks) ** 2 <= MOST_ITEMS else []):
            if len(chunk) == 6 and int.from_bytes(chunk[:4], 'little') > 1:
                found.append(List(self.mode, self.entry, self.base, self.rooms, chunks[:at] + [b'\1\0\0\0' + chunk[4:]] + chunks[at + 1:]))
        ample = tuple(size * (3 * len(chunks) + 2) for size in SPARE[:len(self.rooms)])
        if self.rooms != ample:
            found.append(List(self.mode, self.entry, self.base, ample, chunks))
        return found


class Text:
    """A text with its mode and room for records, events and errors."""

    def __init__(self, mode, rooms, data):
        self.mode, self.rooms, self.data = mode, rooms, data

    @staticmethod
    def of(mode, words):
        """The case in the words `text RECORDBYTES EVENTWORDS ERRORWORDS x:HEX`."""
        return Text(mode, tuple(map(int, words[1:4])), bytes.fromhex(words[4][2:]))

    def name(self):
        return f'text of {len(self.data)} bytes'

    def line(self):
        return ' '.join([*self.mode, 'text', *map(str, self.rooms), 'x:' + self.data.hex()])

    def shown(self):
        """The line with the text as it is."""
        return ' '.join([*self.mode, 'text', *map(str, self.rooms), repr(self.data)[1:]])

    def smaller(self):
        """Simpler cases to try: with fewer bytes, long runs first; then with letters for bytes, and ample room."""
        data = self.data
        found = [Text(self.mode, self.rooms, fewer) for fewer in without_runs(data)]
        if len(data) < 100:
            found += [Text(self.mode, self.rooms, data[:at] + b'a' + data[at + 1:]) for at in range(len(data)) if data[at] != ord('a')]
        ample = tuple(size * (3 * len(data) + 3) for size in (6, *SPARE))
        if self.rooms != ample:
            found.append(Text(self.mode, ample, data))
        return found


class Index:
    """The index of a run: its answer (refusal, place, events, errors), the room, and the event words, four bytes each."""

    def __init__(self, answer, room, words):
        self.answer, self.room, self.words = answer, room, words

    @staticmethod
    def of(_, words):
        """The case in the words `index REFUSAL PLACE EVENTS ERRORS INDEXBYTES x:HEX`."""
        *answer, room = map(int, words[1:6])
        data = bytes.fromhex(words[6][2:])
        return Index(tuple(answer), room, [data[at:at + 4] for at in range(0, len(data), 4)])

    def name(self):
        return f'run of {len(self.words)} event words'

    def line(self):
        return ' '.join(['index', *map(str, self.answer), str(self.room), 'x:' + b''.join(self.words).hex()])

    def shown(self):
        """The line with the words as numbers."""
        return ' '.join(['index', *map(str, self.answer), str(self.room), '|', *(str(int.from_bytes(word, 'little')) for word in self.words)])

    def smaller(self):
        """Simpler cases to try: with fewer events, counted as fewer, long runs first; then with ample room."""
        refusal, place, events, errors = self.answer
        whole = len(self.words) // 4
        held, rest = [self.words[4 * at:4 * at + 4] for at in range(whole)], self.words[4 * whole:]
        found = []
        for fewer in without_runs(held):
            answer = (refusal, place, max(events - (whole - len(fewer)), 0), errors)
            found.append(Index(answer, self.room, [word for event in fewer for word in event] + rest))
        ample = 17 * whole + 17
        if self.room != ample:
            found.append(Index(self.answer, ample, self.words))
        return found


class Entries:
    """A position in the bytes of an index."""

    def __init__(self, at, data):
        self.at, self.data = at, data

    @staticmethod
    def of(_, words):
        """The case in the words `header AT x:HEX`."""
        return Entries(int(words[1]), bytes.fromhex(words[2][2:]))

    def name(self):
        return f'position in {len(self.data)} bytes'

    def line(self):
        return f'header {self.at} x:{self.data.hex()}'

    def shown(self):
        return f'header {self.at} {self.data.hex(" ")}'

    def smaller(self):
        """Without an entry before the position, without what is behind its entry, and with a byte 0 for another."""
        found = [Entries(self.at - 17, self.data[17:])] if 17 <= self.at <= len(self.data) else []
        if self.at + 17 < len(self.data):
            found.append(Entries(self.at, self.data[:self.at + 17]))
        return found + [Entries(self.at, self.data[:at] + b'\0' + self.data[at + 1:]) for at in range(len(self.data)) if self.data[at]]


CASES = {'text': Text, 'index': Index, 'header': Entries}


def case_of(said):
    """The case in the checker's line `differs NUMBER ..`, behind whose number the mode of a list or a text stands as `mode:NUMBER`."""
    words = said.split()[2:]
    mode, words = (words[:1], words[1:]) if words[0].startswith('mode:') else ([], words)
    return CASES.get(words[0], List).of(mode, words)
