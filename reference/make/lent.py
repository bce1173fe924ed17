"""The answers to plans, runs and twins, worked apart from the converter: the memory that was lent, and its digest."""
from common import *

PATTERN = [((i + 7) % 256, i + 1000, i + 2000, i + 3000, i + 4000) for i in range(70)]
BYTES = bytes(i % 251 for i in range(70000))
KINDS = {'C': 0, 'P': 1, 'U': 2, 'KC': 256, 'KP': 257, 'KU': 258}


def digest(numbers):
    d = 0
    for x in numbers:
        d = (257 * d + x + 1) % 2147483647
    return d


def table_digest(fields):
    """Of all 70 entries, the first holding these fields (letter, behind a K where it is taken from the key, r, input, output, t), the others the pattern. Kind and part are one
    number, kind + 256 part."""
    entries = [(KINDS[f[0]],) + tuple(f[1:]) for f in fields]
    return digest(x for entry in entries + PATTERN[len(entries):] for x in entry)


NOTHING_WRITTEN = digest(BYTES)


def written(data):
    """The digest of the output that begins with these bytes, and the bytes where they are few."""
    return '%d %s' % (digest(data + BYTES[len(data):]), data.hex().upper() if len(data) <= 64 else '..')


def deck(u, *fs):
    return '// U ' + u + '\n' + ''.join('// FS %s\n' % items for items in fs) + '// END\n'


def on_cards(items, count):
    """FS operands of so many items each."""
    return ['/'.join(items[i:i + count]) for i in range(0, len(items), count)]


def told(answer):
    """The outcome in words, behind a comment."""
    words = answer.split()
    if words[0] != '0':
        return '%s at %s' % (words[0], words[1])
    return 'keeps' if words[3] == '1' else 'loses, place %s' % words[4]


class Plans(File):
    def plan(self, name, text, answer, why, entries=None, fields=()):
        """A case of a plan; `answer` is refusal and place, or the six numbers."""
        if len(answer.split()) == 2:
            answer = with_column(*answer.split()) + ' 0 0 0'
        why += ': ' + told(answer)
        if len(text) <= 260:
            why = shown(text.encode('latin-1')) + '\n' + why
        lent, after = ('-', '-') if entries is None else (str(entries), str(table_digest(fields)))
        self.case(name, 'plan %s %s' % (runs(text.encode('latin-1')), lent), answer + ' ' + after, why)


class Outputs(File):
    said = ''  # the deck of the case before, shown once where several in a row have it

    def say(self, text):
        if text != self.said and len(text) <= 260:
            self.note(shown(text.encode('latin-1')))
        self.said = text


class Runs(Outputs):
    def agrees(self, expected, answer):
        # a whole line has eight words, the last of them two dots where the reel is long
        if len(expected.split()) == 8 and '?' not in expected:
            return answer == expected
        return super().agrees(expected, answer)

    def done(self, name, text, reel, out, records, blocks, why, room=None):
        """A run that writes the reel `out`; the room is exact where none is given."""
        answer = '0 0 0 %d %d %d %s' % (len(out), records, blocks, written(out))
        self.run(name, text, reel, len(out) if room is None else room, answer, why)

    def refused(self, name, text, reel, number, place, why, room=70000):
        answer = '%s 0 0 0 %d -' % (with_column(number, place), NOTHING_WRITTEN)
        self.run(name, text, reel, room, answer, why + ': %d at %d' % (number, place))

    def run(self, name, text, reel, room, answer, why):
        self.say(text)
        self.case(name, 'run %s %s %d' % (runs(text.encode('latin-1')), runs(reel), room), answer, why)


REASONS = ['', 'never read', 'dropped by a short field', 'covered later', 'tail']


class Twins(Outputs):
    def agrees(self, expected, answer):
        return answer == expected

    def pair(self, name, text, reason, one, other, why, room=None):
        """The two records that are written; the room is exact where none is given."""
        both = one + other
        answer = '0 0 0 %d %d %s' % (reason, len(both), written(both))
        self.twins(name, text, len(both) if room is None else room, answer, '%s: %s' % (why, REASONS[reason]))

    def refused(self, name, text, number, place, why, room=70000, column=0):
        answer = '%d %d %d 0 0 %d -' % (number, place, column, NOTHING_WRITTEN)
        self.twins(name, text, room, answer, why + ': %d at %d' % (number, place) + (', column %d' % column if column else ''))

    def twins(self, name, text, room, answer, why):
        self.say(text)
        self.case(name, 'twins %s %d' % (runs(text.encode('latin-1')), room), answer, why)
