"""Case files for the program `answers`, with their outcomes worked by hand beside them."""
import os, subprocess

HERE = os.path.dirname(os.path.abspath(__file__))
ROOT = os.path.join(HERE, '..', '..', 'crates', 'answers')
EXPECT = os.path.join(HERE, '..', 'target', 'release', 'expect')
CASES = os.path.join(HERE, '..', 'target', 'release', 'cases')


def runs(data):
    """Hex, with long runs of one byte as xCOUNT:HH parts."""
    if not data:
        return '-'
    parts, plain, i = [], '', 0
    while i < len(data):
        j = i
        while j < len(data) and data[j] == data[i]:
            j += 1
        if j - i >= 200:
            if plain:
                parts.append(plain)
            parts.append('x%d:%02X' % (j - i, data[i]))
            plain = ''
        else:
            plain += data[i:j].hex().upper()
        i = j
    if plain:
        parts.append(plain)
    return '+'.join(parts)


def shown(data):
    """A deck in a comment: a bar for hex 0A, other bytes outside 20 to 7E as <HH>."""
    out = ''
    for b in data:
        out += '|' if b == 10 else chr(b) if 0x20 <= b <= 0x7E else '<%02X>' % b
    return out if out else '(nothing)'


def with_column(number, place):
    """A refusal and its place with the column behind: 0, or `?` where 3, 4 or 7 has one that is not worked by hand here."""
    return '%s %s %s' % (number, place, '?' if str(number) in ('3', '4', '7') else '0')


def kept(*names):
    """The cases, each without its name, of drawn files that are there already. What reels were drawn depends on the answers, so a case that was drawn once stays: a
    change of the rules is then seen in the answers. Without the files there are none."""
    paths = [os.path.join(ROOT, 'data', name) for name in names]
    return [line.rstrip('\n').split(' ', 1)[1] for path in paths if os.path.exists(path) for line in open(path) if line[0] != '#']


class File:
    def __init__(self, name, head):
        self.name, self.lines, self.hand, self.names = name, ['# ' + h for h in head], [], set()

    def note(self, text):
        for line in text.split('\n'):
            self.lines.append('# ' + line)

    def case(self, name, rest, expected, why=None):
        assert name not in self.names and ' ' not in name, name
        self.names.add(name)
        words = expected.split() if expected else []
        refused = len(words) in (2, 3) and words[0] != '0'
        if why:
            if refused:
                why += ': %s at %s' % tuple(words[:2])
                why += ', column %s' % words[2] if words[2:] not in ([], ['0']) else ''
            self.note(why)
        if refused and len(words) == 2:
            expected = with_column(*words)
        self.lines.append(name + ' ' + rest)
        self.hand.append((name, expected))

    def agrees(self, expected, answer):
        """Whether the answer is what was worked by hand; two dots at its end stand for any rest, `?` for any column from 1, and `0 0` for any answer that is no refusal."""
        if expected == '0 0':
            return answer.startswith('0 0 0 ')
        if '?' in expected:
            column = answer.split()[2]
            return column != '0' and self.agrees(expected.replace('?', column), answer)
        if expected.endswith(' ..'):
            return answer.startswith(expected[:-2])
        return answer == expected

    def write(self):
        path = os.path.join(ROOT, 'data', self.name)
        os.makedirs(os.path.dirname(path), exist_ok=True)
        with open(path, 'w') as f:
            f.write('\n'.join(self.lines) + '\n')
        got = subprocess.run([EXPECT, path], capture_output=True, text=True)
        if got.returncode:
            print(self.name, got.stderr)
            raise SystemExit(1)
        lines = got.stdout.split('\n')[:-1]
        assert len(lines) == len(self.hand), (self.name, len(lines), len(self.hand))
        self.differ = 0
        for line, (name, expected) in zip(lines, self.hand):
            answer = line[len(name) + 1:]
            assert line.startswith(name + ' ')
            if expected is not None and not self.agrees(expected, answer):
                self.differ += 1
                print('%s: %s: by hand %s, reference %s' % (self.name, name, expected, answer[:100]))
        longest = max(len(l) for l in self.lines)
        print('%-18s %4d cases, %6d bytes, longest line %d, %d differ' % (self.name, len(lines), os.path.getsize(path), longest, self.differ))
        assert os.path.getsize(path) < 262144, 'the program reads a file whole'
        return lines


def deck_case(file, name, deck, expected, why):
    if isinstance(deck, str):
        deck = deck.encode('latin-1')
    if len(deck) <= 260:
        text = shown(deck) + '\n' + why
    else:
        text = why
    file.case(name, 'deck ' + runs(deck), expected, text)
