"""A file with cases of all subjects, for what reaches from the cards to the output. All answers are worked by hand; a caret in a deck marks the column."""
from common import *
from lent import *
from reels import reel

END = '\n// END\n'


class Mixed(Plans, Outputs):
    def __init__(self, name, prefix, head):
        super().__init__(name, head)
        self.prefix = prefix + '-'

    def agrees(self, expected, answer):
        return answer == expected

    def at(self, name, number, deck, why, column=None):
        """A deck refused at its caret; the column is said too where document 02 or a reading of it names it."""
        before, behind = deck.split('^')
        line = before.split('\n')
        found = len(line[-1]) + 1
        assert column in (None, found), (name, found)
        deck_case(self, self.prefix + name, before + behind, '%d %d %d' % (number, len(line), found), why)

    def each(self, name, number, before, operands, why):
        for i, operand in enumerate(operands):
            self.at('%s-%d' % (name, i + 1), number, before + operand + END, why)

    def read(self, name, deck, expected, why):
        deck_case(self, self.prefix + name, deck, expected, why)

    def reel(self, name, text, input_reel, expected, why):
        self.case(self.prefix + 'reel-' + name, 'reel %s %s' % (runs(text.encode()), runs(input_reel)), expected, why)

    def refused_plan(self, name, text, number, place, why, column=0, entries=None):
        self.plan(self.prefix + name, text, '%d %d %d 0 0 0' % (number, place, column), why, entries)

    def wrote(self, name, text, input_reel, blocks, records, why, room=None):
        """A run that writes these blocks; the room is exact where none is given."""
        written_reel = reel(*blocks)
        answer = '0 0 0 %d %d %d %s' % (len(written_reel), records, len(blocks), written(written_reel))
        self.run(name, text, input_reel, len(written_reel) if room is None else room, answer, why)

    def refused_run(self, name, text, input_reel, number, place, why, room=70000, column=0):
        answer = '%d %d %d 0 0 0 %d -' % (number, place, column, NOTHING_WRITTEN)
        self.run(name, text, input_reel, room, answer, why + ': %d at %d' % (number, place))

    def run(self, name, text, input_reel, room, answer, why):
        self.say(text)
        self.case(self.prefix + 'run-' + name, 'run %s %s %d' % (runs(text.encode('latin-1')), runs(input_reel), room), answer, why)

    def pair(self, name, text, reason, one, other, why, room=None):
        both = one + other
        answer = '0 0 0 %d %d %s' % (reason, len(both), written(both))
        self.twins(name, text, len(both) if room is None else room, answer, '%s: %s' % (why, REASONS[reason]))

    def refused_twins(self, name, text, number, place, why, room=70000, column=0):
        answer = '%d %d %d 0 0 %d -' % (number, place, column, NOTHING_WRITTEN)
        self.twins(name, text, room, answer, why + ': %d at %d' % (number, place))

    def twins(self, name, text, room, answer, why):
        self.say(text)
        self.case(self.prefix + 'twins-' + name, 'twins %s %d' % (runs(text.encode('latin-1')), room), answer, why)
