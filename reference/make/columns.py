"""Columns of refusals 3, 4 and 7 (document 02, order 1). A caret in a deck marks the byte that is worked by hand to be the column; it is no byte of the deck."""
from common import *
from decks import HEAD, READ, U

END = '\n// END\n'
GOOD = 'TC,FU,A=(5),B=(5)'


class Columns(File):
    def at(self, name, number, deck, why, place=None, column=None):
        """A deck refused at its caret; place and column are said too where document 02 or a reading of it names them."""
        before, behind = deck.split('^')
        line = before.split('\n')
        found = (len(line), len(line[-1]) + 1)
        assert (place, column) in (found, (None, None)), (name, found)
        deck_case(self, 'column-' + name, before + behind, '%d %d %d' % ((number,) + found), why)

    def u(self, name, number, operand, why, column=None):
        self.at(name, number, '// U ' + operand + END, why, None if column is None else 1, column)

    def fs(self, name, number, operand, why, column=None):
        self.at(name, number, U + '\n// FS ' + operand + END, why, None if column is None else 2, column)

    def none(self, name, deck, expected, why):
        """A deck whose answer has column 0."""
        deck_case(self, 'column-' + name, deck, expected, why)

    def each(self, name, operand_of, number, operands, why):
        for i, operand in enumerate(operands):
            operand_of('%s-%d' % (name, i + 1), number, operand, why)


def examples(f):
    f.note('Refusal 3: the first column at which no continuation of the operand could be right by its grammar; limits and doubles play no part')
    f.u('x-behind-r', 3, 'R99999^x', 'R99999 is over its limit, which is 7; x is the byte that no operand goes on with', 12)
    f.u('x-behind-doubled', 3, 'TC,TC,^x', 'TC stands twice, which is 4; x is the byte', 12)
    f.u('trff', 3, 'TRF^F', 'the second F', 9)
    f.u('trx', 3, 'TR^X', 'TR is whole, and TRF goes on with F', 8)
    f.u('a-of-three', 3, 'A=(1,2^,3)', 'the second comma', 12)
    f.u('r-of-six', 3, 'R12345^6', 'the sixth digit', 12)
    f.u('ix', 3, 'I^X', 'the X', 7)
    f.note('Columns count from the first byte of the card')
    f.at('empty-u', 3, '// U ^' + END, 'nothing behind the name', 1, 6)
    f.at('empty-utt', 3, '// UTT ^' + END, 'nothing behind the name', 1, 8)
    f.at('empty-fs', 3, U + '\n// FS ^' + END, 'nothing behind the name', 2, 7)
    f.at('two-blanks-u', 3, '// U ^ TC' + END, 'the operand is empty', 1, 6)
    f.at('two-blanks-utt', 3, '// UTT ^ TC' + END, 'the operand is empty', 1, 8)
    f.at('two-blanks-fs', 3, U + '\n// FS ^ CV' + END, 'the operand is empty', 2, 7)
    f.at('blank-behind-comma', 3, '// U TC,^ FU' + END, 'the operand is TC and a comma', 1, 9)
    f.at('utt-shifts', 3, '// UTT TC,^x' + END, 'two columns more than behind `// U `', 1, 11)
    f.note('Forms that document 01 does not have; keyed input came with order 5 of document 02, FS with order 6, and nothing else of them')
    f.none('a-keyed', '// U A=(K=1,D=2)' + END, '5 1 0', 'it is read; T, F and B are missing')
    f.u('a-keyed-short', 3, 'A=(K=1,^2)', 'the 2, where D belongs', 13)
    f.u('b-keyed', 3, 'TC,B=(^K=1,D=2)', 'the K', 12)
    f.none('fs-format', '// U TR,FS,A=(9),B=(9)' + END, '0 0 0 TR FS A=9 B=9 R=1 fs=0 cv=0 0', 'it is read')
    f.none('keyed-r', U + '\n// FS (K,1),1,1' + END, '0 0 0 TC FU A=5 B=5 R=1 fs=1 cv=0 1 C:past,1,1,1@2', 'it is read')
    f.fs('keyed-t', 3, '1,1,^(K,1)', 'the bracket', 11)
    f.fs('keyed-t-of-pack', 3, '1,(P,2,2),^(K,1)', 'the bracket', 17)
    f.each('of-001', f.u, 3, ['TC,^E=(2311)', 'TC,^S1', 'T^LF', 'O^Y'], 'no such parameter')


def ends(f):
    f.note('One past the end where an operand stops short, in column 81 too')
    at_80 = 'it stops short at byte 80'
    f.u('81-of-u', 3, 'IR,' * 25 + '^', at_80 + ', behind a comma', 81)
    f.at('81-of-utt', 3, '// UTT ' + 'TC,' * 24 + 'A^' + END, at_80 + ', inside a parameter', 1, 81)
    f.fs('81-of-fs', 3, '1,1,1/' * 12 + '1,^', at_80 + ', inside an item', 81)
    f.fs('81-behind-slash', 3, '1,(P,2,2),01/' * 5 + '01,2,003/^', at_80 + ', behind a slash', 81)
    f.fs('80-of-1', 3, 'CV/' * 24 + '1^', 'it stops short at byte 79', 80)
    f.u('80-of-u', 3, 'IR,' * 24 + 'IR^.', 'the byte 80 itself', 80)
    f.fs('80-of-fs', 3, '1,1,1/' * 12 + 'C^X', 'the byte 80 itself', 80)
    f.fs('79-of-fs', 3, '1,1,1/' * 12 + '^X,', 'byte 79', 79)
    f.note('Each beginning of a parameter, where the operand ends')
    cuts = ['T', 'F', 'A', 'A=', 'A=(', 'A=(5', 'A=(00005', 'A=(5,', 'A=(5,6', 'B', 'B=', 'B=(', 'B=(5', 'B=(5,', 'B=(5,12345', 'I', 'O', 'R']
    f.each('short', f.u, 3, [cut + '^' for cut in cuts], 'it stops short')
    f.each('short-last', f.u, 3, [GOOD + ',' + cut + '^ COMMENT' for cut in ('A=(5,', '')], 'it stops short before the comment')
    f.note('Each beginning of an item, where the operand ends')
    cuts = ['1', '12345', '1,', '1,1', '1,1,', 'C', '1,(', '1,(U', '1,(U,2,']
    cuts += ['1,(P' + rest for rest in ('', ',', ',2', ',2,', ',2,2', ',2,2)', ',2,2),')]
    f.each('short-item', f.fs, 3, [cut + '^' for cut in cuts], 'it stops short')
    f.each('short-item-last', f.fs, 3, ['1,1,1/' + cut + '^ /CV' for cut in ('', '1,1')], 'it stops short before the comment')


def wrong_parameters(f):
    f.note('Each beginning of a parameter, and a byte that it does not go on with')
    wrong = ['T^,FU', 'T^c', 'TC^FU', 'TC^/FU', 'TF^R', 'TRF^R1', 'TR^R1', 'F^,TC', 'F^X', 'FF^F', 'FV^1', 'FU^)',
             'A^,TC', 'A^(5)', 'A=^5', 'A=^)', 'A=(^,5)', 'A=(^)', 'A=(^-5)', 'A=(5^;6)', 'A=(5^(', 'A=(5,^)', 'A=(5,^,6)', 'A=(5,^TC', 'A=(5,6^,TC', 'A=(5)^)', 'A=(5)^B=(5)', 'A=(5,6),^,TC', 'A=(5,6)^7',
             'B^(5)', 'B=^5', 'B=(^)', 'B=(5^;', 'B=(5,^)', 'B=(5,6^,', 'B=(5)^A=(5)',
             'I^,TC', 'IR^N', 'IN^1', 'IU^U', 'O^X', 'OR^1', 'ON^N', 'OU^T', 'R^,TC', 'R^=1', 'R^-1', 'R^R1', 'R1^.', 'R1^A']
    f.each('wrong', f.u, 3, wrong, 'no parameter goes on so')
    f.note('A byte that no parameter begins with')
    f.each('no-letter', f.u, 3, ['^,TC', '^/TC', '^tc', '^(5)', '^CV', '^1,1,1', 'TC,^,FU', GOOD + ',^XX,YY'], 'no parameter begins so')
    f.note('The sixth digit of a number, wherever the number stands')
    six = ['A=(12345^6)', 'A=(00000^5,1)', 'B=(99999^9)', 'B=(1,00000^1', 'R00000^1', GOOD + ',R18446^744073709551617']
    f.each('six-digits', f.u, 3, six, 'a sixth digit')


def wrong_items(f):
    f.note('Each beginning of an item, and a byte that it does not go on with')
    wrong = ['1^;1', '1^/1,1,1', '1^(P,2,2),1', '1,^,1', '1,^P', '1,^/', '1,1^/1', '1,1^(', '1,1,^X', '1,1,^,1', '1,1,^/', '1,1,1^,1', '1,1,1^CV', 'C^v', 'C^/', 'CV^V', 'CV^,1',
             '1,(^X,2),1', '1,(^2,2),1', '1,(^p', '1,(^)', '1,(P^2', '1,(P^)', '1,(P,^)', '1,(P,^,2)', '1,(P,2^)', '1,(P,2^/', '1,(P,2,^)', '1,(P,2,2^,2)', '1,(P,2,2^/CV', '1,(P,2,2)^1', '1,(P,2,2)^/',
             '1,(P,2,2),^/', '1,(P,2,2),1^,', '1,(U^U', '1,(U,^X', '1,(U,2^)', '1,(U,2,^,', '1,(U,2,2^;1', '1,(U,3,5)^1', '1,(U,2,2),^(', '1,(U,2,2),1^)']
    f.each('wrong-item', f.fs, 3, wrong, 'no item goes on so')
    f.note('A byte that no item begins with, and empty items')
    begins = ['^/1,1,1', '^,1,1', '^V', '(^P,2,2),1', '^TC', '1,2,3/^', '1,1,1/^/1,1,1', 'CV/^', '1,2,3/4,5,6/^A=(5)', 'CV/1,(P,2,2),1/^V']
    f.each('no-item', f.fs, 3, begins, 'no item begins so')
    six = ['12345^6,1,1', '1,12345^6,1', '1,1,00000^1/CV', '1,(P,12345^6,2),1', '1,(U,2,00000^2),1', '1,(P,2,2),00000^1']
    f.each('six-digits-item', f.fs, 3, six, 'a sixth digit')
    f.each('blank-in-item', f.fs, 3, ['1,1,^ 1', '1,(P,^ 2,2),1', '1,1,1/^ CV', 'C^ V'], 'the operand ends at the blank')


def first_of_many(f):
    f.note('Several faults: the first card, and on it the first column')
    f.u('two-faults', 3, 'TC,^X,Y,A=(', 'the first on the card')
    f.fs('two-faults-fs', 3, '1,1^/CV/X', 'the first on the card')
    f.u('comment', 3, 'TC,F^ ,,X', 'the comment is never looked at')
    f.at('cards-2-and-3', 3, U + '\n// FS 1,1,1/1,1,1/1,1,1^X\n// FS X' + END, 'the first card, though card 3 is wrong in a lower column')
    f.at('cards-1-and-2', 3, '// UTT ' + GOOD + '^X\n// FS X' + END, 'the first card')
    f.at('card-4', 3, U + '\n// FS CV\n// FS CV\n// FS 1,1,1/^X' + END, 'CV twice is 4')
    f.at('3-before-4-and-7', 3, '// U TC,TC,A=(0)\n// FS 0,0,0/^' + END, 'card 2 is 3; the U card has 4, 5 and 7')
    f.u('3-behind-4', 3, 'TC,TC^X', 'the byte behind the second TC')
    f.u('3-behind-7', 3, 'A=(99999,0)^X', 'the byte behind numbers outside their limits')
    f.note('All other answers have column 0')
    f.none('of-0', '// U ' + GOOD + END, READ, 'a deck that is read')
    f.none('of-1', '// U ' + GOOD + '\n// FSX CV' + END, '1 2 0', 'no card')
    f.none('of-2', '// U TC,x\n// U x' + END, '2 2 0', 'a second U')
    f.none('of-2-no-end', '// U TC,x\n', '2 2 0', 'no END')
    f.none('of-5', '// U FU,A=(0),B=(5),R0' + END, '5 1 0', 'T is missing')
    f.none('of-6', U + '\n' + ('// FS ' + '/'.join(['0,1,1'] * 5) + '\n') * 13 + '// END\n', '6 14 0', 'the 65th field, on card 14, and every r is 0')


def doubles(f):
    f.note('Refusal 4: the first byte of the second parameter of a kind')
    f.each('twice', f.u, 4, [GOOD + ',^' + again for again in ('TC', 'TRF', 'FV', 'A=(1,2)', 'B=(0)')], 'the second')
    f.each('twice-more', f.u, 4, [GOOD + ',' + again for again in ('IR,^IU', 'OR,R1,^OU')], 'the second')
    f.u('twice-r', 4, GOOD + ',R1,^R1', 'the R and not its digit', 27)
    f.u('twice-first', 4, 'TC,^TC', 'F, A and B are missing, which is 5', 9)
    f.u('twice-numbers', 4, 'A=(12345,00001),B=(1,2),^A=(1),TC,FF', 'commas inside brackets part no parameters', 30)
    f.at('twice-utt', 4, '// UTT ' + GOOD + ',^FF COMMENT,TC' + END, 'behind `// UTT `', 1, 26)
    f.note('Several doubled kinds: the lowest column; a third plays no part')
    f.u('kinds-f-and-t', 4, 'TC,FF,^FF,TR,A=(1,1),B=(1,1)', 'the second F stands before the second T', 12)
    f.u('kinds-nested', 4, 'TC,FF,R1,^R2,FV,TR', 'the second R stands before the second F and T', 15)
    f.u('kinds-apart', 4, 'IR,OR,A=(1),B=(2),^B=(3),A=(4),ON,IN', 'the second B', 24)
    f.u('thrice', 4, 'TC,FU,^TC,TC,TC', 'the second of four', 12)
    f.u('thrice-and-twice', 4, 'A=(1),^A=(2),TC,A=(3),TC', 'the second A', 12)
    f.u('twice-and-limit', 4, 'R0,^R99999,' + GOOD, '4 before 7')
    f.note('The second CV, on its own card')
    cards = lambda *fs: U + '\n' + ''.join('// FS %s\n' % x for x in fs) + '// END\n'
    f.at('cv-on-one', 4, cards('CV/^CV'), 'both on card 2', 2, 10)
    f.at('cv-apart', 4, cards('1,1,1', 'CV/1,(P,2,2),1/^CV'), 'both on card 3', 3, 22)
    f.at('cv-on-two', 4, cards('CV', '1,1,1/^CV'), 'on cards 2 and 3', 3, 13)
    f.at('cv-first-of-card', 4, cards('1,1,1/1,1,1/CV', '1,1,1', '^CV'), 'on cards 2 and 4', 4, 7)
    f.at('cv-thrice', 4, cards('CV', '^CV/CV'), 'the second of three', 3, 7)
    f.at('cv-thrice-on-one', 4, cards('CV/1,1,1/^CV/CV', 'CV'), 'the second of four', 2, 16)
    f.at('cv-25-times', 4, cards('CV/^CV' + '/CV' * 23), 'the second of 25', 2, 10)
    f.at('cv-and-limit', 4, cards('0,0,0/CV', '1,1,1/00000,0,0/^CV'), '4 on card 3 before 7 on card 2', 3, 23)
    f.at('cv-and-u', 4, '// U TC,FU,A=(5),^TC,B=(5)\n// FS CV/CV' + END, 'the U card\'s', 1, 18)
    f.at('cv-and-u-missing', 4, '// U TC\n// FS CV\n// FS ^CV' + END, 'CV twice before F, A and B missing', 3, 7)


def limits_of_u(f):
    f.note('Refusal 7: the first digit of the number, leading zeros among its digits')
    f.u('a-zeros', 7, 'A=(^00000,1),TC,FF,B=(1,1)', 'the first of five zeros', 9)
    f.u('b-before-a', 7, 'B=(^0,1),A=(0,1),TC,FF', 'B stands before A', 9)
    two = ['TC,FF,A=(^0,5),B=(5,5)', 'TC,FF,A=(^04097,1),B=(0,0)', 'TC,FF,A=(4096,^32761),B=(1,1)', 'TC,FF,A=(04096,^00000),B=(1,1)', 'TC,FF,A=(5,5),B=(^99999,99999)', 'TC,FF,A=(5,5),B=(5,^0)',
           'TC,FU,A=(^5000,1),B=(1)', 'TF,FV,A=(1,8),B=(^0,8)']
    f.each('two-numbers', f.u, 7, two, 'of two numbers')
    one = ['TC,FU,A=(^0),B=(5)', 'TC,FU,A=(^32761),B=(32761)', 'TC,FU,A=(5),B=(^00000)', 'TC,FU,A=(32760),B=(^32761)']
    f.each('one-number', f.u, 7, one, 'of a single number')
    f.note('A single number is at least 9 in FV, wherever F stands')
    least = ['TC,FV,A=(^8),B=(8)', 'A=(^8),B=(8),TC,FV', 'A=(^00008),FV,B=(9),TC', 'TC,FV,A=(9),B=(^8)', 'B=(^8),A=(8),FV,TC', 'B=(9),A=(^1),TF,FV', 'FV,TC,R^0,A=(8),B=(8)', 'TR,FV,A=(9),B=(^00000)']
    f.each('least-9', f.u, 7, least, 'below 9, or before such a number')
    f.u('least-8-in-fu', 7, 'TC,FU,A=(8),B=(8),R^0', '8 is right in FU')
    f.u('least-8-of-two', 7, 'TF,FV,A=(8,8),B=(8,8),R^65537', '8 is right as one of two')
    f.note('R, and the leftmost of several')
    f.each('of-r', f.u, 7, [GOOD + ',R^65537', GOOD + ',R^00000', 'R^0,' + GOOD, 'R^65537,TC,FU,A=(0),B=(0)', 'TC,R00001,FU,B=(^0),A=(0)'], 'R, or before it')
    f.each('leftmost', f.u, 7, ['TC,FU,A=(^0),B=(0),R0', 'B=(5),R^0,A=(0),FU,TC', 'TC,FF,B=(1,^0),A=(0,0)', 'R1,TC,FF,B=(4096,32760),A=(4096,^32761)'], 'the leftmost on the card')
    f.at('limit-utt', 7, '// UTT TC,FU,A=(^0),B=(5)' + END, 'behind `// UTT `', 1, 17)


def limits_of_fs(f):
    f.note('r, s and t, and the sizes of pack and unpack')
    copies = ['^4097,1,1', '^00000,0,0', '1,^0,1', '1,^99999,0', '4096,4096,^4097', '1,17,^0']
    f.each('copy', f.fs, 7, copies, 'of a copy')
    for step, name in (('P', 'pack'), ('U', 'unpack')):
        sizes = ['^04097,(%s,0,0),0', '1,(%s,^0,1),1', '1,(%s,^00017,17),0', '4096,(%s,16,^17),1', '1,(%s,00016,^00000),1', '1,(%s,16,16),^0']
        f.each(name, f.fs, 7, [size % step for size in sizes], 'of a field that is packed or unpacked')
    f.note('The first card with such a number, and the leftmost on it')
    f.fs('second-item', 7, '1,1,1/CV/1,^0,0/0,1,1', 'the third item', 18)
    f.at('second-card', 7, U + '\n// FS 1,1,1\n// FS 16,16,16/4096,(P,16,16),^4097' + END, 'card 3', 3, 31)
    f.at('two-bad-cards', 7, U + '\n// FS 1,1,1/1,1,1/1,1,^0\n// FS 0,1,1' + END, 'the first card, though card 3 has one in a lower column', 2, 23)
    f.at('u-and-fs', 7, '// U ' + GOOD + ',R^0\n// FS 0,1,1' + END, 'the U card', 1, 25)
    f.at('behind-cv', 7, U + '\n// FS 1,1,1\n// FS CV/1,(U,1,^17),1' + END, 'behind CV', 3, 17)


def make():
    f = Columns('columns.txt', HEAD + [
        'This file: the columns of refusals 3, 4 and 7 (document 02, order 1): for 3 the first at which no continuation of the operand could be right, one past its end where it stops',
        'short; for 4 the first byte of the second; for 7 the first digit. They count from 1 on the card.',
    ])
    for group in (examples, ends, wrong_parameters, wrong_items, first_of_many, doubles, limits_of_u, limits_of_fs):
        group(f)
    return f
