"""Spanned records (document 02, order 6): decks, plans, reels, runs and twins of format FS. All numbers, columns and bytes are worked by hand."""
from decks import U
from itertools import product
from mixed import *
from reels import block, data, length_word
from runs import EMPTY, h
import re

HEAD = [
    'Spanned records (document 02, order 6), format FS. The cases are those of all subjects: NAME deck DECK, NAME plan DECK ENTRIES, NAME reel DECK REEL, NAME run DECK REEL ROOM,',
    'NAME twins DECK ROOM, and their lines are as in the other files. Records are counted, and not segments; the lengths of a reel are those of the records\' data, the segments\' joined.',
    'In comments a bar stands for hex 0A; a block is told by its segments, W whole, F first, M middle, L last, with the length of each one\'s data, and blocks have a blank between.',
]
W, F, L, M = range(4)
LETTERS = 'WFLM'


def segment(code, datum, fourth=0):
    return (len(datum) + 4).to_bytes(2, 'big') + bytes([code, fourth]) + datum


def span(*segments):
    """A block of segments, each a code and its data."""
    body = b''.join(segment(*s) for s in segments)
    return length_word(len(body) + 4) + body


def spans(text, rest):
    """Blocks told as in the comments, as `F8 M8 L4W3`, filled with data from the left."""
    blocks = []
    for word in text.split():
        segments = []
        for part in re.findall(r'[WFLM]\d+', word):
            length = int(part[1:])
            segments.append((LETTERS.index(part[0]), rest[:length]))
            rest = rest[length:]
        assert ''.join(LETTERS[c] + str(len(d)) for c, d in segments) == word, (text, word)
        blocks.append(span(*segments))
    assert rest == b'', (text, len(rest))
    return blocks


def tc(g):
    return deck('TC,FS,A=(%d),B=(%d)' % (g, g))


def tr(a, b, r=''):
    return deck('TR,FS,A=(%d),B=(%d)%s' % (a, b, r))


def rising(n):
    return bytes(i % 251 for i in range(1, n + 1))


def told_length(said):
    return sum(int(n) for n in re.findall(r'\d+', said))


def of(said):
    """Blocks told as in the comments, their data rising."""
    return spans(said, rising(told_length(said)))


def long(said):
    """The same with data that changes every 1,000 bytes."""
    return spans(said, bytes(0xC1 + i // 1000 % 9 for i in range(told_length(said))))


def reads(f):
    f.note('FS is a format, in every function; refusals 8 to 10 are not asked of a deck alone')
    f.read('read-tc', '// U TC,FS,A=(9),B=(9)' + END, '0 0 0 TC FS A=9 B=9 R=1 fs=0 cv=0 0', 'TC')
    f.read('read-tr', '// UTT B=(32760),R00002,FS,A=(00009),TR,IN,OR' + END, '0 0 0 TR FS A=9 B=32760 R=2 fs=0 cv=0 0', 'TR, in another order, with leading zeros')
    f.read('read-tf', '// U TF,FS,A=(9),B=(9)\n// FS 1,1,1/CV' + END, '0 0 0 TF FS A=9 B=9 R=1 fs=1 cv=2 1 C:1,1,1,1@2', 'TF')
    f.read('read-trf', '// U TRF,FS,A=(1,1),B=(1,1)' + END, '0 0 0 TRF FS A=1,1 B=1,1 R=1 fs=0 cv=0 0', 'TRF and two numbers each')
    f.read('read-keyed', '// U TR,FS,A=(K=1,D=2),B=(9)' + END, '0 0 0 TR FS A=K=1,D=2 B=9 R=1 fs=0 cv=0 0', 'a keyed A')
    f.note('Refusal 3')
    f.each('wrong', 3, '// U ', ['F^X', 'F^s', '^fS', 'FS^S', 'FS^F', 'FS^1', 'FS^=1', 'FS^(', 'FS^/TR', 'F^,TR', 'TR,F^', 'TR,FS,^', 'TR,FS^A=(9)', 'TR,^S', 'TR,^SF', 'TRF^S', 'TR,FS,A=(9^', 'FS,^ TR'], 'no operand goes on so')
    f.at('wrong-item', 3, U + '\n// FS ^FS' + END, 'on an FS card it is no item', 7)
    f.at('wrong-item-behind', 3, U + '\n// FS CV/^FS' + END, 'nor behind one')
    f.note('Refusals 4 and 5')
    f.each('twice', 4, '// U ', ['FF,^FS,TR,A=(9),B=(9)', 'FS,^FF', 'FS,^FS', 'TR,FS,A=(0),^FV,FS', 'FU,TC,^FS,A=(8),B=(8)'], 'the second F')
    f.read('5-a', '// U TR,FS,B=(8)' + END, '5 1 0', 'A is missing: 5 before 7')
    f.read('5-b', '// U TR,FS,A=(9)' + END, '5 1 0', 'B is missing')
    f.read('5-t', '// U FS,A=(9),B=(9)' + END, '5 1 0', 'T is missing')
    f.read('5-f', '// U TR,A=(9),B=(9)\n// FS 1,1,1' + END, '5 1 0', 'F is missing: an FS card is no FS')
    f.read('5-alone', '// U FS' + END, '5 1 0', 'FS alone')


def limits(f):
    f.note('Refusal 7: a single number is 9 to 32,760, whatever T is; two numbers have the limits of two')
    u = ['TC,FS,A=(^8),B=(8)', 'TR,FS,A=(^8),B=(9)', 'TR,FS,A=(9),B=(^8)', 'TR,FS,A=(^0),B=(0)', 'TR,FS,A=(^00008),B=(9)', 'TR,FS,A=(^1),B=(9)', 'TR,FS,A=(^32761),B=(9)', 'TR,FS,A=(9),B=(^32761)', 'TC,FS,A=(^99999),B=(9)', 'TF,FS,A=(^8),B=(9)',
         'TRF,FS,A=(9),B=(^8)', 'B=(^8),A=(8),TR,FS', 'A=(9),B=(9),TR,FS,R^0', 'TC,FS,A=(9),B=(9),R^65537', 'TR,FS,A=(^4097,9),B=(9)', 'TR,FS,A=(^0,9),B=(8)', 'TR,FS,A=(8,^32761),B=(8)', 'TR,FS,A=(8,8),B=(^8)', 'TR,FS,A=(9),B=(1,^0)',
         'TR,FS,A=(K=^0,D=1),B=(9)', 'TR,FS,A=(K=1,D=^4096),B=(8)']
    f.each('limit', 7, '// U ', u, 'of one number, or of two')
    for number, (a, b) in enumerate([('9', '9'), ('10', '32760'), ('32760', '9'), ('1,1', '9'), ('4096,32760', '1,1')]):
        f.read('limit-read-%d' % (number + 1), '// U TR,FS,A=(%s),B=(%s)' % (a, b) + END, '0 0 0 TR FS A=%s B=%s R=1 fs=0 cv=0 0' % (a, b), 'inside')
    f.each('limit-item', 7, '// U TR,FS,A=(9),B=(9)\n// FS ', ['^0,1,1', '1,(P,^17,1),1'], 'on an FS card, before 8')
    f.refused_plan('limit-plan', deck('TF,FS,A=(8),B=(9)'), 7, 1, '7 before 8: it asks F alone', 15)
    f.refused_plan('limit-plan-two', deck('TR,FS,A=(4097,1),B=(9)'), 7, 1, '7 before 8', 15)
    f.refused_plan('limit-plan-card', deck('TF,FS,A=(9),B=(9)', '1,1,1', '1,1,0'), 7, 3, '7 on card 3 before 8 on card 1', 11)


def combinations(f):
    f.note('Refusal 8 at 1: only TC and TR, one number each; TC with A equal to B and R1; no keys')
    t = lambda name, place, why, u, *fs: f.refused_plan('8-' + name, deck(u, *fs), 8, place, why)
    for mode in ('TC', 'TF', 'TR', 'TRF'):
        for a, b in ((1, 1), (1, 2), (2, 1), (2, 2)):
            for tag, fs in (('', []), ('-fs', ['1,4,1']), ('-cv', ['CV'])):
                words = '%s,FS,A=(%s),B=(%s)' % (mode, {1: '20', 2: '4,20'}[a], {1: '20', 2: '4,20'}[b])
                place = 1 if 'F' in mode or (a, b) != (1, 1) else 2 if fs else 0
                if place:
                    t('%s-%d-%d%s' % (mode.lower(), a, b, tag), place, 'A has %d, B has %d' % (a, b), words, *fs)
                else:
                    f.plan('span-8-%s-%d-%d%s' % (mode.lower(), a, b, tag), deck(words), '0 0 0 1 0 0', 'A has %d, B has %d' % (a, b))
    t('tc-unequal', 1, 'TC and A other than B', 'TC,FS,A=(9),B=(10)')
    t('tc-unequal-less', 1, 'TC and A other than B', 'TC,FS,A=(32760),B=(9)')
    t('tc-r2', 1, 'TC and R2', 'TC,FS,A=(9),B=(9),R2')
    t('tc-r65536', 1, 'TC and R65536', 'TC,FS,A=(9),B=(9),R65536')
    t('tc-r2-fs', 1, 'TC, R2 and an FS card', 'TC,FS,A=(9),B=(9),R2', '1,1,1')
    t('two-of-one', 1, 'two numbers that would do for FV', 'TR,FS,A=(1,9),B=(1,9)')
    t('two-small', 1, 'two numbers under 9', 'TR,FS,A=(1,1),B=(9)')
    t('keyed', 1, 'a keyed A', 'TR,FS,A=(K=1,D=8),B=(9)')
    t('keyed-tf', 1, 'a keyed A with TF', 'TF,FS,A=(K=1,D=8),B=(9,9)', '(K,1),1,1')
    t('keyed-tc', 1, 'a keyed A with TC', 'TC,FS,A=(K=1,D=8),B=(9)')
    f.note('Refusal 8 at 2: an FS card in TC or TR')
    t('tr-fs-2', 2, 'two FS cards', 'TR,FS,A=(9),B=(10)', '1,1,1', 'CV')
    t('tc-fs-key', 2, 'a field of a key on card 3', 'TC,FS,A=(9),B=(9)', '1,1,1', '(K,1),1,1')
    t('tr-fs-outside', 2, 'a field outside its records is 9', 'TR,FS,A=(9),B=(9)', '4096,4096,4096')
    f.note('Plans of FS keep, and have no field; twins are refused by 16')
    for name, text in (('tc', tc(9)), ('tr', tr(9, 10)), ('tr-r', tr(32760, 9, ',R65536')), ('tr-equal', tr(32760, 32760)), ('tc-r1', deck('TC,FS,A=(10),B=(00010),R1')), ('utt', tr(9, 9).replace('// U ', '// UTT '))):
        for entries in (None, 0, 64):
            f.plan('span-plan-%s-%s' % (name, 'none' if entries is None else entries), text, '0 0 0 1 0 0', 'no table' if entries is None else 'a table of %d' % entries, entries)
        for room in (0, 70000):
            f.refused_twins('%s-%d' % (name, room), text, 16, 0, 'it keeps, and a room of %d' % room, room)
    f.refused_plan('table-8', deck('TF,FS,A=(9),B=(9)', '1,1,1'), 8, 1, 'no entry changes', entries=70)
    f.refused_twins('refused-3', '// U TR,FSS,A=(9),B=(9)' + END, 3, 1, 'no such format', column=11)
    f.refused_twins('refused-4', deck('TR,FV,FS,A=(9),B=(9)'), 4, 1, 'the second F', column=12)
    f.refused_twins('refused-5', deck('TR,FS,A=(9)'), 5, 1, 'B is missing')
    f.refused_twins('refused-7', deck('TR,FS,A=(9),B=(8)'), 7, 1, 'B of 8', column=21)
    f.refused_twins('refused-8', deck('TRF,FS,A=(9),B=(9)', '1,1,1'), 8, 1, 'FS with TRF', 0)
    f.refused_twins('refused-8-fs', deck('TR,FS,A=(9),B=(9)', '1,1,1'), 8, 2, 'an FS card in TR', 0)


def fault(codes):
    """The first segment that is out of turn, from 0; the last where a record is unfinished; none where all is right."""
    is_open = False
    for i, code in enumerate(codes):
        if is_open != (code in (M, L)):
            return i
        is_open = code in (F, M)
    return len(codes) - 1 if is_open else None


def turns(f):
    f.note('Every order of one, two and three segments, in one block and over blocks, with TC: whole and first only where no record is open, middle and last only where one is;')
    f.note('12 at the block of the first that is out of turn, or at the last block where a record is unfinished')
    text = tc(40)
    for count, cuts in ((1, [[1]]), (2, [[2], [1, 1]]), (3, [[3], [1, 1, 1], [2, 1], [1, 2]])):
        for sizes, codes in product(cuts, product((W, F, M, L), repeat=count)):
            block_of = [number for number, size in enumerate(sizes, 1) for _ in range(size)]
            segments = [(code, bytes([0xC1 + i] * (i + 1))) for i, code in enumerate(codes)]
            blocks = [span(*[s for s, b in zip(segments, block_of) if b == number]) for number in range(1, len(sizes) + 1)]
            said = ' '.join(''.join(LETTERS[c] + str(len(d)) for (c, d), b in zip(segments, block_of) if b == number) for number in range(1, len(sizes) + 1))
            name = 'turn-' + said.lower().replace(' ', '-')
            wrong = fault(codes)
            if wrong is None:
                f.wrote(name, text, reel(*blocks), blocks, sum(c in (W, L) for c in codes), said)
            else:
                f.refused_run(name, text, reel(*blocks), 12, block_of[wrong], said)


def unfinished(f):
    f.note('A record goes on over any number of blocks; where it does not end the last block is refused, unless there is a fault before')
    text = tr(40, 40)
    t = lambda name, blocks, place, why: f.refused_run('open-' + name, text, reel(*blocks), 12, place, why)
    for name, words, place, why in [
        ('first', 'F5', 1, 'a first alone'), ('first-middle', 'F5 M5', 2, 'a first and a middle'), ('first-middle-one', 'F5M5', 1, 'the same in one block'), ('far', 'W3 F5 M5 M5 M5', 5, 'unfinished over four blocks'),
        ('behind-whole', 'W3F5', 1, 'behind a whole record'), ('then-whole', 'F5 W3', 2, 'a whole record behind an unfinished one: the fault is where it stands'), ('then-whole-3', 'F5 M5 W3', 3, 'likewise'),
        ('then-first', 'F5 F3 L3', 2, 'a first behind an unfinished record'), ('then-first-last', 'F5 L5 F5 M5 F1', 5, 'a first in the last block'), ('middle', 'M5', 1, 'a middle alone'), ('last', 'L5', 1, 'a last alone'),
        ('last-twice', 'F5 L5 L5', 3, 'two lasts'), ('last-late', 'W5 W5 L5 W5', 3, 'a last behind a whole record'), ('middle-late', 'F5 L5 M5 L5', 3, 'a middle behind a last'),
        ('two-faults', 'F5 W5 L5 F5', 2, 'several faults: the lowest block'), ('in-block', 'W1W2W3 W4F5W6', 2, 'out of turn in the midst of a block'), ('in-block-last', 'W1F2 L3W4L5', 2, 'out of turn at a block\'s end')]:
        t(name, of(words), place, why + ', ' + words)
    good = of('F5 M5 L5W2')
    f.wrote('open-none', text, reel(*good), of('W15W2'), 2, 'F5 M5 L5W2')
    f.note('A fault of a word or of the turn, whichever block is lower; R and the room play no part, and 11 comes before')
    bad = h('0009 0000 0005 0400 C1')
    t('turn-then-word', [span((L, b'\xC1')), bad], 1, 'out of turn in block 1, a bad word in block 2')
    t('word-then-turn', [bad, span((L, b'\xC1'))], 1, 'a bad word in block 1, out of turn in block 2')
    t('word-inside', [span((F, b'\xC1')), bad, span((L, b'\xC1'))], 2, 'a bad word inside a record')
    t('word-and-unfinished', [span((F, b'\xC1')), bad, span((M, b'\xC1'))], 2, 'a bad word, and the record is unfinished')
    t('word-last', [span((F, b'\xC1')), bad], 2, 'a bad word in the last block')
    t('word-behind', [span((F, b'\xC1'), (L, b'\xC2')), span((F, b'\xC3')), bad], 3, 'an unfinished record, and a bad word behind')
    two = of('F5 M5')
    for r in (1, 2, 9, 65536):
        f.refused_run('open-r-%d' % r, tr(40, 40, ',R%d' % r), reel(*two), 12, 2, 'R%d, and the only record is unfinished' % r)
    f.refused_run('open-skipped', tr(40, 40, ',R3'), reel(*of('F5 W5 W5 W5')), 12, 2, 'out of turn in a record that is skipped')
    f.refused_run('open-r-last', tr(40, 40, ',R2'), reel(*of('W5 W5 F5')), 12, 3, 'R2, and the third record is unfinished')
    f.refused_run('open-room-0', text, reel(*two), 12, 2, 'a room of 0', 0)
    f.refused_run('open-no-reel', text, reel(*two) + b'\0', 11, 0, 'no reel')


def words(f):
    f.note('Words: a block begins with its own length and two zero bytes; a segment with its length, at least 5, its code, at most 3, and a zero byte; segments fill the block')
    text = tc(20)
    good = span((F, rising(3)), (L, rising(5)))
    assert len(good) == 20
    t = lambda name, why, *blocks: f.refused_run('word-' + name, text, reel(*blocks), 12, len(blocks), why)
    ok = lambda name, records, why, *blocks: f.wrote('word-' + name, text, reel(*blocks), list(blocks), records, why)
    def changed(at, byte):
        return good[:at] + bytes([byte]) + good[at + 1:]
    ok('right', 1, 'F3L5, a block of g', good)
    ok('right-twice', 2, 'twice', good, good)
    for at, byte, why in [
        (1, 19, 'the block\'s length is one less than its size'), (1, 21, 'the block\'s length is one more'), (0, 1, 'the high byte of the block\'s length'), (1, 0, 'the block\'s length is 0'), (2, 1, 'the third byte of the block\'s word is 1'),
        (2, 128, 'the third byte of the block\'s word is 128'), (3, 1, 'the fourth byte of the block\'s word is 1'), (3, 255, 'the fourth byte of the block\'s word is 255'),
        (5, 4, 'a segment of length 4'), (5, 3, 'a segment of length 3'), (5, 0, 'a segment of length 0'), (5, 6, 'a segment that ends a byte early: the next word is bad'), (5, 8, 'a segment that ends a byte late'),
        (5, 16, 'a segment that ends at the block: a first, unfinished'), (5, 17, 'a segment one past the block'), (4, 1, 'the high byte of a segment\'s length'), (4, 255, 'a segment of over 65,000 bytes'),
        (6, 4, 'the third byte of a segment\'s word is 4'), (6, 5, 'it is 5, a first with another bit'), (6, 128, 'it is 128, IBM\'s null segment'), (6, 129, 'it is 129'), (6, 255, 'it is 255'), (7, 1, 'the fourth byte of a segment\'s word is 1'), (7, 128, 'it is 128'), (7, 255, 'it is 255'),
        (12, 4, 'a second segment of length 4: bytes are left over'), (12, 8, 'a second segment that ends a byte before the block'), (12, 10, 'a second segment one past the block'), (11, 1, 'the high byte of its length'), (13, 4, 'the third byte of its word is 4'),
        (13, 6, 'it is 6, a last with another bit'), (13, 128, 'it is 128'), (13, 255, 'it is 255'), (14, 1, 'the fourth byte of its word is 1'), (14, 3, 'it is 3')]:
        t('%d-%d' % (at, byte), why, changed(at, byte))
    for at, byte in ((2, 1), (6, 4), (7, 1), (14, 1)):
        t('second-%d-%d' % (at, byte), 'byte %d of the second block is %d' % (at, byte), good, changed(at, byte))
    f.note('Segments of no data, of whatever code, and of one byte; what is left over')
    for code in (W, F, M, L):
        before = [] if code in (W, F) else [span((F, b'\xC1'))]
        t('empty-%d' % code, 'no data, %s' % LETTERS[code], *before, span((code, b'')))
        t('empty-behind-%d' % code, 'no data, %s behind a segment' % LETTERS[code], span((W if code in (W, F) else F, b'\xC1'), (code, b'')))
    t('empty-first-last', 'a first of no data and a last of one byte', span((F, b''), (L, b'\xC1')))
    t('empty-last', 'a first of one byte and a last of no data', span((F, b'\xC1'), (L, b'')))
    ok('byte', 1, 'one byte', span((W, b'\xC1')))
    ok('byte-each', 1, 'F1 M1 L1', *spans('F1 M1 L1', b'\xC1\xC2\xC3'))
    ok('byte-each-in-one', 1, 'F1M1L1: segments of one record in one block', *spans('F1M1L1', b'\xC1\xC2\xC3'))
    ok('byte-two-in-one', 1, 'F2L2 in one block', *spans('F2L2', b'\xC1\xC2\xC3\xC4'))
    ok('last-and-first', 2, 'F9 L2F2 L9: two records, the second block has an end and a beginning', *of('F9 L2F2 L9'))
    for size in range(1, 9):
        raw = (length_word(size) + bytes(4))[:size]
        t('block-%d' % size, 'a block of %d bytes that has no segment' % size, raw)
    for over in (1, 2, 3, 4):
        t('left-%d' % over, '%d bytes left over' % over, length_word(9 + over) + segment(W, b'\xC1') + bytes(over))
    t('left-5', '5 zero bytes left over', length_word(14) + segment(W, b'\xC1') + bytes(5))
    f.note('A block of at most g bytes, here 20, 9, 10 and 32,760')
    ok('g', 1, 'W12, a block of 20', span((W, rising(12))))
    t('over-g', 'W13, a block of 21', span((W, rising(13))))
    t('over-g-second', 'a second block of 21', span((F, rising(12))), span((M, rising(4)), (L, rising(5))))
    t('over-g-long', 'a block of 40', span((W, rising(32))))
    for g in (9, 10):
        x = rising(g - 8)
        f.wrote('word-g-%d' % g, tc(g), reel(span((F, x)), span((M, x)), span((L, x)), span((W, x))), [span((F, x)), span((M, x)), span((L, x)), span((W, x))], 2, 'four blocks of %d' % g)
        f.refused_run('word-g-%d-over' % g, tc(g), reel(span((F, x)), span((L, x + b'\0'))), 12, 2, 'a second block of %d' % (g + 1))
        f.refused_run('word-g-%d-two' % g, tc(g), reel(span((W, x), (W, x))), 12, 1, 'two segments')
    f.wrote('word-g-10-short', tc(10), reel(span((F, b'\xC1')), span((L, b'\xC2\xC3'))), [span((F, b'\xC1')), span((L, b'\xC2\xC3'))], 1, 'a block of 9 and one of 10')
    f.note('What is read as FV, and the other way round')
    same = [block(b'\1', b'\2\3'), block(b'\4\5')]
    assert same == of('W1W2 W2')
    for form in ('FV', 'FS'):
        f.wrote('whole-tc-%s' % form.lower(), deck('TC,%s,A=(20),B=(20)' % form), reel(*same), same, 3, 'whole records, %s' % form)
    f.wrote('whole-tr-fv', deck('TR,FV,A=(20),B=(20)'), reel(*same), same, 3, 'FV opens a block rather than cut a record')
    f.wrote('whole-tr-fs', tr(20, 20), reel(*same), of('W1W2F1 L1'), 3, 'FS: 5 bytes are left, and the third record is cut')
    for code in (F, M, L):
        f.refused_run('fv-%d' % code, deck('TC,FV,A=(20),B=(20)'), reel(span((code, b'\xC1'))), 12, 1, 'a segment is no record of FV, %s' % LETTERS[code])
    f.refused_run('fs-of-fu', tc(20), reel(data(20)), 12, 1, 'a block without words')


def reels_of_fs(f):
    f.note('Reels: blocks, records, and the length of each record\'s data; TR and A of 20')
    text = tr(20, 9)
    r = lambda name, blocks, expected, why: f.reel(name, text, reel(*blocks), expected, why)
    r('empty', [], '0 0 0 0 0 -', 'the empty reel')
    r('whole', of('W5'), '0 0 0 1 1 5', 'W5')
    r('whole-two', of('W1W7 W12'), '0 0 0 2 3 1,7,12', 'W1W7 W12')
    r('span', of('F12 L1'), '0 0 0 2 1 13', 'F12 L1')
    r('span-three', of('F12 M12 L12'), '0 0 0 3 1 36', 'F12 M12 L12')
    r('span-in-one', of('F3L5'), '0 0 0 1 1 8', 'F3L5')
    r('span-many', of('W1F2 M12 L3W1 F4L4 W5'), '0 0 0 5 5 1,17,1,8,5', 'W1F2 M12 L3W1 F4L4 W5')
    r('unfinished', of('W1F2 M12'), '12 2 0', 'W1F2 M12')
    r('turn', of('W1 L2 W1'), '12 2 0', 'W1 L2 W1')
    r('turn-in-block', of('F1 L2L1 W1'), '12 2 0', 'F1 L2L1 W1')
    r('over-g', of('F12 L13'), '12 2 0', 'F12 L13')
    r('word', [span((0x80, b'\xC1'))], '12 1 0', 'a third byte of 128')
    f.reel('long', tc(32760), reel(*long('F20000 L12752')), '0 0 0 2 1 32752', 'F20000 L12752')
    f.reel('too-long', tc(32760), reel(*long('F20000 L12753')), '12 2 0', 'F20000 L12753')
    f.reel('no-reel', text, reel(*of('W5'))[:-1], '11 0 0', 'no reel')


def longest(f):
    f.note('A record has at most 32,752 bytes: 12 at the block of the segment that takes it past')
    copy = tc(32760)
    for name, said, records in [('whole', 'W32752', 1), ('two-blocks', 'F32751 L1', 1), ('two-blocks-first', 'F1 L32751', 1), ('in-one', 'F32740L8', 1), ('three', 'F16000 M16000 L752', 1), ('then-more', 'F32000 L752W9 W20000', 3), ('two', 'W32752 W32752', 2),
                                ('two-spanned', 'F32000 L752F20000 L12000', 2)]:
        f.wrote('long-' + name, copy, reel(*long(said)), long(said), records, said)
    for name, said, place in [('whole', 'W32753', 1), ('two-blocks', 'F32752 L1', 2), ('two-blocks-first', 'F1 L32752', 2), ('middle', 'F1 M32752 L1', 2), ('later', 'F1 M32751 L1', 3), ('three', 'F16000 M16000 L753', 3), ('unfinished', 'F1 M32752', 2),
                              ('unfinished-later', 'F20000 M13000 M9', 2), ('second', 'W9F2 L9W9 F32752 L1', 4), ('in-one', 'F32000 M700M53L9 W9', 2), ('before-turn', 'F32000 M753 W9', 2), ('behind-turn', 'F32000 W9 L753', 2)]:
        f.refused_run('long-over-' + name, copy, reel(*long(said)), 12, place, said)
    f.note('The same with TR, into blocks of any size')
    for b, said in ((32760, 'W32752'), (32759, 'F32751 L1'), (32756, 'F32748 L4'), (16384, 'F16376 L16376'), (20000, 'F19992 L12760')):
        f.wrote('long-tr-%d' % b, tr(32760, b), reel(*long('F30000 L2752')), long(said), 1, 'F30000 L2752 into blocks of %d: %s' % (b, said))
    f.refused_run('long-tr-over', tr(32760, 9), reel(*long('F30000 L2753')), 12, 2, 'F30000 L2753')
    f.note('Reels of 65,536 bytes, and over')
    full = long('W32752 W32752')
    assert len(reel(*full)) == 65536
    f.wrote('long-65536', tr(32760, 32760), reel(*full), full, 2, 'two records of 32,752, a reel of 65,536', 65536)
    f.refused_run('long-65535', tr(32760, 32760), reel(*full), 15, 65536, 'a room of 65,535', 65535)
    f.refused_run('long-65560', tr(32760, 16384), reel(*full), 15, 8 + 4 * 16388, 'into four blocks of 16,384, over 65,536')
    f.refused_run('long-9', tr(32760, 9), reel(*full), 15, 851560, 'into 65,504 blocks of 9: 13 bytes for each byte of data, and 8')
    f.refused_run('long-10', tr(32760, 10), reel(*full), 15, 8 + 14 * 32752, 'into 32,752 blocks of 10')
    f.wrote('long-9-r2', tr(32760, 9, ',R3'), reel(*full), [], 0, 'R3: no record is left')
    f.refused_run('long-9-r', tr(32760, 9, ',R2'), reel(*full), 15, 8 + 13 * 32752, 'R2, one record into blocks of 9')


def fillings(f):
    f.note('TR fills: a segment takes all that is left of its block unless it ends its record, and a new block starts when fewer than 5 bytes are left')
    def t(name, b, lengths, out, why=''):
        total = rising(sum(lengths))
        records, at = [], 0
        for n in lengths:
            records.append(total[at:at + n])
            at += n
        each = [span((W, r)) for r in records]
        f.wrote('fill-' + name, tr(200, b), reel(*each), spans(out, total), len(lengths), '%s into blocks of %d: %s%s' % (' and '.join(str(n) for n in lengths) or 'nothing', b, out or 'nothing', ', ' + why if why else ''))
    t('sample', 16, [20, 3], 'F8 M8 L4 W3', '4 bytes are left of the third block')
    t('sample-17', 17, [20, 3], 'F9 M9 L2W3', '7 are left of the third block')
    t('left-0', 16, [8, 8], 'W8 W8', 'nothing is left')
    t('left-1', 17, [8, 3], 'W8 W3', '1 is left')
    t('left-4', 20, [8, 3], 'W8 W3', '4 are left')
    t('left-5', 21, [8, 3], 'W8F1 L2', '5 are left: a segment of one byte')
    t('left-5-byte', 21, [8, 1], 'W8W1', '5 are left: the whole record')
    t('left-6', 22, [8, 3], 'W8F2 L1', '6 are left')
    t('left-7', 23, [8, 3], 'W8W3', '7 are left, and all of it fits')
    t('left-7-more', 23, [8, 4], 'W8F3 L1')
    t('left-8', 24, [8, 3, 1], 'W8W3 W1', '1 is left behind the second')
    t('just-first', 16, [8], 'W8', 'it just fits: no empty segment follows')
    t('just-last', 16, [16], 'F8 L8', 'it just fills two blocks')
    t('just-last-more', 16, [16, 1], 'F8 L8 W1')
    t('one-over', 16, [9], 'F8 L1', 'one byte over')
    t('one-over-more', 16, [9, 9], 'F8 L1F3 L6', '7 are left of the second block')
    t('end-left-4', 17, [14, 5], 'F9 L5 W5', '4 are left behind a last')
    t('end-left-5', 17, [13, 5], 'F9 L4F1 L4', '5 are left behind a last')
    t('ten-blocks', 16, [80], 'F8' + ' M8' * 8 + ' L8', 'a record over ten blocks')
    t('ten-blocks-and', 16, [2, 80, 2], 'W2F2' + ' M8' * 9 + ' L6 W2')
    t('nine', 9, [1], 'W1')
    t('nine-two', 9, [2], 'F1 L1')
    t('nine-many', 9, [3, 1, 2], 'F1 M1 L1 W1 F1 L1')
    t('ten', 10, [3, 1, 2], 'F2 L1 W1 W2', '1 is left behind the last')
    t('ten-four', 10, [4, 5], 'F2 L2 F2 M2 L1')
    t('thirteen', 13, [1, 5], 'W1 W5', '4 are left')
    t('fourteen', 14, [1, 5], 'W1F1 L4', '5 are left')
    t('fourteen-ones', 14, [1, 1, 1, 1, 1], 'W1W1 W1W1 W1')
    t('nineteen-ones', 19, [1] * 7, 'W1W1W1 W1W1W1 W1')
    t('wide', 32760, [8, 1, 20, 3, 100], 'W8W1W20W3W100', 'all in one block')
    t('order', 30, [5, 6, 7, 8, 9], 'W5W6F3 L4W8F2 L7')
    t('never-early', 30, [17, 18], 'W17F1 L17', 'no block is opened to keep a record whole')
    t('none', 9, [], '')
    f.note('The same records however the input was cut')
    for number, said in enumerate(['W20W3W8', 'F8 M8 L4 W3 W8', 'F1 M1 M1 L17W3W8', 'F10L10 F1M1L1W8', 'F19 L1F2 L1F7 L1', 'F1M1M1M1M1L15W3F4M3L1', 'F5 M5 M5 L5 W3 F4 L4'], 1):
        f.wrote('same-%d' % number, tr(99, 21), reel(*of(said)), of('F13 L7F2 L1W8'), 3, said)
    f.wrote('cut-anew', tr(21, 21), reel(*of('F8 M8 L4 W3 W8')), of('F13 L7F2 L1W8'), 3, 'A equals B: the blocks are filled anew')
    f.wrote('filled-already', tr(21, 21), reel(*of('F13 L7F2 L1W8')), of('F13 L7F2 L1W8'), 3, 'filled already: the same reel')
    f.wrote('left-by-tc', tc(21), reel(*of('F8 M8 L4 W3 W8')), of('F8 M8 L4 W3 W8'), 3, 'TC leaves the blocks')
    f.wrote('left-by-tc-in-one', tc(99), reel(*of('F1M1M1M1M1L15W3F4M3L1')), of('F1M1M1M1M1L15W3F4M3L1'), 3, 'TC leaves the segments')
    f.wrote('there', tr(99, 9), reel(*of('W3W2')), of('F1 M1 L1 F1 L1'), 2, 'there')
    f.wrote('and-back', tr(9, 99), reel(*of('F1 M1 L1 F1 L1')), of('W3W2'), 2, 'and back')
    ten = 'F8' + ' M8' * 8 + ' L8'
    f.wrote('ten-blocks-back', tr(16, 99), reel(*of(ten)), of('W80'), 1, 'ten blocks into one')
    f.wrote('ten-blocks-tc', tc(16), reel(*of(ten)), of(ten), 1, 'TC leaves ten blocks')
    f.wrote('ten-blocks-skipped', tr(16, 99, ',R2'), reel(*of(ten + ' W3')), spans('W3', rising(83)[80:]), 1, 'R2 skips ten blocks')
    f.note('Any bytes: data that look like words')
    odd = h('0005 0000 C1 0009 0200 FFFF 0000')
    f.wrote('any-bytes', tr(99, 12), reel(span((W, odd))), spans('F4 M4 M4 L1', odd), 1, 'words inside the data')


def firsts(f):
    f.note('R before, in and past long records: records are skipped whole. W2F4 M12 L3W5F6 L9 are records of 2, 19, 5 and 15 bytes')
    x = rising(41)
    blocks = spans('W2F4 M12 L3W5F6 L9', x)
    out = {1: ('W2F10 L9F3 L2F10 L5', 41), 2: ('F16 L3W5 W15', 39), 3: ('W5F7 L8', 20), 4: ('W15', 15)}
    for r, (said, left) in out.items():
        f.wrote('r-%d' % r, tr(30, 24, ',R%d' % r), reel(*blocks), spans(said, x[41 - left:]), 5 - r, 'R%d: %s' % (r, said))
    for r in (5, 6, 65536):
        f.wrote('r-%d' % r, tr(30, 24, ',R%d' % r), reel(*blocks), [], 0, 'R%d: past the last record' % r)
    f.wrote('r-one', tr(30, 24, ',R1'), EMPTY, [], 0, 'the empty reel')
    f.wrote('r-only', tr(9, 99, ',R2'), reel(*of('F1 M1 L1')), [], 0, 'the only record is skipped')
    f.wrote('r-segment', tr(9, 99, ',R2'), reel(*of('F1 M1 L1 W1')), spans('W1', rising(4)[3:]), 1, 'R counts records, and not segments or blocks')
    f.wrote('r-tc', deck('TC,FS,A=(30),B=(30),R00001'), reel(*blocks), blocks, 4, 'TC with R1: four records in four blocks')


def rooms(f):
    f.note('Refusal 15: the room one too small and just enough, with TC and TR; the place is the length')
    given, filled = of('W20W3'), of('F8 M8 L4 W3')
    assert len(reel(*given)) == 47 and len(reel(*filled)) == 79
    for room in (0, 7, 8, 78):
        f.refused_run('room-tr-%d' % room, tr(99, 16), reel(*given), 15, 79, 'TR, a room of %d' % room, room)
    for room in (79, 80, 65536, 70000):
        f.wrote('room-tr-%d' % room, tr(99, 16), reel(*given), filled, 2, 'TR, a room of %d' % room, room)
    for room in (0, 78):
        f.refused_run('room-tc-%d' % room, tc(16), reel(*filled), 15, 79, 'TC, a room of %d' % room, room)
    for room in (79, 70000):
        f.wrote('room-tc-%d' % room, tc(16), reel(*filled), filled, 2, 'TC, a room of %d' % room, room)
    f.refused_run('room-less-46', tr(16, 99), reel(*filled), 15, 47, 'TR into one block, a room of 46', 46)
    f.wrote('room-less-47', tr(16, 99), reel(*filled), given, 2, 'TR into one block, a room of 47', 47)
    f.refused_run('room-r-22', tr(16, 99, ',R2'), reel(*filled), 15, 23, 'R2, a room of 22', 22)
    f.wrote('room-r-23', tr(16, 99, ',R2'), reel(*filled), spans('W3', rising(23)[20:]), 1, 'R2, a room of 23', 23)
    f.note('The empty reel')
    for name, text in (('tc', tc(9)), ('tr', tr(9, 9)), ('tr-wide', tr(32760, 32760))):
        f.wrote('empty-%s' % name, text, EMPTY, [], 0, 'a room of 8', 8)
        f.refused_run('empty-%s-7' % name, text, EMPTY, 15, 8, 'a room of 7', 7)
        f.refused_run('empty-%s-none' % name, text, b'', 11, 0, 'no reel at all')
    f.refused_run('empty-past-7', tr(9, 9, ',R2'), reel(*of('F1 L1')), 15, 8, 'R past the end, a room of 7', 7)


def refused_decks(f):
    f.note('Runs of decks that are refused')
    good = reel(*of('W5'))
    t = lambda name, words, number, place, why, column=0, fs=(): f.refused_run('deck-' + name, deck(words, *fs), good, number, place, why, column=column)
    t('3', 'TR,FSX,A=(99),B=(99)', 3, 1, 'no such format', 11)
    t('4', 'TR,FS,A=(99),B=(99),FS', 4, 1, 'FS twice', 26)
    t('5', 'TR,FS,B=(99)', 5, 1, 'A is missing')
    t('7', 'TR,FS,A=(8),B=(99)', 7, 1, 'A of 8', 15)
    t('8-tf', 'TF,FS,A=(99),B=(99)', 8, 1, 'FS with TF', fs=['1,1,1'])
    t('8-two', 'TR,FS,A=(9,99),B=(99)', 8, 1, 'two numbers in A')
    t('8-two-b', 'TR,FS,A=(99),B=(9,99)', 8, 1, 'two numbers in B')
    t('8-tc', 'TC,FS,A=(99),B=(98)', 8, 1, 'TC and A other than B')
    t('8-fs', 'TR,FS,A=(99),B=(99)', 8, 2, 'an FS card in TR', fs=['CV'])
    t('8-keyed', 'TR,FS,A=(K=1,D=98),B=(99)', 8, 1, 'a keyed A')


def make():
    f = Mixed('spanned.txt', 'span', HEAD)
    for section in (reads, limits, combinations, turns, unfinished, words, reels_of_fs, longest, fillings, firsts, rooms, refused_decks):
        section(f)
    return f
