"""Reels: headers, blocks and records of each format, good and damaged."""
from common import *
from decks import FIRST

HEAD = [
    'Reels (document 01, "The reel", "Blocks and records"): NAME reel DECK REEL. The line is NAME, refusal, place and column where the deck is refused by 1 to 7 or the',
    'reel by 11 or 12; else 0 0 0, how many blocks and records, and the length of each record\'s data (- for none). The deck says what is asked of blocks; no deck here is',
    'refused by 8 to 10, which are not asked.',
]


def word(number):
    return number.to_bytes(4, 'big')


def reel(*blocks):
    """The reel of these blocks."""
    out, at = word(len(blocks)), 4 * len(blocks) + 8
    out += word(at)
    for b in blocks:
        at += len(b)
        out += word(at)
    return out + b''.join(blocks)


def length_word(n):
    return n.to_bytes(2, 'big') + b'\0\0'


def record(data):
    return length_word(len(data) + 4) + data


def block(*datas):
    body = b''.join(record(d) for d in datas)
    return length_word(len(body) + 4) + body


def data(n, byte=0xC1):
    return bytes([byte]) * n


class Reels(File):
    def reel(self, name, deck, reel, expected, why):
        self.case(name, 'reel %s %s' % (runs(deck.encode()), runs(reel)), expected, why)


FU5 = '// U TC,FU,A=(5),B=(5)\n// END\n'
BIG = '// U TC,FU,A=(32760),B=(32760)\n// END\n'


def edges():
    f = Reels('reels.txt', HEAD + ['This file: the reel\'s own numbers, refusal 11. Except where it is said the deck is the sample deck of document 01, FF of 8 and 16 bytes.'])
    r = lambda name, reel, expected, why, deck=FIRST: f.reel(name, deck, reel, expected, why)
    r('empty-reel', bytes.fromhex('0000000000000008'), '0 0 0 0 0 -', 'the empty reel: 00000000 00000008')
    p7 = bytes.fromhex('000000010000000C0000001CC1C2C3C4F1F2F3C4C1C2C3C4F9F2F3C4')
    r('p7-reel', p7, '0 0 0 1 2 8,8', 'the reel of p7: one block of two records')
    r('p12', bytes.fromhex('000000010000000C0000000E40'), '11 0', 'p12: the last offset is past the end')
    r('no-bytes', b'', '11 0', 'a count and an offset are 8 bytes at least')
    r('bytes-1', b'\0', '11 0', '1 byte')
    r('bytes-4', word(0), '11 0', 'a count alone')
    r('bytes-7', bytes.fromhex('00000000000000'), '11 0', '7 bytes')
    r('bytes-9', bytes.fromhex('000000000000000800'), '11 0', 'a byte behind the empty reel: the last offset is not its length')
    r('bytes-9-offset-9', bytes.fromhex('000000000000000900'), '11 0', 'the first offset is 4k+8, here 8')
    r('empty-offset-7', bytes.fromhex('0000000000000007'), '11 0', 'the first offset is 8')
    r('empty-offset-0', bytes.fromhex('0000000000000000'), '11 0', 'the first offset is 8')
    def changed(at, number):
        return p7[:at] + word(number) + p7[at + 4:]
    r('first-offset-less', changed(4, 0x0B), '11 0', 'the first offset one less than 4k+8')
    r('first-offset-more', changed(4, 0x0D), '11 0', 'the first offset one more than 4k+8')
    r('last-offset-less', changed(8, 0x1B), '11 0', 'the last offset before the end')
    r('last-offset-more', changed(8, 0x1D), '11 0', 'the last offset past the end')
    r('byte-behind', p7 + b'\0', '11 0', 'a byte behind the last offset')
    r('byte-missing', p7[:-1], '11 0', 'the last byte is missing')
    r('count-0', changed(0, 0), '11 0', 'the count says no block')
    r('count-2', changed(0, 2), '11 0', 'the count says two blocks')
    two = reel(data(16), data(16, 0xC2))
    r('two-blocks', two, '0 0 0 2 4 8,8,8,8', 'two blocks')
    r('offsets-equal', two[:8] + two[4:8] + two[12:], '11 0', 'the second offset equals the first: offsets rise strictly')
    r('offsets-equal-last', two[:8] + two[12:16] + two[12:], '11 0', 'the second offset equals the last')
    r('offsets-fall', two[:8] + word(0x40) + two[12:], '11 0', 'the second offset is over the last')
    r('offset-0', two[:8] + word(0) + two[12:], '11 0', 'the second offset is 0')
    r('offset-in-header', two[:8] + word(0x0C) + two[12:], '11 0', 'the second offset lies before the first')
    three = reel(data(16), data(16), data(8))
    r('three-blocks', three, '0 0 0 3 5 8,8,8,8,8', 'three blocks, the last short')
    r('offsets-swapped', three[:8] + three[12:16] + three[8:12] + three[16:], '11 0', 'the second and third offsets have changed places')
    f.note('Numbers of 32 bits are taken as they are, and 4k+8 in whole numbers')
    r('count-40000000', bytes.fromhex('4000000000000008'), '11 0', 'k of 40000000 hex: 4k+8 is 100000008 hex and not 8')
    r('count-40000000-behind', bytes.fromhex('4000000000000008') + data(16), '11 0', 'likewise with bytes behind')
    r('count-40000001', bytes.fromhex('400000010000000C0000001C') + data(16), '11 0', 'k of 40000001 hex, else the reel of one block')
    r('count-3FFFFFFE', bytes.fromhex('3FFFFFFE00000000'), '11 0', '4k+8 is 100000000 hex and not 0')
    r('count-3FFFFFFF', bytes.fromhex('3FFFFFFF00000004'), '11 0', '4k+8 is 100000004 hex and not 4')
    r('count-80000000', bytes.fromhex('8000000000000008'), '11 0', 'k of 80000000 hex')
    r('count-FFFFFFFF', bytes.fromhex('FFFFFFFF00000004'), '11 0', 'k of FFFFFFFF hex')
    r('offset-80000000', changed(8, 0x8000001C), '11 0', 'the last offset has its highest bit set')
    r('little-endian', bytes.fromhex('0000000008000000'), '11 0', 'numbers are big-endian')
    r('count-over-bytes', bytes.fromhex('000000020000001000000011'), '11 0', 'three offsets need 16 bytes')
    f.note('A reel is at most 65,536 bytes')
    g = lambda *sizes: reel(*[data(s, 0x40) for s in sizes])
    r('bytes-65535', g(32760, 32759), '0 0 0 2 2 32760,32759', '65,535 bytes', BIG)
    assert len(g(32760, 32760)) == 65536 and len(g(32760, 32756, 1)) == 65537
    r('bytes-65536', g(32760, 32760), '0 0 0 2 2 32760,32760', '65,536 bytes', BIG)
    r('bytes-65537', g(32760, 32756, 1), '11 0', '65,537 bytes, all else right', BIG)
    r('bytes-66000', g(32760, 32756, 464), '11 0', '66,000 bytes, all else right', BIG)
    r('bytes-65536-ff', reel(data(32760), data(32760)), '0 0 0 2 24 ' + ','.join(['2730'] * 24), '65,536 bytes of FF, 12 records a block', '// U TC,FF,A=(2730,32760),B=(2730,32760)\n// END\n')
    assert len(g(32760, 32755, 1)) == 65536
    r('bytes-65536-three', g(32760, 32755, 1), '0 0 0 3 3 32760,32755,1', '65,536 bytes in three blocks', BIG)
    r('blocks-of-1', g(*[1] * 300), '0 0 0 300 300 ' + ','.join(['1'] * 300), '300 blocks of a byte', FU5)
    f.note('The deck is asked first, and 11 before 12')
    r('bad-deck-bad-reel', b'', '2 1', 'the empty deck and no reel', '')
    r('bad-deck-good-reel', p7, '3 1', 'a deck refused by 3, and a right reel', '// U X\n// END\n')
    r('limit-and-bad-reel', b'', '7 1', 'a deck refused by 7', FU5.replace('A=(5)', 'A=(0)'))
    r('bad-reel-bad-block', reel(data(7)) + b'\0', '11 0', 'a block of 7 bytes is 12, but the reel is none')
    return f


def blocks():
    f = Reels('blocks.txt', HEAD + ['This file: blocks and records, refusal 12 at the block, from 1.'])
    def group(text, deck):
        f.note(text + ': ' + shown(deck.encode()))
        return lambda name, blocks, expected, why: f.reel(name, deck, reel(*blocks), expected, why)
    r = group('FF, n of 8 and m of 16: each block is a positive multiple of n, at most m, wherever it stands', FIRST)
    r('ff-full', [data(16)], '0 0 0 1 2 8,8', 'a block of m')
    r('ff-short-alone', [data(8)], '0 0 0 1 1 8', 'a short block alone')
    r('ff-short-last', [data(16), data(8)], '0 0 0 2 3 8,8,8', 'a short block at the end')
    r('ff-short-middle', [data(16), data(8), data(16)], '0 0 0 3 5 8,8,8,8,8', 'a short block in the middle')
    r('ff-short-first', [data(8), data(16)], '0 0 0 2 3 8,8,8', 'a short block at the start')
    r('ff-short-before-last', [data(16), data(8), data(8)], '0 0 0 3 4 8,8,8,8', 'two short blocks, one behind the other')
    r('ff-short-twice', [data(8), data(16), data(8), data(16)], '0 0 0 4 6 8,8,8,8,8,8', 'two short blocks apart')
    r('ff-short-all', [data(8), data(8), data(8)], '0 0 0 3 3 8,8,8', 'all blocks short')
    r('ff-not-n', [data(12)], '12 1', '12 bytes are no multiple of 8')
    r('ff-not-n-last', [data(16), data(12)], '12 2', 'no multiple of n, at the end')
    r('ff-not-n-middle', [data(16), data(12), data(16)], '12 2', 'no multiple of n, in the middle')
    r('ff-not-n-first', [data(12), data(8), data(16)], '12 1', 'no multiple of n, at the start')
    r('ff-not-n-behind-short', [data(8), data(16), data(8), data(15)], '12 4', 'no multiple of n behind short blocks')
    r('ff-under-n-middle', [data(8), data(7), data(16)], '12 2', 'less than a record, in the middle')
    r('ff-under-n', [data(16), data(7)], '12 2', 'less than a record')
    r('ff-of-1', [data(1)], '12 1', 'one byte')
    r('ff-of-9', [data(9)], '12 1', 'a record and a byte')
    r('ff-over-m', [data(17)], '12 1', 'over m')
    r('ff-over-m-of-n', [data(24)], '12 1', 'over m, though a multiple of n')
    r('ff-over-m-second', [data(16), data(32)], '12 2', 'two blocks in one')
    r('ff-over-m-middle', [data(8), data(24), data(8)], '12 2', 'over m between short blocks')
    r('ff-two-bad', [data(16), data(15), data(17), data(8)], '12 2', 'the first place')
    r('ff-any-data', [bytes(range(16))], '0 0 0 1 2 8,8', 'what stands in a record is 13, not asked here')
    r = group('FF, n and m of 5', '// U TR,FF,A=(5,5),B=(5,20)\n// END\n')
    r('ff-one-a-block', [data(5), data(5), data(5)], '0 0 0 3 3 5,5,5', 'one record a block')
    r('ff-one-a-block-4', [data(5), data(4)], '12 2', '4 bytes')
    r('ff-one-a-block-10', [data(10)], '12 1', 'two records in one block')
    r = group('FF, n of 1 and m of 3', '// U TR,FF,A=(1,3),B=(1,2)\n// END\n')
    r('ff-bytes', [data(3), data(3), data(2)], '0 0 0 3 8 1,1,1,1,1,1,1,1', 'records of a byte')
    r('ff-bytes-short', [data(3), data(2), data(3)], '0 0 0 3 8 1,1,1,1,1,1,1,1', 'a short block in the middle')
    r('ff-bytes-one', [data(3), data(1), data(1), data(3)], '0 0 0 4 8 1,1,1,1,1,1,1,1', 'blocks of one record in the middle')
    r = group('FF, n of 4,096 and m of 28,672, the largest records', '// U TR,FF,A=(4096,28672),B=(4096,4096)\n// END\n')
    r('ff-4096', [data(28672), data(28672), data(4096)], '0 0 0 3 15 ' + ','.join(['4096'] * 15), '15 records of 4,096 bytes')
    r('ff-4096-less-1', [data(28672), data(28671)], '12 2', 'a byte less')
    f.note('R does not matter to blocks')
    f.reel('ff-r-past-the-end', '// U TR,FF,A=(5,5),B=(5,20),R65536\n// END\n', reel(data(5), data(5)), '0 0 0 2 2 5,5', 'R past the last record')
    f.reel('ff-r-and-bad-block', '// U TR,FF,A=(5,5),B=(5,20),R3\n// END\n', reel(data(6), data(5), data(5)), '12 1', 'a bad block before R')

    tc = '// U TC,FV,A=(20),B=(20)\n// END\n'
    r = group('FV, g of 20: a block starts with its length in 2 bytes and 2 zero bytes, each record likewise, length at least 5', tc)
    r('fv-one', [block(data(5))], '0 0 0 1 1 5', 'a record of 5 bytes of data')
    r('fv-two', [block(data(1), data(7))], '0 0 0 1 2 1,7', 'two records that fill the block of 20')
    r('fv-three', [block(data(1), data(1), data(1)), block(data(12))], '0 0 0 2 4 1,1,1,12', 'two blocks')
    r('fv-least', [block(data(1))], '0 0 0 1 1 1', 'the shortest block: 9 bytes, a record of length 5')
    r('fv-length-4', [bytes.fromhex('0008000000040000')], '12 1', 'a record of length 4, no data')
    r('fv-length-4-behind', [bytes.fromhex('000D0000') + record(data(1)) + bytes.fromhex('00040000')], '12 1', 'the same behind a right record')
    r('fv-length-0', [bytes.fromhex('0008000000000000')], '12 1', 'a record of length 0')
    r('fv-length-3', [bytes.fromhex('000900000003000040')], '12 1', 'a record of length 3')
    r('fv-no-record', [bytes.fromhex('00040000')], '12 1', 'a block without a record: at least one')
    r('fv-block-3', [bytes.fromhex('000300')], '12 1', '3 bytes are no word')
    r('fv-block-1', [bytes.fromhex('00')], '12 1', '1 byte is no word')
    r('fv-block-2', [bytes.fromhex('0002')], '12 1', '2 bytes are no word')
    r('fv-block-5', [bytes.fromhex('0005000000')], '12 1', 'a byte left over')
    r('fv-block-7', [bytes.fromhex('00070000000300')], '12 1', '3 bytes are no record word')
    good = block(data(1), data(7))
    def changed(at, byte):
        return good[:at] + bytes([byte]) + good[at + 1:]
    r('fv-block-length-less', [changed(1, 19)], '12 1', 'the block\'s length is not its own size')
    r('fv-block-length-more', [changed(1, 21)], '12 1', 'likewise')
    r('fv-block-length-high', [changed(0, 1)], '12 1', 'the high byte of the length')
    r('fv-block-third', [changed(2, 1)], '12 1', 'the third byte of the block\'s word is not zero')
    r('fv-block-fourth', [changed(3, 0x80)], '12 1', 'the fourth byte of the block\'s word is not zero')
    r('fv-record-third', [changed(6, 1)], '12 1', 'the third byte of a record\'s word is not zero')
    r('fv-record-fourth', [changed(7, 1)], '12 1', 'the fourth byte of a record\'s word is not zero')
    r('fv-second-third', [changed(11, 1)], '12 1', 'the third byte of the second record\'s word is not zero')
    r('fv-second-fourth', [changed(12, 0xFF)], '12 1', 'the fourth byte of the second record\'s word is not zero')
    r('fv-record-past', [changed(10, 12)], '12 1', 'the second record ends a byte past the block')
    r('fv-record-short', [changed(10, 10)], '12 1', 'the second record ends a byte before the block: a byte is left over')
    r('fv-record-high', [changed(9, 1)], '12 1', 'the high byte of a record\'s length')
    r('fv-record-ffff', [changed(9, 0xFF)[:10] + b'\xff' + good[11:]], '12 1', 'a record of length FFFF hex')
    r('fv-left-1', [length_word(10) + record(data(1)) + b'\0'], '12 1', '1 byte left over')
    r('fv-left-3', [length_word(12) + record(data(1)) + b'\0\0\0'], '12 1', '3 bytes left over')
    r('fv-left-4-zeros', [length_word(13) + record(data(1)) + b'\0\0\0\0'], '12 1', '4 zero bytes left over: a record of length 0')
    r('fv-at-g', [block(data(12))], '0 0 0 1 1 12', 'a block of g bytes')
    r('fv-over-g', [block(data(13))], '12 1', 'a block of g+1 bytes')
    r('fv-over-g-second', [block(data(12)), block(data(4), data(5))], '12 2', 'the second block is over g')
    r('fv-short-blocks', [block(data(1)), block(data(12)), block(data(2))], '0 0 0 3 3 1,12,2', 'any block may be short')
    r('fv-two-bad', [block(data(1)), changed(2, 1), changed(6, 1)], '12 2', 'the first place')
    r('fv-no-words', [data(16, 0x40)], '12 1', 'a block of FF read as FV')
    r = group('FV, g of 9, the least', '// U TR,FV,A=(9),B=(9)\n// END\n')
    r('fv-g-9', [block(data(1)), block(data(1))], '0 0 0 2 2 1,1', 'one byte of data a block')
    r('fv-g-9-over', [block(data(2))], '12 1', 'a block of 10')
    r = group('FV, g of 32,760', '// U TC,FV,A=(32760),B=(32760)\n// END\n')
    r('fv-32760', [block(data(32752)), block(data(1000), data(31748))], '0 0 0 2 3 32752,1000,31748', 'blocks of 32,760')
    r('fv-32761', [block(data(32753))], '12 1', 'a block of 32,761')
    r('fv-32768', [block(data(32760))], '12 1', 'a block of 32,768, length 8000 hex')
    r('fv-65516', [block(data(65508))], '12 1', 'a block of 65,516')
    r('fv-length-is-low-half', [length_word(9) + length_word(5) + data(32000)], '12 1', 'the length says 9, and the block has 32,008 bytes')
    sel = '// U TF,FV,A=(4,20),B=(4,20)\n// FS 1,4,1\n// END\n'
    r = group('FV with field select, n of 4 and m of 20: data is at least n', sel)
    r('fv-data-n', [block(data(4))], '0 0 0 1 1 4', 'data of n')
    r('fv-data-under-n', [block(data(3))], '12 1', 'data of n-1')
    r('fv-data-under-n-second', [block(data(4), data(3))], '12 1', 'in the second record')
    r('fv-data-under-n-block', [block(data(12)), block(data(4), data(1))], '12 2', 'in the second block')
    r('fv-data-over-n', [block(data(5)), block(data(4), data(4)), block(data(12))], '0 0 0 3 4 5,4,4,12', 'data over n')
    f.reel('fv-data-before-r', sel.replace('B=(4,20)', 'B=(4,20),R2'), reel(block(data(3), data(4))), '12 1', 'R2: the short record before R is checked too')
    r = group('FV with field select, m of n+8', '// U TRF,FV,A=(12,20),B=(12,20)\n// FS CV\n// END\n')
    r('fv-n-8', [block(data(12)), block(data(12))], '0 0 0 2 2 12,12', 'one record a block and no tail')
    r('fv-n-8-under', [block(data(11))], '12 1', 'data of n-1')
    r('fv-n-8-over', [block(data(13))], '12 1', 'a block over m')

    r = group('FU, g of 5: 1 to g bytes, the block is the record', FU5)
    r('fu-1', [data(1)], '0 0 0 1 1 1', 'one byte')
    r('fu-g', [data(5)], '0 0 0 1 1 5', 'g bytes')
    r('fu-over-g', [data(6)], '12 1', 'g+1 bytes')
    r('fu-many', [data(5), data(1), data(3), data(5)], '0 0 0 4 4 5,1,3,5', 'blocks of any length up to g')
    r('fu-over-g-third', [data(5), data(1), data(6), data(7)], '12 3', 'the first place')
    r = group('FU, g of 32,760', BIG)
    r('fu-32760', [data(32760)], '0 0 0 1 1 32760', 'g bytes')
    r('fu-32761', [data(32761)], '12 1', 'g+1 bytes')
    return f


def drawn():
    f = Reels('drawn_reels.txt', HEAD + ['This file: decks and reels drawn by chance, most of them right with a fault or two put in.'])
    for number, case in enumerate(kept(f.name), 1):
        f.case('reel-%d' % number, case, None)
    if f.names:
        return f
    out = subprocess.run([CASES, '815', '2500', 'run'], capture_output=True, text=True).stdout.split('\n')[:-1]
    counts, number = {}, 0
    wanted = {0: 90, 11: 70, 12: 110, 13: 20, 14: 30, 15: 30}
    for line in out:
        w = line.split()
        refusal = int(w[3])
        if refusal in (8, 9, 10) or counts.get(refusal, 0) >= wanted.get(refusal, 8) or len(line) > 3000:
            continue
        counts[refusal] = counts.get(refusal, 0) + 1
        number += 1
        expected = ' '.join(w[3:6]) if refusal in (1, 2, 3, 4, 5, 6, 7, 11, 12) else '0 0'
        f.case('reel-%d' % number, 'reel %s %s' % (w[0], w[1]), expected)
    print(counts)
    return f
