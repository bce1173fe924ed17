"""Runs of decks over reels: refusals 11 to 15, and the reels that are written."""
from common import *
from decks import FIRST
from lent import *
from plans import P9, SIX
from reels import block, data, length_word, record, reel, word

HEAD = [
    'Runs (document 01, "Blocks and records", "Refusal numbers"): NAME run DECK REEL ROOM. An output of 70,000 bytes is filled with a pattern, byte i being i mod 251, and',
    'its first ROOM bytes are lent. The line is NAME, refusal, place, column, length, records, blocks, a digest of all 70,000 bytes after the call, and the reel that was written in hex',
    'where it is at most 64 bytes; .. where it is longer; - where the run was refused. A digest of numbers x: d = 0; d = (257 d + x + 1) mod 2147483647 for each.',
    'In comments a bar stands for hex 0A.',
]
EMPTY = bytes.fromhex('0000000000000008')
P7 = bytes.fromhex('000000010000000C0000001CC1C2C3C4F1F2F3C4C1C2C3C4F9F2F3C4')
P7_OUT = bytes.fromhex('0000000200000010000000170000001EC1C2C3C401234CC1C2C3C409234C')
P8_OUT = bytes.fromhex('0000000200000010000000160000001CC1C2C3C4234CC1C2C3C4234C')


def h(text):
    return bytes.fromhex(text.replace(' ', ''))


def cases_of_paper(f):
    f.note('p7, p8, p10, p11 and p12 of document 01: the sample deck, or its form of 6 bytes')
    f.done('run-p7', FIRST, P7, P7_OUT, 2, 2, 'p7 in a room of 30')
    f.done('run-p8', SIX, P7, P8_OUT, 2, 2, 'p8 in a room of 28: two records become alike')
    f.done('run-p10', FIRST, EMPTY, EMPTY, 0, 0, 'p10: the empty reel, room 8', 8)
    f.refused('run-p11', FIRST, EMPTY, 15, 8, 'p11: the same, room 7', 7)
    f.refused('run-p12', FIRST, h('00000001 0000000C 0000000E 40'), 11, 0, 'p12: the last offset is past the end')
    f.note('Rooms for p7, whose reel is 30 bytes; for the empty reel; and over 65,536')
    for room in (0, 1, 7, 8, 28, 29):
        f.refused('room-%d' % room, FIRST, P7, 15, 30, 'a room of %d' % room, room)
    for room in (31, 100, 65535, 65536, 65537, 70000):
        f.done('room-%d' % room, FIRST, P7, P7_OUT, 2, 2, 'a room of %d: bytes past the length stay' % room, room)
    for room in (0, 7):
        f.refused('room-%d-past' % room, FIRST.replace('(7,7)', '(7,7),R3'), P7, 15, 8, 'R past the last record gives the empty reel, and a room of %d' % room, room)
    for room in (8, 9, 70000):
        f.done('room-%d-past' % room, FIRST.replace('(7,7)', '(7,7),R3'), P7, EMPTY, 0, 0, 'R past the last record, a room of %d' % room, room)
    f.refused('room-27-p8', SIX, P7, 15, 28, 'p8 and a room one short', 27)


FIVE = [h('C1C2C3C4 F1F2F3C%d' % i) for i in range(1, 6)]
FIVE_OUT = [h('C1C2C3C4 0123%dC' % i) for i in range(1, 6)]


def firsts(f):
    f.note('R: five records of 8 bytes in blocks of 16; record i ends in F1F2F3Ci and becomes 0123iC')
    two = reel(FIVE[0] + FIVE[1], FIVE[2] + FIVE[3], FIVE[4])
    said = {1: 'all records', 2: 'inside the first block', 3: 'at the start of the second', 4: 'inside the second block', 5: 'at the last record', 6: 'one past the last',
            7: 'two past', 100: 'far past', 65535: 'far past', 65536: 'far past'}
    fs = '1,4,1/5,(P,4,3),5'
    for r, why in said.items():
        out = FIVE_OUT[r - 1:] if r < 6 else []
        f.done('r-%d-trf' % r, deck('TRF,FF,A=(8,16),B=(7,7),R%d' % r, fs), two, reel(*out), len(out), len(out), 'R%d, TRF, one record a block: %s' % (r, why))
        joined = {1: [2, 2, 1], 2: [1, 2, 1], 3: [2, 1], 4: [1, 1], 5: [1]}.get(r, [])
        f.done('r-%d-tf' % r, deck('TF,FF,A=(8,16),B=(7,14),R%d' % r, fs), two, reel(*cut(out, joined)), len(out), len(joined),
               'R%d, TF, each block keeps its records from R on: %s' % (r, why))
        carried = FIVE[r - 1:] if r < 6 else []
        joined = {1: [3, 2], 2: [3, 1], 3: [3], 4: [2], 5: [1]}.get(r, [])
        f.done('r-%d-tr' % r, deck('TR,FF,A=(8,16),B=(8,24),R%d' % r), two, reel(*cut(carried, joined)), len(carried), len(joined), 'R%d, TR, three records a block: %s' % (r, why))
    f.note('The same in FV, records of 1, 2 and 3 bytes in two blocks')
    v = reel(block(h('C1'), h('C2C2')), block(h('C3C3C3')))
    out = {1: [block(h('C1'), h('C2C2')), block(h('C3C3C3'))], 2: [block(h('C2C2')), block(h('C3C3C3'))], 3: [block(h('C3C3C3'))], 4: []}
    for r in (1, 2, 3, 4):
        f.done('r-%d-tf-fv' % r, deck('TF,FV,A=(1,20),B=(1,20),R%d' % r, '1,1,1/CV'), v, reel(*out[r]), 4 - r, len(out[r]), 'R%d, TF' % r)
    out = {1: [block(h('C1'), h('C2C2')), block(h('C3C3C3'))], 2: [block(h('C2C2'), h('C3C3C3'))], 3: [block(h('C3C3C3'))], 4: []}
    for r in (1, 2, 3, 4):
        f.done('r-%d-tr-fv' % r, deck('TR,FV,A=(20),B=(17),R%d' % r), v, reel(*out[r]), 4 - r, len(out[r]), 'R%d, TR, blocks of 17' % r)


def cut(records, counts):
    """Blocks of so many records each, joined."""
    blocks, at = [], 0
    for count in counts:
        blocks.append(b''.join(records[at:at + count]))
        at += count
    assert at == len(records)
    return blocks


def lengths(f):
    f.note('Output reels of 65,536 bytes, and one more: 8,191 records of 4 bytes are 8 + 8,191 x 8; 809 of 77 bytes are 8 + 809 x 81')
    at = deck('TRF,FF,A=(1,8191),B=(4,4)', '1,1,1')
    full, out = reel(data(8191)), reel(*[h('C1404040')] * 8191)
    assert len(out) == 65536
    f.done('length-65536', at, full, out, 8191, 8191, '65,536 bytes in a room of 65,536')
    f.done('length-65536-room-70000', at, full, out, 8191, 8191, 'in a larger room', 70000)
    f.refused('length-65536-room-65535', at, full, 15, 65536, 'a room one short', 65535)
    over = deck('TRF,FF,A=(1,809),B=(77,77)', '1,1,1')
    for room in (0, 65536, 65537, 70000):
        f.refused('length-65537-room-%d' % room, over, reel(data(809)), 15, 65537, '65,537 bytes, a room of %d' % room, room)
    f.refused('length-65544', at.replace('(1,8191)', '(1,8192)'), reel(data(8192)), 15, 65544, 'a record more', 70000)
    f.refused('length-most', deck('TRF,FF,A=(1,32760),B=(4096,4096)', '1,1,1'), reel(data(32760), data(32760)), 15, 268632008,
              'the longest: 65,520 records of 4,096 bytes, 8 + 65,520 x 4,100')
    f.refused('length-most-in-one-room', deck('TF,FF,A=(1,1),B=(4096,4096)', '1,1,1'), reel(*[data(1)] * 20), 15, 8 + 20 * 4100, '20 records of 4,096 bytes', 70000)
    big = deck('TC,FU,A=(32760),B=(32760)')
    same = reel(data(32760, 0x40), data(32760, 0x41))
    f.done('length-65536-tc', big, same, same, 2, 2, 'a copy of 65,536 bytes')
    f.refused('length-65536-tc-short', big, same, 15, 65536, 'a room one short', 65535)
    ff = deck('TC,FF,A=(2730,32760),B=(2730,32760)')
    f.done('length-65536-tc-ff', ff, reel(data(32760), data(32760)), reel(data(32760), data(32760)), 24, 2, 'the same in FF: 24 records', 70000)
    fv = deck('TR,FV,A=(32760),B=(32760)')
    long = reel(block(data(1000), data(31748)), block(data(32752)))
    f.done('length-65536-tr-fv', fv, long, long, 3, 2, 'blocks of 32,760 in FV: the first is full, so the third record opens a block')
    f.refused('length-tr-fv-apart', fv.replace('B=(32760)', 'B=(31756)'), reel(block(data(1000), data(31748))), 15, 16 + 1008 + 31756,
              'apart they are two blocks of 1,008 and 31,756', 32779)


def fixed(f):
    f.note('TC with FF: the same blocks. Full, short at the end, and damaged')
    tc = deck('TC,FF,A=(4,8),B=(4,8)')
    a, b, c = h('C1C2C3C4'), h('00FF00FF'), h('40404040')
    for name, blocks, records in [('full', [a + b, b + c], 4), ('short', [a + b, c], 3), ('short-alone', [c], 1)]:
        f.done('tc-ff-' + name, tc, reel(*blocks), reel(*blocks), records, len(blocks), 'a copy')
    f.done('tc-ff-none', tc, EMPTY, EMPTY, 0, 0, 'the empty reel')
    f.note('TR with FF: as many records in a block as fit')
    tr = deck('TR,FF,A=(4,8),B=(4,12)')
    f.done('tr-ff-full', tr, reel(a + b, b + c), reel(a + b + b, c), 4, 2, 'three records a block, the last short')
    f.done('tr-ff-short', tr, reel(a + b, c), reel(a + b + c), 3, 1, 'one full block')
    f.done('tr-ff-down', deck('TR,FF,A=(4,8),B=(4,4)'), reel(a + b, c), reel(a, b, c), 3, 3, 'one record a block')
    f.note('TF with FF: one block for each block, of records of 2 bytes')
    tf = deck('TF,FF,A=(4,8),B=(2,4)', '2,1,1')
    f.done('tf-ff-full', tf, reel(a + b, b + c), reel(h('C240 FF40'), h('FF40 4040')), 4, 2, 'byte 2 and a blank')
    f.done('tf-ff-short', tf, reel(a + b, c), reel(h('C240 FF40'), h('4040')), 3, 2, 'the last block is short')
    f.note('TRF with FF: both')
    trf = deck('TRF,FF,A=(4,8),B=(5,15)', '1,4,2')
    f.done('trf-ff-full', trf, reel(a + b, b + c), reel(h('40 C1C2C3C4 40 00FF00FF 40 00FF00FF'), h('40 40404040')), 4, 2, 'three records a block')
    f.done('trf-ff-short', trf, reel(a + b, c), reel(h('40 C1C2C3C4 40 00FF00FF 40 40404040')), 3, 1, 'exactly m')
    f.note('Damaged blocks of FF are 12 in every mode, whatever the room')
    for mode, text in (('tc', tc), ('tr', tr), ('tf', tf), ('trf', trf)):
        f.refused(mode + '-ff-no-multiple', text, reel(a + b, a + b[:3]), 12, 2, 'no multiple of n', 70)
        f.refused(mode + '-ff-no-multiple-middle', text, reel(a, a + b[:3], c), 12, 2, 'no multiple of n, in the middle')
        f.refused(mode + '-ff-over-middle', text, reel(a, a + b + c, c), 12, 2, 'over m, in the middle')
        f.refused(mode + '-ff-over', text, reel(a + b + c), 12, 1, 'over m')
        f.refused(mode + '-ff-byte', text, reel(a + b, b[:1]), 12, 2, 'one byte')


def short_blocks(f):
    f.note('Short blocks of FF anywhere (document 02, order 2): TC leaves them, TF gives a block for each, TR and TRF write full blocks but the last')
    a, b, c = h('C1C2C3C4'), h('00FF00FF'), h('40404040')
    tc, tf = deck('TC,FF,A=(4,8),B=(4,8)'), deck('TF,FF,A=(4,8),B=(2,4)', '2,1,1')
    tr, trf = deck('TR,FF,A=(4,8),B=(4,12)'), deck('TRF,FF,A=(4,8),B=(5,15)', '1,4,2')
    to_tf = {a: h('C240'), b: h('FF40'), c: h('4040')}
    def four(name, why, *blocks):
        records = [r for block in blocks for r in block]
        threes = [records[i:i + 3] for i in range(0, len(records), 3)]
        joined = lambda lists, made: reel(*[b''.join(made(r) for r in l) for l in lists])
        shown_as = joined(blocks, lambda r: r)
        f.done('tc-ff-short-' + name, tc, shown_as, shown_as, len(records), len(blocks), 'TC: ' + why)
        f.done('tf-ff-short-' + name, tf, shown_as, joined(blocks, to_tf.get), len(records), len(blocks), 'TF: ' + why)
        f.done('tr-ff-short-' + name, tr, shown_as, joined(threes, lambda r: r), len(records), len(threes), 'TR: ' + why)
        f.done('trf-ff-short-' + name, trf, shown_as, joined(threes, lambda r: b'\x40' + r), len(records), len(threes), 'TRF: ' + why)
    four('middle', 'in the middle', [a, b], [a], [b, c])
    four('twice', 'twice, at the start and in the middle', [a], [b, c], [a], [b, c])
    four('next', 'one behind the other', [a, b], [a], [b], [c, a])
    four('all', 'all of one record', [a], [b], [c])
    for mode, text, length in (('tc', tc, 28), ('tr', tr, 24), ('tf', tf, 22), ('trf', trf, 27)):
        f.refused(mode + '-ff-short-first', text, reel(a, b + c), 15, length, 'a short block at the start, and no room', 0)
    f.note('R and short blocks: records are counted through them')
    wanted = {2: [[b, c], [a], [b, c]], 3: [[c], [a], [b, c]], 4: [[a], [b, c]], 5: [[b, c]], 6: [[c]], 7: []}
    for r, left in wanted.items():
        records = [x for block in left for x in block]
        into = reel(a, b + c, a, b + c)
        f.done('tf-ff-short-r-%d' % r, tf.replace('B=(2,4)', 'B=(2,4),R%d' % r), into, reel(*[b''.join(to_tf[x] for x in l) for l in left]), len(records), len(left), 'TF, R%d' % r)
        threes = [records[i:i + 3] for i in range(0, len(records), 3)]
        f.done('tr-ff-short-r-%d' % r, tr.replace('B=(4,12)', 'B=(4,12),R%d' % r), into, reel(*[b''.join(l) for l in threes]), len(records), len(threes), 'TR, R%d' % r)
    f.note('What TF under R2 wrote, short block first, read again under B: it was refused by 12 before')
    wrote = reel(h('FF40'), h('FF40 4040'), h('C240'))
    f.done('tf-ff-short-r-2-wrote', tf.replace('B=(2,4)', 'B=(2,4),R2'), reel(a + b, b + c, a), wrote, 4, 3, 'TF under R2 begins within the first block')
    f.done('tc-ff-short-back', deck('TC,FF,A=(2,4),B=(2,4)'), wrote, wrote, 4, 3, 'TC of it is itself')
    f.done('tr-ff-short-back', deck('TR,FF,A=(2,4),B=(2,8)'), wrote, reel(h('FF40 FF40 4040 C240')), 4, 1, 'and its records in one block')
    f.done('tf-ff-short-back', deck('TF,FF,A=(2,4),B=(1,2)', '1,1,1'), wrote, reel(h('FF'), h('FF40'), h('C2')), 4, 3, 'and a block for each block')
    f.note('13 is at its record, counted through short blocks')
    packs = deck('TRF,FF,A=(2,6),B=(2,4)', '1,(P,2,2),1')
    f.refused('trf-ff-short-13', packs, reel(h('F1C2'), h('F1C2 F1C2'), h('F1C2 F1D3 F112')), 13, 6, 'the sixth record')
    f.done('trf-ff-short-packs', packs, reel(h('F1C2'), h('F1C2 F3D4'), h('F5C6')), reel(h('012C 012C'), h('034D 056C')), 4, 2, 'four records of short blocks')


def variable(f):
    f.note('TC with FV, and TR: records of 1, 3 and 2 bytes')
    a, b, c = h('C1'), h('C2C3C4'), h('0000')
    whole = reel(block(a, b), block(c))
    f.done('tc-fv', deck('TC,FV,A=(20),B=(20)'), whole, whole, 3, 2, 'a copy')
    f.done('tr-fv-one', deck('TR,FV,A=(20),B=(22)'), whole, reel(block(a, b, c)), 3, 1, 'all in one block of 22, exactly g')
    f.done('tr-fv-two', deck('TR,FV,A=(20),B=(21)'), whole, whole, 3, 2, 'g one less: the third record opens a block')
    f.done('tr-fv-three', deck('TR,FV,A=(20),B=(15)'), whole, reel(block(a), block(b), block(c)), 3, 3, 'g of 15: each by itself')
    f.done('tr-fv-11', deck('TR,FV,A=(20),B=(11)'), whole, reel(block(a), block(b), block(c)), 3, 3, 'g of 11: the second record exactly')
    f.refused('tr-fv-10', deck('TR,FV,A=(20),B=(10)'), whole, 14, 2, 'g of 10: the second record exceeds it')
    f.note('TF and TRF with FV: n of 1 and 2')
    tf = deck('TF,FV,A=(1,20),B=(2,30)', '1,1,2/CV')
    f.done('tf-fv', tf, whole, reel(block(h('40C1'), h('40C2C3C4')), block(h('400000'))), 3, 2, 'a blank, byte 1, and the tail')
    trf = deck('TRF,FV,A=(1,20),B=(2,30)', '1,1,2/CV')
    f.done('trf-fv', trf, whole, reel(block(h('40C1'), h('40C2C3C4'), h('400000'))), 3, 1, 'in one block of 25')
    f.note('Damaged blocks of FV are 12 in every mode')
    good = block(a, b)
    for mode, text in (('tc', deck('TC,FV,A=(20),B=(20)')), ('tr', deck('TR,FV,A=(20),B=(30)')), ('tf', tf), ('trf', trf)):
        bad = lambda name, text_of, *blocks: f.refused('%s-fv-%s' % (mode, name), text, reel(*blocks), 12, len(blocks), text_of)
        bad('block-length', 'the length is not the block\'s size', good, good[:1] + h('0F') + good[2:])
        bad('block-zeros', 'the third byte is not zero', good[:2] + h('01') + good[3:])
        bad('record-zeros', 'the fourth byte of a record\'s word is not zero', good, good[:7] + h('80') + good[8:])
        bad('record-4', 'a record of length 4', good, h('0008000000040000'))
        bad('record-past', 'a record ends past its block', good, good[:10] + h('08') + good[11:])
        bad('left-over', 'a byte is left over', length_word(len(good) + 1) + good[4:] + b'\0')
        bad('no-record', 'no record', good, good, h('00040000'))
        bad('over', 'a block of 21', block(data(13)))


def undefined(f):
    f.note('TC with FU: 1 to g bytes, the block is the record')
    tc = deck('TC,FU,A=(5),B=(5)')
    blocks = [h('C1C2C3C4C5'), h('00'), h('FFFF')]
    f.done('tc-fu', tc, reel(*blocks), reel(*blocks), 3, 3, 'a copy')
    f.done('tc-fu-none', tc, EMPTY, EMPTY, 0, 0, 'the empty reel')
    f.refused('tc-fu-over', tc, reel(blocks[1], data(6)), 12, 2, 'a block of 6')
    many = reel(*[h('C1')] * 300)
    f.done('tc-fu-300', tc, many, many, 300, 300, '300 blocks of a byte')


def tails(f):
    f.note('FV with CV: the data past A\'s n follows B\'s n bytes; without CV it is dropped. n of 2 and 3')
    v = reel(block(h('C1C2')), block(h('C1C2E7'), h('D1D2E8E9')), block(h('C5C6') + data(10, 0)))
    t = lambda name, text, why, *blocks: f.done('tail-' + name, text, v, reel(*blocks), 4, len(blocks), why)
    with_cv = [block(h('40C1C2')), block(h('40C1C2E7'), h('40D1D2E8E9')), block(h('40C5C6') + data(10, 0))]
    for name, items in (('cv-last', '1,2,2/CV'), ('cv-first', 'CV/1,2,2'), ('cv-between', '1,1,2/CV/2,1,3')):
        t(name, deck('TF,FV,A=(2,20),B=(3,30)', items), 'tails of 0, 1, 2 and 10 bytes; where CV stands has no effect', *with_cv)
    t('cv-on-two-cards', deck('TF,FV,A=(2,20),B=(3,30)', 'CV', '1,2,2'), 'on a card of its own', *with_cv)
    t('no-cv', deck('TF,FV,A=(2,20),B=(3,30)', '1,2,2'), 'dropped', block(h('40C1C2')), block(h('40C1C2'), h('40D1D2')), block(h('40C5C6')))
    t('cv-narrow', deck('TF,FV,A=(2,20),B=(1,30)', '2,1,1/CV'), 'B\'s n is less than A\'s', block(h('C2')), block(h('C2E7'), h('D2E8E9')), block(h('C6') + data(10, 0)))
    t('cv-alone', deck('TF,FV,A=(2,20),B=(1,30)', 'CV'), 'no field: a blank and the tail', block(h('40')), block(h('40E7'), h('40E8E9')), block(h('40') + data(10, 0)))
    t('cv-alone-trf', deck('TRF,FV,A=(2,20),B=(1,32)', 'CV'), 'and in blocks of 32', block(h('40'), h('40E7'), h('40E8E9')), block(h('40') + data(10, 0)))
    f.note('A tail may hold any byte; the first n bytes are asked. A pack of 2 to 2')
    packs = deck('TF,FV,A=(2,20),B=(2,20)', '1,(P,2,2),1/CV')
    f.done('tail-any', packs, reel(block(h('F1C200FF40A1'))), reel(block(h('012C00FF40A1'))), 1, 1, 'a tail that is no number')
    f.refused('tail-any-and-bad', packs, reel(block(h('F1C200')), block(h('F1F20000'), h('F1120000'))), 13, 3, 'record 3 has a sign of 1')
    f.note('Document 001\'s deck that interchanges two fields of ten bytes, and a record made for it; as printed, with the record word counted, its shortest record is 12')
    made = block(h('C1C2C3C4C5C6C7C8C9D1 D2D3D4D5D6D7D8D9E2E3 E7E8E9'))
    swapped = block(h('D2D3D4D5D6D7D8D9E2E3 C1C2C3C4C5C6C7C8C9D1 E7E8E9'))
    f.done('interchange', deck('TF,FV,A=(20,300),B=(20,300)', '1,10,11/11,10,1/CV'), reel(made), reel(swapped), 1, 1, 'carried over')
    f.refused('interchange-as-printed', deck('TF,FV,A=(24,300),B=(24,300)', '5,10,15/15,10,5/CV'), reel(block(data(20))), 12, 1, '20 bytes of data are under n')


def sizes(f):
    f.note('14: a record\'s output exceeds a block of B by itself. Fields of 2 bytes and the tail into B=(2,12): 4 + 4 + 2 and a tail of 2')
    trf = deck('TRF,FV,A=(2,20),B=(2,12)', '1,2,1/CV')
    f.done('alone-exact', trf, reel(block(h('C1C2E7E8'))), reel(block(h('C1C2E7E8'))), 1, 1, 'exactly 12')
    f.refused('alone-over', trf, reel(block(h('C1C2E7E8')), block(h('C1C2'), h('C1C2E7E8E9'))), 14, 3, 'record 3 has a tail of 3')
    f.done('alone-over-no-cv', trf.replace('/CV', ''), reel(block(h('C1C2E7E8E9'))), reel(block(h('C1C2'))), 1, 1, 'without CV it fits')
    f.refused('alone-over-first', trf, reel(block(h('C1C2E7E8E9')), block(h('C1C2E7E8E9'))), 14, 1, 'the first of two')
    f.refused('alone-over-tf', trf.replace('TRF', 'TF'), reel(block(h('C1C2')), block(h('C1C2E7E8E9'))), 14, 2, 'in TF')
    f.refused('alone-over-tr', deck('TR,FV,A=(20),B=(12)'), reel(block(h('C1C2C3C4')), block(h('C1C2C3C4C5'))), 14, 2, 'in TR')
    f.note('14: in TF a record overfills its block. Records of 4 + 3 bytes: two make a block of 18, three of 25')
    over = lambda m, r=1: deck('TF,FV,A=(1,40),B=(3,%d),R%d' % (m, r), '1,1,2')
    a, out = h('C1'), h('40C140')
    two, three = block(a, a), block(a, a, a)
    f.done('overfill-18', over(18), reel(two, two), reel(block(out, out), block(out, out)), 4, 2, 'two records exactly')
    f.refused('overfill-17', over(17), reel(two, two), 14, 2, 'the second record')
    f.refused('overfill-24', over(24), reel(two, three, three), 14, 5, 'the third record of the second block')
    f.done('overfill-25', over(25), reel(two, three), reel(block(out, out), block(out, out, out)), 5, 2, 'three exactly')
    f.refused('overfill-11', over(11), reel(block(a), two), 14, 3, 'the second record of the second block')
    f.done('overfill-r2', over(18, 2), reel(three, two), reel(block(out, out), block(out, out)), 4, 2, 'R2: the record skipped does not count')
    f.refused('overfill-r2-17', over(17, 2), reel(three, two), 14, 3, 'R2: the third record')
    f.done('overfill-r4', over(18, 4), reel(three, two), reel(block(out, out)), 2, 1, 'R4: the block that would overfill is skipped')
    f.done('overfill-trf', over(18).replace('TF', 'TRF'), reel(three, two), reel(block(out, out), block(out, out), block(out)), 5, 3, 'TRF opens blocks instead')
    v = reel(block(h('C1E7E8'), a), block(a, h('C1E7')))
    cv = lambda m: deck('TF,FV,A=(1,40),B=(1,%d)' % m, '1,1,1/CV')
    f.done('overfill-cv-16', cv(16), v, v, 4, 2, '4 + 7 + 5 are 16')
    f.refused('overfill-cv-15', cv(15), v, 14, 2, 'one less: the second record')


def together(f):
    f.note('The lowest number first, over the whole reel: 12, then 13, then 14, then 15. A pack of 2 and a tail into B=(2,12)')
    t = deck('TRF,FV,A=(2,20),B=(2,12)', '1,(P,2,2),1/CV')
    good, long, bad, both = h('F1C2'), h('F1C2E7E8E9'), h('E1C2'), h('E1C2E7E8E9')
    f.refused('13-behind-14', t, reel(block(long), block(good, bad)), 13, 3, 'record 1 is too long, record 3 has a bad zone')
    f.refused('13-before-14', t, reel(block(bad), block(good, long)), 13, 1, 'the other order')
    f.refused('13-and-14-in-one', t, reel(block(good), block(both)), 13, 2, 'both in record 2')
    f.refused('14-alone', t, reel(block(long), block(good)), 14, 1, 'without the bad record', 0)
    f.refused('13-and-room-0', t, reel(block(good), block(bad)), 13, 2, 'a room of 0 is 15', 0)
    f.refused('12-behind-13', t, reel(block(bad), block(good, h('F1'))), 12, 2, 'record 1 has a bad zone, block 2 a record shorter than n', 0)
    f.refused('12-behind-14', t, reel(block(long), block(good)[:-1]), 12, 2, 'record 1 is too long, block 2 is cut')
    f.refused('11-behind-all', t, reel(block(bad), block(h('F1'))) + b'\0', 11, 0, 'no reel')
    tf = deck('TF,FV,A=(2,22),B=(2,12)', '1,(P,2,2),1/CV')
    f.refused('13-in-tf', tf, reel(block(good, good, good), block(bad)), 13, 4, 'TF: block 1 is overfilled, record 4 bad')
    f.refused('14-in-tf', tf, reel(block(good, good, good), block(good)), 14, 2, 'TF: 4 + 6 + 6 are over 12')
    f.note('A bad record late in the reel: nothing is written before it is found')
    full = b''.join(FIVE[:2])
    late = reel(*[full] * 20 + [FIVE[0] + h('C1C2C3C4 F1F2F314')])
    f.refused('late-13', FIRST, late, 13, 42, 'the last of 42 records')
    f.refused('late-12', FIRST, reel(*[full] * 20 + [full + b'\0']), 12, 21, 'the last of 21 blocks')
    f.refused('late-14', deck('TR,FV,A=(20),B=(12)'), reel(*[block(h('C1'), h('C2'))] * 20 + [block(h('C1'), data(5))]), 14, 42, 'the last of 42 records')
    f.note('Records before R are checked as blocks and then skipped')
    skip = lambda text, r: text.replace('),B=', '),R%d,B=' % r)
    f.done('skipped-13', skip(t, 3), reel(block(bad, bad), block(good)), reel(block(h('012C'))), 1, 1, 'R3: two records with a bad zone are skipped')
    f.refused('skipped-13-not-all', skip(t, 2), reel(block(bad, bad), block(good)), 13, 2, 'R2: one of them is taken')
    f.done('skipped-14', skip(t, 2), reel(block(long), block(good)), reel(block(h('012C'))), 1, 1, 'R2: the long record is skipped')
    f.refused('skipped-12', skip(t, 4), reel(block(good), block(h('F1')), block(good)), 12, 2, 'R4: a block before R is bad all the same')
    f.refused('skipped-12-past', skip(t, 9), reel(block(good), block(h('F1'))), 12, 2, 'R past the last record')
    f.done('skipped-all', skip(t, 9), reel(block(bad), block(long)), EMPTY, 0, 0, 'R past the last record: the bad ones are all skipped')
    f.refused('skipped-11', skip(t, 9), b'', 11, 0, 'no byte is no reel')


def fillings(f):
    f.note('TRF fills each block as far as records fit. FF: records of 3 bytes')
    five = reel(h('C1C2C3C4'), h('C5'))
    out = [h('40C%d40' % i) for i in range(1, 6)]
    for m, counts in ((3, [1] * 5), (6, [2, 2, 1]), (9, [3, 2]), (12, [4, 1]), (15, [5]), (18, [5])):
        f.done('fill-ff-%d' % m, deck('TRF,FF,A=(1,4),B=(3,%d)' % m, '1,1,2'), five, reel(*cut(out, counts)), 5, len(counts), 'm of %d' % m)
    f.note('FV: records of 4 + 3 bytes behind a word of 4: 18 holds two, 25 three, 32 four, 39 five')
    five = reel(block(h('C1'), h('C2'), h('C3')), block(h('C4'), h('C5')))
    for m, counts in ((11, [1] * 5), (17, [1] * 5), (18, [2, 2, 1]), (24, [2, 2, 1]), (25, [3, 2]), (31, [3, 2]), (32, [4, 1]), (38, [4, 1]), (39, [5])):
        blocks, at = [], 0
        for count in counts:
            blocks.append(block(*out[at:at + count]))
            at += count
        f.done('fill-fv-%d' % m, deck('TRF,FV,A=(1,40),B=(3,%d)' % m, '1,1,2'), five, reel(*blocks), 5, len(counts), 'm of %d' % m)
    f.note('No look-ahead: records of 1, 6 and 1 bytes into 16 are 9, 14 and 9; the third would have fitted the first block')
    v = reel(block(h('C1'), h('C2') + data(5), h('C3')))
    apart = reel(block(h('C1')), block(h('C2') + data(5)), block(h('C3')))
    f.done('fill-no-look-ahead', deck('TRF,FV,A=(1,40),B=(1,16)', '1,1,1/CV'), v, apart, 3, 3, 'TRF')
    f.done('fill-no-look-ahead-tr', deck('TR,FV,A=(40),B=(16)'), v, apart, 3, 3, 'TR')
    f.done('fill-19', deck('TR,FV,A=(40),B=(19)'), v, reel(block(h('C1'), h('C2') + data(5)), block(h('C3'))), 3, 2, 'into 19 the first two fit exactly')
    f.done('fill-24', deck('TR,FV,A=(40),B=(24)'), v, v, 3, 1, 'into 24 all three')


def large(f):
    f.note('Records of 4,096 bytes and 64 fields of 64 bytes that stand in the output last first')
    chunks = on_cards(['%d,64,%d' % (64 * i + 1, 64 * (63 - i) + 1) for i in range(64)], 5)
    rising = b''.join(bytes([i]) * 64 for i in range(64))
    falling = b''.join(bytes([63 - i]) * 64 for i in range(64))
    f.done('large-ff', deck('TF,FF,A=(4096,8192),B=(4096,8192)', *chunks), reel(rising + falling, rising), reel(falling + rising, falling), 3, 2, 'three records')
    f.done('large-fv', deck('TRF,FV,A=(4096,8200),B=(4096,4110)', 'CV', *chunks), reel(block(rising), block(falling + h('E7E8'))),
           reel(block(falling), block(rising + h('E7E8'))), 2, 2, 'with a tail')
    f.refused('large-fv-over', deck('TRF,FV,A=(4096,8200),B=(4096,4105)', 'CV', *chunks), reel(block(rising), block(falling + h('E7E8'))), 14, 2, 'a tail of 2 and room for 1')
    packs = on_cards(['%d,(P,16,9),%d' % (16 * i + 1, 9 * i + 1) for i in range(64)], 4)
    digits, packed = h('F1F2F3F4F5F6F7F8F9F0F1F2F3F4F5D6'), h('01234567890123456D')
    ff = deck('TRF,FF,A=(1024,1024),B=(576,1152)', *packs)
    f.done('large-packs', ff, reel(digits * 64, digits * 64, digits * 64), reel(packed * 128, packed * 64), 3, 2, '64 packs of 16 to 9')
    f.refused('large-packs-bad', ff, reel(digits * 64, digits * 63 + digits[:14] + h('F0 1D')), 13, 2, 'the last of 64 in the second record')
    f.done('large-blanks', deck('TF,FF,A=(1,7),B=(4096,28672)', '1,1,4096'), reel(h('C1C2C3')), reel(b''.join(data(4095, 0x40) + bytes([0xC1 + i]) for i in range(3))), 3, 1,
           'three records of 4,095 blanks and a byte')


def many(f):
    f.note('A thousand records of a byte: in as many blocks, and in one')
    all_bytes = [bytes([i % 256]) for i in range(1000)]
    apart, one = reel(*all_bytes), reel(b''.join(all_bytes))
    f.done('many-tr', deck('TR,FF,A=(1,1),B=(1,32760)'), apart, one, 1000, 1, 'a thousand blocks into one')
    f.done('many-tr-apart', deck('TR,FF,A=(1,1000),B=(1,1)'), one, apart, 1000, 1000, 'and apart again')
    f.done('many-tf', deck('TF,FF,A=(1,1),B=(2,2)', '1,1,2'), apart, reel(*[b'\x40' + x for x in all_bytes]), 1000, 1000, 'one block for each')
    f.done('many-r-1000', deck('TR,FF,A=(1,1000),B=(1,7),R1000'), one, reel(all_bytes[999]), 1, 1, 'R at the last record')
    f.done('many-r-1001', deck('TR,FF,A=(1,1000),B=(1,7),R1001'), one, EMPTY, 0, 0, 'R one past')
    f.done('many-r-994', deck('TR,FF,A=(1,1000),B=(1,7),R994'), one, reel(b''.join(all_bytes[993:])), 7, 1, 'the last seven, exactly m')
    records = [b'\x40' + x for x in all_bytes]
    f.done('many-fv', deck('TRF,FV,A=(1,5004),B=(2,30)', '1,1,2'), reel(block(*all_bytes)), reel(*[block(*records[i:i + 4]) for i in range(0, 1000, 4)]), 1000, 250,
           'a block of 5,004, and four records of 6 to a block of 28')


def blanks(f):
    f.note('Where no field writes there is hex 40, also behind a record that stood there')
    gap = deck('TF,FF,A=(3,6),B=(6,12)', '1,1,2/3,1,5')
    f.done('blanks-ff', gap, reel(h('C1C2C3 D1D2D3'), h('E1E2E3')), reel(h('40C14040C340 40D14040D340'), h('40E14040E340')), 3, 2, 'bytes 2 and 5 are written')
    v = reel(block(h('C1') + data(9, 0xE7), h('C2'), h('C3E8')))
    f.done('blanks-behind-tail', deck('TF,FV,A=(1,40),B=(5,60)', '1,1,3/CV'), v, reel(block(h('4040C14040') + data(9, 0xE7), h('4040C24040'), h('4040C34040E8'))), 3, 1,
           'a record with a tail of 9, and shorter ones behind it')
    f.done('blanks-only', deck('TRF,FV,A=(1,40),B=(5,60)', 'CV'), v, reel(block(data(5, 0x40) + data(9, 0xE7), data(5, 0x40), data(5, 0x40) + h('E8'))), 3, 1, 'CV alone')
    f.note('A later field stands over an earlier one, and each reads the input record')
    def over(items, name, record, out, why):
        n, m = len(record) // 2, len(out) // 2
        f.done('over-' + name, deck('TF,FF,A=(%d,%d),B=(%d,%d)' % (n, n, m, m), items), reel(h(record)), reel(h(out)), 1, 1, why)
    over('1,2,1/1,1,2', 'later', 'C1C2', 'C1C1', 'byte 1 over byte 2')
    over('1,1,2/1,2,1', 'earlier', 'C1C2', 'C1C2', 'the other order')
    over('1,3,1/3,1,1/1,1,3', 'exchange', 'C1C2C3', 'C3C2C1', 'bytes 1 and 3 change places: the second reads the input')
    over('1,2,2/1,2,1', 'shifted', 'C1C2', 'C1C2C2', 'shifted copies')
    over('1,1,1/2,(P,1,3),1', 'pack-fill', 'C1D5', '00005D', 'the fill of a pack covers')
    over('2,(P,1,3),1/1,1,1', 'pack-fill-covered', 'C1D5', 'C1005D', 'and is covered')
    over('1,1,1/2,(U,1,3),1', 'unpack-fill', 'C15D', 'F0F0D5', 'the fill of an unpack covers')
    over('1,(P,2,2),1/1,(P,2,1),2', 'pack-over-pack', 'F1C2', '012C', 'a pack over a pack')


def permitted(f):
    f.note('13: a pack of 3 to 2 asks F in high halves but the last, A to F in that one, 0 to 9 in low halves')
    p = deck('TF,FF,A=(3,6),B=(2,4)', '1,(P,3,2),1')
    for sign in 'ABCDEF':
        f.done('pack-sign-' + sign, p, reel(h('F1F9%s0' % sign)), reel(h('190' + sign)), 1, 1, 'sign ' + sign)
    bad = lambda name, text, record, why: f.refused(name, text, reel(h(record)), 13, 1, why)
    for name, record in (('zone-e', 'E1F2C3'), ('zone-0', '01F2C3'), ('second-zone', 'F1C2C3'), ('digit-a', 'FAF2C3'), ('second-digit', 'F1FFC3'), ('last-digit', 'F1F2CA'),
                         ('sign-9', 'F1F293'), ('sign-0', 'F1F203'), ('blanks', '404040')):
        bad('pack-bad-' + name, p, record, 'a half that is not permitted')
    f.refused('pack-bad-second', p, reel(h('F1F2C3 F1F2C3'), h('F1F2C3 F1F243')), 13, 4, 'record 4')
    f.note('An unpack of 2 to 3 asks A to F in the last low half, 0 to 9 in all others')
    u = deck('TF,FF,A=(2,4),B=(3,6)', '1,(U,2,3),1')
    for sign in 'ABCDEF':
        f.done('unpack-sign-' + sign, u, reel(h('190' + sign)), reel(h('F1F9%s0' % sign)), 1, 1, 'sign ' + sign)
    for name, record in (('high', 'A12C'), ('low', '1A2C'), ('last-high', '12AC'), ('sign-9', '1239'), ('sign-0', '1230'), ('blanks', '4040')):
        bad('unpack-bad-' + name, u, record, 'a half that is not permitted')
    f.note('Asked also where the digit is dropped, or a later field covers the result')
    bad('dropped-digit', deck('TF,FF,A=(3,3),B=(1,1)', '1,(P,3,1),1'), 'FAF2C3', 'a dropped digit')
    bad('dropped-zone', deck('TF,FF,A=(3,3),B=(1,1)', '1,(P,3,1),1'), '41F2C3', 'its zone')
    bad('covered-pack', deck('TF,FF,A=(3,3),B=(3,3)', '1,(P,3,2),1/1,3,1'), 'C1C2C3', 'covered by a copy')
    bad('both-fields', deck('TF,FF,A=(2,2),B=(3,3)', '1,(P,2,2),1/1,(P,1,1),3'), 'E1C2', 'a zone and a sign: E is a sign and no zone')
    f.done('both-fields-right', deck('TF,FF,A=(2,2),B=(3,3)', '1,(P,2,2),1/1,(P,1,1),3'), reel(h('F1C2')), reel(h('012C1F')), 1, 1, 'F is both')
    f.done('copied-any', deck('TF,FF,A=(3,3),B=(3,3)', '1,3,1'), reel(h('00A5FF')), reel(h('00A5FF')), 1, 1, 'a copy takes any half')
    f.done('not-read-any', p.replace('(3,6)', '(4,8)'), reel(h('F1F2C300 F1F2C3FF')), reel(h('123C123C')), 2, 1, 'a byte that no pack reads may hold any half')


VECTORS = [
    ('P', 'F1F2F3C4', '0001234C'), ('U', '123D', 'F0F0F1F2D3'), ('U', '123C', 'F1F2C3'), ('P', 'F5F4D3', '543D'), ('P', 'F7F9F6C8', '000000000007968C'),
    ('P', 'F1F2F3F4F5', '12345F'), ('P', 'F0F0F1F2D3', '123D'), ('P', 'F0F0F1F2D3', '00123D'), ('P', 'F2F5F5F9C4', '000000000025594C'), ('U', '000000000025594C', 'F2F5F5F9C4'),
    ('P', 'F1F2F3F4F5F6F7F8F9F0F1F2F3F4F5D6', '01234567890123456D'), ('P', 'F1F2F3F4F5F6F7F8F9F0F1F2F3F4F5D6', '234567890123456D'),
    ('P', 'F1F2F3F4F5F6F7F8F9F0F1F2F3F4F5D6', '0000000000000001234567890123456D'), ('U', '1234567890123456789012345678901D', 'F6F7F8F9F0F1F2F3F4F5F6F7F8F9F0D1'),
    ('U', '1C', 'F0' * 15 + 'C1'), ('P', 'F1F2F3C4', '01234C'), ('P', 'F1F2F3C4', '234C'), ('P', 'C4', '4C'), ('P', 'C4', '004C'), ('U', '01234C', 'F0F1F2F3C4'),
    ('U', '01234C', 'F1F2F3C4'), ('U', '4C', 'C4'),
]


def vectors(f):
    f.note('The examples of PACK and UNPK and of decimal operands in IBM\'s manuals, the unpackings of document 001, and p1 to p6, as whole runs: one record, one field')
    for number, (step, record, out) in enumerate(VECTORS, 1):
        n, m = len(record) // 2, len(out) // 2
        text = deck('TF,FF,A=(%d,%d),B=(%d,%d)' % (n, n, m, m), '1,(%s,%d,%d),1' % (step, n, m))
        f.done('vector-%d' % number, text, reel(h(record)), reel(h(out)), 1, 1, '%s %s to %d is %s' % ({'P': 'pack', 'U': 'unpack'}[step], record, m, out))
    f.refused('vector-123cd0', deck('TF,FF,A=(3,3),B=(5,5)', '1,(U,3,5),1'), reel(h('123CD0')), 13, 1,
              'unpack 123CD0 to 5 is F1F2F3FC0D in document 001; here a C stands among digits and the last low half is no sign')


def refused_decks(f):
    f.note('A run is refused by the plan\'s number and place before the reel is looked at')
    v = 'TF,FV,A=(4,30),B=(4,30)'
    bad = [(1, 1, '// X\n'), (1, 3, deck('TC,FU,A=(5),B=(5)') + 'X'), (2, 1, ''), (2, 65, '// U TC\n' + '// FS CV\n' * 70), (3, 2, deck(v, '1,1')), (4, 3, deck(v, 'CV', 'CV')),
           (5, 1, deck('R1')), (6, 7, deck(v, *['/'.join(['1,1,1'] * 12)] * 6)), (7, 1, deck('TC,FU,A=(5),B=(5),R0')), (8, 1, deck('TC,FU,A=(5),B=(5),R2')),
           (8, 2, deck('TC,FU,A=(5),B=(5)', 'CV')), (9, 1, deck(v, '4,2,1')), (10, 0, P9), (1, 1, '// U ' + 'X' * 60000)]
    for number, place, text in bad:
        for tag, given in (('', P7), ('-no-reel', b'')):
            name = 'deck-%d-at-%d%s%s' % (number, place, '-long' if len(text) > 50000 else '', tag)
            f.refused(name, text, given, number, place, 'a refused deck, and %s' % ('no reel' if tag else 'the reel of p7'), 0 if tag else 70000)
    f.note('11: not a reel')
    for name, given in (('no-byte', b''), ('7-bytes', EMPTY[:7]), ('9-bytes', EMPTY + b'\0'), ('count-1', h('00000001 00000008')), ('offset-9', h('00000000 00000009')),
                        ('byte-less', P7[:-1]), ('byte-more', P7 + b'\0'), ('count-40000000', h('40000000 00000008')), ('65537', reel(data(32760), data(32756), data(1)))):
        f.refused('no-reel-' + name, FIRST, given, 11, 0, 'not a reel', 70000)


def make():
    f = Runs('runs.txt', HEAD)
    for section in (cases_of_paper, firsts, lengths, fixed, short_blocks, variable, undefined, tails, sizes, together, fillings, large, many, blanks, permitted, vectors, refused_decks):
        section(f)
    return f
