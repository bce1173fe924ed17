"""Twins (document 02, order 3): two records that a plan which loses converts alike, and why it loses. Both records and the reason are worked by hand."""
from common import *
from decks import FIRST
from lent import *
from plans import EACH, P9, SIX
from runs import h

HEAD = [
    'Twins (document 02, order 3): NAME twins DECK ROOM. An output of 70,000 bytes is filled with a pattern, byte i being i mod 251, and its first ROOM bytes are lent. The line is',
    'NAME, refusal, place, column, reason (1 never read, 2 dropped by a short field, 3 covered later, 4 tail), length, a digest of all 70,000 bytes after the call, and both records',
    'in hex where they are at most 64 bytes; .. where they are longer; - where the deck was refused. A digest of numbers x: d = 0; d = (257 d + x + 1) mod 2147483647 for each.',
    'In comments a bar stands for hex 0A.',
]


class Lost:
    """Cases of one reason, named alike: decks of TF in FF with records of n and p bytes, their twins in hex."""
    def __init__(self, f, prefix, reason):
        self.f, self.prefix, self.reason = f, 'twins-%s-' % prefix, reason

    def __call__(self, name, n, p, one, other, why, *fs, reason=None):
        text = deck('TF,FF,A=(%d,%d),B=(%d,%d)' % (n, n, p, p), *fs)
        self.f.pair(self.prefix + name, text, reason or self.reason, h(one), h(other), why)


def samples(f):
    f.note('The sample deck keeps; its form of 6 bytes loses half 9, the low half of byte 5')
    f.refused('twins-sample', FIRST, 16, 0, 'a plan that keeps')
    f.pair('twins-sample-of-6', SIX, 2, h('00000000 F0F0F0A0'), h('00000000 F1F0F0A0'), 'halves of any value at 0, zones at F, digits at 0, the sign at A; the digit of byte 5 at 0 and 1')


def never_read(f):
    f.note('A half that no field reads may have any value: its lowest two are 0 and 1')
    t = Lost(f, 'unread', 1)
    t('first', 3, 2, '000000', '100000', 'byte 1: half 0', '2,2,1')
    t('between', 3, 2, '000000', '001000', 'byte 2: half 2', '1,1,1/3,1,2')
    t('last', 3, 2, '000000', '000010', 'byte 3: half 4. Half 5 is never the lost one: whatever shows a half of the last byte shows the other beside it', '1,2,1')
    t('two', 3, 1, '000000', '001000', 'bytes 2 and 3: the lowest half', '1,1,1')
    t('before-pack', 4, 2, '00 F0F0A0', '10 F0F0A0', 'byte 1, with a pack behind it', '2,(P,3,2),1')
    t('behind-pack', 4, 2, 'F0F0A0 00', 'F0F0A0 10', 'byte 4, with a pack before it', '1,(P,3,2),1')
    t('before-unpack', 3, 3, '00 000A', '10 000A', 'byte 1, with an unpack behind it', '2,(U,2,3),1')
    t('behind-unpack', 3, 3, '000A 00', '000A 10', 'byte 3, with an unpack before it', '1,(U,2,3),1')
    t('before-dropped', 5, 2, '00 F0F0F0A0', '10 F0F0F0A0', 'byte 1; half 3, which the pack drops, is higher', '2,(P,4,2),1')
    t('among-all-kinds', 8, 7, '00 F0F0A0 000A 00 00', '00 F0F0A0 000A 00 10', 'byte 8; a copy, a pack, an unpack and a copy keep the others', '1,1,1/2,(P,3,2),2/5,(U,2,3),4/7,1,7')
    f.pair('twins-unread-cv-alone', deck('TF,FV,A=(4,30),B=(4,30)', 'CV'), 1, h('00000000'), h('10000000'), 'CV is no field: half 0')
    f.pair('twins-unread-cv-alone-n-8', deck('TRF,FV,A=(4,12),B=(4,12)', 'CV'), 1, h('00000000'), h('10000000'), 'the same with no tail')


def dropped_by_pack(f):
    f.note('A pack to m bytes has place for 2m-1 digits and the sign: those on the left are dropped, all low halves')
    t = Lost(f, 'pack', 2)
    t('2-to-1', 2, 1, 'F0A0', 'F1A0', 'one digit dropped', '1,(P,2,1),1')
    t('3-to-1', 3, 1, 'F0F0A0', 'F1F0A0', 'two digits dropped: the lowest half', '1,(P,3,1),1')
    t('4-to-2', 4, 2, 'F0F0F0A0', 'F1F0F0A0', 'one digit dropped', '1,(P,4,2),1')
    t('4-to-1', 4, 1, 'F0F0F0A0', 'F1F0F0A0', 'three digits dropped', '1,(P,4,1),1')
    t('second-digit', 4, 2, 'F0F0F0A0', 'F0F1F0A0', 'three digits dropped, a copy brings the first: half 3', '1,(P,4,1),1/1,1,2')
    t('third-digit', 4, 3, 'F0F0F0A0', 'F0F0F1A0', 'three digits dropped, a copy brings the first two: half 5', '1,(P,4,1),1/1,2,2')
    t('in-the-middle', 6, 4, '00 F0F0F0A0 00', '00 F1F0F0A0 00', 'bytes 2 to 5, half 3', '1,1,1/2,(P,4,2),2/6,1,4')
    t('16-to-8', 16, 8, 'F0' * 15 + 'A0', 'F1' + 'F0' * 14 + 'A0', 'place for 15 digits of 16', '1,(P,16,8),1')
    t('16-to-1', 16, 1, 'F0' * 15 + 'A0', 'F1' + 'F0' * 14 + 'A0', 'place for one digit of 16', '1,(P,16,1),1')
    t('zone-and-sign', 3, 3, 'F0 F0 A0', 'F1 F0 A0', 'the sign of one pack is a zone of the other: F is its only value', '1,(P,2,1),1/2,(P,2,2),2')


def dropped_by_unpack(f):
    f.note('An unpack to m bytes has place for m digits and the sign: halves on the left are dropped, high and low ones')
    t = Lost(f, 'unpack', 2)
    t('2-to-2', 2, 2, '000A', '100A', 'half 0 dropped', '1,(U,2,2),1')
    t('2-to-1', 2, 1, '000A', '100A', 'halves 0 and 1 dropped: the lowest', '1,(U,2,1),1')
    t('3-to-4', 3, 4, '00000A', '10000A', 'half 0 of five digits dropped', '1,(U,3,4),1')
    t('second-byte', 3, 2, '00000A', '00100A', 'halves 0 to 3 dropped, a copy brings byte 1: half 2, a high one', '1,(U,3,1),1/1,1,2')
    t('low-half', 2, 3, '000A', '010A', 'the first gives F and half 0, F and half 1, halves 3 and 2; the second puts halves 3 and 2 over half 1 and drops it: half 1, a low one', '1,(U,2,3),1/1,(U,2,1),2')
    t('low-half-of-two', 3, 5, '00000A', '01000A', 'the second puts F and half 3, halves 5 and 4 over halves 1 and 2 and drops both: half 1', '1,(U,3,5),1/1,(U,3,2),2')
    t('9-to-16', 9, 16, '00' * 8 + '0A', '10' + '00' * 7 + '0A', 'place for 16 digits of 17', '1,(U,9,16),1')
    t('16-to-16', 16, 16, '00' * 15 + '0A', '10' + '00' * 14 + '0A', 'place for 16 digits of 31', '1,(U,16,16),1')
    t('16-to-1', 16, 1, '00' * 15 + '0A', '10' + '00' * 14 + '0A', 'place for one digit of 31', '1,(U,16,1),1')
    t('in-the-middle', 4, 4, '00 000A 00', '00 100A 00', 'bytes 2 and 3, half 2', '1,1,1/2,(U,2,2),2/4,1,4')


def covered(f):
    f.note('What a field wrote is covered by a later one that does not read the half: by a copy, by fill, by a zone')
    t = Lost(f, 'covered', 3)
    t('second', 2, 2, '0000', '0010', 'byte 1 over byte 2', '1,2,1/1,1,2')
    t('first', 2, 2, '0000', '1000', 'byte 2 over byte 1', '1,2,1/2,1,1')
    t('on-two-cards', 2, 2, '0000', '0010', 'order runs through the cards', '1,2,1', '1,1,2')
    t('by-two', 2, 2, '0000', '1000', 'byte 2 over byte 1, twice', '1,2,1/2,1,1/2,1,1')
    t('twice', 2, 4, '0000', '1000', 'byte 1 stands twice and is covered twice', '1,2,1/1,2,3/2,1,1/2,1,3')
    t('by-pack-fill', 2, 3, '00A0', '10A0', 'the fill of a pack over byte 1', '1,1,1/2,(P,1,3),1')
    t('by-unpack-fill', 2, 2, '000A', '100A', 'the fill F0 of an unpack over byte 1', '1,1,1/2,(U,1,2),1')
    t('by-unpack-zone', 3, 4, '00000A', '10000A', 'F and half 3 over byte 1', '1,1,2/2,(U,2,3),1')
    t('by-all', 3, 2, '000000', '100000', 'bytes 2 and 3 over byte 1 and a blank', '1,1,1/2,2,1')
    f.note('Covered digits and signs: their lowest two are 0 and 1, A and B')
    t('pack-sign', 2, 2, 'F0A0', 'F0B0', 'byte 1 over the sign and the last digit: half 2', '1,(P,2,2),1/1,1,2')
    t('pack-sign-first', 2, 2, 'A000', 'B000', 'byte 2 over them: half 0 is the sign', '1,(P,1,2),1/2,1,2')
    t('pack-digit', 3, 2, 'F0F0A0', 'F1F0A0', 'byte 3 over the digits of bytes 1 and 2: half 1', '1,(P,3,2),1/3,1,1')
    t('unpack-high', 2, 3, '000A', '100A', 'byte 2 over F and half 0', '1,(U,2,3),1/2,1,1')
    t('unpack-low', 2, 3, '000A', '010A', 'byte 2 over F and half 1', '1,(U,2,3),1/2,1,2')
    t('unpack-last', 2, 3, '000A', '001A', 'byte 1 over the last digit and the sign: half 2', '1,(U,2,3),1/1,1,3')


def several(f):
    f.note('Several fields read the lost half: the reason is the one of the last of them, whatever wrote last')
    t = Lost(f, 'several', None)
    t('copied-dropped', 2, 2, '000A', '100A', 'field 1 is covered; field 2 reads half 0 last and drops it', '1,2,1/1,(U,2,1),1', reason=2)
    t('dropped-copied', 2, 2, '000A', '100A', 'field 2 reads half 0 last and is covered', '1,(U,2,1),1/1,2,1/2,1,1', reason=3)
    t('covered-dropped', 2, 2, '000A', '100A', 'field 1 is covered by field 2; field 3 reads half 0 last and drops it', '1,2,1/2,1,1/1,(U,2,1),1', reason=2)
    t('on-three-cards', 2, 2, '000A', '100A', 'the same on three cards', '1,2,1', '2,1,1', '1,(U,2,1),1', reason=2)
    t('dropped-between', 2, 2, '000A', '100A', 'field 2 reads half 0 last and drops it; field 3 writes last, over field 1', '1,1,1/1,(U,2,1),2/2,1,1', reason=2)
    t('dropped-and-covered', 2, 1, '000A', '100A', 'field 1 drops half 0 and is covered as well', '1,(U,2,1),1/2,1,1', reason=2)
    t('rescue-covered', 4, 3, 'F0F0F0A0', 'F1F0F0A0', 'the pack drops half 1, the copy brings it and is covered', '1,(P,4,2),1/1,1,3/4,1,3', reason=3)
    t('rescue-before', 4, 3, 'F0F0F0A0', 'F1F0F0A0', 'the copy is covered, and the pack behind it drops half 1', '1,1,3/4,1,3/1,(P,4,2),1', reason=2)
    t('rescue-by-pack-covered', 4, 4, 'F0F0F0A0', 'F1F0F0A0', 'a second pack brings half 1 in byte 3 and is covered there', '1,(P,4,2),1/1,(P,2,2),3/3,1,3', reason=3)
    t('two-packs', 4, 3, 'F0F0F0A0', 'F1F0F0A0', 'both drop half 1; the sign of the second is a zone of the first', '1,(P,4,2),1/1,(P,3,1),3', reason=2)
    t('two-copies', 2, 2, '0000', '1000', 'both are covered', '1,2,1/1,1,1/2,1,1', reason=3)
    t('three-copies', 2, 3, '0000', '1000', 'byte 1 is brought three times and covered each time', '1,2,1/1,2,2/1,1,1/2,1,1/2,1,2', reason=3)
    t('zone', 2, 1, 'F0A0', 'F1A0', 'half 0 is a zone and holds nothing, though no field brings it; half 1 is dropped', '1,(P,2,1),1/2,1,1', reason=2)
    t('zone-copied', 2, 2, 'F0A0', 'F1A0', 'a copy brings the zone and half 1, and is covered', '1,(P,2,1),1/1,2,1/2,1,1', reason=3)
    t('zone-copied-first', 2, 2, 'F0A0', 'F1A0', 'in the other order the pack reads half 1 last', '1,2,1/2,1,1/1,(P,2,1),2', reason=2)
    t('other-reader-later', 4, 2, '0000000A', '0010000A', 'field 2 reads bytes 3 and 4, and not half 2', '2,1,1/3,(U,2,1),1/1,1,2', reason=3)


def tails(f):
    f.note('The tail: n bytes, then the same and a byte 00')
    t = lambda name, u, one, why, *fs: f.pair('twins-tail-' + name, deck(u, *fs), 4, h(one), h(one + '00'), why)
    t('m-n-9', 'TF,FV,A=(4,13),B=(4,12)', '00000000', 'a tail of one byte at most', '1,4,1')
    t('m-most', 'TRF,FV,A=(4,32760),B=(4,12)', '00000000', 'the shortest that shows it, however long it may be', '1,4,1')
    t('r', 'TRF,FV,A=(4,30),B=(4,30),R65536', '00000000', 'R takes no part', '1,4,1')
    t('pack', 'TF,FV,A=(4,13),B=(3,11)', 'F0F0F0A0', 'a pack that keeps its digits', '1,(P,4,3),1')
    t('unpack', 'TF,FV,A=(2,11),B=(3,11)', '000A', 'an unpack that keeps its digits', '1,(U,2,3),1')
    t('zone-and-sign', 'TF,FV,A=(3,12),B=(4,12)', 'F0F0A0', 'a zone that is a sign', '1,(P,2,2),1/2,(P,2,2),3')
    t('behind-a-rescue', 'TF,FV,A=(4,13),B=(3,11)', 'F0F0F0A0', 'a digit is dropped and brought by a copy', '1,(P,4,2),1/1,1,3')
    f.note('A missing half is lower than the tail, and both records have n bytes')
    v = lambda name, reason, one, other, why, *fs: f.pair('twins-half-and-tail-' + name, deck('TF,FV,A=(4,30),B=(4,12)', *fs), reason, h(one), h(other), why)
    v('first', 1, '00000000', '10000000', 'half 0', '2,3,1')
    v('last', 1, '00000000', '00000010', 'half 6', '1,3,1')
    v('dropped', 2, 'F0F0F0A0', 'F1F0F0A0', 'half 1', '1,(P,4,2),1')
    v('covered', 3, '00000000', '00000010', 'half 6', '1,4,1/1,1,4')


def small(f):
    f.note('n of 1: with a field the plan keeps byte 1, since the last field that is written reads it and shows its halves')
    u = 'TF,FV,A=(1,%d),B=(1,9)'
    f.pair('twins-n-1-cv', deck(u % 9, 'CV'), 1, h('00'), h('10'), 'no field')
    f.pair('twins-n-1-tail', deck(u % 10, '1,1,1'), 4, h('00'), h('0000'), 'a copy')
    f.pair('twins-n-1-tail-pack', deck(u % 10, '1,(P,1,1),1'), 4, h('A0'), h('A000'), 'a pack: the sign is the high half')
    f.pair('twins-n-1-tail-unpack', deck(u % 10, '1,(U,1,1),1'), 4, h('0A'), h('0A00'), 'an unpack: the sign is the low half')
    f.refused('twins-n-1-keeps', deck(u % 9, '1,1,1'), 16, 0, 'no tail')
    f.refused('twins-n-1-ff', deck('TF,FF,A=(1,1),B=(3,3)', '1,1,1/1,(P,1,2),1/1,(P,1,1),2'), 16, 0, 'in FF')


def large(f):
    f.note('n of 4,096')
    t = lambda name, reason, one, other, why, *fs: f.pair('twins-n-4096-' + name, deck('TF,FF,A=(4096,4096),B=(4096,4096)', *fs), reason, one, other, why)
    zeros = bytes(4080)
    t('first', 1, bytes(4096), b'\x10' + bytes(4095), 'byte 1', '2,4095,2')
    t('last', 1, bytes(4096), bytes(4095) + b'\x10', 'byte 4,096: half 8,190', '1,4095,1')
    t('covered', 3, bytes(4096), bytes(4095) + b'\x10', 'byte 1 over byte 4,096', '1,4096,1/1,1,4096')
    t('pack', 2, zeros + h('F0' * 15 + 'A0'), zeros + h('F1' + 'F0' * 14 + 'A0'), 'a pack of 16 to 8 at the end drops half 8,161', '1,4080,1/4081,(P,16,8),4089')
    t('unpack', 2, zeros + h('00' * 15 + '0A'), zeros + h('10' + '00' * 14 + '0A'), 'an unpack of 16 to 16 at the end drops half 8,160', '1,4080,1/4081,(U,16,16),4081')
    f.pair('twins-n-4096-to-1', deck('TRF,FF,A=(4096,4096),B=(1,1)', '4096,1,1'), 1, bytes(4096), b'\x10' + bytes(4095), 'into one byte')
    tail = deck('TF,FV,A=(4096,4105),B=(4096,4104)', '1,4096,1')
    f.pair('twins-n-4096-tail', tail, 4, bytes(4096), bytes(4097), 'the most bytes that are written, 8,193')
    f.refused('twins-n-4096-tail-short', tail, 15, 8193, 'a room one short', 8192)
    f.refused('twins-n-4096-short', deck('TF,FF,A=(4096,4096),B=(4096,4096)', '2,4095,2'), 15, 8192, 'a room one short', 8191)
    f.refused('twins-n-4096-keeps', deck('TF,FF,A=(4096,4096),B=(4096,4096)', '1,4096,1'), 16, 0, 'all bytes', 0)


def fields(f):
    f.note('64 fields')
    t = lambda name, n, reason, one, other, why, items, count: f.pair('twins-fields-' + name, deck('TF,FF,A=(%d,%d),B=(%d,%d)' % (n, n, n, n), *on_cards(items, count)), reason, one, other, why)
    zeros = bytes(64)
    t('alike', 64, 1, zeros, b'\0\x10' + bytes(62), '64 times the first byte: byte 2', ['1,1,1'] * 64, 12)
    t('63-of-64', 64, 1, zeros, bytes(39) + b'\x10' + bytes(24), 'byte 40 is left out: half 78', EACH[:39] + EACH[40:64], 8)
    t('first-covered', 64, 3, zeros, b'\0\x10' + bytes(62), 'the first copies all, and byte 1 is put over bytes 2 to 64', ['1,64,1'] + ['1,1,%d' % i for i in range(2, 65)], 8)
    t('last-drops', 2, 2, h('000A'), h('100A'), '63 copies, and an unpack that drops half 0 over them', ['1,2,1'] * 63 + ['1,(U,2,1),1'], 10)
    t('last-covers', 2, 3, h('000A'), h('100A'), 'an unpack that drops half 0, 62 copies, and byte 2 over byte 1', ['1,(U,2,1),1'] + ['1,2,1'] * 62 + ['2,1,1'], 10)
    t('of-4096', 4096, 3, bytes(4096), bytes(4095) + b'\x10', 'all bytes, 63 times, and byte 1 over byte 4,096', ['1,4096,1'] * 63 + ['1,1,4096'], 7)
    packs = on_cards(['%d,(P,16,8),%d' % (16 * i + 1, 8 * i + 1) for i in range(64)], 4)
    ten = h('F0' * 15 + 'A0')
    f.pair('twins-fields-packs', deck('TF,FF,A=(1024,1024),B=(512,512)', *packs), 2, ten * 64, b'\xF1' + ten[1:] + ten * 63, '64 packs of 16 to 8: each drops a digit, the lowest is half 1')
    f.refused('twins-fields-keep', deck('TF,FF,A=(64,64),B=(64,64)', *on_cards(EACH[:64], 8)), 16, 0, '64 fields that keep')


def no_part(f):
    f.note('R, blocking, B\'s m, mode and format take no part: the fields of the sample of 6 bytes')
    fs = '1,4,1/5,(P,4,2),5'
    for name, u, items in [
            ('r-2', 'TRF,FF,A=(8,16),B=(6,6),R2', fs), ('r-65536', 'TRF,FF,A=(8,16),B=(6,6),R65536', fs), ('tf', 'TF,FF,A=(8,16),B=(6,12),R2', fs),
            ('blocks', 'TRF,FF,A=(8,32760),B=(6,32760)', fs), ('fv', 'TF,FV,A=(8,16),B=(6,14)', fs), ('fv-tail', 'TRF,FV,A=(8,17),B=(6,14),R3', fs),
            ('fv-cv', 'TF,FV,A=(8,300),B=(6,300)', fs + '/CV'), ('fv-cv-r', 'TRF,FV,A=(8,300),B=(6,14),R9', 'CV/' + fs), ('wider', 'TF,FF,A=(8,8),B=(9,9),IR,ON', fs)]:
        f.pair('twins-no-part-' + name, deck(u, items), 2, h('00000000 F0F0F0A0'), h('00000000 F1F0F0A0'), 'the same records')


def of_manual(f):
    f.note('Decks of document 001: the payroll card reads no byte of 31 to 71; two fields interchanged, where bytes 1 to 4 are not read')
    payroll = '1,15,1/16,(P,5,3),16/72,(P,3,2),19/75,(P,6,4),21/23,(P,8,5),25/21,2,30'
    before, behind = bytes(15) + h('F0F0F0F0A0') + bytes(2) + h('F0' * 7 + 'A0'), bytes(40) + h('F0F0A0') + h('F0' * 5 + 'A0')
    f.pair('twins-c1', deck('TF,FF,A=(80,80),B=(31,31)', payroll), 1, before + b'\0' + behind, before + b'\x10' + behind, 'byte 31, half 60')
    f.pair('twins-t2', deck('TF,FV,A=(24,300),B=(24,300)', '5,10,15/15,10,5/CV'), 1, bytes(24), b'\x10' + bytes(23), 'byte 1')


def keeping(f):
    f.note('A plan that keeps is 16 at 0, in any room: before 15')
    kept = [('tc-ff', deck('TC,FF,A=(4,8),B=(4,8)')), ('tc-fv', deck('TC,FV,A=(9),B=(9)')), ('tc-fu', deck('TC,FU,A=(5),B=(5)')), ('tr-ff', deck('TR,FF,A=(4,8),B=(4,12),R2')),
            ('tr-fv', deck('TR,FV,A=(32760),B=(9)')), ('tf-ff', deck('TF,FF,A=(2,4),B=(3,6)', '1,2,2')), ('trf-ff', deck('TRF,FF,A=(3,3),B=(2,6),R2', '1,(P,3,2),1')),
            ('tf-fv', deck('TF,FV,A=(2,10),B=(3,11)', '1,(U,2,3),1')), ('tf-fv-cv', deck('TF,FV,A=(4,300),B=(4,300)', '1,4,1/CV')),
            ('trf-fv-cv', deck('TRF,FV,A=(4,13),B=(4,12)', 'CV/1,4,1')), ('covered-again', deck('TF,FF,A=(2,2),B=(2,2)', '1,2,1/1,1,2/2,1,2')),
            ('rescued', deck('TF,FF,A=(4,4),B=(3,3)', '1,(P,4,2),1/1,1,3')), ('zone-is-a-sign', deck('TF,FF,A=(3,3),B=(4,4)', '1,(P,2,2),1/2,(P,2,2),3'))]
    for name, text in kept:
        for room in (0, 70000):
            f.refused('twins-keeps-%s-%d' % (name, room), text, 16, 0, 'a room of %d' % room, room)


def rooms(f):
    f.note('Too short a room is 15 at the bytes needed, and no byte changes; bytes past the two records stay')
    tail = deck('TF,FV,A=(4,13),B=(4,12)', '1,4,1')
    for room in (0, 1, 8, 15):
        f.refused('twins-room-%d' % room, SIX, 15, 16, 'a room of %d' % room, room)
    for room in (16, 17, 32, 65536, 70000):
        f.pair('twins-room-%d' % room, SIX, 2, h('00000000 F0F0F0A0'), h('00000000 F1F0F0A0'), 'a room of %d' % room, room)
    for room in (0, 4, 8):
        f.refused('twins-room-%d-tail' % room, tail, 15, 9, 'a room of %d' % room, room)
    for room in (9, 10, 70000):
        f.pair('twins-room-%d-tail' % room, tail, 4, bytes(4), bytes(5), 'a room of %d' % room, room)
    for name, text, place in [('unread', deck('TF,FF,A=(3,3),B=(2,2)', '2,2,1'), 6), ('covered', deck('TF,FF,A=(2,2),B=(2,2)', '1,2,1/1,1,2'), 4),
                              ('n-1', deck('TF,FV,A=(1,9),B=(1,9)', 'CV'), 2), ('n-1-tail', deck('TF,FV,A=(1,10),B=(1,9)', '1,1,1'), 3)]:
        for room in (0, place - 1):
            f.refused('twins-room-%d-%s' % (room, name), text, 15, place, 'a room of %d' % room, room)


def refusals(f):
    f.note('Refusals 1 to 10 as for a plan, in any room: they come before 16 and 15')
    v = 'TF,FV,A=(4,30),B=(4,30)'
    refused = [
        (1, 1, 0, '// X\n// END\n', 'no card'), (1, 4, 0, SIX + '\n', 'an empty line behind END'), (2, 1, 0, '', 'no card at all'), (2, 4, 0, SIX + '// END\n', 'a second END'),
        (3, 1, 7, deck('TX'), 'the X of TX'), (3, 2, 10, deck(v, '1,1'), 'an item that stops short'), (4, 1, 9, deck('TC,TC'), 'the second T'),
        (4, 3, 13, deck(v, '1,1,1/CV', '1,1,1/CV'), 'the second CV'), (5, 1, 0, deck('TF,FF,A=(2,2)', '1,1,1'), 'no B'), (6, 10, 0, deck('TF,FF,A=(65,65),B=(65,65)', *on_cards(EACH, 8)), 'the 65th field'),
        (7, 1, 15, deck('TF,FF,A=(4097,4097),B=(1,1)', '1,1,1'), 'n of 4,097'), (7, 2, 15, deck(v, '1,1,1/1,0,1'), 'a size of 0'), (8, 1, 0, deck('TF,FF,A=(4,6),B=(1,1)', '1,1,1'), 'm no multiple of n'),
        (8, 2, 0, deck('TC,FU,A=(5),B=(5)', '1,1,1'), 'an FS card in TC'), (8, 3, 0, deck('TF,FF,A=(4,4),B=(4,4)', '1,1,1', '1,1,1/CV'), 'CV in FF'),
        (9, 2, 0, deck(v, '1,1,1/4,2,1/1,1,1'), 'field 2 ends past A\'s n'), (10, 0, 0, P9, 'half 0 has no permitted value'),
        (10, 16, 0, deck('TF,FF,A=(9,9),B=(3,3)', '8,(P,2,2),1/9,(U,1,1),3'), 'bytes 1 to 7 are not read, and half 16 has no permitted value'),
        (10, 8190, 0, deck('TF,FF,A=(4096,4096),B=(9,9)', '4081,(P,16,9),1/4096,(U,1,1),1'), 'half 8,190 has no permitted value')]
    for number, place, column, text, why in refused:
        for room in (0, 70000):
            f.refused('twins-refused-%d-at-%d-%d' % (number, place, room), text, number, place, why + ', a room of %d' % room, room, column)


def make():
    f = Twins('twins.txt', HEAD)
    for section in (samples, never_read, dropped_by_pack, dropped_by_unpack, covered, several, tails, small, large, fields, no_part, of_manual, keeping, rooms, refusals):
        section(f)
    return f
