"""Plans of decks: refusals 8 to 10 and 15, keeping, the lost place, the lent table."""
from common import *
from decks import FIRST
from lent import *

HEAD = [
    'Plans (document 01, "Refusal numbers", "Half bytes"): NAME plan DECK ENTRIES. The line is NAME, refusal, place, column, 1 for keeping or 0, lost place, field count, and a digest.',
    'ENTRIES of - is a deck alone, and its digest -. Else a table of 70 entries is filled with a pattern (entry i, from 0: kind (i+7) mod 256, r i+1000, input i+2000,',
    'output i+3000, t i+4000), the first ENTRIES of them are lent, and the digest is that of all 70 after the call, each as kind (0 copy, 1 pack, 2 unpack), r, input, output, t.',
    'A digest of numbers x: d = 0; d = (257 d + x + 1) mod 2147483647 for each. In comments a bar stands for hex 0A.',
]
SIX = FIRST.replace('B=(7,7)', 'B=(6,6)').replace('(P,4,3)', '(P,4,2)')
P9 = deck('TRF,FF,A=(2,2),B=(3,3)', '1,(P,2,2),1/1,(U,1,1),3')
EACH = ['%d,1,%d' % (i, i) for i in range(1, 66)]


def listings(f):
    f.note('The listings of document 01, and p9')
    f.plan('plan-sample', FIRST, '0 0 0 1 0 2', 'the sample deck')
    f.plan('plan-sample-of-6', SIX, '0 0 0 0 9 2', 'its second form: the pack to 2 bytes drops the low half of byte 5')
    f.plan('plan-p9', P9, '10 0', 'p9: byte 1 has a zone for the pack and a digit for the unpack in half 0')
    f.plan('plan-sample-no-newline', FIRST[:-1], '0 0 0 1 0 2', 'the last line may lack its 0A')
    f.note('The plans of TC and TR keep')
    for name, u in [('tc-ff', 'TC,FF,A=(4,8),B=(4,8)'), ('tc-fv', 'TC,FV,A=(9),B=(9)'), ('tc-fu', 'TC,FU,A=(1),B=(1)'),
                    ('tr-ff', 'TR,FF,A=(4,8),B=(4,12)'), ('tr-fv', 'TR,FV,A=(9),B=(32760)'), ('tr-fv-down', 'TR,FV,A=(32760),B=(9),R65536')]:
        f.plan('plan-' + name, deck(u), '0 0 0 1 0 0', 'records are carried unchanged')


def tails(f):
    f.note('FV with two numbers: n+8 at most m; the tail is lost without CV unless A\'s m is n+8, at place 2n')
    t = lambda name, a, b, items, answer, why: f.plan('plan-' + name, deck('TF,FV,A=(%s),B=(%s)' % (a, b), items), answer, why)
    t('m-n-8', '4,12', '4,12', '1,4,1', '0 0 0 1 0 1', 'm of n+8 in A and B: there is no tail')
    t('m-n-7', '4,11', '4,12', '1,4,1', '8 1', 'm of n+7 in A')
    t('m-n-7-in-b', '4,12', '4,11', '1,4,1', '8 1', 'm of n+7 in B')
    t('m-n-7-in-both', '4,11', '4,11', '1,4,1/CV', '8 1', 'm of n+7 in A and B')
    t('m-n-9', '4,13', '4,12', '1,4,1', '0 0 0 0 8 1', 'a tail of 1 byte is dropped, 2n is 8')
    t('m-n-9-cv', '4,13', '4,12', '1,4,1/CV', '0 0 0 1 0 1', 'CV carries it, though no tail fits a block of B')
    t('m-large', '4,32760', '4,12', '1,4,1', '0 0 0 0 8 1', 'a long tail is dropped')
    t('m-large-cv', '4,32760', '4,12', 'CV/1,4,1', '0 0 0 1 0 1', 'CV before the fields')
    t('tail-and-half', '4,32760', '4,12', '2,3,1', '0 0 0 0 0 1', 'half 0 is lower than the tail')
    t('tail-and-last-half', '4,13', '4,12', '1,3,1', '0 0 0 0 6 1', 'byte 4 is lost, half 6')
    t('n-8-and-half', '4,12', '4,12', '1,3,1', '0 0 0 0 6 1', 'no tail, but byte 4')
    t('cv-alone', '4,32760', '4,12', 'CV', '0 0 0 0 0 0', 'an FS card with CV alone: no field, and half 0 is lost')
    t('cv-alone-n-8', '4,12', '4,12', 'CV', '0 0 0 0 0 0', 'the same with no tail')
    t('n-1-m-9', '1,9', '1,9', '1,1,1', '0 0 0 1 0 1', 'the least numbers')
    t('n-1-m-10', '1,10', '1,9', '1,1,1', '0 0 0 0 2 1', 'a tail of 1 byte is dropped')
    t('n-4096-m-4104', '4096,4104', '4096,4104', '1,4096,1', '0 0 0 1 0 1', 'n of 4,096 and no tail')
    t('n-4096-m-4105', '4096,4105', '4096,4104', '1,4096,1', '0 0 0 0 8192 1', 'the highest lost place')
    t('n-4096-m-4105-cv', '4096,4105', '4096,4104', '1,4096,1/CV', '0 0 0 1 0 1', 'with CV')
    t('n-4096-m-4103', '4096,4103', '4096,4104', '1,4096,1', '8 1', 'm of n+7')
    t('pack-and-tail', '4,13', '3,12', '1,(P,4,3),1', '0 0 0 0 8 1', 'the pack keeps its digits; the tail is dropped')
    t('pack-and-cv', '4,13', '3,12', '1,(P,4,3),1/CV', '0 0 0 1 0 1', 'with CV')


def ends(f):
    f.note('A field ends at n, or one past (9 at the field), in records of 8 and 9 bytes')
    u = 'TF,FF,A=(8,8),B=(9,9)'
    t = lambda name, answer, why, *fs: f.plan('plan-' + name, deck(u, *fs), answer, why)
    t('in-at-n', '0 0 0 0 0 1', 'a copy that ends at byte 8 of the input; bytes 1 to 4 are not read', '5,4,1')
    t('in-past-n', '9 1', 'one past', '6,4,1')
    t('out-at-n', '0 0 0 0 8 1', 'a copy that ends at byte 9 of the output; byte 5 is not read', '1,4,6')
    t('out-past-n', '9 1', 'one past', '1,4,7')
    t('all-at-n', '0 0 0 1 0 1', 'all of the input, ending at byte 9', '1,8,2')
    t('all-past-n', '9 1', 'one past', '1,8,3')
    t('in-over-n', '9 1', 'a size over the input, not over the output', '1,9,1')
    t('pack-in-at-n', '0 0 0 0 0 1', 'a pack', '5,(P,4,3),1')
    t('pack-in-past-n', '9 1', 'a pack one past', '6,(P,4,3),1')
    t('pack-out-at-n', '0 0 0 0 8 1', 'a pack that ends at byte 9', '1,(P,4,3),7')
    t('pack-out-past-n', '9 1', 'a pack one past', '1,(P,4,3),8')
    t('unpack-in-at-n', '0 0 0 0 0 1', 'an unpack', '7,(U,2,4),1')
    t('unpack-in-past-n', '9 1', 'an unpack one past', '8,(U,2,4),1')
    t('unpack-out-at-n', '0 0 0 0 4 1', 'an unpack that ends at byte 9', '1,(U,2,4),6')
    t('unpack-out-past-n', '9 1', 'an unpack one past', '1,(U,2,4),7')
    t('outside-second', '9 2', 'fields 2 and 3 are outside: the first', '1,1,1/1,1,10/9,1,1')
    t('outside-third-on-card-3', '9 3', 'the place is the field and not the card', '1,1,1', '1,1,1/9,1,1')
    t('outside-and-no-value', '9 3', 'a half without a value is 10: 9 is lower', '1,(P,2,2),1/1,(U,1,1),1/9,1,1')
    t('outside-far', '9 1', 'r and s of 4,096', '4096,4096,4096')
    f.plan('plan-outside-64', deck('TF,FF,A=(64,64),B=(64,64)', *on_cards(EACH[:63] + ['64,1,65'], 8)), '9 64', 'the 64th field ends one past')
    f.note('In FV positions count after the record word, and no field reaches into the tail')
    v = lambda name, answer, why, *fs: f.plan('plan-fv-' + name, deck('TF,FV,A=(4,30),B=(5,30)', *fs), answer, why)
    v('in-at-n', '0 0 0 1 0 1', 'ends at n of A and of B', '1,4,2/CV')
    v('in-past-n', '9 1', 'byte 5 of the input is tail', '5,1,1')
    v('out-past-n', '9 1', 'byte 6 of the output is tail', '1,1,6/CV')
    v('cv-is-no-field', '9 2', 'CV is not counted', 'CV/1,1,1/5,1,1')


def sizes(f):
    f.note('n of 4,096 and 4,097')
    t = lambda name, a, b, answer, why, *fs: f.plan('plan-' + name, deck('TF,FF,A=(%d,%d),B=(%d,%d)' % (a, a, b, b), *fs), answer, why)
    t('n-4096', 4096, 4096, '0 0 0 1 0 1', 'n of 4,096', '1,4096,1')
    t('n-4097', 4097, 4096, '7 1', 'n of 4,097 in A', '1,4096,1')
    t('n-4097-in-b', 4096, 4097, '7 1', 'n of 4,097 in B', '1,4096,1')
    t('n-4096-last-byte', 4096, 4096, '0 0 0 0 8190 1', 'byte 4,096 is not read', '1,4095,1')
    t('n-4096-first-byte', 4096, 4096, '0 0 0 0 0 1', 'byte 1 is not read', '2,4095,2')
    t('n-4096-to-1', 4096, 1, '0 0 0 0 0 1', 'r at n', '4096,1,1')
    t('n-4096-to-1-past', 4096, 1, '9 1', 'one past', '4096,2,1')
    t('n-1-to-4096', 1, 4096, '0 0 0 1 0 1', 't at n', '1,1,4096')
    t('n-4096-pack-9', 4096, 4096, '0 0 0 1 0 2', 'a pack of 16 to 9 at the end of both records keeps its 16 digits', '1,4080,1/4081,(P,16,9),4088')
    t('n-4096-pack-8', 4096, 4096, '0 0 0 0 8161 2', 'a pack of 16 to 8 drops the low half of byte 4,081', '1,4080,1/4081,(P,16,8),4089')
    f.note('m of 32,760 and 32,761, g likewise')
    for m, answer in ((32760, '0 0 0 1 0 0'), (32761, '7 1')):
        f.plan('plan-m-%d' % m, deck('TR,FF,A=(1,%d),B=(1,5)' % m), answer, 'in A')
        f.plan('plan-m-%d-in-b' % m, deck('TR,FF,A=(1,5),B=(1,%d)' % m), answer, 'in B')
        f.plan('plan-g-%d' % m, deck('TC,FU,A=(%d),B=(%d)' % (m, m)), answer, 'in both')
    f.note('Sizes of 16 and 17')
    t('pack-16-16', 16, 16, '0 0 0 1 0 1', 'a pack of 16 to 16', '1,(P,16,16),1')
    t('pack-16-17', 17, 17, '7 2', 'an output size of 17', '1,(P,16,17),1')
    t('pack-17-16', 17, 17, '7 2', 'an input size of 17', '1,(P,17,16),1')
    t('unpack-16-16', 16, 16, '0 0 0 0 0 1', 'an unpack of 16 to 16 drops the 15 highest halves', '1,(U,16,16),1')
    t('unpack-16-17', 17, 17, '7 2', 'an output size of 17', '1,(U,16,17),1')
    t('unpack-17-16', 17, 17, '7 2', 'an input size of 17', '1,(U,17,16),1')
    t('unpack-8-15', 8, 15, '0 0 0 1 0 1', 'an unpack of 8 to 15 keeps 14 digits, a digit and a sign', '1,(U,8,15),1')
    t('unpack-8-16', 8, 16, '0 0 0 1 0 1', 'to 16 there is a fill', '1,(U,8,16),1')
    t('unpack-9-16', 9, 16, '0 0 0 0 0 1', 'an unpack of 9 to 16 drops half 0', '1,(U,9,16),1')
    t('pack-1-16', 1, 16, '0 0 0 1 0 1', 'a pack of 1 to 16', '1,(P,1,16),1')
    t('pack-16-1', 16, 1, '0 0 0 0 1 1', 'a pack of 16 to 1 drops the low half of byte 1 first', '1,(P,16,1),1')
    t('copy-17', 17, 17, '0 0 0 1 0 1', 'a copy of 17', '1,17,1')


def counts(f):
    f.note('64 and 65 fields')
    t = lambda name, n, answer, why, *fs: f.plan('plan-' + name, deck('TF,FF,A=(%d,%d),B=(%d,%d)' % (n, n, n, n), *fs), answer, why)
    t('fields-64', 64, '0 0 0 1 0 64', '64 fields of a byte each', *on_cards(EACH[:64], 8))
    t('fields-65', 65, '6 10', '65 fields: the 65th on card 10', *on_cards(EACH, 8))
    t('fields-63', 64, '0 0 0 0 78 63', 'byte 40 is left out, half 78', *on_cards(EACH[:39] + EACH[40:64], 8))
    t('fields-64-alike', 64, '0 0 0 0 2 64', '64 times the first byte: byte 2 is lost', *on_cards(['1,1,1'] * 64, 12))
    t('fields-64-packs', 64, '0 0 0 1 0 64', '64 packs of one byte', *on_cards(['%d,(P,1,1),%d' % (i, i) for i in range(1, 65)], 5))
    t('fields-64-unpacks', 64, '0 0 0 1 0 64', '64 unpacks of one byte', *on_cards(['%d,(U,1,1),%d' % (i, 65 - i) for i in range(1, 65)], 5))
    t('fields-64-last-covers', 64, '0 0 0 1 0 64', 'the 64th field copies all', *on_cards(['1,1,%d' % i for i in range(1, 64)] + ['1,64,1'], 8))
    t('fields-64-first-covered', 64, '0 0 0 0 2 64', 'the first field copies all, and byte 1 is put over bytes 2 to 64', *on_cards(['1,64,1'] + ['1,1,%d' % i for i in range(2, 65)], 8))
    t('fields-64-first-covered-but-2', 64, '0 0 0 0 4 64', 'the same with byte 1 over bytes 3 to 64 and once more over 64',
      *on_cards(['1,64,1'] + ['1,1,%d' % i for i in range(3, 65)] + ['1,1,64'], 8))
    f.note('64 fields over 4,096 bytes')
    chunks = ['%d,64,%d' % (64 * i + 1, 64 * (63 - i) + 1) for i in range(64)]
    t('fields-64-of-64', 4096, '0 0 0 1 0 64', '64 fields of 64 bytes, last first', *on_cards(chunks, 5))
    t('fields-63-of-64', 4096, '0 0 0 0 2432 63', 'without the 20th, bytes 1,217 to 1,280', *on_cards(chunks[:19] + chunks[20:], 5))
    t('fields-64-of-4096', 4096, '0 0 0 1 0 64', 'all bytes, 64 times', *on_cards(['1,4096,1'] * 64, 8))
    t('fields-63-of-4096', 4096, '0 0 0 0 8190 64', 'all bytes, 63 times, and byte 1 put over byte 4,096', *on_cards(['1,4096,1'] * 63 + ['1,1,4096'], 7))
    packs = lambda m: on_cards(['%d,(P,16,%d),%d' % (16 * i + 1, m, m * i + 1) for i in range(64)], 4)
    f.plan('plan-fields-64-packs-to-9', deck('TF,FF,A=(1024,1024),B=(576,576)', *packs(9)), '0 0 0 1 0 64', '64 packs of 16 to 9 bytes')
    f.plan('plan-fields-64-packs-to-8', deck('TF,FF,A=(1024,1024),B=(512,512)', *packs(8)), '0 0 0 0 1 64', 'to 8 bytes each drops a digit, the lowest is half 1')


def overlaps(f):
    f.note('Fields may overlap: a later one stands over an earlier one')
    t = lambda name, a, b, answer, why, *fs: f.plan('plan-' + name, deck('TF,FF,A=(%d,%d),B=(%d,%d)' % (a, a, b, b), *fs), answer, why)
    t('covers', 2, 2, '0 0 0 0 2 2', 'byte 1 is put over byte 2', '1,2,1/1,1,2')
    t('covers-other-order', 2, 2, '0 0 0 1 0 2', 'in the other order it is covered itself', '1,1,2/1,2,1')
    t('covers-on-two-cards', 2, 2, '0 0 0 0 2 2', 'order runs through the cards', '1,2,1', '1,1,2')
    t('covered-and-again', 2, 2, '0 0 0 1 0 3', 'covered, and put there again', '1,2,1/1,1,2/2,1,2')
    t('twice-covered-once', 2, 4, '0 0 0 1 0 3', 'byte 1 stands twice and is covered once', '1,2,1/1,2,3/2,1,1')
    t('same-twice', 2, 2, '0 0 0 1 0 2', 'the same field twice', '1,2,1/1,2,1')
    t('pack-fill-covers', 2, 3, '0 0 0 0 0 2', 'the fill of a pack covers byte 1', '1,1,1/2,(P,1,3),1')
    t('pack-fill-covered', 2, 3, '0 0 0 1 0 2', 'byte 1 stands over the fill', '2,(P,1,3),1/1,1,1')
    t('unpack-fill-covers', 2, 2, '0 0 0 0 0 2', 'the fill F0 of an unpack covers byte 1', '1,1,1/2,(U,1,2),1')
    t('unpack-zone-covers', 3, 4, '0 0 0 0 0 2', 'the zone of an unpack covers the high half of byte 1, its digit the low half', '1,1,2/2,(U,2,3),1')
    t('not-read', 3, 2, '0 0 0 0 4 1', 'byte 3 is not read', '1,2,1')
    t('not-read-first', 3, 2, '0 0 0 0 0 1', 'byte 1 is not read', '2,2,1')
    t('not-read-between', 3, 2, '0 0 0 0 2 2', 'byte 2 is not read', '1,1,1/3,1,2')
    t('wide-output', 2, 5, '0 0 0 1 0 2', 'blanks are taken from no half, and harm none', '1,1,2/2,1,4')
    f.note('A field alone does not decide: another may rescue the same digits')
    t('drops', 4, 3, '0 0 0 0 1 1', 'a pack of 4 to 2 drops the digit of byte 1', '1,(P,4,2),1')
    t('rescued', 4, 3, '0 0 0 1 0 2', 'a copy brings it', '1,(P,4,2),1/1,1,3')
    t('rescued-before', 4, 3, '0 0 0 1 0 2', 'a copy before it', '1,1,3/1,(P,4,2),1')
    t('rescued-by-pack', 4, 4, '0 0 0 1 0 2', 'another pack brings it', '1,(P,4,2),1/1,(P,2,2),3')
    t('rescue-covered', 4, 3, '0 0 0 0 1 3', 'the rescue is covered', '1,(P,4,2),1/1,1,3/4,1,3')
    t('rescue-of-another', 4, 3, '0 0 0 0 1 2', 'byte 2 is brought twice, byte 1 is not', '1,(P,4,2),1/2,1,3')
    t('sample-rescued', 8, 7, '0 0 0 1 0 3', 'the deck that loses half 9, with byte 5 behind it', '1,4,1/5,(P,4,2),5/5,1,7')
    t('pack-drops-two', 4, 1, '0 0 0 0 1 1', 'a pack of 4 to 1 drops three digits: the lowest', '1,(P,4,1),1')
    t('pack-drops-second', 4, 2, '0 0 0 0 3 2', 'digits 1 and 2 are dropped, the first is rescued', '1,(P,4,1),1/1,1,2')
    t('unpack-drops', 2, 2, '0 0 0 0 0 1', 'an unpack of 2 to 2 drops half 0', '1,(U,2,2),1')
    t('unpack-drops-rescued', 2, 3, '0 0 0 1 0 2', 'a copy brings it', '1,(U,2,2),1/1,1,3')
    t('unpack-keeps', 3, 5, '0 0 0 1 0 1', 'an unpack of 3 to 5', '1,(U,3,5),1')
    t('unpack-to-4', 3, 4, '0 0 0 0 0 1', 'an unpack of 3 to 4', '1,(U,3,4),1')


def zones(f):
    f.note('A half that may hold one value only holds nothing: a pack that drops zones keeps')
    t = lambda name, a, b, answer, why, *fs: f.plan('plan-' + name, deck('TF,FF,A=(%d,%d),B=(%d,%d)' % (a, a, b, b), *fs), answer, why)
    t('zones', 3, 2, '0 0 0 1 0 1', 'a pack of 3 to 2 keeps three digits and a sign', '1,(P,3,2),1')
    t('zones-of-15', 15, 8, '0 0 0 1 0 1', 'a pack of 15 to 8 keeps 15 digits and a sign', '1,(P,15,8),1')
    t('zone-is-a-sign', 3, 4, '0 0 0 1 0 2', 'the sign of one pack is a zone of the other: F alone', '1,(P,2,2),1/2,(P,2,2),3')
    t('zone-and-sign-covered', 2, 2, '0 0 0 1 0 3', 'half 0 is a zone and a sign, F alone; its digit is in the pack', '1,(P,2,2),1/1,(P,1,1),2/1,(P,2,2),1')
    t('sign-covered', 2, 2, '0 0 0 0 2 2', 'the sign may hold A to F and is covered', '1,(P,2,2),1/1,1,2')
    t('zone-of-a-covered-pack', 2, 1, '0 0 0 0 1 2', 'the pack is covered, but byte 1 still has a zone: its digit is lost, half 1', '1,(P,2,1),1/2,1,1')
    t('no-pack', 2, 1, '0 0 0 0 0 1', 'without the pack half 0 is lost', '2,1,1')
    t('unpack-has-no-zone', 2, 3, '0 0 0 1 0 1', 'every half of an unpack holds something', '1,(U,2,3),1')
    t('copied-and-packed', 2, 4, '0 0 0 1 0 2', 'the same bytes copied and packed', '1,2,1/1,(P,2,2),3')


def empty(f):
    f.note('A half has no permitted value where a pack and an unpack meet, or two unpacks that are shifted: 10 at the lowest half')
    t = lambda name, n, answer, why, *fs: f.plan('plan-' + name, deck('TRF,FF,A=(%d,%d),B=(9,9)' % (n, n), *fs), answer, why)
    t('meet-zone', 2, '10 0', 'a zone and a digit in half 0', '1,(P,2,2),1/1,(U,2,2),1')
    t('meet-sign', 2, '10 2', 'the sign of a pack and a digit of an unpack in half 2', '1,(P,2,2),1/2,(U,1,1),3')
    t('meet-sign-other-order', 2, '10 2', 'the order of the fields does not matter', '2,(U,1,1),3/1,(P,2,2),1')
    t('unpacks-shifted', 3, '10 3', 'the sign of one unpack is a digit of the other, half 3', '1,(U,2,2),1/2,(U,2,2),3')
    t('unpacks-alike', 3, '0 0 0 0 4 2', 'the same unpack twice; byte 3 is not read', '1,(U,2,3),1/1,(U,2,3),4')
    t('packs-shifted', 3, '0 0 0 1 0 2', 'two packs always leave F', '1,(P,2,2),1/2,(P,2,2),3')
    t('copy-and-both', 2, '0 0 0 1 0 3', 'a pack and an unpack that do not meet, and a copy over both', '1,(P,1,1),1/2,(U,1,1),2/1,2,3')
    t('covered-all-the-same', 2, '10 0', 'both are covered by a copy, and asked all the same', '1,(P,2,2),1/1,(U,1,1),3/1,2,1/1,2,2')
    t('lowest-of-two', 4, '10 0', 'bytes 3 and 1 have no value: the lowest half', '3,(P,1,1),1/3,(U,1,1),1/1,(P,1,1),1/1,(U,1,1),1')
    t('lowest-far', 4, '10 6', 'byte 4 alone', '1,3,1/4,(P,1,1),4/4,(U,1,1),5')
    t('pack-1-unpack-1', 1, '10 0', 'sign and digit in half 0, digit and sign in half 1', '1,(P,1,1),1/1,(U,1,1),2')
    f.plan('plan-no-value-8190', deck('TF,FF,A=(4096,4096),B=(9,9)', '4081,(P,16,9),1/4096,(U,1,1),1'), '10 8190', 'the high half of byte 4,096')
    f.plan('plan-no-value-in-fv', deck('TF,FV,A=(2,30),B=(9,30)', 'CV/1,(P,2,2),1/1,(U,1,1),3'), '10 0', 'in FV')
    f.plan('plan-no-value-and-loses', deck('TF,FF,A=(9,9),B=(3,3)', '8,(P,2,2),1/9,(U,1,1),3'), '10 16', 'where 10 is given nothing is said of keeping')


def tables(f):
    f.note('A lent table: 15 at the field count where it has fewer entries; else the fields, and the other entries stay')
    sample = [('C', 1, 4, 4, 1), ('P', 5, 4, 3, 5)]
    for count in (0, 1):
        f.plan('table-%d' % count, FIRST, '15 2', 'two fields and %d entries' % count, count)
    for count in (2, 3, 64, 70):
        f.plan('table-%d' % count, FIRST, '0 0 0 1 0 2', 'two fields and %d entries' % count, count, sample)
    f.plan('table-losing', SIX, '0 0 0 0 9 2', 'a plan that loses', 70, [('C', 1, 4, 4, 1), ('P', 5, 4, 2, 5)])
    f.plan('table-losing-1', SIX, '15 2', 'a plan that loses, and one entry', 1)
    each = deck('TF,FF,A=(64,64),B=(64,64)', *on_cards(EACH[:64], 8))
    bytes_of_64 = [('C', i, 1, 1, i) for i in range(1, 65)]
    for count in (0, 32, 63):
        f.plan('table-%d-of-64' % count, each, '15 64', '64 fields and %d entries' % count, count)
    for count in (64, 65, 70):
        f.plan('table-%d-of-64' % count, each, '0 0 0 1 0 64', '64 fields and %d entries' % count, count, bytes_of_64)
    most = deck('TRF,FF,A=(4096,4096),B=(4096,4096)', '4081,(P,16,1),4096/1,(U,1,16),4081/1,4096,1')
    kinds = [('P', 4081, 16, 1, 4096), ('U', 1, 1, 16, 4081), ('C', 1, 4096, 4096, 1)]
    f.plan('table-of-all-kinds', most, '0 0 0 1 0 3', 'the largest numbers, each kind', 64, kinds)
    f.plan('table-exact', most, '0 0 0 1 0 3', 'as many entries as fields', 3, kinds)
    f.plan('table-one-short', most, '15 3', 'one entry less', 2)
    cards = deck('TF,FV,A=(4,30),B=(4,30)', '1,1,4/CV', '4,(U,1,1),1', '2,(P,2,2),2')
    f.plan('table-and-cv', cards, '0 0 0 1 0 3', 'CV is no entry', 70, [('C', 1, 1, 1, 4), ('U', 4, 1, 1, 1), ('P', 2, 2, 2, 2)])
    f.plan('table-and-cv-short', cards, '15 3', 'CV is not counted', 2)
    f.note('Decks without a field need no entry, and change none')
    for name, text, answer in [('tc', deck('TC,FU,A=(5),B=(5)'), '0 0 0 1 0 0'), ('tr', deck('TR,FF,A=(4,8),B=(4,12)'), '0 0 0 1 0 0'),
                               ('cv', deck('TF,FV,A=(4,30),B=(4,30)', 'CV'), '0 0 0 0 0 0')]:
        for count in (0, 1, 70):
            f.plan('table-%s-%d' % (name, count), text, answer, 'no field', count)


def refused_tables(f):
    f.note('A refused deck changes no entry, and is refused by its own number also where the table is short')
    v = 'TF,FV,A=(4,30),B=(4,30)'
    refused = [
        (1, 1, '// X\n// END\n'), (2, 2, '// U TC,FU,A=(5),B=(5)\n'), (2, 1, ''), (3, 1, deck('TX')), (4, 1, deck('TC,TC')), (5, 1, deck('TC')),
        (6, 10, deck('TF,FF,A=(65,65),B=(65,65)', *on_cards(EACH, 8))), (7, 2, deck(v, '1,1,1/1,0,1')), (8, 1, deck('TF,FF,A=(4,6),B=(4,4)', '1,1,1')),
        (8, 2, deck('TC,FU,A=(5),B=(5)', '1,1,1')), (8, 3, deck('TF,FF,A=(4,4),B=(4,4)', '1,1,1', '1,1,1/CV')), (9, 2, deck(v, '1,1,1/4,2,1/1,1,1')), (10, 0, P9)]
    for number, place, text in refused:
        for count in (0, 70):
            f.plan('table-refused-%d-at-%d-%d' % (number, place, count), text, '%d %d' % (number, place), 'a refused deck and %d entries' % count, count)


def place_of_8(mode, form, a, b, fs):
    """Where the combinations are broken for A and B of (4,20) or (20): 0 where they are not."""
    selects = mode in ('TF', 'TRF')
    numbers = 2 if form == 'FF' or form == 'FV' and selects else 1
    if form == 'FU' and mode != 'TC' or a != numbers or b != numbers or selects and not fs:
        return 1
    if fs and not selects:
        return 2
    return 2 if 'CV' in fs and form != 'FV' else 0


def combinations(f):
    f.note('All combinations of mode, format and count of numbers, without an FS card, with one, and with CV on it')
    size = {1: '20', 2: '4,20'}
    for mode in ('TC', 'TF', 'TR', 'TRF'):
        for form in ('FF', 'FV', 'FU'):
            for a, b in ((1, 1), (1, 2), (2, 1), (2, 2)):
                for tag, fs in (('', ''), ('-fs', '1,4,1'), ('-cv', '1,4,1/CV'), ('-cv-alone', 'CV')):
                    place = place_of_8(mode, form, a, b, fs)
                    fields = 1 if '4' in fs else 0
                    if place:
                        answer = '8 %d' % place
                    elif tag == '-cv-alone':
                        answer = '0 0 0 0 0 0'
                    elif tag == '-fs' and form == 'FV':
                        answer = '0 0 0 0 8 1'
                    else:
                        answer = '0 0 0 1 0 %d' % fields
                    text = deck('%s,%s,A=(%s),B=(%s)' % (mode, form, size[a], size[b]), *([fs] if fs else []))
                    f.plan('with-%s-%s-%d-%d%s' % (mode.lower(), form.lower(), a, b, tag), text, answer, 'A has %d, B has %d' % (a, b))


def rules_of_8(f):
    f.note('Each rule of the combinations broken alone')
    t = lambda name, place, why, u, *fs: f.plan('broken-' + name, deck(u, *fs), '8 %d' % place, why)
    t('fu-tr', 1, 'FU only with TC', 'TR,FU,A=(5),B=(5)')
    t('fu-tf', 1, 'FU only with TC', 'TF,FU,A=(5),B=(5)', '1,1,1')
    t('fu-trf', 1, 'FU only with TC', 'TRF,FU,A=(5),B=(5)', '1,1,1')
    t('tc-r2', 1, 'TC only with R1', 'TC,FU,A=(5),B=(5),R2')
    t('tc-r65536', 1, 'TC only with R1', 'TC,FF,A=(5,5),B=(5,5),R65536')
    t('tc-fv-r2', 1, 'TC only with R1', 'TC,FV,A=(9),B=(9),R00002')
    t('ff-one', 1, 'FF: two numbers each', 'TC,FF,A=(5),B=(5)')
    t('ff-one-in-a', 1, 'FF: two numbers each', 'TR,FF,A=(5),B=(5,5)')
    t('ff-one-in-b', 1, 'FF: two numbers each', 'TRF,FF,A=(5,5),B=(5)', '1,1,1')
    t('fu-two', 1, 'FU: one number', 'TC,FU,A=(5,5),B=(5,5)')
    t('fv-two-tc', 1, 'FV: one number with TC', 'TC,FV,A=(5,20),B=(5,20)')
    t('fv-two-tr', 1, 'FV: one number with TR', 'TR,FV,A=(5,20),B=(5,20)')
    t('fv-two-tr-in-b', 1, 'FV: one number with TR', 'TR,FV,A=(20),B=(5,20)')
    t('fv-one-tf', 1, 'FV: two numbers with TF', 'TF,FV,A=(20),B=(20)', 'CV')
    t('fv-one-trf-in-a', 1, 'FV: two numbers with TRF', 'TRF,FV,A=(20),B=(5,20)', 'CV')
    t('m-of-n-in-a', 1, 'FF: m a multiple of n', 'TRF,FF,A=(4,6),B=(4,4)', '1,4,1')
    t('m-of-n-in-b', 1, 'FF: m a multiple of n', 'TRF,FF,A=(4,4),B=(4,6)', '1,4,1')
    t('m-under-n', 1, 'm under n is no multiple of it', 'TRF,FF,A=(4,3),B=(4,4)', '1,4,1')
    t('m-of-n-tc', 1, 'in A and in B', 'TC,FF,A=(4,6),B=(4,6)')
    t('m-of-n-tr', 1, 'in B', 'TR,FF,A=(4,8),B=(4,9)')
    t('tc-a-and-b-fu', 1, 'TC: A equals B', 'TC,FU,A=(5),B=(6)')
    t('tc-a-and-b-fv', 1, 'TC: A equals B', 'TC,FV,A=(10),B=(9)')
    t('tc-m-and-m', 1, 'TC: A equals B', 'TC,FF,A=(4,8),B=(4,4)')
    t('tc-n-and-n', 1, 'TC: A equals B', 'TC,FF,A=(4,8),B=(8,8)')
    t('tr-n-and-n', 1, 'TR with FF: equal record lengths', 'TR,FF,A=(4,8),B=(8,8)')
    t('tf-quotient', 1, 'TF with FF: equal m divided by n', 'TF,FF,A=(4,8),B=(4,4)', '1,4,1')
    t('tf-quotient-more', 1, 'TF with FF: equal m divided by n', 'TF,FF,A=(4,8),B=(4,12)', '1,4,1')
    t('n-8-in-a', 1, 'FV with two numbers: n+8 at most m', 'TRF,FV,A=(13,20),B=(12,20)', '1,4,1')
    t('n-8-in-b', 1, 'FV with two numbers: n+8 at most m', 'TRF,FV,A=(12,20),B=(13,20)', '1,4,1')


def cards_of_8(f):
    f.note('TF and TRF need an FS card; TC and TR allow none; CV only with FV, at its card')
    t = lambda name, place, why, u, *fs: f.plan('broken-' + name, deck(u, *fs), '8 %d' % place, why)
    t('tf-no-fs', 1, 'TF needs an FS card', 'TF,FF,A=(4,4),B=(4,4)')
    t('trf-no-fs', 1, 'TRF needs an FS card', 'TRF,FF,A=(4,4),B=(4,4)')
    t('tf-no-fs-fv', 1, 'TF needs an FS card', 'TF,FV,A=(4,20),B=(4,20)')
    t('tc-fs', 2, 'TC allows no FS card', 'TC,FU,A=(5),B=(5)', '1,1,1')
    t('tr-fs', 2, 'TR allows no FS card', 'TR,FF,A=(4,4),B=(4,4)', '1,1,1', '1,1,1')
    t('tr-fs-cv', 2, 'CV is allowed in FV, but no FS card in TR', 'TR,FV,A=(9),B=(9)', 'CV')
    t('tr-fs-cv-3', 2, 'the FS card on card 2 is before the CV on card 3', 'TR,FF,A=(4,4),B=(4,4)', '1,1,1', 'CV')
    for card in (2, 3, 4):
        t('cv-ff-%d' % card, card, 'CV in FF on card %d' % card, 'TF,FF,A=(4,4),B=(4,4)', *['1,4,1'] * (card - 2) + ['CV'])
    t('cv-ff-trf', 3, 'behind a field of its card', 'TRF,FF,A=(4,4),B=(4,4)', '1,4,1', '1,1,1/CV', '1,1,1')
    t('cv-ff-64', 63, 'on card 63', 'TF,FF,A=(4,4),B=(4,4)', *['1,4,1'] * 61 + ['CV'])
    f.note('The lowest place, and 8 before 9 and 10, behind 7')
    t('m-and-cv', 1, 'm no multiple of n, and CV on card 3', 'TRF,FF,A=(4,6),B=(4,4)', '1,1,1', 'CV')
    t('fu-tf-cv', 1, 'FU with TF, and CV', 'TF,FU,A=(5),B=(5)', 'CV')
    t('and-outside', 1, 'a field outside is 9', 'TRF,FF,A=(4,6),B=(4,4)', '9,9,9')
    t('and-no-value', 3, 'a half without a value is 10', 'TRF,FF,A=(4,4),B=(4,4)', '1,(P,2,2),1/1,(U,1,1),1', 'CV')
    f.plan('limit-and-broken', deck('TC,FF,A=(4,6),B=(0,4),R2'), '7 1', '7 before 8')
    f.plan('limit-in-fs-and-broken', deck('TC,FF,A=(4,6),B=(4,4),R2', '1,1,1', '1,(P,0,1),1'), '7 3', '7 on card 3 before 8 on card 1')
    f.note('And these are allowed')
    ok = lambda name, answer, why, u, *fs: f.plan('allowed-' + name, deck(u, *fs), answer, why)
    ok('tc-zeros', '0 0 0 1 0 0', 'A equals B in numbers', 'TC,FU,A=(05),B=(5),R00001')
    ok('trf-ff', '0 0 0 1 0 1', 'TRF with FF asks nothing between A and B', 'TRF,FF,A=(4,8),B=(5,25),R9', '1,4,2')
    ok('tr-fv', '0 0 0 1 0 0', 'TR with FV asks nothing between A and B', 'TR,FV,A=(300),B=(9),R2')
    ok('tf-fv', '0 0 0 1 0 1', 'TF with FV asks nothing between A and B', 'TF,FV,A=(4,300),B=(5,13),R2', '1,4,2/CV')
    ok('tf-ff', '0 0 0 1 0 1', 'equal m divided by n', 'TF,FF,A=(4,12),B=(7,21),R65536', '1,4,4')


MANUAL = {
    't1': '0 0 0 1 0 0', 't2': '0 0 0 0 0 2', 't2-carried-over': '0 0 0 1 0 2', 't3': '0 0 0 1 0 0', 't4': '0 0 0 1 0 0', 't6-1': '0 0 0 0 4 2', 't6-2': '0 0 0 0 4 2', 't6-3': '0 0 0 0 4 2',
    't7-300': '0 0 0 1 0 0', 't7-50': '0 0 0 1 0 0', 't7-keys': '8 1', 't8': '0 0 0 1 0 0', 't8-copy': '8 1', 'c1': '0 0 0 0 60 6', 'c1-of-31': '0 0 0 0 60 6', 'c2-no-slash': '0 0 0 0 60 6',
    'c3': '0 0 0 1 0 0', 'c4-no-i1': '0 0 0 1 0 0', 'c5': '0 0 0 1 0 0', 'd1-b': '8 2', 'd2': '0 0 0 1 0 2', 'd5-no-oy': '0 0 0 1 0 0', 'd6': '0 0 0 1 0 0', 'd7-no-oy': '0 0 0 1 0 0', 'd8-no-e': '0 0 0 1 0 0',
    'o1-no-s1': '0 0 0 1 0 2', 'o2-no-oy': '0 0 0 1 0 0', 'o4-mended': '0 0 0 1 0 1', 'unpack-comma': '0 0 0 1 0 1',
}


def of_manual(f, decks):
    f.note('The decks of document 001, IBM\'s manual, as they stand in manual.txt. In t2 as printed bytes 1 to 4, there the record word, are not read; the payroll')
    f.note('card c1 drops address and date, bytes 31 to 71, and every pack of it keeps its digits')
    for name, text, read, why in decks:
        answer = MANUAL[name] if read.startswith('0 0 ') else read
        f.plan('plan-' + name, text, answer, why)
    payroll = '1,15,1/16,(P,5,3),16/72,(P,3,2),19/75,(P,6,4),21/23,(P,8,5),25/21,2,30'
    f.plan('plan-c1-of-30', deck('TF,FF,A=(80,80),B=(30,30)', payroll), '9 6', 'the payroll card into 30 bytes: the sixth field ends at 31')


def make(decks):
    f = Plans('plans.txt', HEAD)
    for section in (listings, tails, ends, sizes, counts, overlaps, zones, empty, tables, refused_tables, combinations, rules_of_8, cards_of_8):
        section(f)
    of_manual(f, decks)
    return f
