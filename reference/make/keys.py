"""Keyed records (document 02, order 5): decks, plans, reels, runs and twins. All numbers, columns, entries and bytes are worked by hand."""
from decks import U
from mixed import *
from runs import EMPTY, h

HEAD = [
    'Keyed records (document 02, order 5): A=(K=l,D=l), and (K,r) in place of r. The cases are those of all subjects: NAME deck DECK, NAME plan DECK ENTRIES, NAME reel DECK REEL,',
    'NAME run DECK REEL ROOM, NAME twins DECK ROOM, and their lines are as in the other files. A deck that is read says A=K=l,D=l, and a K before r for a field that is taken from the',
    'key, or "past" where it runs past the key or there is none. In the digest of a table the first number of an entry is its kind and 256 times its part (0 data, 1 key). In comments a bar stands for hex 0A.',
]


class Keys(Mixed):
    def ran(self, name, text, input_reel, out, why, room=None):
        """A run that writes these blocks of records."""
        self.wrote(name, text, input_reel, [b''.join(records) for records in out], sum(len(records) for records in out), why, room)


D1 = ('(K,1),10,1/6,15,11/21,(P,5,3),26/77,(P,3,2),29/80,(P,6,4),31', '28,(P,8,5),35/26,(P,2,2),40')
D2 = '(K,1),10,1/1,100,11'


def of_manual(f):
    f.note('The keyed decks of document 001, with `// U ` in place of other programs\' names. Keyed output, B=(K=..) and (K,t), is not built')
    f.at('d1', 3, '// U TF,FF,A=(K=10,D=100),B=(^K=10,D=31)\n// FS (K,1),10,(K,1)/6,15,1/21,(P,5,3),16' + END, 'disk to disk', 30)
    f.at('d3', 3, '// U TC,FF,A=(K=10,D=100),B=(^K=10,D=100),OY' + END, 'data cell to disk, a copy', 30)
    f.at('c6', 3, '// U TF,FF,A=(80,80),B=(^K=26,D=80)\n// FS 1,80,1/30,26,(K,1)' + END, 'card to disk', 25)
    f.at('d4', 3, '// U TF,FF,A=(80,80),B=(^K=10,D=70),ON\n// FS 75,6,(K,1)/1,70,1' + END, 'data cell to data cell', 25)
    f.at('o3', 3, '// U TRF,FF,A=(110,440),B=(^K=10,D=100),OY\n// FS 1,10,(K,1)/11,100,1' + END, 'tape to data cell, the way back of d2', 28)
    f.at('d1-key-out', 3, '// U TF,FF,A=(K=10,D=100),B=(41,41)\n// FS (K,1),10,^(K,1)/6,15,1/21,(P,5,3),16' + END, 'd1 with plain output: the bracket where t belongs', 16)
    u = 'TF,FF,A=(K=10,D=100),B=(41,41)'
    fields = [('KC', 1, 10, 10, 1), ('C', 6, 15, 15, 11), ('P', 21, 5, 3, 26), ('P', 77, 3, 2, 29), ('P', 80, 6, 4, 31), ('P', 28, 8, 5, 35), ('P', 26, 2, 2, 40)]
    f.plan('key-d1-near', deck(u, *D1), '0 0 0 0 20 7', 'd1 as near as it can be: data bytes 1 to 5 are not read, and data byte 1 has the halves 20 and 21 behind a key of 10', 64, fields)
    f.plan('key-d1-near-trf', deck(u.replace('TF', 'TRF').replace('41,41', '41,410'), *D1), '0 0 0 0 20 7', 'with TRF and blocks of ten records')
    f.refused_plan('d1-near-out', deck(u.replace('41,41', '40,40'), *D1), 9, 7, 'into 40 bytes: field 7 ends at 41')
    f.refused_plan('d1-near-short', deck(u.replace('D=100', 'D=84'), *D1), 9, 5, 'data of 84 bytes: field 5 ends at 85')
    f.plan('key-d1-near-85', deck(u.replace('D=100', 'D=85'), *D1), '0 0 0 0 20 7', 'data of 85 bytes')
    f.plan('key-d2', deck('TRF,FF,A=(K=10,D=100),B=(110,440),ON', D2), '0 0 0 1 0 2', 'data cell to tape, as the manual has it', 2, [('KC', 1, 10, 10, 1), ('C', 1, 100, 100, 11)])
    f.refused_plan('d2-tf', deck('TF,FF,A=(K=10,D=100),B=(110,440),ON', D2), 8, 1, 'with TF: four records to a block of B')
    f.plan('key-d2-tf-110', deck('TF,FF,A=(K=10,D=100),B=(110,110),ON', D2), '0 0 0 1 0 2', 'with TF, one record to a block of B')
    f.plan('key-t7', deck('TRF,FF,A=(K=10,D=60),B=(70,700)', '(K,1),10,61/1,60,1'), '0 0 0 1 0 2', 'values of the text; the key behind the data')


def reads(f):
    f.note('What is read, in every function and format; refusals 8 to 10 are not asked of a deck alone')
    f.read('read-tc-fu', '// U TC,FU,A=(K=1,D=2),B=(5)' + END, '0 0 0 TC FU A=K=1,D=2 B=5 R=1 fs=0 cv=0 0', 'keys with TC and FU')
    f.read('read-fv', '// U TR,FV,A=(K=1,D=2),B=(9)' + END, '0 0 0 TR FV A=K=1,D=2 B=9 R=1 fs=0 cv=0 0', 'the least of 9 is for a single number')
    f.read('read-zeros', '// UTT A=(K=00010,D=00100),R00002,TRF,FF,B=(1,1)' + END, '0 0 0 TRF FF A=K=10,D=100 B=1,1 R=2 fs=0 cv=0 0', 'leading zeros, A first')
    f.read('read-last', '// U TF,FF,B=(1,1),A=(K=4095,D=1)' + END, '0 0 0 TF FF A=K=4095,D=1 B=1,1 R=1 fs=0 cv=0 0', 'A last')
    f.read('read-half', '// U TF,FF,B=(1,1),A=(K=2048,D=2048)' + END, '0 0 0 TF FF A=K=2048,D=2048 B=1,1 R=1 fs=0 cv=0 0', 'a total of 4,096')
    f.read('read-items', '// U TF,FF,A=(K=9,D=9),B=(9,9)\n// FS (K,1),2,3/4,5,6\n// FS (K,00007),(P,8,9),10/CV/(K,11),(U,12,13),14/15,(P,16,1),2' + END,
           '0 0 0 TF FF A=K=9,D=9 B=9,9 R=1 fs=2 cv=3 5 C:K1,2,2,3@2 C:4,5,5,6@2 P:past,8,9,10@3 U:past,12,13,14@3 P:15,16,1,2@3', 'fields of the key beside fields of the data')
    f.read('read-no-key', U + '\n// FS (K,1),1,1' + END, '0 0 0 TC FU A=5 B=5 R=1 fs=1 cv=0 1 C:past,1,1,1@2', 'a field of a key where A has none, which is 8')
    f.read('read-r-4096', U + '\n// FS (K,4096),4096,4096' + END, '0 0 0 TC FU A=5 B=5 R=1 fs=1 cv=0 1 C:past,4096,4096,4096@2', 'r of 4,096')


def columns_of_3(f):
    f.note('Refusal 3: exactly A=(K=l,D=l), K first, capital letters; B has no key')
    f.at('a-2', 3, '// U A=(K=1,^2)' + END, 'the 2, where D belongs', 13)
    wrong = ['A=(K=1^)', 'A=(1,^D=2)', 'A=(^D=2,K=1)', 'A=(^D=2)', 'A=(^k=1,D=2)', 'A=(K=1,^d=2)', 'A=(K^1,D=2)', 'A=(K^,D=2)', 'A=(K=^,D=2)', 'A=(K=^K,D=2)', 'A=(K=1,D^2)', 'A=(K=1,D^,2)', 'A=(K=1,D=^)',
             'A=(K=1,D=2^,3)', 'A=(K=1,D=2^,D=3)', 'A=(K=1^;D=2)', 'A=(K=1^D=2)', 'A=(K=1^/', 'A=(K=1,^K=2)', 'A=(K=1,^,D=2)', 'A=(K=1,D=2)^)', 'A=(K=1,D=2)^X', 'A=(K=1,D=2)^B=(1,1)', 'A=(K=1,D=2),^,TF',
             'A=(^(K=1,D=2))', 'A=^K=1,D=2', 'A^(K=1,D=2)', 'A=(K=^-1,D=2)', 'A=(5,6^,K=1,D=2)', 'A=(5^K=1,D=2)', '^K=1,D=2', 'TC,B=(^K=1,D=2)', 'B=(1,^D=2)', 'A=(K=1,D=2),B=(^K=1,D=2)', 'A=(K=1,D=2),^K=1']
    f.each('wrong-a', 3, '// U ', wrong, 'no operand goes on so')
    f.each('six-digits-a', 3, '// U ', ['A=(K=12345^6,D=1)', 'A=(K=00000^1,D=1)', 'A=(K=1,D=00000^1)', 'A=(K=99999,D=99999^9)'], 'a sixth digit')
    f.each('short-a', 3, '// U ', [cut + '^' for cut in ('A=(K', 'A=(K=', 'A=(K=1', 'A=(K=1,', 'A=(K=1,D', 'A=(K=1,D=', 'A=(K=1,D=2', 'A=(K=1,D=2),')], 'it stops short')
    f.each('blank-a', 3, '// UTT ', ['A=(K=1,^ D=2)', 'A=(^ K=1,D=2)', 'A=(K=10,D=100),^ B=(1,1)'], 'the operand ends at the blank')
    f.note('(K,r) in place of r, and nowhere else')
    fs = U + '\n// FS '
    f.at('t', 3, fs + '1,1,^(K,1)' + END, 'the bracket', 11)
    f.at('t-of-key', 3, fs + '(K,1),1,^(K,1)' + END, 'the second bracket', 15)
    wrong = ['1,(P,2,2),^(K,1)', '(K,1),(P,2,2),^(K,1)', '(^D,1),1,1', '(^k,1),1,1', '(^P,2,2),1', '(^U,2,2),1', '(^1),1,1', '(^),1,1', '(^(K,1)),1,1', '(K^1),1,1', '(K^)', '(K^=1),1,1', '(K,^),1,1', '(K,^K),1,1',
             '(K,^-1),1,1', '(K,1^,1),1', '(K,1^,(P,2,2),1', '(K,1)^1,1', '(K,1)^/CV', '(K,1)^(P,2,2),1', '(K,1),^/CV', '(K,1),^,1', '(K,1),^CV', '(K,1),1^/1', '(K,1),1^)', '(K,1),1,1^,1', '(K,1),1,1^)', '(K,1),1,1^(K,1)',
             '(K,1),(^X,2),1', '(K,1),(^K,1),1', '(K,1),(P,2^),1', '(K,1),(U,2,2)^1', '^K,1,1', '1,(^K,1),1', '1^/(K,1),1,1', 'CV^(K,1)', '1,1,1/(^CV', '(K,1),1,1/(K,1)^/1']
    f.each('wrong-item', 3, fs, wrong, 'no operand goes on so')
    f.each('six-digits-item', 3, fs, ['(K,12345^6),1,1', '(K,00000^1),1,1', '(K,1),00000^1,1', '(K,1),1,00000^1'], 'a sixth digit')
    cuts = ['(', '(K', '(K,', '(K,1', '(K,1)', '(K,1),', '(K,1),1', '(K,1),1,', '(K,1),(', '(K,1),(P', '(K,1),(P,2', '(K,1),(P,2,2', '(K,1),(P,2,2)', '(K,1),(U,2,2),', '1,1,1/(K', '(K,1),1,1/']
    f.each('short-item', 3, fs, [cut + '^' for cut in cuts], 'it stops short')
    f.at('81', 3, fs + '1,1,1/' * 12 + '(K^' + END, 'it stops short at byte 80', 81)


def columns_of_4_and_7(f):
    f.note('Refusal 4: A with a key is an A')
    f.each('twice', 4, '// U ', ['A=(K=1,D=2),^A=(3,3)', 'A=(3,3),^A=(K=1,D=2)', 'A=(K=1,D=2),TF,FF,^A=(K=1,D=2),B=(3,3)', 'A=(0),B=(5),^A=(K=0,D=9999),B=(5)', 'TF,FF,B=(1,1),^TC,A=(K=1,D=2),A=(5)'], 'the second')
    f.at('twice-cv', 4, '// U TF,FF,A=(K=1,D=2),B=(3,3)\n// FS (K,1),1,1/CV/(K,1),1,1/^CV' + END, 'the second CV')
    f.read('5-before-7', '// U TF,FF,A=(K=0,D=0)' + END, '5 1 0', 'B is missing: 5 before 7')
    f.note('Refusal 7: K and D are each 1 to 4,096, the total at most 4,096, at D\'s first digit; the leftmost on the card')
    a = 'TF,FF,A=(%s),B=(1,1)'
    sizes = ['K=^0,D=1', 'K=^00000,D=0', 'K=^4097,D=1', 'K=^04097,D=4097', 'K=^0,D=4097', 'K=^99999,D=99999', 'K=1,D=^0', 'K=1,D=^00000', 'K=1,D=^4096', 'K=4095,D=^2', 'K=4095,D=^00002', 'K=2048,D=^2049', 'K=4096,D=^1', 'K=4096,D=^0',
             'K=4096,D=^4096', 'K=04096,D=^00001', 'K=1,D=^4097', 'K=1,D=^99999', 'K=2,D=^04095']
    f.each('limit', 7, '// U ', [a % size for size in sizes], 'of key and data')
    f.each('limit-of-other', 7, '// U ', ['TC,FF,A=(K=^0,D=1),B=(1,1)', 'TC,FU,A=(K=4096,D=^1),B=(5)', 'TR,FV,A=(K=1,D=^4096),B=(9)', 'TF,FV,A=(K=^4097,D=1),B=(1,9)', 'TRF,FF,A=(K=4000,D=^97),B=(1,1)'], 'in every function and format, before 8')
    f.each('limit-leftmost', 7, '// U ', ['B=(^0,1),A=(K=0,D=1),TF,FF', 'A=(K=2048,D=^2049),B=(0,0),TF,FF', 'TF,FF,R^0,A=(K=4096,D=1),B=(1,1)', 'TF,FF,A=(K=1,D=1),B=(^4097,1),R0', 'TF,FV,B=(^8),A=(K=0,D=0)'], 'the leftmost')
    f.at('limit-utt', 7, '// UTT TF,FF,A=(K=4095,D=^2),B=(1,1)' + END, 'behind `// UTT `', 26)
    items = ['(K,^0),1,1', '(K,^4097),1,1', '(K,^00000),0,0', '(K,4096),^0,1', '(K,1),^4097,1', '(K,1),1,^0', '(K,1),(P,^17,1),1', '(K,1),(P,16,^17),1', '(K,1),(U,^0,1),1', '(K,4096),(U,16,16),^4097', '(K,^4097),(U,0,0),0',
             '1,1,1/(K,^4097),1,1', '(K,1),1,1/^0,1,1']
    f.each('limit-item', 7, '// U TF,FF,A=(K=1,D=1),B=(1,1)\n// FS ', items, 'r is 1 to 4,096 wherever it reads')
    f.each('limit-item-no-key', 7, U + '\n// FS ', ['(K,^0),1,1', 'CV/(K,1),^0,1'], 'before 8')
    f.refused_plan('limit-plan', deck('TC,FU,A=(K=4096,D=1),B=(5)', '(K,1),1,1', 'CV'), 7, 1, '7 before 8', 24)
    f.refused_plan('limit-plan-fs', deck('TC,FU,A=(K=4095,D=1),B=(5)', '(K,1),1,1', '(K,4097),1,1'), 7, 3, '7 on card 3 before 8 on card 1', 10)


def combinations(f):
    f.note('Refusal 8: keys only with FF and TF or TRF, at 1, whatever else is there')
    for mode, formats in (('TC', 'FF FV FU'), ('TR', 'FF FV FU'), ('TF', 'FV FU'), ('TRF', 'FV FU')):
        for fmt in formats.split():
            for b in ('3,11', '11'):
                u = '%s,%s,A=(K=1,D=2),B=(%s)' % (mode, fmt, b)
                f.refused_plan('8-%s-%s-%s' % (mode.lower(), fmt.lower(), b.replace(',', '-')), deck(u), 8, 1, 'no FS card')
                f.refused_plan('8-%s-%s-%s-fs' % (mode.lower(), fmt.lower(), b.replace(',', '-')), deck(u, '1,1,1', '(K,1),1,1/CV'), 8, 1, 'with FS cards')
    t = lambda name, place, why, u, *fs: f.refused_plan('8-' + name, deck(u, *fs), 8, place, why)
    t('tc-equal', 1, 'A and B of three bytes', 'TC,FF,A=(K=1,D=2),B=(3,3)')
    t('tr-equal', 1, 'A and B of three bytes', 'TR,FF,A=(K=1,D=2),B=(3,3)')
    t('tf-two', 1, 'TF and two records to a block of B', 'TF,FF,A=(K=1,D=2),B=(3,6)', '(K,1),1,1')
    t('tf-no-multiple', 1, 'TF and B of no whole records', 'TF,FF,A=(K=1,D=2),B=(3,4)', '(K,1),1,1')
    t('trf-no-multiple', 1, 'TRF and B of no whole records', 'TRF,FF,A=(K=1,D=2),B=(3,4)', '(K,1),1,1')
    t('trf-m-under-n', 1, 'TRF and B\'s m below its n', 'TRF,FF,A=(K=1,D=2),B=(3,2)', '(K,1),1,1')
    t('b-of-one', 1, 'a single number in B', 'TRF,FF,A=(K=1,D=2),B=(3)', '(K,1),1,1')
    t('no-fs', 1, 'TF without an FS card', 'TF,FF,A=(K=1,D=2),B=(3,3)')
    t('cv', 2, 'CV with keys', 'TF,FF,A=(K=1,D=2),B=(3,3)', 'CV')
    t('cv-3', 3, 'CV with keys, on card 3', 'TRF,FF,A=(K=1,D=2),B=(3,9)', '(K,1),1,1', '1,1,1/CV')
    f.note('(K,r) without a keyed A is 8 at its card: of all places the lowest')
    t('no-key', 2, 'on card 2', 'TF,FF,A=(3,3),B=(3,3)', '(K,1),1,1')
    t('no-key-3', 3, 'on card 3', 'TRF,FF,A=(3,6),B=(3,9)', '1,1,1', '1,1,1/(K,1),(P,1,1),1')
    t('no-key-twice', 3, 'on cards 3 and 4: the first', 'TRF,FF,A=(3,6),B=(3,9)', '1,1,1', '(K,1),(U,1,1),1', '(K,1),1,1')
    t('no-key-63', 63, 'on card 63', 'TF,FF,A=(3,3),B=(3,3)', *['1,1,1'] * 61 + ['(K,1),1,1'])
    t('no-key-then-cv', 3, 'on card 3, CV on card 4', 'TF,FF,A=(3,3),B=(3,3)', '1,1,1', '(K,1),1,1', 'CV')
    t('cv-then-no-key', 3, 'CV on card 3, the field on card 4', 'TF,FF,A=(3,3),B=(3,3)', '1,1,1', 'CV', '(K,1),1,1')
    t('cv-and-no-key', 2, 'both on card 2', 'TF,FF,A=(3,3),B=(3,3)', 'CV/(K,1),1,1')
    t('no-key-fv', 2, 'in FV', 'TF,FV,A=(3,11),B=(3,11)', '(K,1),1,1/CV')
    t('no-key-fv-3', 3, 'in FV, where CV on card 2 is right', 'TRF,FV,A=(3,30),B=(3,30)', 'CV/1,1,1', '(K,1),1,1')
    t('no-key-tr', 2, 'TR with an FS card at all, and the field on card 3', 'TR,FF,A=(3,3),B=(3,3)', '1,1,1', '(K,1),1,1')
    t('no-key-tc', 2, 'TC with an FS card at all, and the field on card 3', 'TC,FU,A=(3),B=(3)', 'CV', '(K,1),1,1')
    t('no-key-tc-fv', 2, 'TC in FV, the field on card 2', 'TC,FV,A=(9),B=(9)', '(K,1),1,1')
    t('no-key-u', 1, 'm no multiple of n', 'TF,FF,A=(3,4),B=(3,3)', '1,1,1', '(K,1),1,1')
    t('no-key-fu', 1, 'TF with FU', 'TF,FU,A=(3),B=(3)', '(K,1),1,1')
    t('no-key-tf', 1, 'TF and m/n not equal', 'TF,FF,A=(3,3),B=(3,6)', '(K,1),1,1')
    t('no-key-and-9', 2, 'fields outside are 9', 'TF,FF,A=(3,3),B=(3,3)', '9,9,9/(K,9),9,9')
    t('no-key-and-10', 3, 'a half without a value is 10', 'TF,FF,A=(3,3),B=(3,3)', '1,(P,2,2),1/1,(U,1,1),1', '(K,1),1,1')
    f.refused_plan('8-table', deck('TF,FF,A=(3,3),B=(3,3)', '(K,1),1,1'), 8, 2, 'no entry changes', entries=64)
    f.note('And these are allowed')
    ok = lambda name, lost, why, u, *fs: f.plan('key-allowed-' + name, deck(u, *fs), '0 0 0 %s %d' % ('1 0' if lost is None else '0 %d' % lost, sum(x.count('/') + 1 for x in fs)), why)
    ok('tf', None, 'TF, one record to a block of B', 'TF,FF,A=(K=1,D=2),B=(3,3)', '(K,1),1,1/1,2,2')
    ok('trf-many', None, 'TRF, any blocks of B', 'TRF,FF,A=(K=1,D=2),B=(3,32760),R65536', '(K,1),1,1/1,2,2')
    ok('rewind', None, 'I, O and R', 'R2,IR,ON,B=(4,8),TRF,A=(K=1,D=2),FF', '1,2,3/(K,1),1,1')
    ok('no-field-of-key', 0, 'no field of the key: half 0 is lost', 'TF,FF,A=(K=1,D=2),B=(2,2)', '1,2,1')


def ends(f):
    f.note('Refusal 9: a field lies in its own part, here a key of 2 bytes or data of 3, and in an output of 4')
    p = lambda name, answer, why, *fs: f.plan('key-end-' + name, deck('TF,FF,A=(K=2,D=3),B=(4,4)', *fs), answer, why)
    t = lambda name, place, why, *fs: f.refused_plan('past-' + name, deck('TF,FF,A=(K=2,D=3),B=(4,4)', *fs), 9, place, why)
    p('key', '0 0 0 0 4 1', 'at the key\'s last byte; the data are not read', '(K,1),2,1')
    p('key-1', '0 0 0 0 0 1', 'the key\'s last byte alone', '(K,2),1,1')
    t('key', 1, 'one past the key, where the data begin', '(K,2),2,1')
    t('key-size', 1, 'a size one over the key', '(K,1),3,1')
    t('key-r', 1, 'r one past the key', '(K,3),1,1')
    p('data', '0 0 0 0 0 1', 'at the data\'s last byte', '1,3,1')
    p('data-1', '0 0 0 0 0 1', 'the data\'s last byte alone', '3,1,1')
    t('data', 1, 'one past the data', '3,2,1')
    t('data-size', 1, 'a size one over the data', '1,4,1')
    t('data-r', 1, 'r of 4: key and data have 5 bytes, and the data 3', '4,1,1')
    t('data-total', 1, 'r of 5, the total', '5,1,1')
    p('key-pack', '0 0 0 0 4 1', 'a pack at the key\'s last byte', '(K,1),(P,2,2),1')
    t('key-pack', 1, 'one past', '(K,2),(P,2,2),1')
    p('key-unpack', '0 0 0 0 4 1', 'an unpack at the key\'s last byte', '(K,1),(U,2,3),1')
    t('key-unpack', 1, 'one past', '(K,2),(U,2,3),1')
    p('data-pack', '0 0 0 0 0 1', 'a pack at the data\'s last byte', '2,(P,2,2),1')
    t('data-pack', 1, 'one past', '3,(P,2,2),1')
    p('data-unpack', '0 0 0 0 0 1', 'an unpack at the data\'s last byte', '3,(U,1,1),1')
    t('data-unpack', 1, 'one past', '3,(U,2,1),1')
    p('out', '0 0 0 0 2 1', 'at the output\'s last byte', '(K,1),1,4')
    t('out', 1, 'one past the output', '(K,1),2,4')
    t('out-t', 1, 't one past the output', '(K,1),1,5')
    t('out-data', 1, 'a field of the data past the output', '1,3,3')
    p('out-pack', '0 0 0 0 2 1', 'a pack of the key to the output\'s last byte', '(K,1),(P,1,4),1')
    t('out-pack', 1, 'one past', '(K,1),(P,1,4),2')
    t('second', 2, 'fields 2 and 3 are outside: the first', '(K,1),2,1/(K,1),3,1/4,1,1')
    t('third', 3, 'the place is the field and not the card', '(K,1),2,1', '1,3,1/(K,2),2,1')
    t('both', 1, 'outside in input and output', '(K,2),4,2')
    t('far', 1, 'r and s of 4,096', '(K,4096),4096,4096')
    t('and-10', 3, 'a half without a value is 10', '(K,1),(P,2,2),1/(K,1),(U,1,1),1/4,1,1')
    t('64', 64, 'the 64th field', *on_cards(['(K,1),1,1'] * 63 + ['4,1,1'], 7))
    f.refused_plan('65', deck('TF,FF,A=(K=2,D=3),B=(4,4)', *on_cards(['(K,1),1,1'] * 65, 7)), 6, 11, 'the 65th field is on card 11')


def sizes(f):
    f.note('K and D of 1 and 4,095, a total of 4,096')
    p = lambda name, k, d, b, answer, why, *fs: f.plan('key-size-' + name, deck('TF,FF,A=(K=%d,D=%d),B=(%d,%d)' % (k, d, b, b), *fs), answer, why)
    t = lambda name, k, d, b, place, why, *fs: f.refused_plan('size-past-' + name, deck('TF,FF,A=(K=%d,D=%d),B=(%d,%d)' % (k, d, b, b), *fs), 9, place, why)
    p('1-1', 1, 1, 2, '0 0 0 1 0 2', 'a byte of each', '(K,1),1,1/1,1,2')
    p('1-1-key', 1, 1, 1, '0 0 0 0 2 1', 'the key alone: half 2 is lost', '(K,1),1,1')
    p('1-1-data', 1, 1, 1, '0 0 0 0 0 1', 'the data alone', '1,1,1')
    t('1-1-key', 1, 1, 2, 1, 'two bytes from a key of one', '(K,1),2,1')
    t('1-1-data', 1, 1, 2, 1, 'two bytes from data of one', '1,2,1')
    p('4095-1', 4095, 1, 4096, '0 0 0 1 0 2', 'a key of 4,095', '(K,1),4095,1/1,1,4096')
    p('4095-1-lost', 4095, 1, 4095, '0 0 0 0 8190 1', 'the one byte of data is lost, half 8,190', '(K,1),4095,1')
    p('4095-1-first', 4095, 1, 4096, '0 0 0 0 0 2', 'the key\'s first byte is not read', '(K,2),4094,1/1,1,4095')
    p('4095-1-last', 4095, 1, 4096, '0 0 0 0 8188 2', 'the key\'s last byte is not read', '(K,1),4094,1/1,1,4095')
    p('4095-1-end', 4095, 1, 2, '0 0 0 0 0 2', 'r at the key\'s last byte', '(K,4095),1,1/1,1,2')
    t('4095-1-end', 4095, 1, 2, 1, 'r of 4,096', '(K,4096),1,1')
    t('4095-1-data', 4095, 1, 2, 2, 'r of 2 in data of 1', '(K,1),1,1/2,1,1')
    p('1-4095', 1, 4095, 4096, '0 0 0 1 0 2', 'data of 4,095', '(K,1),1,4096/1,4095,1')
    p('1-4095-lost', 1, 4095, 4095, '0 0 0 0 0 1', 'the one byte of the key is lost', '1,4095,1')
    p('1-4095-last', 1, 4095, 4095, '0 0 0 0 8190 2', 'the last byte of the data is not read', '(K,1),1,1/1,4094,2')
    p('1-4095-key', 1, 4095, 1, '0 0 0 0 2 1', 'the key alone', '(K,1),1,1')
    p('1-4095-end', 1, 4095, 1, '0 0 0 0 2 2', 'r at the last byte of the data, and the key over it', '4095,1,1/(K,1),1,1')
    t('1-4095-end', 1, 4095, 1, 1, 'r of 4,096', '4096,1,1')
    p('2048', 2048, 2048, 4096, '0 0 0 1 0 2', 'halves of 4,096', '1,2048,1/(K,1),2048,2049')
    p('2048-pack', 2048, 2048, 4089, '0 0 0 1 0 3', 'the last 16 bytes of the key packed to 9', '(K,1),2032,1/(K,2033),(P,16,9),2033/1,2048,2042')
    p('2048-pack-8', 2048, 2048, 4088, '0 0 0 0 4065 3', 'packed to 8: the low half of key byte 2,033 is dropped', '(K,1),2032,1/(K,2033),(P,16,8),2033/1,2048,2041')
    f.refused_plan('size-10', deck('TF,FF,A=(K=4095,D=1),B=(9,9)', '(K,4080),(P,16,9),1/(K,4095),(U,1,1),1'), 10, 8188, 'half 8,188, in the key\'s last byte, has no value')
    f.refused_plan('size-10-data', deck('TF,FF,A=(K=4095,D=1),B=(9,9)', '1,(P,1,9),1/1,(U,1,1),1'), 10, 8190, 'half 8,190, in the data, has no value')


def keeping(f):
    f.note('Halves are numbered through the key first: of a key of 2 bytes 0 to 3, of data of 2 bytes 4 to 7')
    p = lambda name, answer, why, *fs: f.plan('key-keeps-' + name, deck('TRF,FF,A=(K=2,D=2),B=(5,10)', *fs), answer, why)
    p('all', '0 0 0 1 0 2', 'key and data copied', '(K,1),2,1/1,2,3')
    p('all-turned', '0 0 0 1 0 2', 'data before the key', '1,2,1/(K,1),2,4')
    p('no-key', '0 0 0 0 0 1', 'the key is not read', '1,2,1')
    p('key-byte-2', '0 0 0 0 2 2', 'byte 2 of the key is not read', '(K,1),1,1/1,2,3')
    p('no-data', '0 0 0 0 4 1', 'the data are not read', '(K,1),2,1')
    p('data-byte-2', '0 0 0 0 6 2', 'byte 2 of the data is not read', '(K,1),2,1/1,1,3')
    p('data-byte-1', '0 0 0 0 4 2', 'byte 1 of the data is not read', '(K,1),2,1/2,1,3')
    p('key-covered', '0 0 0 0 0 3', 'byte 1 of the data over byte 1 of the key', '(K,1),2,1/1,2,3/1,1,1')
    p('data-covered', '0 0 0 0 6 3', 'byte 1 of the key over byte 2 of the data', '(K,1),2,1/1,2,3/(K,1),1,4')
    p('covered-and-brought', '0 0 0 1 0 4', 'covered, and brought a second time', '(K,1),2,1/1,2,3/1,1,1/(K,1),1,5')
    p('not-brought', '0 0 0 0 0 4', 'byte 1 of the data is not byte 1 of the key', '(K,1),2,1/1,2,3/1,1,1/1,1,5')
    p('pack', '0 0 0 1 0 2', 'the key packed to 2 bytes; half 0 is a zone', '(K,1),(P,2,2),1/1,2,3')
    p('pack-short', '0 0 0 0 1 2', 'packed to 1: half 1 is dropped', '(K,1),(P,2,1),1/1,2,2')
    p('pack-rescued', '0 0 0 1 0 3', 'and a copy from the key brings it', '(K,1),(P,2,1),1/1,2,2/(K,1),1,4')
    p('pack-not-rescued', '0 0 0 0 1 3', 'a copy from the data does not', '(K,1),(P,2,1),1/1,2,2/1,1,4')
    p('unpack', '0 0 0 1 0 2', 'the key unpacked to 3 bytes', '(K,1),(U,2,3),1/1,2,4')
    p('unpack-short', '0 0 0 0 0 2', 'to 2: half 0 is dropped', '(K,1),(U,2,2),1/1,2,3')
    p('unpack-rescued', '0 0 0 1 0 3', 'and a copy brings it', '(K,1),(U,2,2),1/1,2,3/(K,1),1,5')
    p('data-pack', '0 0 0 0 5 2', 'the data packed to 1: half 5 is dropped', '(K,1),2,1/1,(P,2,1),3')
    p('data-unpack', '0 0 0 0 4 2', 'the data unpacked to 2: half 4 is dropped', '(K,1),2,1/1,(U,2,2),3')
    p('apart', '0 0 0 1 0 2', 'a pack of the key and an unpack of the data at one position do not meet', '(K,1),(P,2,2),1/1,(U,2,3),3')
    f.note('Refusal 10: they meet in one part alone')
    t = lambda name, place, why, *fs: f.refused_plan('10-' + name, deck('TRF,FF,A=(K=2,D=2),B=(5,10)', *fs), 10, place, why)
    t('key', 0, 'byte 1 of the key: a zone and a digit', '(K,1),(P,2,2),1/(K,1),(U,1,1),3')
    t('key-sign', 2, 'byte 2 of the key: a sign and a digit', '(K,1),(P,2,2),1/(K,2),(U,1,1),3')
    t('key-unpacks', 1, 'byte 1 of the key: a sign and a digit of two unpacks', '(K,1),(U,2,3),1/(K,1),(U,1,1),4')
    t('data', 4, 'byte 1 of the data', '1,(P,2,2),1/1,(U,1,1),3')
    t('data-sign', 6, 'byte 2 of the data', '1,(P,2,2),1/2,(U,1,1),3')
    t('both', 2, 'in both parts: the lowest', '1,(P,2,2),1/1,(U,1,1),3/(K,2),(P,1,1),4/(K,2),(U,1,1),5')


def tables(f):
    f.note('The lent table: each entry says its part; r is as on the card. Without keys every entry says data, as in plans.txt')
    text = deck('TRF,FF,A=(K=9,D=9),B=(20,20)', '(K,2),3,1/2,3,4/(K,4),(P,5,3),7', '4,(P,5,3),7/(K,1),(U,1,2),10')
    fields = [('KC', 2, 3, 3, 1), ('C', 2, 3, 3, 4), ('KP', 4, 5, 3, 7), ('P', 4, 5, 3, 7), ('KU', 1, 1, 2, 10)]
    for entries in (5, 6, 64, 70):
        f.plan('key-table-%d' % entries, text, '0 0 0 0 9 5', 'a table of %d; the digit of key byte 5 is covered' % entries, entries, fields)
    for entries in (0, 1, 4):
        f.refused_plan('table-%d' % entries, text, 15, 5, 'a table of %d' % entries, entries=entries)
    f.plan('key-table-none', text, '0 0 0 0 9 5', 'no table')
    one = deck('TF,FF,A=(K=1,D=1),B=(1,1)', '(K,1),1,1')
    f.plan('key-table-one', one, '0 0 0 0 2 1', 'one field, of the key', 1, [('KC', 1, 1, 1, 1)])
    f.plan('key-table-last', deck('TF,FF,A=(K=4095,D=1),B=(4096,4096)', '(K,4095),1,4096/1,1,1'), '0 0 0 0 0 2', 'r of 4,095 in the key and 1 in the data', 2, [('KC', 4095, 1, 1, 4096), ('C', 1, 1, 1, 1)])
    mixed = ['%s,1,%d' % ('(K,%d)' % (i // 2 + 1) if i % 2 else i // 2 + 1, i + 1) for i in range(64)]
    of_mixed = [('KC' if i % 2 else 'C', i // 2 + 1, 1, 1, i + 1) for i in range(64)]
    f.plan('key-table-mixed', deck('TF,FF,A=(K=32,D=32),B=(64,64)', *on_cards(mixed, 6)), '0 0 0 1 0 64', '64 fields, by turns of data and key', 64, of_mixed)
    f.refused_plan('table-mixed-short', deck('TF,FF,A=(K=32,D=32),B=(64,64)', *on_cards(mixed, 6)), 15, 64, 'a table of 63', entries=63)
    f.plan('key-table-plain', deck('TF,FF,A=(2,2),B=(2,2)', '2,1,1/1,1,2'), '0 0 0 1 0 2', 'without keys: data', 2, [('C', 2, 1, 1, 1), ('C', 1, 1, 1, 2)])
    for number, place, column, why, words in [(3, 1, 19, 'K without D', 'TF,FF,A=(K=1,2),B=(1,1)'), (7, 1, 21, 'a total of 4,097', 'TF,FF,A=(K=1,D=4096),B=(1,1)'), (8, 1, 0, 'keys with TR', 'TR,FF,A=(K=1,D=1),B=(2,2)')]:
        f.refused_plan('table-%d-refused' % number, deck(words, '(K,1),1,1'), number, place, why + ', and a table of 64', column, 64)
    f.refused_plan('table-9-refused', deck('TF,FF,A=(K=1,D=1),B=(1,1)', '(K,1),1,1/2,1,1'), 9, 2, 'field 2 is past the data, and a table of 64', entries=64)


SIX = [h('C1C2 F1F2F3C4'), h('C3C4 F5F6F7D8'), h('C5C6 F0F0F9C1')]
FIVE = [h('C1C2 01234C'), h('C3C4 05678D'), h('C5C6 00091C')]
FS = '(K,1),2,1/1,(P,4,3),3'


def blocks(f):
    f.note('Reels: a block is one record, of just K+D bytes')
    text = deck('TRF,FF,A=(K=2,D=4),B=(5,10)', FS)
    r = lambda name, input_reel, expected, why: f.reel(name, text, input_reel, expected, why)
    r('empty', EMPTY, '0 0 0 0 0 -', 'the empty reel')
    r('one', reel(SIX[0]), '0 0 0 1 1 6', 'one block')
    r('three', reel(*SIX), '0 0 0 3 3 6,6,6', 'three blocks')
    r('short', reel(SIX[0], SIX[1][:5]), '12 2 0', 'one byte short')
    r('long', reel(SIX[0] + b'\0', SIX[1]), '12 1 0', 'one byte long')
    r('two', reel(SIX[0], SIX[1] + SIX[2]), '12 2 0', 'a block of two records')
    r('key-alone', reel(SIX[0][:2]), '12 1 0', 'the key alone')
    r('data-alone', reel(SIX[0][2:]), '12 1 0', 'the data alone')
    r('one-byte', reel(b'\0'), '12 1 0', 'one byte')
    r('no-reel', reel(SIX[0])[:-1], '11 0 0', 'no reel')


def run_functions(f):
    f.note('Runs: a key of 2 bytes is copied, 4 bytes of data are packed to 3')
    tf, trf = deck('TF,FF,A=(K=2,D=4),B=(5,5)', FS), lambda m, r='': deck('TRF,FF,A=(K=2,D=4),B=(5,%d)%s' % (m, r), FS)
    f.ran('tf', tf, reel(*SIX), [[x] for x in FIVE], 'TF: a block for each')
    f.ran('tf-empty', tf, EMPTY, [], 'the empty reel')
    for m, counts in ((5, [1, 1, 1]), (10, [2, 1]), (15, [3]), (32760, [3])):
        f.ran('trf-%d' % m, trf(m), reel(*SIX), [FIVE[sum(counts[:i]):sum(counts[:i + 1])] for i in range(len(counts))], 'TRF: %d records to a block' % (m // 5))
    f.note('R skips blocks, for each is a record')
    for r, out in ((1, [FIVE[:2], FIVE[2:]]), (2, [FIVE[1:]]), (3, [FIVE[2:]]), (4, []), (65536, [])):
        f.ran('r-%d' % r, trf(10, ',R%d' % r), reel(*SIX), out, 'TRF, R%d' % r)
        f.ran('r-%d-tf' % r, tf.replace('B=(5,5)', 'B=(5,5),R%d' % r), reel(*SIX), [[x] for x in FIVE[r - 1:]], 'TF, R%d' % r)
    f.note('Where a field reads, and what covers what')
    x = lambda name, k, d, b, record, out, why, fs: f.ran(name, deck('TF,FF,A=(K=%d,D=%d),B=(%d,%d)' % (k, d, b, b), fs), reel(h(record)), [[h(out)]], why)
    x('behind', 2, 4, 5, 'C1C2 F1F2F3C4', '01234C C1C2', 'the key behind the data', '1,(P,4,3),1/(K,1),2,4')
    x('key-pack', 4, 2, 5, 'F1F2F3C4 C1C2', '01234C C1C2', 'the key packed', '(K,1),(P,4,3),1/1,2,4')
    x('key-pack-short', 4, 1, 3, 'F1F2F3C4 C1', '234C C1', 'the key packed too short', '(K,1),(P,4,2),1/1,1,3')
    x('key-pack-fill', 1, 1, 4, 'D7 C1', '00007D C1', 'a key of one byte packed to 3', '(K,1),(P,1,3),1/1,1,4')
    x('key-unpack', 3, 1, 6, '01234C E7', 'F0F1F2F3C4 E7', 'the key unpacked', '(K,1),(U,3,5),1/1,1,6')
    x('key-lost', 2, 1, 2, 'C1C2 C3', 'C340', 'the key is lost; a byte that no field writes is 40', '1,1,1')
    x('data-lost', 2, 1, 3, 'C1C2 C3', '40C1C2', 'the data are lost', '(K,1),2,2')
    x('same-r', 2, 2, 4, 'C1C2 D1D2', 'D1C1D2C2', 'r of 1 and of 2 in either part', '1,1,1/(K,1),1,2/2,1,3/(K,2),1,4')
    x('covered', 2, 2, 2, 'C1C2 D1D2', 'C1D1', 'data over the key', '(K,1),2,1/1,1,2')
    x('covers', 2, 2, 2, 'C1C2 D1D2', 'D1C2', 'the key over data', '1,2,1/(K,2),1,2')
    x('rescued', 2, 1, 3, 'F5C6 E7', '6CE7F5', 'a digit that the pack drops, brought by a copy', '(K,1),(P,2,1),1/1,1,2/(K,1),1,3')
    x('twice', 1, 1, 3, 'C1 C2', 'C1C2C1', 'the key at two places', '(K,1),1,1/1,1,2/(K,1),1,3')
    x('last-byte', 3, 3, 2, 'C1C2C3 D1D2D3', 'C3D3', 'the last byte of each part', '(K,3),1,1/3,1,2')
    x('first-byte', 3, 3, 2, 'C1C2C3 D1D2D3', 'C1D1', 'the first byte of each part', '(K,1),1,1/1,1,2')


def run_refusals(f):
    f.note('Refusals of runs with keys: a block of another size is 12, also before R and where R is past the end')
    text = deck('TRF,FF,A=(K=2,D=4),B=(5,10)', FS)
    behind = lambda r: text.replace('B=(5,10)', 'B=(5,10),R%d' % r)
    t = lambda name, input_reel, number, place, why, cards=text, room=70000: f.refused_run(name, cards, input_reel, number, place, why, room)
    t('short', reel(SIX[0][:5], SIX[1]), 12, 1, 'one byte short')
    t('short-last', reel(SIX[0], SIX[1], SIX[2][:5]), 12, 3, 'one byte short in the last block')
    t('long', reel(SIX[0], SIX[1] + b'\xC4', SIX[2]), 12, 2, 'one byte long')
    t('two-records', reel(SIX[0] + SIX[1]), 12, 1, 'two records in a block')
    t('two-records-last', reel(SIX[0], SIX[1] + SIX[2]), 12, 2, 'two records in the last block')
    t('key-alone', reel(SIX[0], SIX[1][:2]), 12, 2, 'the key alone')
    t('before-r', reel(SIX[0][:5], SIX[1]), 12, 1, 'before R', behind(2))
    t('past-r', reel(SIX[0], SIX[1] + SIX[2]), 12, 2, 'R past the end', behind(9))
    t('tf-two', reel(SIX[0] + SIX[1]), 12, 1, 'two records in a block, TF', deck('TF,FF,A=(K=2,D=4),B=(5,5)', FS))
    t('no-reel', reel(SIX[0])[:-1], 11, 0, 'no reel')
    bad = h('C3C4 F5E6F7D8')
    t('half', reel(SIX[0], bad), 13, 2, 'a zone E in the data of record 2')
    t('half-and-block', reel(bad, SIX[0][:5]), 12, 2, '12 before 13')
    f.ran('half-before-r', behind(2), reel(bad, SIX[0]), [FIVE[:1]], 'a zone E in a record that is skipped')
    f.ran('key-any', text, reel(h('00FF F1F2F3C4')), [[h('00FF 01234C')]], 'a key that is copied may hold anything')
    packed = deck('TF,FF,A=(K=2,D=2),B=(4,4)', '(K,1),(P,2,2),1/1,2,3')
    f.ran('key-right', packed, reel(h('F1C2 0000')), [[h('012C 0000')]], 'a key that is packed')
    t('key-zone', reel(h('F1C2 0000'), h('E1C2 0000')), 13, 2, 'a zone E in the key', packed)
    t('key-digit', reel(h('FAC2 0000')), 13, 1, 'a digit A in the key', packed)
    t('key-sign', reel(h('F192 0000')), 13, 1, 'a sign 9 in the key', packed)
    f.ran('data-any', packed, reel(h('F1C2 E192')), [[h('012C E192')]], 'the data may hold anything there')
    t('room', reel(*SIX), 15, 31, 'a room one short', text, 30)
    f.ran('room-more', text, reel(*SIX), [FIVE[:2], FIVE[2:]], 'a room one more', 32)
    t('room-7', EMPTY, 15, 8, 'the empty reel and a room of 7', text, 7)
    t('refused-8', reel(*SIX), 8, 1, 'TF and two records to a block of B', deck('TF,FF,A=(K=2,D=4),B=(5,10)', FS))
    t('refused-8-item', reel(*SIX), 8, 2, 'a field of a key that there is not', deck('TRF,FF,A=(6,6),B=(5,10)', FS))
    t('refused-9', reel(*SIX), 9, 1, 'a field past the key', deck('TRF,FF,A=(K=1,D=5),B=(5,10)', FS))
    f.refused_run('refused-7', deck('TRF,FF,A=(K=2,D=4095),B=(5,10)', FS), reel(*SIX), 7, 1, 'a total of 4,097', column=22)
    f.refused_run('refused-3', deck('TRF,FF,A=(6,6),B=(K=2,D=3)', FS), reel(*SIX), 3, 1, 'keyed output', column=24)


def run_sizes(f):
    f.note('Records of 4,096 bytes, and those of the manual')
    x = lambda name, k, d, out, why, fs: f.ran(name, deck('TF,FF,A=(K=%d,D=%d),B=(4096,4096)' % (k, d), fs), reel(b'\xC1' * k + b'\xD2' * d), [[out]], why)
    x('4095-1', 4095, 1, b'\xC1' * 4095 + b'\xD2', 'a key of 4,095', '(K,1),4095,1/1,1,4096')
    x('4095-1-turned', 4095, 1, b'\xD2' + b'\xC1' * 4095, 'the data before it', '(K,1),4095,2/1,1,1')
    x('1-4095', 1, 4095, b'\xC1' + b'\xD2' * 4095, 'data of 4,095', '(K,1),1,1/1,4095,2')
    x('1-4095-ends', 1, 4095, b'\xD2' + b'\x40' * 4094 + b'\xC1', 'r of 4,095 in the data', '4095,1,1/(K,1),1,4096')
    x('2048', 2048, 2048, b'\xD2' * 2048 + b'\xC1' * 2048, 'halves of 4,096', '(K,1),2048,2049/1,2048,1')
    long = deck('TF,FF,A=(K=4095,D=1),B=(4096,4096)', '(K,1),4095,1/1,1,4096')
    f.refused_run('4095-short', long, reel(b'\xC1' * 4095), 12, 1, 'the key alone')
    f.refused_run('4095-long', long, reel(b'\xC1' * 4096, b'\xC1' * 4097), 12, 2, 'one byte long')
    f.refused_run('4096-twice', long, reel(b'\xC1' * 8192), 12, 1, 'two records in a block')
    records = [bytes([0xF0 + i]) * 10 + bytes([0xC0 + i]) * 100 for i in range(5)]
    f.ran('d2', deck('TRF,FF,A=(K=10,D=100),B=(110,440),ON', D2), reel(*records), [records[:4], records[4:]], 'd2: five records, four to a block')
    f.ran('d2-tf', deck('TF,FF,A=(K=10,D=100),B=(110,110),ON,R4', D2), reel(*records), [[x] for x in records[3:]], 'with TF and R4')


def twins(f):
    f.note('Twins are key and data joined, K+D bytes each')
    t = lambda name, k, d, b, reason, one, other, why, fs: f.pair(name, deck('TF,FF,A=(K=%d,D=%d),B=(%d,%d)' % (k, d, b, b), fs), reason, h(one), h(other), why)
    t('key-unread', 2, 1, 2, 1, '0000 00', '0010 00', 'byte 2 of the key', '(K,1),1,1/1,1,2')
    t('key-first', 2, 1, 1, 1, '0000 00', '1000 00', 'no byte of the key', '1,1,1')
    t('key-pack', 2, 1, 2, 2, 'F0A0 00', 'F1A0 00', 'a pack of the key', '(K,1),(P,2,1),1/1,1,2')
    t('key-unpack', 2, 1, 2, 2, '000A 00', '100A 00', 'an unpack of the key', '(K,1),(U,2,1),1/1,1,2')
    t('key-covered', 1, 2, 3, 3, '00 0000', '10 0000', 'byte 2 of the data over the key', '(K,1),1,1/1,2,2/2,1,1')
    t('key-sign', 1, 1, 1, 3, 'A0 00', 'B0 00', 'a sign of the key', '(K,1),(P,1,1),1/1,1,1')
    t('data-unread', 1, 2, 2, 1, '00 0000', '00 0010', 'byte 2 of the data', '(K,1),1,1/1,1,2')
    t('data-pack', 1, 2, 2, 2, '00 F0A0', '00 F1A0', 'a pack of the data', '(K,1),1,1/1,(P,2,1),2')
    t('data-covered', 1, 1, 1, 3, '00 00', '00 10', 'the key over the data', '1,1,1/(K,1),1,1')
    t('values-of-both', 2, 2, 4, 1, 'F0A0 0000', 'F0A0 0010', 'a pack of the key gives no byte of the data a value', '(K,1),(P,2,2),1/1,1,3')
    t('values-of-data', 2, 2, 4, 1, '0000 F0A0', '0010 F0A0', 'and a pack of the data none of the key', '(K,1),1,1/1,(P,2,2),2')
    t('same-r', 2, 2, 3, 2, 'F0A0 0000', 'F1A0 0000', 'the copy reads byte 1 of the data, and not that of the key', '(K,1),(P,2,1),1/1,2,2')
    t('same-r-unread', 1, 1, 1, 1, '00 00', '10 00', 'byte 1 of the data is read, and not that of the key', '1,1,1')
    t('last-drops', 2, 1, 2, 2, '000A 00', '100A 00', 'the first field is covered, the second reads half 0 last and drops it', '(K,1),2,1/(K,1),(U,2,1),1/1,1,2')
    t('last-covered', 2, 1, 2, 3, '000A 00', '100A 00', 'the second reads half 0 last, and data cover it', '(K,1),(U,2,1),1/(K,1),2,1/1,1,1')
    t('data-later', 2, 2, 2, 2, 'F0A0 0000', 'F1A0 0000', 'data that are read later at the same position play no part', '(K,1),(P,2,1),1/1,1,2/2,1,2/1,1,2')
    f.note('R, blocking and the function take no part')
    for name, u in (('tf', 'TF,FF,A=(K=2,D=1),B=(2,2)'), ('trf', 'TRF,FF,A=(K=2,D=1),B=(2,20),R9'), ('wider', 'TRF,FF,A=(K=2,D=1),B=(4,4),IR')):
        f.pair('no-part-' + name, deck(u, '(K,1),(P,2,1),1/1,1,2'), 2, h('F0A000'), h('F1A000'), 'the same records')
    f.note('Records of 4,096 bytes, and that of d1')
    f.pair('4095-1', deck('TF,FF,A=(K=4095,D=1),B=(4095,4095)', '(K,1),4095,1'), 1, bytes(4096), bytes(4095) + b'\x10', 'the data')
    f.pair('4095-1-key', deck('TF,FF,A=(K=4095,D=1),B=(4096,4096)', '(K,1),4094,1/1,1,4095'), 1, bytes(4096), bytes(4094) + b'\x10\0', 'the key\'s last byte')
    f.pair('1-4095', deck('TF,FF,A=(K=1,D=4095),B=(4095,4095)', '1,4095,1'), 1, bytes(4096), b'\x10' + bytes(4095), 'the key')
    behind = bytes(4 + 15) + h('F0F0F0F0A0 F0A0') + h('F0' * 7 + 'A0') + bytes(41) + h('F0F0A0') + h('F0' * 5 + 'A0') + bytes(15)
    assert len(behind) == 99
    f.pair('d1', deck('TF,FF,A=(K=10,D=100),B=(41,41)', *D1), 1, bytes(10) + b'\0' + behind, bytes(10) + b'\x10' + behind, 'data byte 1, half 20')
    f.note('Rooms, plans that keep, and refusals')
    lossy = deck('TF,FF,A=(K=2,D=1),B=(2,2)', '(K,1),1,1/1,1,2')
    for room in (0, 3, 5):
        f.refused_twins('room-%d' % room, lossy, 15, 6, 'a room of %d' % room, room)
    for room in (6, 7, 70000):
        f.pair('room-%d' % room, lossy, 1, h('000000'), h('001000'), 'a room of %d' % room, room)
    f.refused_twins('room-8191', deck('TF,FF,A=(K=4095,D=1),B=(4095,4095)', '(K,1),4095,1'), 15, 8192, 'a room one short', 8191)
    for room in (0, 70000):
        f.refused_twins('keeps-%d' % room, deck('TRF,FF,A=(K=10,D=100),B=(110,440)', D2), 16, 0, 'd2 keeps', room)
        f.refused_twins('rescued-%d' % room, deck('TF,FF,A=(K=2,D=1),B=(3,3)', '(K,1),(P,2,1),1/1,1,2/(K,1),1,3'), 16, 0, 'a digit brought by a copy', room)
    f.refused_twins('refused-3', deck('TF,FF,A=(K=1,2),B=(1,1)', '1,1,1'), 3, 1, 'K without D', column=19)
    f.refused_twins('refused-7', deck('TF,FF,A=(K=4096,D=1),B=(1,1)', '1,1,1'), 7, 1, 'a total of 4,097', column=24)
    f.refused_twins('refused-8', deck('TR,FF,A=(K=1,D=1),B=(2,2)'), 8, 1, 'keys with TR', 0)
    f.refused_twins('refused-8-item', deck('TF,FF,A=(2,2),B=(1,1)', '1,1,1', '(K,1),1,1'), 8, 3, 'a field of a key that there is not')
    f.refused_twins('refused-9', deck('TF,FF,A=(K=1,D=1),B=(1,1)', '(K,1),1,1/2,1,1'), 9, 2, 'a field past the data', 0)
    f.refused_twins('refused-10', deck('TF,FF,A=(K=2,D=2),B=(3,3)', '1,(P,2,2),1/2,(U,1,1),3'), 10, 6, 'half 6 has no value')


def make():
    f = Keys('keys.txt', 'key', HEAD)
    for section in (of_manual, reads, columns_of_3, columns_of_4_and_7, combinations, ends, sizes, keeping, tables, blocks, run_functions, run_refusals, run_sizes, twins):
        section(f)
    return f
