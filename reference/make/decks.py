"""Decks by subject: lines, order, operands, limits, each with its outcome worked by hand."""
from common import *

FIRST = '// UTT TRF,FF,A=(8,16),B=(7,7)\n// FS 1,4,1/5,(P,4,3),5\n// END\n'
U = '// U TC,FU,A=(5),B=(5)'
TC = U + '\n// END\n'
SAMPLE = '0 0 0 TRF FF A=8,16 B=7,7 R=1 fs=1 cv=0 2 C:1,4,4,1@2 P:5,4,3,5@2'
READ = '0 0 0 TC FU A=5 B=5 R=1 fs=0 cv=0 0'
HEAD = [
    'Decks (document 01, "The deck"): NAME deck BYTES. The line is NAME, refusal, place and column where one of the refusals 1 to 7 is given; else 0 0 0 and what',
    'the cards ask for: mode, format, A, B, R, how many FS cards, the card of CV or 0, how many fields, and each field as letter:r,input,output,t@card',
    '(C copy, P pack, U unpack). Refusals 8 to 10 are not asked here. In comments a bar stands for hex 0A and <HH> for another byte outside 20 to 7E.',
]


def lines():
    f = File('lines.txt', HEAD + ['This file: lines and the shapes of cards, refusal 1.'])
    d = lambda name, deck, expected, why: deck_case(f, name, deck, expected, why)
    d('sample-deck', FIRST, SAMPLE, 'the sample deck of document 01')
    d('sample-of-6', FIRST.replace('B=(7,7)', 'B=(6,6)').replace('(P,4,3)', '(P,4,2)'),
      '0 0 0 TRF FF A=8,16 B=6,6 R=1 fs=1 cv=0 2 C:1,4,4,1@2 P:5,4,2,5@2', 'its second form, which loses')
    d('no-final-newline', FIRST[:-1], SAMPLE, '"the last may lack it"')
    d('empty-deck', '', '2 1', 'zero bytes are zero lines: "no card" is 2, at one past the last of none')
    d('one-newline', '\n', '1 1', 'a 0A ends a line, here an empty one; a card has 1 byte or more')
    d('two-newlines', '\n\n', '1 1', 'two empty lines: the first')
    d('empty-line-first', '\n' + TC, '1 1', 'an empty line is no card, wherever it stands')
    d('empty-line-between', U + '\n\n// END\n', '1 2', 'an empty line is no card')
    d('empty-line-last', TC + '\n', '1 3', 'a 0A ends a line and opens none, so the second 0A makes an empty third line')
    d('cr-lf', FIRST.replace('\n', '\r\n'), '1 1', '0D is not in 20 to 7E')
    d('cr-lf-on-the-last', U + '\n// END\r\n', '1 2', '0D behind END')
    d('cr-alone', U + '\r// END\r', '1 1', 'one line with 0D in it')
    f.note('Each byte of a card is hex 20 to 7E: 1F, 20, 7E and 7F, in the operand and in the comment')
    d('byte-1f-in-operand', U[:-1] + '\x1f)\n// END\n', '1 1', '1F is no byte of a card')
    d('byte-1f-in-comment', U + ' A\x1fB\n// END\n', '1 1', 'in the comment too')
    d('byte-20-in-operand', U.replace('TC,', 'TC, ') + '\n// END\n', '3 1', 'a blank ends the operand: TC and a trailing comma')
    d('byte-20-in-comment', U + ' A B  \n// END\n', READ, 'blanks in the comment are comment')
    d('byte-7e-in-operand', U + '~\n// END\n', '3 1', '7E is a byte of a card; the operand is not of its grammar')
    d('byte-7e-in-comment', U + ' ~\n// END ~\n', READ, '7E is the highest byte of a card')
    d('byte-7f-in-operand', U + '\x7f\n// END\n', '1 1', '7F is no byte of a card')
    d('byte-7f-in-comment', U + ' \x7f\n// END\n', '1 1', 'in the comment too')
    d('byte-00', U + '\x00\n// END\n', '1 1', '00')
    d('byte-09', U + ' \x09\n// END\n', '1 1', 'a tab is no blank')
    d('byte-80', U + ' \x80\n// END\n', '1 1', '80')
    d('byte-ff', U + '\n// END \xff\n', '1 2', 'FF in the comment of END')
    f.note('A card has 1 to 80 bytes, the 0A not among them')
    d('card-of-80-bytes', U + ' ' + '*' * (80 - len(U) - 1) + '\n// END\n', READ, '80 bytes')
    d('card-of-81-bytes', U + ' ' + '*' * (81 - len(U) - 1) + '\n// END\n', '1 1', '81 bytes')
    op = '1,1,1/' * 12
    d('fs-of-80-bytes', FIRST.split('\n')[0] + '\n// FS ' + op + 'CV\n// END\n', '0 0 0 TRF FF A=8,16 B=7,7 R=1 fs=1 cv=2 12 ..',
      'an operand of 74 bytes fills its card')
    d('fs-of-81-bytes', FIRST.split('\n')[0] + '\n// FS ' + op + 'CV \n// END\n', '1 2', 'and a blank more is the 81st byte')
    d('end-of-80-bytes', U + '\n// END ' + '-' * 73, READ, 'END and its comment, 80 bytes, no final 0A')
    d('end-of-81-bytes', U + '\n// END ' + '-' * 74 + '\n', '1 2', '81 bytes')
    d('line-of-5000-bytes', U + ' ' + 'X' * 5000 + '\n// END\n', '1 1', 'a line of 5,023 bytes')
    d('line-of-60000-bytes', '// U ' + 'X' * 60000, '1 1', 'one line of 60,005 bytes')
    f.note('Refusal 1 comes before 2 and looks at every line, also past the 64th and behind END; its place is the line\'s number')
    d('bad-line-70', U + '\n' + '// FS CV\n' * 68 + 'X\n// END\n', '1 70', 'cards 65 to 69 are too many, but line 70 is no card: the lower number')
    d('bad-line-700', U + '\n' + '// FS CV\n' * 698 + 'X\n', '1 700', 'a bad line 700')
    d('bad-line-behind-end', TC + 'X\n', '1 3', 'line 3 is no card, and 1 is lower than 2')
    d('bad-lines-2-and-4', U + '\nX\n// END\nY\n', '1 2', 'the first place')
    d('bad-line-before-order', '// END\nX\n', '1 2', 'the order is wrong at card 1, but 1 is lower than 2')
    d('empty-last-of-100', U + '\n' + '// END\n' * 99 + '\n', '1 101', 'an empty line 101')
    f.note('Shapes: `// U ` or `// UTT `, `// FS `, and `// END` alone or followed by a blank; each line below is none of them')
    none = ['// U', '// UTT', '// UT TC', '// UTP TC', '// UTTX TC', '// UTT,TC', '// UX TC', '// U,TC', '// U=TC', '// u TC', '// utt TC', '// UtT TC', '// UTTTC',
            '//U TC', '//  U TC', ' // U TC', '/ U TC', '/// U TC', './ U TC', '\\\\ U TC', 'U TC', '// TC', '// UCT TC', '// UDD TC',
            '// FS', '// Fs CV', '// fs CV', '// FSX CV', '// FS,CV', '// F CV', '// S CV', '//FS CV', '//  FS CV', ' // FS CV', '// FSCV',
            '// EN', '// ENDX', '// END,', '// END.', '// end', '// End', '//END', '//  END', ' // END', '// E', '// E ND', '// END\t', './ END',
            '// H1 TEXT', '// H2 TEXT', '//', '// ', '/', ' ', '  ', 'X', '/*', '// JOB TT', '0', '~']
    for i, line in enumerate(none):
        d('no-card-%d' % (i + 1), U + '\n' + line + '\n// END\n', '1 2', 'line 2 is no card')
    for i, line in enumerate(['// U', '// UTT', '//U TC', ' ' + U, '// FS', '// ENDX', '//']):
        d('no-first-card-%d' % (i + 1), line + '\n// END\n', '1 1', 'line 1 is no card')
    f.note('And these are cards')
    d('u-without-operand', '// U \n// END\n', '3 1', 'a U card with an empty operand: 3')
    d('utt-without-operand', '// UTT \n// END\n', '3 1', 'likewise')
    d('fs-without-operand', U + '\n// FS \n// END\n', '3 2', 'likewise')
    d('two-blanks-before-u', U.replace('// U ', '// U  ') + '\n// END\n', '3 1', 'the operand runs to the first blank: it is empty')
    d('two-blanks-before-fs', U + '\n// FS  CV\n// END\n', '3 2', 'likewise')
    d('end-and-blank', U + '\n// END \n', READ, 'END followed by a blank')
    d('end-and-comment', U + '\n// END OF ALL, R9 /CV\n', READ, 'END has no operand: the rest is comment')
    d('end-and-end', U + '\n// END // END\n', READ, 'likewise')
    d('u-and-comment', U + ' R2,R3 // END\n// END\n', READ, 'behind the first blank all is comment')
    d('fs-and-comment', U + '\n// FS 1,1,1 /2,2,2\n// END\n', '0 0 0 TC FU A=5 B=5 R=1 fs=1 cv=0 1 C:1,1,1,1@2', 'likewise (an FS card in TC is 8, not asked here)')
    d('utt-of-u', '// UTT' + U[4:] + '\n// END\n', READ, '`// UTT ` is the same card as `// U `')
    return f


def order():
    f = File('order.txt', HEAD + ['This file: the order of cards and their number, refusal 2: one U, any number of FS, one END, nothing after; at most 64.'])
    d = lambda name, deck, expected, why: deck_case(f, name, deck, expected, why)
    fs, end = '// FS CV', '// END'
    def deck(*cards):
        return '\n'.join(cards) + '\n'
    d('end-alone', deck(end), '2 1', 'card 1 is no U')
    d('fs-first', deck(fs, end), '2 1', 'card 1 is no U')
    d('fs-before-u', deck(fs, U, end), '2 1', 'card 1 is no U')
    d('end-first', deck(end, U, fs), '2 1', 'card 1 is no U')
    d('u-twice', deck(U, U, end), '2 2', 'a second U')
    d('u-behind-fs', deck(U, fs, U, end), '2 3', 'a second U')
    d('u-behind-end', deck(U, end, U), '2 3', 'a card behind END')
    d('fs-behind-end', deck(U, end, fs), '2 3', 'the card behind END is at fault, not END')
    d('end-twice', deck(U, end, end), '2 3', 'a card behind END')
    d('end-twice-apart', deck(U, fs, end, fs, end), '2 4', 'a card behind END')
    d('no-end', deck(U), '2 2', 'no END: one past the last')
    d('no-end-behind-fs', deck(U, fs, fs), '2 4', 'no END: one past the last')
    d('no-end-no-newline', U, '2 2', 'no END: one past the last')
    d('two-faults', deck(U, fs, U, end, U), '2 3', 'the first card at fault')
    d('u-and-end', deck(U, end), READ, 'FS cards are optional')
    d('order-before-operand', deck('// U XX', '// U ,,', end), '2 2', 'a bad operand on card 1 is 3, and 2 is lower')
    d('order-before-fs-operand', deck(U, '// FS ,', end, end), '2 4', 'likewise')
    f.note('At most 64 cards, U and END among them')
    many = lambda count: [U] + ['// FS 1,1,1'] * count
    d('cards-63', deck(*many(61), end), '0 0 0 TC FU A=5 B=5 R=1 fs=61 cv=0 61 ..', '63 cards: U, 61 FS, END; 61 fields')
    d('cards-64', deck(*many(62), end), '0 0 0 TC FU A=5 B=5 R=1 fs=62 cv=0 62 ..', '64 cards: U, 62 FS, END')
    d('cards-65', deck(*many(63), end), '2 65', '65 cards, END the last: the 65th is at fault')
    d('cards-66', deck(*many(64), end), '2 65', '66 cards: the 65th is at fault')
    d('cards-200', deck(*many(198), end), '2 65', '200 cards: the 65th is at fault')
    d('cards-64-no-end', deck(*many(63)), '2 65', '64 cards and no END: one past the last')
    d('cards-65-no-end', deck(*many(64)), '2 65', '65 cards and no END: the 65th is at fault')
    d('cards-66-no-end', deck(*many(65)), '2 65', '66 cards and no END: the 65th is at fault')
    d('cards-63-no-end', deck(*many(62)), '2 64', '63 cards and no END: one past the last')
    d('fs-behind-64', deck(*many(62), end, fs), '2 65', 'END is card 64; card 65 stands behind END')
    d('end-at-3-of-100', deck(U, fs, end, *([fs] * 97)), '2 4', 'the first card behind END, not the 65th')
    d('u-at-70', deck(*many(68), U, end), '2 65', 'a second U is card 70; the 65th comes before it')
    d('cards-64-of-80-bytes', deck(*[c + ' ' + '.' * (79 - len(c)) for c in many(62) + [end]]), '0 0 0 TC FU A=5 B=5 R=1 fs=62 cv=0 62 ..',
      'the longest right deck: 64 cards of 80 bytes, 5,184 bytes')
    return f


def operands():
    f = File('operands.txt', HEAD + ['This file: the grammar of operands, refusal 3.'])
    d = lambda name, deck, expected, why: deck_case(f, name, deck, expected, why)
    f.note('The U operand: one or more parameters in any order with commas between')
    def u(name, operand, expected, why):
        d(name, '// U ' + operand + '\n// END\n', expected, why)
    u('any-order', 'B=(5),IR,OU,FU,R1,A=(5),TC', READ, 'any order')
    u('all-seven', 'TC,FU,A=(5),B=(5),IN,ON,R1', READ, 'every parameter; I and O are read and ignored')
    u('rewind-r', 'TC,FU,A=(5),B=(5),IR,OR', READ, 'IR and OR')
    u('rewind-u', 'TC,FU,A=(5),B=(5),IU,OU', READ, 'IU and OU')
    u('mode-tf', 'TF,FV,A=(1,9),B=(1,9)', '0 0 0 TF FV A=1,9 B=1,9 R=1 fs=0 cv=0 0', 'TF (that it needs an FS card is 8)')
    u('mode-tr', 'TR,FV,A=(9),B=(10)', '0 0 0 TR FV A=9 B=10 R=1 fs=0 cv=0 0', 'TR')
    u('mode-trf', 'TRF,FF,A=(2,4),B=(1,1)', '0 0 0 TRF FF A=2,4 B=1,1 R=1 fs=0 cv=0 0', 'TRF')
    good = 'TC,FU,A=(5),B=(5)'
    for name, operand, why in [
        ('leading-comma', ',' + good, 'an empty parameter'), ('trailing-comma', good + ',', 'an empty parameter'),
        ('doubled-comma', good.replace(',A', ',,A'), 'an empty parameter'), ('comma-alone', ',', 'two empty parameters'),
        ('slash-for-comma', good.replace(',', '/', 1), 'a slash is none of the U operand'), ('semicolon', good.replace(',', ';', 1), 'no comma'),
        ('leading-slash', '/' + good, 'a slash'), ('trailing-slash', good + '/', 'a slash'), ('doubled-slash', good.replace(',', '//', 1), 'slashes'),
        ('no-comma', 'TCFU,A=(5),B=(5)', 'no comma between'), ('no-comma-behind-bracket', 'TC,FU,A=(5)B=(5)', 'no comma between')]:
        u(name, operand, '3 1', why)
    bad = ['T', 'TX', 'TD', 'TL', 'TLF', 'TB', 'TBF', 'TRFF', 'TRFR1', 'TR1', 'TRR1', 'TFR', 'TCF', 'tc', 'Tc', 'F', 'FX', 'FS', 'FFF', 'FVU', 'ff', 'Fu',
           'A', 'A=', 'A=5', 'A5', 'A(5)', 'A=()', 'A=(', 'A=)', 'A=(5', 'A=5)', 'A=(5,', 'A=(5,6', 'A=(5,)', 'A=(,5)', 'A=(,)', 'A=(5,6,7)', 'A=(5,6,)', 'A=((5))',
           'A=(5))', 'A=(5)X', 'A=(5)6', 'A=[5]', 'A=(-5)', 'A=(+5)', 'A=(5.0)', 'A=(5;6)', 'A=(X)', 'A=(K=10,D=100)', 'A==(5)', 'a=(5)', 'C=(5)', 'AB=(5)', 'B=', 'B=()', 'B=(5,6',
           'I', 'IX', 'I1', 'IRN', 'IR1', 'ir', 'O', 'OX', 'OY', 'O1', 'ORN', 'OR1', 'R', 'R.', 'R-1', 'R+1', 'R1.', 'R1,0', 'RR1', 'R1R', 'R=1', 'R(1)', 'RX', 'r1',
           'E=(2311)', 'S1', 'S2', 'P', 'PN', 'Q=1', 'K', '5', '(5)', '=', '(', ')', '1,1,1', 'CV', '//']
    later = {'A=(K=10,D=100)': ('0 0 0 TC FU A=K=10,D=100 B=5 R=1 fs=0 cv=0 0', 'the last is none of document 01, and came with order 5 of document 02; with TC and FU it is 8'),
             'FS': ('4 1 18', 'the last is none of document 01, and came with order 6 of document 02; behind FU it is a second F')}
    for i, text in enumerate(bad):
        expected, why = later.get(text, ('3 1', 'the last parameter is none of those listed'))
        u('no-parameter-%d' % (i + 1), 'TC,FU,B=(5),' + text if not text.startswith('B') else 'TC,FU,A=(5),' + text, expected, why)
    u('blank-in-operand', 'TC FU,A=(5),B=(5)', '5 1', 'the operand is TC alone: F, A and B are missing')
    u('blank-in-brackets', 'TC,FU,A=(5 ),B=(5)', '3 1', 'the operand ends inside A')
    f.note('A number is 1 to 5 digits; leading zeros are allowed')
    u('digits-5', 'TC,FU,A=(00005),B=(5),R00001', READ, 'five digits with leading zeros')
    u('digits-5-of-4', 'TC,FF,A=(04096,04096),B=(4096,4096)', '0 0 0 TC FF A=4096,4096 B=4096,4096 R=1 fs=0 cv=0 0', 'a leading zero')
    u('digits-6', 'TC,FU,A=(000005),B=(5)', '3 1', 'six digits, zeros or not, are no number')
    u('digits-6-second', 'TC,FF,A=(5,000005),B=(5,5)', '3 1', 'six digits')
    u('digits-6-in-r', good + ',R000001', '3 1', 'six digits')
    u('digits-6-large', good + ',R100000', '3 1', 'six digits: 3, and not 7')
    u('digits-8', good + ',R99999999', '3 1', 'document 001 allows R up to 99,999,999')
    u('digits-20', good + ',R18446744073709551617', '3 1', 'twenty digits: a number that wraps to 1 in 64 bits is no number')
    u('digits-5-zeros', good + ',R00000', '7 1', 'five digits, and 0 is outside the limits of R')
    u('digits-99999', good + ',R99999', '7 1', 'five digits, over 65,536')
    u('digits-a-to-f', good + ',R0A', '3 1', 'decimal digits alone')
    f.note('The FS operand: items with slashes between')
    def fs(name, operand, expected, why):
        d(name, U + '\n// FS ' + operand + '\n// END\n', expected, why)
    fs('item-copy', '1,2,3', '0 0 0 TC FU A=5 B=5 R=1 fs=1 cv=0 1 C:1,2,2,3@2', 'r,s,t: a copy, both sizes s')
    fs('item-pack', '1,(P,4,3),2', '0 0 0 TC FU A=5 B=5 R=1 fs=1 cv=0 1 P:1,4,3,2@2', 'r,(P,n,m),t')
    fs('item-unpack', '1,(U,3,4),2', '0 0 0 TC FU A=5 B=5 R=1 fs=1 cv=0 1 U:1,3,4,2@2', 'r,(U,n,m),t')
    fs('item-cv', 'CV', '0 0 0 TC FU A=5 B=5 R=1 fs=1 cv=2 0', 'CV is an item and no field')
    fs('items-four', '1,2,3/CV/4,(U,5,6),7/8,(P,9,10),11', '0 0 0 TC FU A=5 B=5 R=1 fs=1 cv=2 3 C:1,2,2,3@2 U:4,5,6,7@2 P:8,9,10,11@2', 'one of each')
    fs('item-zeros', '00001,00002,00003/01,(P,004,0003),00005', '0 0 0 TC FU A=5 B=5 R=1 fs=1 cv=0 2 C:1,2,2,3@2 P:1,4,3,5@2', 'leading zeros')
    bad = ['/', '/1,1,1', '1,1,1/', '1,1,1//1,1,1', 'CV/', '/CV', 'CV//CV', ',', '1', '1,', '1,1', '1,1,', '1,1,1,', '1,1,1,1', ',1,1', '1,,1', ',1,1,1', '1,1,,1', '1;1;1', '1,1,X', 'X,1,1',
           '1,X,1', '1,1,1X', '1,1,-1', '+1,1,1', 'C', 'V', 'cv', 'Cv', 'CVV', 'CV1', 'CV,1', '1CV', '1,1,1CV', '1,1,1,CV', 'VC', 'CV,CV', '1,1,1-1,1,1',
           '000001,1,1', '1,000001,1', '1,1,000001', '123456,1,1', '1,(P,2,2)', '1,(P,2,2),', '(P,2,2),1', '1,(P,2),1', '1,(P,2,),1', '1,(P,,2),1', '1,(P,,),1', '1,(P,2,2,2),1', '1,(P),1', '1,(),1',
           '1,(,2,2),1', '1,(2,2),1', '1,(X,2),1', '1,(X,2,2),1', '1,(C,2,2),1', '1,(p,2,2),1', '1,(u,2,2),1', '1,(PU,2,2),1', '1,(P2,2),1', '1,(P;2,2),1', '1,(P,2;2),1', '1,(P,2,2;1', '1,(P,2,2,1',
           '1,P,2,2,1', '1,P,2,2),1', '1,(P,2,2)1', '1(P,2,2),1', '1,(P,2,2)),1', '1,((P,2,2),1', '1,[P,2,2],1', '1,(P,X,2),1', '1,(P,2,X),1', '1,(P,000002,2),1', '1,(U,2,000002),1', '1,(U,2,2)', '1,(U,2),1',
           '(K,1),1,1', '1,1,(K,1)', '1,(U,2,2),(K,1)', 'A=(5)', 'TC', '1,(U,3,5)1']
    keyed = {'(K,1),1,1': ('0 0 0 TC FU A=5 B=5 R=1 fs=1 cv=0 1 C:past,1,1,1@2', 'no item of document 01; it came with order 5 of document 02, and without a key it is 8')}
    for i, text in enumerate(bad):
        expected, why = keyed.get(text, ('3 2', 'an operand that is not items with slashes between'))
        fs('no-item-%d' % (i + 1), text, expected, why)
    fs('item-and-blank', '1,1,1 /', '0 0 0 TC FU A=5 B=5 R=1 fs=1 cv=0 1 C:1,1,1,1@2', 'the slash is comment')
    fs('item-blank-inside', '1,1, 1', '3 2', 'the operand is 1,1 and a comma')
    f.note('The first card whose operand is not of its grammar; refusal 3 looks at all cards before 4 is asked')
    d('bad-fs-2-and-4', U + '\n// FS X\n// FS CV\n// FS Y\n// END\n', '3 2', 'the first')
    d('bad-fs-4', U + '\n// FS CV\n// FS CV\n// FS Y\n// END\n', '3 4', 'card 4 is 3, and CV twice is 4')
    d('bad-u-and-fs', '// U X\n// FS Y\n// END\n', '3 1', 'the U card is first')
    d('bad-fs-and-doubled-u', '// U TC,TC\n// FS CV\n// FS ,\n// END\n', '3 3', '3 on card 3 before 4 and 5 on card 1')
    d('bad-fs-and-limit', '// U TC,FU,A=(0),B=(5)\n// FS 0,0,0\n// FS /\n// END\n', '3 3', '3 before 7')
    d('bad-end-comment', U + '\n// END ,,//,,\n', READ, 'END has no operand')
    return f


def limits():
    f = File('limits.txt', HEAD + ['This file: parameters twice or missing, the number of fields, and the limits of numbers, refusals 4 to 7.'])
    d = lambda name, deck, expected, why: deck_case(f, name, deck, expected, why)
    def u(name, operand, expected, why):
        d(name, '// U ' + operand + '\n// END\n', expected, why)
    good = 'TC,FU,A=(5),B=(5)'
    f.note('Refusal 4: a parameter or CV stands twice, at the card of the second')
    for name, extra in [('t', 'TC'), ('t-other', 'TRF'), ('f', 'FU'), ('f-other', 'FV'), ('a', 'A=(5)'), ('a-other', 'A=(1,2)'), ('b', 'B=(5)'), ('b-other', 'B=(9)')]:
        u('twice-' + name, good + ',' + extra, '4 1', 'the parameter is its letter, whatever its value')
    for name, extra in [('i', 'IR,IR'), ('i-other', 'IR,IN'), ('o', 'OU,OU'), ('o-other', 'OU,ON'), ('r', 'R1,R1'), ('r-other', 'R1,R2')]:
        u('twice-' + name, good + ',' + extra, '4 1', 'likewise')
    u('thrice-t', 'TC,' + good + ',TC', '4 1', 'three times')
    u('twice-and-missing', 'TC,TC', '4 1', '4 before 5')
    u('twice-and-limit', good + ',R0,R1', '4 1', '4 before 7')
    cards = lambda *fs: '// U TF,FV,A=(8,99),B=(8,99)\n' + ''.join('// FS %s\n' % x for x in fs) + '// END\n'
    d('cv-once', cards('CV'), '0 0 0 TF FV A=8,99 B=8,99 R=1 fs=1 cv=2 0', 'once')
    d('cv-twice-on-one', cards('CV/CV'), '4 2', 'the second on card 2')
    d('cv-twice-on-one-apart', cards('1,1,1', 'CV/1,1,1/CV'), '4 3', 'both on card 3')
    d('cv-twice-on-two', cards('CV', '1,1,1/CV'), '4 3', 'the second on card 3')
    d('cv-twice-far', cards('CV', '1,1,1', '1,1,1', 'CV'), '4 5', 'the second on card 5')
    d('cv-thrice', cards('CV', 'CV', 'CV'), '4 3', 'the card of the second')
    d('cv-thrice-on-two', cards('CV', 'CV/CV'), '4 3', 'the card of the second')
    d('cv-25-times', cards('/'.join(['CV'] * 25)), '4 2', 'as often as a card holds it')
    d('cv-and-u-twice', cards('CV', 'CV').replace('TF,', 'TF,TF,'), '4 1', 'the U card is first')
    d('cv-twice-and-limit', cards('0,0,0', 'CV', 'CV'), '4 4', '4 on card 4 before 7 on card 2')
    d('cv-twice-and-missing', cards('CV', 'CV').replace('TF,', ''), '4 3', '4 before 5')
    d('cv-first', cards('CV/1,2,3', '4,5,6'), '0 0 0 TF FV A=8,99 B=8,99 R=1 fs=2 cv=2 2 C:1,2,2,3@2 C:4,5,5,6@3', 'CV before the fields')
    d('cv-between', cards('1,2,3/CV/4,5,6'), '0 0 0 TF FV A=8,99 B=8,99 R=1 fs=1 cv=2 2 C:1,2,2,3@2 C:4,5,5,6@2', 'between')
    d('cv-last', cards('1,2,3', '4,5,6', 'CV'), '0 0 0 TF FV A=8,99 B=8,99 R=1 fs=3 cv=4 2 C:1,2,2,3@2 C:4,5,5,6@3', 'after')
    f.note('Refusal 5: T, F, A or B missing, place 1')
    u('no-t', 'FU,A=(5),B=(5)', '5 1', 'T is missing')
    u('no-f', 'TC,A=(5),B=(5)', '5 1', 'F is missing')
    u('no-a', 'TC,FU,B=(5)', '5 1', 'A is missing')
    u('no-b', 'TC,FU,A=(5)', '5 1', 'B is missing')
    u('only-r', 'R1', '5 1', 'all four are missing')
    u('only-io', 'IR,OR', '5 1', 'all four are missing')
    u('missing-and-limit', 'FU,A=(0),B=(99999),R0', '5 1', '5 before 7')
    d('missing-and-fields', '// U TC\n' + '// FS 1,1,1\n' * 3 + '// END\n', '5 1', 'F, A and B are missing')
    f.note('Refusal 6: a 65th field, at its card; CV is no field')
    eight, twelve = '/'.join(['1,1,1'] * 8), '/'.join(['1,1,1'] * 12)
    d('fields-64', cards(*[eight] * 8), '0 0 0 TF FV A=8,99 B=8,99 R=1 fs=8 cv=0 64 ..', '64 fields on 8 cards')
    d('fields-64-and-cv', cards(*[eight] * 8 + ['CV']), '0 0 0 TF FV A=8,99 B=8,99 R=1 fs=9 cv=10 64 ..', '64 fields and CV')
    d('fields-64-around-cv', cards(*[eight] * 4 + ['CV'] + [eight] * 4), '0 0 0 TF FV A=8,99 B=8,99 R=1 fs=9 cv=6 64 ..', 'CV among them')
    d('fields-65', cards(*[eight] * 8 + ['1,1,1']), '6 10', 'the 65th on card 10')
    d('fields-65-on-a-full-card', cards(*[twelve] * 5 + [eight]), '6 7', '60 fields on cards 2 to 6; the 65th is the fifth on card 7')
    d('fields-65-behind-cv', cards(*[eight] * 8 + ['CV', '1,1,1']), '6 11', 'CV on card 10; the 65th field on card 11')
    d('fields-72', cards(*[eight] * 9), '6 10', '72 fields: the card of the 65th')
    d('fields-700', cards(*[twelve] * 58 + ['1,1,1/1,1,1/1,1,1/1,1,1']), '6 7', '700 fields')
    d('fields-65-and-limit', cards(*['0,0,0'] + [eight] * 8), '6 10', '6 before 7, though card 2 has numbers of 0')
    d('fields-65-in-tc', '// U TC,FU,A=(5),B=(5)\n' + ('// FS %s\n' % eight) * 8 + '// FS 1,1,1\n// END\n', '6 10', 'also where an FS card is 8')
    d('fields-65-of-all-kinds', cards(*['1,(P,2,2),1/1,(U,2,2),1/1,1,1'] * 22), '6 23', '3 fields a card: the 65th on FS card 22')
    f.note('Refusal 7: the first of two in A or B is 1 to 4,096')
    two = lambda a, b: 'TC,FF,A=(%s),B=(%s)' % (a, b)
    def fits(mode, fmt, a, b, r=1):
        return '0 0 0 %s %s A=%s B=%s R=%s fs=0 cv=0 0' % (mode, fmt, a, b, r)
    u('n-0', two('0,5', '5,5'), '7 1', 'n of 0')
    u('n-1', two('1,5', '1,5'), fits('TC', 'FF', '1,5', '1,5'), 'n of 1')
    u('n-4096', two('4096,4096', '4096,4096'), fits('TC', 'FF', '4096,4096', '4096,4096'), 'n of 4,096')
    u('n-4097', two('4097,4097', '4097,4097'), '7 1', 'n of 4,097')
    u('n-4097-in-b', two('4096,4096', '4097,4097'), '7 1', 'n of 4,097 in B')
    u('n-0-in-b', two('1,5', '0,5'), '7 1', 'n of 0 in B')
    f.note('The second, or a single one, is 1 to 32,760, and a single one at least 9 in FV')
    u('m-0', two('5,0', '5,5'), '7 1', 'm of 0')
    u('m-1', two('5,1', '5,1'), fits('TC', 'FF', '5,1', '5,1'), 'm of 1 (no multiple of n is 8)')
    u('m-32760', two('4096,32760', '1,32760'), fits('TC', 'FF', '4096,32760', '1,32760'), 'm of 32,760')
    u('m-32761', two('4096,32761', '4096,32760'), '7 1', 'm of 32,761')
    u('m-32761-in-b', two('4096,32760', '4096,32761'), '7 1', 'm of 32,761 in B')
    one = lambda a, b, f='FU': 'TC,%s,A=(%s),B=(%s)' % (f, a, b)
    u('g-0', one(0, 5), '7 1', 'g of 0')
    u('g-0-in-b', one(5, 0), '7 1', 'g of 0 in B')
    u('g-1', one(1, 1), fits('TC', 'FU', 1, 1), 'g of 1')
    u('g-32760', one(32760, 32760), fits('TC', 'FU', 32760, 32760), 'g of 32,760')
    u('g-32761', one(32761, 32760), '7 1', 'g of 32,761')
    u('g-32761-in-b', one(32760, 32761), '7 1', 'g of 32,761 in B')
    u('g-8-in-fv', one(8, 9, 'FV'), '7 1', 'g of 8 in FV')
    u('g-9-in-fv', one(9, 9, 'FV'), fits('TC', 'FV', 9, 9), 'g of 9 in FV')
    u('g-8-in-fv-in-b', one(9, 8, 'FV'), '7 1', 'g of 8 in FV, in B')
    u('g-8-in-fu', one(8, 8), fits('TC', 'FU', 8, 8), 'g of 8 in FU')
    u('g-8-in-ff', one(8, 8, 'FF'), fits('TC', 'FF', 8, 8), 'g of 8 in FF (that FF needs two numbers is 8)')
    u('g-8-in-fv-with-tf', 'TF,FV,A=(8),B=(9)', '7 1', 'the limit asks F alone: 7 and not 8')
    u('m-8-in-fv', 'TF,FV,A=(1,8),B=(1,9)', fits('TF', 'FV', '1,8', '1,9'), 'the second of two has no least of 9 (n+8 at most m is 8)')
    u('two-in-fu', one('5000,1', 1), '7 1', 'the limits of two numbers hold in FU too')
    u('two-in-fu-right', one('4096,1', 1), fits('TC', 'FU', '4096,1', 1), 'within the limits (that FU takes one number is 8)')
    f.note('R is 1 to 65,536')
    u('r-0', good + ',R0', '7 1', 'R0')
    u('r-1', good + ',R1', READ, 'R1')
    u('r-2', good + ',R2', fits('TC', 'FU', 5, 5, 2), 'R2 (that TC takes only R1 is 8)')
    u('r-65535', good + ',R65535', fits('TC', 'FU', 5, 5, 65535), 'R65535')
    u('r-65536', good + ',R65536', fits('TC', 'FU', 5, 5, 65536), 'R65536')
    u('r-65537', good + ',R65537', '7 1', 'R65537')
    f.note('r, s and t are 1 to 4,096; pack and unpack sizes 1 to 16')
    def fs(name, operand, expected, why):
        d(name, U + '\n// FS ' + operand + '\n// END\n', '0 0 0 TC FU A=5 B=5 R=1 fs=1 cv=0 1 ' + expected if expected[0] in 'CPU' else expected, why)
    fs('rst-1', '1,1,1', 'C:1,1,1,1@2', 'all of 1')
    fs('rst-4096', '4096,4096,4096', 'C:4096,4096,4096,4096@2', 'all of 4,096')
    for i, which in enumerate('rst'):
        for number in ('0', '4097', '99999'):
            parts = ['1', '1', '1']
            parts[i] = number
            fs('%s-%s-of-a-copy' % (which, number), ','.join(parts), '7 2', which + ' of ' + number)
    for step in 'PU':
        fs('%s-sizes-16' % step.lower(), '4096,(%s,16,16),4096' % step, '%s:4096,16,16,4096@2' % step, 'sizes of 16')
        fs('%s-sizes-1' % step.lower(), '1,(%s,1,1),1' % step, '%s:1,1,1,1@2' % step, 'sizes of 1')
        for size in (0, 17, 4096):
            fs('%s-input-%d' % (step.lower(), size), '1,(%s,%d,1),1' % (step, size), '7 2', 'an input size of %d' % size)
            fs('%s-output-%d' % (step.lower(), size), '1,(%s,1,%d),1' % (step, size), '7 2', 'an output size of %d' % size)
        fs('%s-r-0' % step.lower(), '0,(%s,1,1),1' % step, '7 2', 'r of 0')
        fs('%s-t-4097' % step.lower(), '1,(%s,1,1),4097' % step, '7 2', 't of 4,097')
    fs('rst-99999', '99999,99999,99999', '7 2', 'all of 99,999')
    fs('rst-0', '0,0,0', '7 2', 'all of 0')
    f.note('The place of 7: card 1, else the first FS card with such a number')
    d('limit-u-and-fs', '// U TC,FU,A=(0),B=(5)\n// FS 0,0,0\n// END\n', '7 1', 'card 1')
    d('limit-cards-3-and-4', U + '\n// FS 1,1,1\n// FS 1,1,1/1,0,1\n// FS 0,1,1\n// END\n', '7 3', 'cards 3 and 4')
    d('limit-behind-cv', U + '\n// FS CV\n// FS 1,1,1\n// FS 1,1,1/1,(P,1,17),1\n// END\n', '7 4', 'the second field of card 4')
    d('limit-of-field-64', cards(*[eight] * 7 + [eight[:-1] + '0']), '7 9', 'the 64th field has t of 0')
    d('fields-outside', cards('9,9,9/8,8,8'), '0 0 0 TF FV A=8,99 B=8,99 R=1 fs=1 cv=0 2 C:9,9,9,9@2 C:8,8,8,8@2', 'a field outside its records is 9, not asked here')
    return f
