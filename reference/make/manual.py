"""The decks of document 001, and decks drawn by chance."""
from common import *
from decks import HEAD

END = '\n// END\n'


def make():
    f = File('manual.txt', HEAD + [
        'This file: the decks of document 001, IBM\'s manual. Its program names (UCT, UDD, ..) are no shape of document 01, so such a deck is 1; below that it stands',
        'with `// U ` in their place. Blanks behind commas end an operand in document 01. What 8 to 10 say of a deck is not asked here.',
    ])
    f.decks = []
    def d(name, deck, expected, why):
        f.decks.append((name, deck, expected, why.replace(', not asked here', '')))
        deck_case(f, name, deck, expected, why)
    def u(name, operand, expected, why):
        d(name, '// U ' + operand + END, expected, why)
    def read(mode, fmt, a, b, r=1):
        return '0 0 0 %s %s A=%s B=%s R=%d fs=0 cv=0 0' % (mode, fmt, a, b, r)
    f.note('Tape to tape')
    d('t1', '// UTT TC,FF,A=(80,80),B=(80,80)' + END, read('TC', 'FF', '80,80', '80,80'), 'copy')
    d('t1-blanks', '// UTT TC, FF, A=(80,80), B=(80,80)' + END, '3 1', 'with the blanks of the print: the operand is TC and a comma')
    d('t2', '// UTT TF,FV,A=(24,300),B=(24,300)\n// FS 5,10,15/15,10,5/CV' + END, '0 0 0 TF FV A=24,300 B=24,300 R=1 fs=1 cv=2 2 C:5,10,10,15@2 C:15,10,10,5@2',
      'two fields of ten bytes are interchanged, as printed')
    d('t2-carried-over', '// UTT TF,FV,A=(20,300),B=(20,300)\n// FS 1,10,11/11,10,1/CV' + END, '0 0 0 TF FV A=20,300 B=20,300 R=1 fs=1 cv=2 2 C:1,10,10,11@2 C:11,10,10,1@2',
      'with positions after the record word, as document 01 counts')
    u('t3', 'TC,FU,A=(1000),B=(1000),IU,OU,R1', read('TC', 'FU', 1000, 1000), 'the default of the manual, written out')
    u('t3-cu', 'TC,FU,A=(1000),B=(1000),IU,CU,R1', '3 1', 'CU is no parameter')
    u('t3-blanks', 'TC, FU, A=(1000), B=(1000), IU, OU, R1', '3 1', 'with blanks')
    d('t4', '// UTT TR,FF,A=(100,100),B=(100,1000),OU,IR' + END, read('TR', 'FF', '100,100', '100,1000'), 'reblock')
    d('t4-two-lines', '// UTT TR,FF,A=(100,100),B=(100,1000),OU,\n    IR' + END, '1 2', 'continued on a second line, which is no card')
    d('t5', '// END\n', '2 1', 'the manual lets the U card be left out; document 01 asks for one')
    for i, items in enumerate(['CV/1,2,3/4,5,6', '1,2,3/CV/4,5,6', '1,2,3/4,5,6/CV']):
        d('t6-%d' % (i + 1), '// UTT TF,FV,A=(20,300),B=(20,300)\n// FS ' + items + END, '0 0 0 TF FV A=20,300 B=20,300 R=1 fs=1 cv=2 2 C:1,2,2,3@2 C:4,5,5,6@2', 'three places of CV, one meaning')
    u('t7-300', 'TC,FU,A=(300),B=(300)', read('TC', 'FU', 300, 300), 'values of the text')
    u('t7-50', 'TC,FF,A=(50,250),B=(50,250)', read('TC', 'FF', '50,250', '50,250'), 'values of the text')
    u('t7-keys', 'TC,FF,A=(K=10,D=60),B=(70,70)', read('TC', 'FF', 'K=10,D=60', '70,70'), 'a key with copy is 8, not asked here')
    u('t8', 'TR,FF,A=(80,80),B=(80,80),R2', read('TR', 'FF', '80,80', '80,80', 2), 'skip and reblock')
    u('t8-copy', 'TC,FF,A=(80,80),B=(80,80),R2', read('TC', 'FF', '80,80', '80,80', 2), 'with copy it is 8, not asked here')
    u('t8-99999999', 'TR,FF,A=(80,80),B=(80,80),R99999999', '3 1', 'R of eight digits')
    f.note('Card to tape')
    payroll = '1,15,1/16,(P,5,3),16/72,(P,3,2),19/75,(P,6,4),21/23,(P,8,5),25'
    sixty = 'C:1,15,15,1@2 P:16,5,3,16@2 P:72,3,2,19@2 P:75,6,4,21@2 P:23,8,5,25@2'
    d('c1-uct', '// UCT TF,FF,A=(80,80),B=(80,80)\n// FS ' + payroll + '/21,2,30' + END, '1 1', 'another program\'s card')
    d('c1', '// U TF,FF,A=(80,80),B=(80,80)\n// FS ' + payroll + '/21,2,30' + END, '0 0 0 TF FF A=80,80 B=80,80 R=1 fs=1 cv=0 6 ' + sixty + ' C:21,2,2,30@2', 'the payroll card')
    d('c1-of-31', '// U TF,FF,A=(80,80),B=(31,31)\n// FS ' + payroll + '/21,2,30' + END, '0 0 0 TF FF A=80,80 B=31,31 R=1 fs=1 cv=0 6 ' + sixty + ' C:21,2,2,30@2', 'into 31 bytes')
    d('c2', '// U TF,FF,A=(80,80),B=(80,80)\n// FS ' + payroll + '/\n// FS 21,2,30' + END, '3 2', 'on two cards, the first ending in a slash, which document 01\'s grammar does not allow')
    d('c2-no-slash', '// U TF,FF,A=(80,80),B=(80,80)\n// FS ' + payroll + '\n// FS 21,2,30' + END, '0 0 0 TF FF A=80,80 B=80,80 R=1 fs=2 cv=0 6 ' + sixty + ' C:21,2,2,30@3', 'without it')
    d('c2-blank', '// U TF,FF,A=(80,80),B=(80,80)\n// FS ' + payroll.replace('2),19', '2), 19') + '/\n// FS 21,2,30' + END, '3 2', 'with the blank of the print')
    d('c3-uct', '// UCT TC,FF,A=(80,80),B=(80,80),OU' + END, '1 1', 'another program\'s card')
    u('c3', 'TC,FF,A=(80,80),B=(80,80),OU', read('TC', 'FF', '80,80', '80,80'), 'copy')
    u('c4', 'TC,FF,A=(80,80),B=(80,80),I1,OU,R1', '3 1', 'I1 is a stacker of the card reader')
    u('c4-no-i1', 'TC,FF,A=(80,80),B=(80,80),OU,R1', read('TC', 'FF', '80,80', '80,80'), 'without it')
    u('c5', 'TR,FF,A=(80,80),B=(80,800),OR', read('TR', 'FF', '80,80', '80,800'), 'reblock')
    d('c6', '// U TF,FF,A=(80,80),B=(K=26,D=80)\n// FS 1,80,1/30,26,(K,1)' + END, '3 1', 'keyed output is not built')
    u('c7-e', 'TC,FF,A=(80,80),B=(80,80),I1,OY,R1,E=(2311)', '3 1', 'device parameters')
    u('c7-s', 'TC,FF,A=(80,80),B=(80,80),I1,O1,S2,R1', '3 1', 'device parameters')
    f.note('Disk and data cell')
    d('d1-udd', '// UDD TF,FF,A=(K=10,D=100),B=(K=10,D=31)\n// FS (K,1),10,(K,1)/6,15,1/21,(P,5,3),16' + END, '1 1', 'another program\'s card')
    d('d1', '// U TF,FF,A=(K=10,D=100),B=(K=10,D=31)\n// FS (K,1),10,(K,1)/6,15,1/21,(P,5,3),16' + END, '3 1', 'keyed output is not built')
    d('d1-b', '// U TF,FF,A=(110,110),B=(41,41)\n// FS (K,1),10,1/6,15,11/21,(P,5,3),26/77,(P,3,2),29/80,(P,6,4),31\n// FS 28,(P,8,5),35/26,(P,2,2),40' + END,
      '0 0 0 TF FF A=110,110 B=41,41 R=1 fs=2 cv=0 7 C:past,10,10,1@2 C:6,15,15,11@2 P:21,5,3,26@2 P:77,3,2,29@2 P:80,6,4,31@2 P:28,8,5,35@3 P:26,2,2,40@3',
      'a keyed field on card 2; without a key it is 8, not asked here')
    d('d2-umt', '// UMT TRF,FF,A=(K=10,D=100),B=(110,440),ON\n// FS (K,1),10,1/1,100,11' + END, '1 1', 'another program\'s card')
    d('d2', '// U TRF,FF,A=(K=10,D=100),B=(110,440),ON\n// FS (K,1),10,1/1,100,11' + END,
      '0 0 0 TRF FF A=K=10,D=100 B=110,440 R=1 fs=1 cv=0 2 C:K1,10,10,1@2 C:1,100,100,11@2', 'data cell to tape, the key before the data')
    u('d3', 'TC,FF,A=(K=10,D=100),B=(K=10,D=100),OY', '3 1', 'keyed output is not built')
    d('d3-two-lines', '// U TC,FF,A=(K=10,D=100),B=(K=10,D=100),\nOY' + END, '1 2', 'the second line is no card')
    d('d4', '// U TF,FF,A=(80,80),B=(K=10,D=70),ON\n// FS 75,6,(K,1)/1,70,1' + END, '3 1', 'keyed output is not built')
    u('d5', 'TR,FF,A=(80,80),B=(80,960),OY', '3 1', 'OY is not one of OR, ON, OU')
    u('d5-no-oy', 'TR,FF,A=(80,80),B=(80,960)', read('TR', 'FF', '80,80', '80,960'), 'without it')
    u('d6', 'TR,FF,A=(80,800),B=(80,80),OR', read('TR', 'FF', '80,800', '80,80'), 'deblock')
    u('d6-e', 'TR,FF,A=(80,800),E=(80,80),OR', '3 1', 'E= is no parameter')
    u('d7', 'TC,FU,A=(960),B=(960),OY', '3 1', 'OY')
    u('d7-no-oy', 'TC,FU,A=(960),B=(960)', read('TC', 'FU', 960, 960), 'without it')
    for i, tail in enumerate(['OY,R1,E=(2321,2321)', 'OY,R1,E=(2321,2311)', 'OY,R1,E=(2311,2321)', 'OY,R1,E=(2311,2311)', 'OU,R1,E=(2321)', 'OU,R1,E=(2311)']):
        u('d8-%d' % (i + 1), 'TC,FU,A=(1000),B=(1000),' + tail, '3 1', 'device parameters')
    u('d8-no-e', 'TC,FU,A=(1000),B=(1000),OU,R1', read('TC', 'FU', 1000, 1000), 'without them')
    u('d8-cards', 'TC,FF,A=(80,80),B=(80,80),O1,R1,S2,E=(2311)', '3 1', 'device parameters')
    f.note('Tape to others')
    d('o1-utc', '// UTC TRF,FF,A=(70,700),B=(80,80),IN,S1,O1,R380\n// FS 1,70,1/1,10,71' + END, '1 1', 'another program\'s card')
    d('o1', '// U TRF,FF,A=(70,700),B=(80,80),IN,S1,O1,R380\n// FS 1,70,1/1,10,71' + END, '3 1', 'S1 and O1 are of the card punch')
    d('o1-no-s1', '// U TRF,FF,A=(70,700),B=(80,80),IN,R380\n// FS 1,70,1/1,10,71' + END, '0 0 0 TRF FF A=70,700 B=80,80 R=380 fs=1 cv=0 2 C:1,70,70,1@2 C:1,10,10,71@2', 'without them: records from the 380th on')
    u('o2', 'TR,FV,A=(320),B=(600),OY,IN', '3 1', 'OY')
    u('o2-no-oy', 'TR,FV,A=(320),B=(600),IN', read('TR', 'FV', 320, 600), 'variable reblocking')
    d('o3', '// U TRF,FF,A=(110,440),B=(K=10,D=100),OY\n// FS 1,10,(K,1)/11,100,1' + END, '3 1', 'keyed output is not built')
    d('o4', '// U TLF,FV,A=(37,98),B=(40,132),PN,OC,S2\n// FS 1,37,1/CV' + END, '3 1', 'TLF is for printers')
    d('o4-mended', '// U TF,FV,A=(33,98),B=(36,132)\n// FS 1,33,1/CV' + END, '0 0 0 TF FV A=33,98 B=36,132 R=1 fs=1 cv=2 1 C:1,33,33,1@2', 'as tape to tape')
    u('o5-cards', 'TC,FF,A=(80,80),B=(80,80),IU,O1,R1,S2', '3 1', 'O1 and S2')
    u('o5-2321', 'TC,FU,A=(1000),B=(1000),IU,OY,R1,E=(2321)', '3 1', 'OY and E=')
    u('o5-2311', 'TC,FU,A=(1000),B=(1000),IU,OY,R1,E=(2311)', '3 1', 'OY and E=')
    for i, t in enumerate(['TD', 'TL']):
        u('o6-' + t.lower(), t + ',FF,A=(80,80),B=(80,132)', '3 1', t + ' is for printers')
    d('unpack-no-comma', '// U TF,FF,A=(3,3),B=(5,5)\n// FS 1,(U,3,5)1' + END, '3 2', 'the printed unpack items lack a comma')
    d('unpack-comma', '// U TF,FF,A=(3,3),B=(5,5)\n// FS 1,(U,3,5),1' + END, '0 0 0 TF FF A=3,3 B=5,5 R=1 fs=1 cv=0 1 U:1,3,5,1@2', 'with it')
    return f


def drawn():
    f = File('drawn_decks.txt', HEAD + ['This file: decks drawn by chance, most of them right decks with a fault or two put in.'])
    for number, case in enumerate(kept(f.name), 1):
        f.case('deck-%d' % number, case, None)
    if f.names:
        return f
    out = subprocess.run([CASES, '4711', '1500', 'plan'], capture_output=True, text=True).stdout.split('\n')[:-1]
    counts, number = {}, 0
    wanted = {0: 60, 8: 60, 9: 20, 10: 20, 15: 20}
    for line in out:
        words = line.split()
        refusal = int(words[2])
        if counts.get(refusal, 0) >= wanted.get(refusal, 45) or len(words[0]) > 1600 and counts.get(('long', refusal), 0) >= 3:
            continue
        counts[refusal] = counts.get(refusal, 0) + 1
        if len(words[0]) > 1600:
            counts[('long', refusal)] = counts.get(('long', refusal), 0) + 1
        number += 1
        expected = ' '.join(words[2:5]) if refusal in range(1, 8) else '0 0'
        f.case('deck-%d' % number, 'deck ' + words[0], expected)
    print(counts)
    return f
