"""Plans, runs, decks, twins and judged pairs drawn by chance, so many of each refusal, reason and verdict; their answers are the converter's own."""
from common import *
import judge as of_judge, keys as of_keys, plans, re, runs, spanned as of_spanned, twins as of_twins

LONGEST = 2400  # a longer line is left out: the files are many lines, not large ones


def short_inside(words):
    """Whether a run's reel has, in FF, a block shorter than A's m before the last."""
    deck, reel = bytes.fromhex(words[0]).decode('latin-1'), bytes.fromhex(words[1])
    a = re.search(r'A=\(\d+,(\d+)\)', deck)
    offsets = [int.from_bytes(reel[i:i + 4], 'big') for i in range(4, min(len(reel), 8 + 4 * int.from_bytes(reel[:4], 'big')), 4)]
    return 'FF' in deck and a is not None and any(q - p < int(a[1]) for p, q in zip(offsets, offsets[1:-1]))


def sort_of(kind, answer):
    """The refusal; where there is none, a run's that wrote the empty reel, the reason of twins, and what was judged."""
    if kind == 'run' and answer[:4] == ['0', '0', '0', '8']:
        return 'empty'
    if kind == 'judge' and answer[0] == '0':
        return {'0': 'true', '1': 'first record'}.get(answer[4], 'later record')
    return 'reason ' + answer[3] if kind == 'twins' and answer[0] == '0' else answer[0]


def drawn(seed, count, kind, wanted, chosen_if=lambda words: True):
    """The drawn cases of a kind, without names, so many of each sort as are wanted, of those that are chosen."""
    out = subprocess.run([CASES, str(seed), str(count), kind, '--large'], capture_output=True, text=True).stdout.split('\n')[:-1]
    words_asked = {'run': 3, 'judge': 3, 'deck': 1}.get(kind, 2)
    counts, chosen = {}, []
    for line in out:
        words = line.split()
        case, sort = ' '.join([kind] + words[:words_asked]), sort_of(kind, words[words_asked:])
        if counts.get(sort, 0) < wanted.get(sort, 0) and len(case) <= LONGEST and chosen_if(words):
            counts[sort] = counts.get(sort, 0) + 1
            chosen.append(case)
    assert counts == wanted, (counts, wanted)
    return chosen


def files_of(name, head, kind, chosen, label):
    """One file, or several of like size where it would be too long for the program to read whole."""
    count = -(-sum(len(case) + 20 for case in chosen) // 240000)
    each = -(-len(chosen) // count)
    files = []
    for number in range(1, count + 1):
        f = File(name + ('_%d' % number if count > 1 else '') + '.txt', head + ['This file: %s drawn by chance.' % ('decks and reels' if kind == 'run' else 'decks')])
        for at in range(each * (number - 1), min(each * number, len(chosen))):
            f.case('%s-%d' % (label, at + 1), chosen[at], None)
        files.append(f)
    return files


def make():
    early = {str(number): 50 for number in range(1, 11)}
    of_plans = kept('drawn_plans.txt') or drawn(2026, 6000, 'plan', {'0': 300, **early, '15': 100})
    early = {str(number): 24 for number in range(1, 11)}
    of_runs = kept('drawn_runs_1.txt', 'drawn_runs_2.txt', 'drawn_runs_3.txt') or drawn(
        1973, 9000, 'run', {'0': 500, 'empty': 60, **early, '11': 120, '12': 200, '13': 160, '14': 160, '15': 160})
    of_blocks = kept('drawn_blocks.txt') or drawn(1902, 9000, 'run', {'0': 160, 'empty': 10, '12': 90, '13': 30, '15': 30}, short_inside)
    return (files_of('drawn_plans', plans.HEAD, 'plan', of_plans, 'drawn-plan') + files_of('drawn_runs', runs.HEAD, 'run', of_runs, 'drawn-run')
            + files_of('drawn_blocks', runs.HEAD, 'run', of_blocks, 'drawn-block'))


def twins():
    refused = {str(number): 6 for number in range(1, 11)}
    chosen = kept('drawn_twins.txt') or drawn(
        1964, 6000, 'twins', {'reason 1': 45, 'reason 2': 70, 'reason 3': 60, 'reason 4': 25, **refused, '15': 24, '16': 24})
    return files_of('drawn_twins', of_twins.HEAD, 'twins', chosen, 'drawn-twins')


def has_keys(words):
    """Whether a deck has a keyed A, or a field that is taken from a key."""
    deck = bytes.fromhex(words[0]) if words[0] != '-' else b''
    return b'A=(K=' in deck or b'(K,' in deck


def mixed(f, label, chosen):
    """A file of these cases of several kinds."""
    for number, case in enumerate(chosen, 1):
        f.case('%s-%d' % (label, number), case, None)
    return [f]


def keys():
    """Decks with keys in them, of each kind that is drawn."""
    f = File('drawn_keys.txt', of_keys.HEAD + ['This file: decks and reels drawn by chance, each deck with a keyed A or a field that is taken from a key.'])
    chosen = kept(f.name) or (
        drawn(2321, 20000, 'plan', {'0': 60, '3': 6, '4': 6, '6': 3, '7': 20, '8': 30, '9': 25, '10': 12, '15': 10}, has_keys)
        + drawn(2311, 20000, 'run', {'0': 80, 'empty': 8, '7': 4, '8': 8, '9': 6, '10': 4, '11': 8, '12': 40, '13': 25, '15': 15}, has_keys)
        + drawn(2314, 20000, 'deck', {'3': 40, '4': 12, '7': 30}, has_keys)
        + drawn(3330, 20000, 'twins', {'reason 1': 20, 'reason 2': 25, 'reason 3': 25, '7': 3, '8': 5, '9': 4, '10': 4, '15': 8, '16': 10}, has_keys))
    return mixed(f, 'drawn-key', chosen)


def has_fs(words):
    """Whether the U card has FS in it."""
    deck = bytes.fromhex(words[0]) if words[0] != '-' else b''
    return re.match(rb'// U(TT)? [^ \n]*FS', deck) is not None


def spanned():
    """Decks of FS, of each kind that is drawn, and reels for them."""
    f = File('drawn_spanned.txt', of_spanned.HEAD + ['This file: decks and reels drawn by chance, each deck with FS on its U card.'])
    chosen = kept(f.name) or (
        drawn(3420, 20000, 'plan', {'0': 40, '1': 2, '2': 2, '3': 8, '4': 10, '5': 6, '7': 24, '8': 40}, has_fs)
        + drawn(2401, 20000, 'run', {'0': 130, 'empty': 12, '3': 2, '4': 2, '5': 2, '7': 5, '8': 8, '11': 14, '12': 110, '15': 30}, has_fs)
        + drawn(2415, 20000, 'deck', {'0': 10, '3': 40, '4': 20, '7': 30}, has_fs)
        + drawn(2420, 20000, 'twins', {'1': 2, '2': 2, '3': 4, '4': 4, '5': 4, '7': 5, '8': 8, '16': 20}, has_fs))
    return mixed(f, 'drawn-span', chosen)


def judge():
    """Decks, our reels and theirs."""
    f = File('drawn_judge.txt', of_judge.HEAD + ['This file: decks and reels drawn by chance; most of theirs are what our records become, in other blocks, with or without a change.'])
    refused = {**{str(number): 3 for number in range(1, 8)}, '8': 12, '9': 4, '10': 4, '11': 8, '12': 14, '13': 14, '14': 14, '17': 20, '18': 40}
    is_short = lambda words: words[3] == '6' or sum(len(word) for word in words[:3]) <= 800
    chosen = kept(f.name) or drawn(3707, 9000, 'judge', {'true': 130, 'first record': 40, 'later record': 80, **refused}, is_short)
    return mixed(f, 'drawn-judge', chosen)
