"""All case files of `crates/answers`, their names in `args` and the lines that are expected in `stdout`."""
import columns, decks, drawn, halves, judge, keys, manual, plans, reels, runs, spanned, twins, os
from common import ROOT


def tally(subject, files, lines):
    """How many cases of a subject there are with each refusal."""
    asked = {line.split()[0] for f in files for line in f.lines if line.split()[1] == subject and line[0] != '#'}
    refusals = [int(line.split()[1]) for line in lines if line.split()[0] in asked]
    return '%s: %d cases; ' % (subject, len(refusals)) + ', '.join('%d: %d' % (number, refusals.count(number)) for number in sorted(set(refusals)))


of_manual = manual.make()
files = [halves.make(), halves.emulated(), decks.lines(), decks.order(), decks.operands(), decks.limits(), columns.make(), of_manual, manual.drawn(), reels.edges(), reels.blocks(), reels.drawn(),
         plans.make(of_manual.decks), runs.make()] + drawn.make() + [twins.make()] + drawn.twins() + [keys.make()] + drawn.keys() + [spanned.make()] + drawn.spanned() + [judge.make()] + drawn.judge()
names = set()
stdout = []
for f in files:
    assert not names & f.names, names & f.names
    names |= f.names
    stdout += f.write()
open(os.path.join(ROOT, 'stdout'), 'w').write('\n'.join(stdout) + '\n')
open(os.path.join(ROOT, 'args'), 'w').write('\n'.join(f.name for f in files) + '\n')
print(tally('plan', files, stdout))
print(tally('run', files, stdout))
print(tally('twins', files, stdout))
print(tally('judge', files, stdout))
print(len(stdout), 'cases', sum(os.path.getsize(os.path.join(ROOT, 'data', f.name)) for f in files), 'bytes of data', os.path.getsize(os.path.join(ROOT, 'stdout')), 'bytes of stdout')
raise SystemExit(1 if any(f.differ for f in files) else 0)
