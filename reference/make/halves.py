"""Pack and unpack: the paper's cases, outside vectors, sizes at their limits; pack for all sizes, as an emulated System/370 has it."""
from common import *

def make():
    f = File('halves.txt', [
        'Pack and unpack over lent bytes (document 01, "Half bytes"): NAME half pack|unpack SOURCE M.',
        'The line is what M bytes of hex 5A hold afterwards; - is no byte.',
    ])
    def h(name, step, src, m, out, why=None):
        f.case(name, 'half %s %s %d' % (step, src, m), out, why)
    f.note('p1 to p6 of document 01')
    h('p1', 'pack', 'F1F2F3C4', 3, '01234C')
    h('p2', 'pack', 'F1F2F3C4', 2, '234C')
    h('p3-to-1', 'pack', 'C4', 1, '4C')
    h('p3-to-2', 'pack', 'C4', 2, '004C')
    h('p4', 'unpack', '01234C', 5, 'F0F1F2F3C4')
    h('p5', 'unpack', '01234C', 4, 'F1F2F3C4')
    h('p6', 'unpack', '4C', 1, 'C4')
    f.note('Outside vectors: the examples of PACK and UNPK and of decimal operands in IBM\'s manuals, and the two unpackings of document 001')
    h('pack-4-to-4', 'pack', 'F1F2F3C4', 4, '0001234C')
    h('unpack-2-to-5', 'unpack', '123D', 5, 'F0F0F1F2D3')
    h('unpack-2-to-3', 'unpack', '123C', 3, 'F1F2C3')
    h('unpack-3-to-5', 'unpack', '123CD0', 5, 'F1F2F3FC0D', 'the bare step: a C stands among the digits, which refusal 13 finds and not this function')
    h('pack-3-to-2', 'pack', 'F5F4D3', 2, '543D')
    h('pack-4-to-8', 'pack', 'F7F9F6C8', 8, '000000000007968C')
    h('pack-5-to-3', 'pack', 'F1F2F3F4F5', 3, '12345F')
    h('pack-back-to-2', 'pack', 'F0F0F1F2D3', 2, '123D')
    h('pack-back-to-3', 'pack', 'F0F0F1F2D3', 3, '00123D')
    h('pack-5-to-8', 'pack', 'F2F5F5F9C4', 8, '000000000025594C')
    h('unpack-8-to-5', 'unpack', '000000000025594C', 5, 'F2F5F5F9C4')
    digits = 'F1F2F3F4F5F6F7F8F9F0F1F2F3F4F5D6'
    h('pack-16-to-9', 'pack', digits, 9, '01234567890123456D')
    h('pack-16-to-8', 'pack', digits, 8, '234567890123456D')
    f.note('Sizes at their limits, 1 and 16')
    h('pack-16-to-16', 'pack', digits, 16, '0000000000000001234567890123456D')
    h('unpack-16-to-16', 'unpack', '1234567890123456789012345678901D', 16, 'F6F7F8F9F0F1F2F3F4F5F6F7F8F9F0D1')
    h('unpack-1-to-16', 'unpack', '1C', 16, 'F0' * 15 + 'C1', 'fill is F0')
    h('pack-1-to-16', 'pack', 'C1', 16, '00' * 15 + '1C', 'fill is 0 halves')
    h('pack-16-to-1', 'pack', digits, 1, '6D', 'spare digits are dropped: the sign byte is left')
    h('unpack-16-to-1', 'unpack', '1234567890123456789012345678901D', 1, 'D1')
    h('pack-1-to-1', 'pack', 'AB', 1, 'BA', 'the halves of one byte change places')
    h('unpack-1-to-1', 'unpack', 'AB', 1, 'BA')
    h('pack-2-to-1', 'pack', 'F9C4', 1, '4C')
    h('unpack-2-to-1', 'unpack', '987D', 1, 'D7')
    h('unpack-2-to-4', 'unpack', '987D', 4, 'F0F9F8D7', 'three digits and one fill')
    f.note('The steps look at no value: zones that are not F are dropped by pack all the same, and halves over 9 are moved')
    h('pack-any-zones', 'pack', '0A1B2C3D', 3, '0ABCD3')
    h('pack-00-and-FF', 'pack', '00FF00FF', 4, '0000F0FF')
    h('unpack-any-halves', 'unpack', 'ABCDEF', 5, 'FAFBFCFDFE')
    f.note('Sizes that no field has, 0 and 17: no byte changes. With M of 0 there is none')
    for step in ('pack', 'unpack'):
        h(step + '-0-to-5', step, '-', 5, '5A' * 5)
        h(step + '-5-to-0', step, '0102030405', 0, '-')
        h(step + '-0-to-0', step, '-', 0, '-')
        h(step + '-17-to-5', step, 'F1' * 16 + 'C2', 5, '5A' * 5)
        h(step + '-5-to-17', step, 'F1F2F3F4C5', 17, '5A' * 17)
        h(step + '-17-to-17', step, 'F1' * 16 + 'C2', 17, '5A' * 17)
        h(step + '-0-to-17', step, '-', 17, '5A' * 17)
        h(step + '-17-to-0', step, 'F1' * 17, 0, '-')
        h(step + '-64-to-64', step, 'F1' * 64, 64, '5A' * 64)
    f.note('Drawn by chance, two in three with permitted values')
    out = subprocess.run([CASES, '41', '90', 'half'], capture_output=True, text=True).stdout.split('\n')[:-1]
    for i, line in enumerate(out):
        step, src, m, res = line.split()
        h('half-%d' % (i + 1), step, src, int(m), res)
    return f


def emulated():
    """All sizes 1 to 16 by 1 to 16. What is expected is kept in system370.txt: what `tests/system370.py 370` printed."""
    f = File('system370.txt', [
        'Pack beside the PACK instruction of an emulated System/370, for all sizes 1 to 16 by 1 to 16: NAME half pack SOURCE M.',
        'Of each two cases the first has zones, digits and a sign, the second any bytes.',
    ])
    for i, line in enumerate(open(os.path.join(HERE, 'system370.txt'))):
        source, m, result = line.split()
        f.case('system370-%d-to-%s-%s' % (len(source) // 2, m, ('zoned', 'any')[i % 2]), 'half pack %s %s' % (source, m), result)
    return f
