"""PACK on an emulated System/370, for all sizes 1 to 16 by 1 to 16: python3 tests/system370.py SEED.

For each pair of sizes two sources are drawn, one of zones, digits and a sign, one of any bytes. The machine is Hercules, which has nothing in common with this
converter; its storage is loaded with the sources and one PACK instruction for each, and read back. Prints a line `SOURCE M RESULT` for each, in hexadecimal."""
import os, random, subprocess, sys, tempfile

PROGRAM, POINTERS, END, SOURCES, OUTPUTS, LENGTH = 0x400, 0x300, 0x310, 0x2000, 0x4000, 0x1000
SLOT = 16       # bytes of each source and each output: a displacement of 12 bits reaches 256 of them
UNTOUCHED = 0x5A
WAIT = bytes.fromhex('0002000000003700')     # a program status word: wait, no interruption

CONFIGURATION = """CPUSERIAL 000370
CPUMODEL 3033
MAINSIZE 2
NUMCPU 1
ARCHMODE S/370
000C 3505 /dev/null
"""
COMMANDS = """loadcore {0}/storage 0
restart
pause 1
savecore {0}/outputs {1:x} {2:x}
quit
"""


def draw(seed):
    """Pairs of a source and an output size, all sizes of both."""
    chance = random.Random(seed)
    cases = []
    for n in range(1, 17):
        for m in range(1, 17):
            zoned = [0xF0 + chance.randrange(10) for _ in range(n - 1)] + [16 * chance.randrange(10, 16) + chance.randrange(10)]
            cases += [(bytes(zoned), m), (bytes(chance.randrange(256) for _ in range(n)), m)]
    return cases


def storage(cases):
    """The machine's storage: the word that starts it, the sources, and a PACK for each: F2, both lengths less 1, the output by register 2, the source by 1."""
    core = bytearray(OUTPUTS) + bytes([UNTOUCHED]) * LENGTH
    code = bytes.fromhex('98120300')     # load registers 1 and 2
    for i, (source, m) in enumerate(cases):
        core[SOURCES + SLOT * i:SOURCES + SLOT * i + len(source)] = source
        code += bytes([0xF2, 16 * (m - 1) + len(source) - 1]) + (0x2000 + SLOT * i).to_bytes(2, 'big') + (0x1000 + SLOT * i).to_bytes(2, 'big')
    code += bytes.fromhex('82000310')     # load the wait
    core[0:8] = PROGRAM.to_bytes(8, 'big')
    core[POINTERS:POINTERS + 8] = SOURCES.to_bytes(4, 'big') + OUTPUTS.to_bytes(4, 'big')
    core[END:END + 8] = WAIT
    core[PROGRAM:PROGRAM + len(code)] = code
    return bytes(core)


def packed(cases):
    """What the machine writes for each of at most 256 cases; of a slot no byte behind the output may have changed."""
    with tempfile.TemporaryDirectory() as folder:
        for name, text in (('configuration', CONFIGURATION), ('commands', COMMANDS.format(folder, OUTPUTS, OUTPUTS + LENGTH - 1))):
            with open(os.path.join(folder, name), 'w') as file:
                file.write(text)
        with open(os.path.join(folder, 'storage'), 'wb') as file:
            file.write(storage(cases))
        said = subprocess.run(['hercules', '-d', '-f', folder + '/configuration'], env=dict(os.environ, HERCULES_RC=folder + '/commands'), stdin=subprocess.DEVNULL,
                              capture_output=True, text=True, errors='replace', timeout=60)
        if 'PSW=00020000 80003700' not in said.stdout + said.stderr:
            raise SystemExit('the machine did not reach the end of its program:\n' + said.stdout + said.stderr)
        with open(os.path.join(folder, 'outputs'), 'rb') as file:
            outputs = file.read()
    results = []
    for i, (source, m) in enumerate(cases):
        slot = outputs[SLOT * i:SLOT * i + SLOT]
        assert slot[m:] == bytes([UNTOUCHED]) * (SLOT - m), (source.hex(), m, slot.hex())
        results.append(slot[:m])
    return results


def main(seed):
    cases = draw(seed)
    for at in range(0, len(cases), LENGTH // SLOT):
        part = cases[at:at + LENGTH // SLOT]
        for (source, m), result in zip(part, packed(part)):
            print(source.hex().upper(), m, result.hex().upper())


if __name__ == '__main__':
    main(int(sys.argv[1]))
