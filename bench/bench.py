#!/usr/bin/env python3
"""bench.py PROGRAM DESKS: instructions a call, the library's beside plain C's, all from one run of bench.c's program.

On x86-64 valgrind counts; elsewhere, or with BY_EMULATOR set, the emulator writes a line for each instruction. Times are not measured: under
an emulator they mean nothing. The same program prints the same table in any folder and any environment; on another processor C's memory
functions may be others, and counts differ a little. Exit status 1 if a bar does not hold."""
import glob, os, platform, re, shutil, subprocess, sys, tempfile, threading

CALLS = 16            # calls in a section, as in bench.c
READ_OR_WRITE, STEP = 1.25, 2.0  # the bars: at most so many times what plain C takes
LINEAR, FLAT = 1.10, 1.01        # how far costs may be off a straight line, and off each other

def found(tool):
    return shutil.which(tool) or sys.exit(f'{tool} is not installed: . tests/set-up bench')

def run(counter, program, desks):
    """What the program prints. It runs in its own folder, and with no variable but those by which a counter finds its own files: the path to it
    and the environment stand on its stack and move it, and some variables change what C's library or the counter do."""
    folder, name = os.path.split(os.path.abspath(program))
    kept = {variable: os.environ[variable] for variable in ('VALGRIND_LIB', 'QEMU_LD_PREFIX') if variable in os.environ}
    command = [*counter, f'./{name}', 'measure', os.path.relpath(desks, folder)]
    done = subprocess.run(command, cwd=folder, env=kept, capture_output=True, text=True)
    if done.returncode != 0:
        sys.exit(done.stderr)
    return done.stdout

def by_valgrind(program, desks):
    """The names of the sections, and the instructions between each mark() and the next."""
    with tempfile.TemporaryDirectory() as folder:
        said = run([found('valgrind'), '--tool=callgrind', f'--callgrind-out-file={folder}/out', '--dump-before=mark'], program, desks)
        parts = sorted(glob.glob(f'{folder}/out.*'), key=lambda name: int(name.rsplit('.', 1)[1]))
        return said, [int(re.search(r'^totals: (\d+)', open(part).read(), re.M).group(1)) for part in parts[1:]]

def by_emulator(program, desks):
    emulator = found('qemu-x86_64')
    known = subprocess.run([emulator, '-h'], capture_output=True, text=True).stdout
    single = '-one-insn-per-tb' if 'one-insn-per-tb' in known else '-singlestep'
    with tempfile.TemporaryDirectory() as folder:
        log = f'{folder}/log'
        os.mkfifo(log)
        addresses = []
        def listen():
            at = re.compile(r'\[[0-9a-f]+/([0-9a-f]+)/')
            for line in open(log):
                executed = at.search(line)
                if executed:
                    addresses.append(int(executed.group(1), 16))
        listener = threading.Thread(target=listen, daemon=True)
        listener.start()
        said = run([emulator, single, '-d', 'exec,nochain', '-D', log], program, desks)
        listener.join()
    mark = int(re.match(r'mark (\w+)', said).group(1), 16)
    places = [i for i, address in enumerate(addresses) if address == mark]
    return said, [after - before for before, after in zip(places, places[1:])]

def measure(program, desks):
    emulated = platform.machine() != 'x86_64' or os.environ.get('BY_EMULATOR')
    said, parts = (by_emulator if emulated else by_valgrind)(program, desks)
    names = [tuple(line.split()) for line in said.splitlines()[1:]]
    sections = parts[0::2]  # what stands between two sections is preparing
    assert len(sections) >= len(names), (len(sections), len(names))
    counted = dict(zip(names, sections))
    nothing = counted.pop(('empty', 'step', '-'))
    return {name: (count - nothing) / CALLS for name, count in counted.items()}

held, missed = [], []

def verdict(what, holds):
    (held if holds else missed).append(what)
    return 'holds' if holds else 'DOES NOT HOLD'

def row(cost, title, kind, which, bar):
    ours, plain, native = (cost.get((who, kind, which)) for who in ('floor', 'plain', 'native'))
    ratio = ours / plain
    line = f'{title:42} {ours:9.0f} {plain:9.0f} {ratio:7.2f}'
    line += f'  at most {bar}: {verdict(title, ratio <= bar)}' if bar else ''
    print(line + (f'   (a struct, nothing tested: {native:.0f})' if native is not None else ''))

def table(cost):
    print(f'{"instructions a call":42} {"libfloor":>9} {"plain C":>9} {"ratio":>7}')
    for kind in ('read', 'write'):
        for n in (12, 36, 104, 440, 1024):
            if (('plain', kind, str(n))) in cost:
                row(cost, f'{kind} a packet of {n} octets', kind, str(n), READ_OR_WRITE)
    for n in (36, 104, 440, 1024):
        row(cost, f'read {n} octets, all fields short', 'read', f'dense-{n}', READ_OR_WRITE)
    for seats in (4, 16):
        row(cost, f'request, placed in line; {seats} seats', 'step', f'request-{seats}', STEP)
        row(cost, f'release, the next is given; {seats} seats', 'step', f'release-{seats}', STEP)
        row(cost, f'timer 20, Granted again; {seats} seats', 'step', f'timer-{seats}', STEP)
    row(cost, 'save a sheet of 16 seats', 'save', 'seats-16', None)
    row(cost, 'load a sheet of 16 seats', 'load', 'seats-16', None)

def linear(cost):
    """Reading fields of four octets, the most fields for their octets: each octet more costs the same."""
    lengths = (12, 36, 104, 440, 1024)
    costs = [cost['floor', 'read', f'dense-{n}'] for n in lengths]
    slopes = [(b - a) / (n - m) for m, n, a, b in zip(lengths, lengths[1:], costs, costs[1:])]
    print('\ncost for each octet more, reading:', ', '.join(f'{m} to {n} {slope:.2f}' for m, n, slope in zip(lengths, lengths[1:], slopes)), end='')
    print(f'; linear in octets: {verdict("linear in octets", max(slopes) <= LINEAR * min(slopes))}')

def flat(cost):
    """The same step on desks with short and long histories."""
    costs = {n: cost['floor', 'step', f'after-{n}'] for n in (10, 1000, 100000)}
    print('a request after', ', '.join(f'{n:,} events {c:.0f}' for n, c in costs.items()), end='')
    print(f'; flat in events: {verdict("flat in events", max(costs.values()) <= FLAT * min(costs.values()))}')

def main():
    cost = measure(*sys.argv[1:3])
    table(cost)
    linear(cost)
    flat(cost)
    print(f'\n{len(held)} bars hold, {len(missed)} do not' + ''.join(f'\n  {what}' for what in missed))
    sys.exit(bool(missed))

main()
