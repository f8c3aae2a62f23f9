#!/usr/bin/env python3
"""Prints how fast `zr` is, each number beside its bound, measured in the same run.

A bound is what the work cannot do without: the digest of the bytes that it has to digest, in the program's own code; the
flushes that make it last; or the same work on a smaller pool. What is told is how much of the bound is reached: 1 is the
bound, less is slower, and a slow machine does not change it much. What waits for no disk runs on device files in memory, and
is told in processor time; what waits for flushes runs on device files on a disk, and is told in time by the clock. Each row
is the median of several runs.

    bench/run.py [--runs N] [--extents N] [--disk FOLDER] [--memory FOLDER] [PART..]
"""
import argparse
import os
import random
import re
import shutil
import statistics
import subprocess
import sys
import tempfile
import threading
import time

TOP = os.path.dirname(os.path.dirname(os.path.abspath(__file__)))
UNIT = 4096
MIB = 1 << 20
TABLES = ('list', 'status', 'audit', 'map')


class Wrong(Exception):
    """The program answered what it should not."""


# --- What is measured ------------------------------------------------------------------------------------------------

class Cost:
    """What a piece of work cost: seconds by the clock and of the processor, and bytes read from and written to devices."""

    def __init__(self, clock=0.0, processor=0.0, read=0, written=0):
        self.clock, self.processor, self.read, self.written = clock, processor, read, written

    def __add__(self, other):
        return Cost(self.clock + other.clock, self.processor + other.processor,
                    self.read + other.read, self.written + other.written)

    def __mul__(self, times):
        return Cost(self.clock * times, self.processor * times, self.read * times, self.written * times)


def run_alone(words):
    """The cost of another program, from its start to its end, and what it printed."""
    begin = time.perf_counter()
    child = subprocess.Popen(words, stdout=subprocess.PIPE, stderr=subprocess.DEVNULL)
    out = child.stdout.read()
    _, status, usage = os.wait4(child.pid, 0)
    child.returncode = os.waitstatus_to_exitcode(status)
    if child.returncode != 0:
        raise Wrong('%s ended with status %d' % (words[0], child.returncode))
    return Cost(time.perf_counter() - begin, usage.ru_utime + usage.ru_stime), out


class Zr:
    """The program on device files in a folder. Lines are sent in batches, whose cost is told."""

    def __init__(self, folder, *devices, **more):
        self.child = subprocess.Popen(PROGRAM + list(devices), cwd=folder, bufsize=0,
                                      stdin=subprocess.PIPE, stdout=subprocess.PIPE, **more)
        self.proc = '/proc/%d/' % self.child.pid
        self.rest()

    def __enter__(self):
        return self

    def __exit__(self, *why):
        self.child.stdin.close()
        self.child.stdout.close()
        if self.child.wait() != 0 and why[0] is None:
            raise Wrong('the program ended with status %d' % self.child.returncode)

    def rest(self):
        """Waits until the program waits for its next line."""
        while True:
            with open(self.proc + 'stat') as told:
                state = told.read().rsplit(') ', 1)[1][0]
            with open(self.proc + 'wchan') as told:
                waits = told.read()
            if state == 'Z':
                raise Wrong('the program ended')
            if state == 'S' and ('pipe' in waits or waits in ('', '0')):
                return

    def counts(self):
        with open(self.proc + 'io') as told:
            io = dict(line.split(': ') for line in told.read().splitlines())
        with open(self.proc + 'schedstat') as told:
            spent = int(told.read().split()[0])
        return int(io['rchar']), int(io['wchar']), spent / 1e9

    def memory(self, which):
        """The memory that the program has (VmRSS), or the most that it has had (VmHWM), in bytes."""
        with open(self.proc + 'status') as told:
            return int(re.search(which + r':\s+(\d+) kB', told.read()).group(1)) * 1024

    def send(self, lines):
        """Sends lines, waits for all replies, and answers them as one text, and what they cost."""
        text = ('\n'.join(lines) + '\n').encode()
        due = len(lines)
        tables = any(line.split(' ', 1)[0] in TABLES for line in lines)
        before = self.counts()
        begin = time.perf_counter()
        writer = threading.Thread(target=write_all, args=(self.child.stdin.fileno(), text))
        writer.start()
        pieces, got = [], 0
        while got < due:
            piece = os.read(self.child.stdout.fileno(), MIB)
            if not piece:
                raise Wrong('the program ended behind:\n' + b''.join(pieces)[-300:].decode())
            pieces.append(piece)
            got = replies(b''.join(pieces)) if tables else got + piece.count(b'\n')
        clock = time.perf_counter() - begin
        writer.join()
        self.rest()
        after = self.counts()
        answer = b''.join(pieces)
        cost = Cost(clock, after[2] - before[2], after[0] - before[0] - len(text), after[1] - before[1] - len(answer))
        return answer.decode(), cost

    def do(self, *lines):
        """The cost of lines of which none may be refused."""
        answer, cost = self.send(lines)
        if 'refused' in answer or 'stopped' in answer or 'bad line' in answer:
            raise Wrong(re.search(r'(refused|stopped|bad line).*', answer).group(0))
        return cost


def write_all(descriptor, text):
    view = memoryview(text)
    while view:
        view = view[os.write(descriptor, view):]


def replies(text):
    """How many replies there are in a text that has tables: each table is one, up to its `end`."""
    count = 0
    for line in text.split(b'\n')[:-1]:
        if line.split(b' ', 1)[0] not in (b'dev', b'open', b'removal', b'checkpoint', b'condense', b'room', b'entry', b'fresh'):
            count += 1
    return count


# --- Bounds ------------------------------------------------------------------------------------------------------------

def digest(size, count):
    """The program's own digest of so many blocks of a size, alone, from the time of 64 MiB of them."""
    tried = 64 * MIB // size
    return run_alone([DIGEST, str(size), str(tried)])[0] * (count / tried)


def bytes_in(folder):
    """A file of 64 MiB."""
    name = os.path.join(folder, 'bytes')
    with open(name, 'wb') as out:
        out.write(b'\1' * (64 * MIB))
    return name


def sha256sum(folder, size):
    """sha256sum of so many bytes, from the time of 64 MiB of them."""
    name = bytes_in(folder)
    cost = run_alone(['sha256sum', name])[0]
    os.remove(name)
    return cost * (size / (64 * MIB))


def copy(folder, size, count):
    """Reading so many blocks of a size from a file, from the time of 64 MiB of them."""
    name = bytes_in(folder)
    cost = run_alone(['dd', 'if=' + name, 'of=/dev/null', 'bs=%d' % size])[0]
    os.remove(name)
    return cost * (size * count / (64 * MIB))


def put(folder, size, count):
    """Writing so many blocks of a size to a new file."""
    name = os.path.join(folder, 'bytes')
    cost = run_alone(['dd', 'if=/dev/zero', 'of=' + name, 'bs=%d' % size, 'count=%d' % count])[0]
    os.remove(name)
    return cost


def flushed(folder, size, count):
    """Writing so many blocks of a size to a file that is made as a device is, each made durable."""
    name = os.path.join(folder, 'flushed')
    with open(name, 'wb') as out:
        out.truncate(256 * MIB)
    cost = run_alone(['dd', 'if=/dev/zero', 'of=' + name, 'bs=%d' % size, 'count=%d' % count, 'oflag=dsync', 'conv=notrunc'])[0]
    os.remove(name)
    return cost


# --- The table ---------------------------------------------------------------------------------------------------------

SPEEDS = ('MiB/s', 'rounds/s')


class Row:
    """A line of the table: a number and its bound, from the same runs, and how much of the bound is reached."""

    def __init__(self, name, bound, unit, least=None):
        self.name, self.bound, self.unit, self.least = name, bound, unit, least
        self.measured, self.bounds, self.ratios = [], [], []

    def add(self, measured, bound):
        better, worse = (measured, bound) if self.unit in SPEEDS else (bound, measured)
        self.measured.append(measured)
        self.bounds.append(bound)
        self.ratios.append(1.0 if better == worse else better / worse if worse else float('inf'))

    def ratio(self):
        return statistics.median(self.ratios)

    def verdict(self):
        return '' if self.least is None else 'met' if self.ratio() >= self.least else 'MISSED'

    def line(self):
        return LINE % (self.name, self.bound, number(statistics.median(self.measured)),
                       number(statistics.median(self.bounds)), self.unit, share(self.ratio()),
                       '' if self.least is None else '%g' % self.least, self.verdict())


LINE = '%-46s %-28s %9s %9s %-9s %6s %4s %s'


def number(x):
    return '%.0f' % x if x >= 100 else '%.1f' % x if x >= 10 else '%.2f' % x if x >= 0.01 or x == 0 else '%.4f' % x


def share(x):
    return '%.2f' % x if x >= 0.1 else '%.3f' % x


ROWS = []


def row(*words, **more):
    """A new line of the table."""
    made = Row(*words, **more)
    ROWS.append(made)
    return made


def show(made):
    print(made.line(), flush=True)


# --- Pools to measure on -----------------------------------------------------------------------------------------------

class Folder:
    """A folder for device files, gone afterwards."""

    def __init__(self, place):
        self.place = place

    def __enter__(self):
        self.path = tempfile.mkdtemp(prefix='zr-bench-', dir=self.place)
        return self.path

    def __exit__(self, *why):
        shutil.rmtree(self.path)


def fills(ident, blocks, units, first=0):
    """The lines that fill so many blocks of an object, 64 a line."""
    size = units * UNIT
    lines = []
    for at in range(first, first + blocks, 64):
        count = min(64, first + blocks - at)
        lines.append('fill %d %d %d %d' % (ident, at * size, count * size, 1 + at // 64 % 255))
    return lines


def device(blocks, units):
    """The bytes of a device that has room for so many blocks, twice over."""
    return -(-(2 * blocks * units * UNIT + 64 * MIB) // (256 * 1024)) * 256 * 1024


# --- Rows --------------------------------------------------------------------------------------------------------------

DIGESTED = 'digest of its bytes'
READ = 'digest and read of its bytes'


def bound_read(folder, cost):
    """Digest and read of the bytes that the work has read from the device, unit by unit."""
    return digest(UNIT, cost.read / UNIT) + copy(folder, UNIT, cost.read / UNIT)


def fill(runs, memory, disk):
    """`fill` of whole blocks of 32 units, 64 a line, so that each line but the first commits the one before."""
    lines, size, count = 16, 32 * UNIT, 1024
    own = row('fill, 32-unit blocks', DIGESTED, 'MiB/s', least=0.9)
    written = row('fill, 32-unit blocks', 'digest and dd of its bytes', 'MiB/s')
    other = row('fill, 32-unit blocks', 'sha256sum of its bytes', 'MiB/s')
    last = row('fill and sync, on a disk', 'dd dsync, 8 MiB each', 'MiB/s')
    total = size * count / MIB
    for _ in range(runs):
        with Folder(memory) as folder:
            alone, summed, stored = digest(size, count), sha256sum(folder, size * count), put(folder, size, count)
            with Zr(folder, 'a:%d' % device(count, 32)) as zr:
                zr.do('create p 1 a', 'make 1 32')
                cost = zr.do(*fills(1, count, 32))
        own.add(total / cost.processor, total / alone.processor)
        written.add(total / cost.processor, total / (alone + stored).processor)
        other.add(total / cost.processor, total / summed.processor)
        with Folder(disk) as folder:
            bound = flushed(folder, 64 * size, lines)
            with Zr(folder, 'a:%d' % device(count, 32)) as zr:
                zr.do('create p 1 a', 'make 1 32')
                cost = zr.do(*fills(1, count, 32), 'sync')
        last.add(total / cost.clock, total / bound.clock)
    return [own, written, other, last]


FLUSHES = 3


def sync(runs, memory, disk):
    """A `write` of one block and a `sync`, again and again, beside as many bytes in as many flushes by `dd`."""
    rounds = 100
    clock = row('write and sync, on a disk', 'dd dsync, 3 a round', 'rounds/s')
    work = row('write and sync', DIGESTED, 'us')
    for _ in range(runs):
        lines = ['create p 1 a', 'make 1 1'] + fills(1, 4096, 1) + ['sync']
        pairs = [line for k in range(rounds) for line in ('write 1 %d 7a' % (UNIT * (37 * k % 4096)), 'sync')]
        with Folder(disk) as folder:
            with Zr(folder, 'a:%d' % (128 * MIB)) as zr:
                zr.do(*lines)
                cost = zr.do(*pairs)
            bound = flushed(folder, cost.written // rounds // FLUSHES, FLUSHES * rounds)
        clock.add(rounds / cost.clock, rounds / bound.clock)
        with Folder(memory) as folder:
            with Zr(folder, 'a:%d' % (128 * MIB)) as zr:
                zr.do(*lines)
                cost = zr.do(*pairs)
            bound = digest(UNIT, cost.written / UNIT)
        work.add(cost.processor / rounds * 1e6, bound.processor / rounds * 1e6)
    return [clock, work]


def flushes(runs, memory, disk):
    """How often a commit makes a device file durable, by strace."""
    if shutil.which('strace') is None:
        return []
    made = row('flushes, a commit', 'three', 'flushes', least=1)

    def count(syncs):
        with Folder(memory) as folder:
            told = os.path.join(folder, 'told')
            text = 'create p 1 a\nmake 1 1\n' + 'write 1 0 7a\nsync\n' * syncs
            subprocess.run(['strace', '-f', '-o', told, '-e', 'trace=fsync,fdatasync,sync_file_range,syncfs'] + PROGRAM +
                           ['a:%d' % (16 * MIB)], input=text.encode(), cwd=folder, stdout=subprocess.DEVNULL, check=True)
            with open(told) as lines:
                return sum('sync' in line for line in lines)
    found = (count(20) - count(0)) / 20
    if found < FLUSHES:
        raise Wrong('a commit makes %g flushes' % found)
    made.add(found, FLUSHES)
    return [made]


def read(runs, memory, disk):
    """`read` of one unit: of a hole, of a cached block, and of blocks that are not cached."""
    count, size = 1000, 32 * UNIT
    cached = row('read, cached', 'read of a hole', 'us')
    calls = row('read, cached, bytes of the device', 'none', 'bytes', least=1)
    far = row('read, 32-unit blocks', READ, 'us')
    near = row('read, 1-unit blocks', READ, 'us')
    for _ in range(runs):
        with Folder(memory) as folder:
            with Zr(folder, 'a:%d' % device(count, 34)) as zr:
                zr.do('create p 1 a', 'make 1 32', 'make 2 1', *fills(1, count, 32), *fills(2, 8 * count, 1), 'sync')
                zr.do('read 1 0 4096')
                again = zr.do(*['read 1 0 4096'] * count)
                hole = zr.do(*['read 1 %d 4096' % (2 * count * size)] * count)
                apart = zr.do(*['read 1 %d 4096' % (k * size) for k in range(count)])
                small = zr.do(*['read 2 %d 4096' % (k * UNIT) for k in range(8 * count)])
            bound = digest(size, count) + copy(folder, size, count)
            bounds = bound_read(folder, small)
        cached.add(again.processor / count * 1e6, hole.processor / count * 1e6)
        calls.add(again.read / count, 0)
        far.add(apart.processor / count * 1e6, bound.processor / count * 1e6)
        near.add(small.processor / count / 8 * 1e6, bounds.processor / count / 8 * 1e6)
    return [cached, calls, far, near]


def pool_of(folder, blocks):
    """Makes a pool of so many blocks of one unit in a folder, and answers the words that attach it."""
    with Zr(folder, 'a:%d' % device(blocks, 1)) as zr:
        zr.do('create p 1 a', 'make 1 1', *fills(1, blocks, 1), 'export')
    return 'a'


def whole(runs, memory, disk):
    """`import`, `audit` and `export` of pools of several sizes, beside the digest of what each reads or writes."""
    sizes = (2048, 16384, 131072)
    made, growth = [], {}
    for blocks in sizes:
        opened = row('import, %d blocks' % blocks, READ, 'ms')
        walked = row('audit, %d blocks' % blocks, READ, 'ms')
        closed = row('export, %d blocks' % blocks, DIGESTED, 'ms')
        with Folder(memory) as folder:
            words = pool_of(folder, blocks)
            for _ in range(runs):
                with Zr(folder, words) as zr:
                    first, audited = zr.do('import'), zr.do('audit')
                    zr.do('write 1 0 7a', 'sync', 'write 1 0 7a')
                    last = zr.do('export')
                opened.add(first.processor * 1e3, bound_read(folder, first).processor * 1e3)
                walked.add(audited.processor * 1e3, bound_read(folder, audited).processor * 1e3)
                closed.add(last.processor * 1e3, digest(UNIT, last.written / UNIT).processor * 1e3)
                growth.setdefault(blocks, []).append((first.processor / blocks, audited.processor / blocks, last.processor))
        made += [opened, walked, closed]
    for index, name in enumerate(('import, a block', 'audit, a block', 'export')):
        grown = row('%s, of %d blocks' % (name, sizes[-1]), 'of %d blocks' % sizes[0], 'us', least=0.5)
        small, large = (statistics.median(cost[index] for cost in growth[blocks]) for blocks in (sizes[0], sizes[-1]))
        grown.add(large * 1e6, small * 1e6)
        made.append(grown)
    return made


def idents(runs, memory, disk):
    """`audit` of a pool of 200 small objects, whose IDs are the first ones or all over the range."""
    made = row('audit, 200 IDs to 65535', '200 IDs to 199', 'ms', least=0.5)
    for _ in range(runs):
        each = []
        for step in (1, 329):
            with Folder(memory) as folder:
                with Zr(folder, 'a:%d' % (64 * MIB)) as zr:
                    zr.do('create p 1 a', *[line for k in range(200)
                                            for line in ('make %d 1' % (step * k), 'write %d 0 7a' % (step * k))], 'sync')
                    each.append(zr.do('audit').processor * 1e3)
        made.add(each[1], each[0])
    return [made]


def spans(runs, memory, disk):
    """A pool of one small object on devices of 64 MiB, 16 GiB and 128 GiB, of which files only what is written exists."""
    small, devices = '64 MiB', (('64 MiB', 64 * MIB), ('16 GiB', 16384 * MIB), ('128 GiB', 131072 * MIB))
    made = [row(name % at, small, unit, least=least) for at, _ in devices[1:]
            for name, unit, least in (('create, %s', 'ms', None), ('import, %s', 'ms', None),
                                      ('write and sync, %s', 'us', 0.5), ('memory, %s', 'MiB', 0.5))]
    for _ in range(runs):
        each = []
        for _, size in devices:
            with Folder(memory) as folder:
                with Zr(folder, 'a:%d' % size) as zr:
                    first = zr.do('create p 1 a')
                    zr.do('make 1 1', *fills(1, 1024, 1), 'export')
                with Zr(folder, 'a') as zr:
                    opened = zr.do('import')
                    again = zr.do(*['write 1 0 7a', 'sync'] * 100)
                    each.append((first.processor * 1e3, opened.processor * 1e3, again.processor / 100 * 1e6,
                                 zr.memory('VmHWM') / MIB))
        for index, line in enumerate(made):
            line.add(each[1 + index // 4][index % 4], each[0][index % 4])
    return made


def allocate(runs, memory, disk):
    """One unit after another from the allocator, on devices of 64 MiB, 16 GiB and 128 GiB."""
    devices = (('64 MiB', 15232, 200, 2000), ('16 GiB', 4193152, 1, 8), ('128 GiB', 33553280, 1, 1))
    allocator = built('zr_bench')
    made = []
    for full, state in ((0, 'empty'), (1, '95% full')):
        rows = [row('allocate, %s, %s' % (name, state), '64 MiB, %s' % state, 'ns', least=0.5) for name, *_ in devices[1:]]
        for _ in range(runs):
            each = []
            for name, units, *rounds in devices:
                _, out = run_alone([allocator, str(units), str(full), str(rounds[full])])
                count, spent = map(int, out.split())
                each.append(spent / count)
            for line, cost in zip(rows, each[1:]):
                line.add(cost, each[0])
        made += rows
    return made


# Of each nine blocks of one unit the first is punched. The commits behind it take some of what is freed for blocks of their
# own: of six holes about five are left, so that many more are made than extents are wanted.
HELD = 8
ROUNDS = 1000

# The pool of few extents has that many times nine blocks: enough for an import to fill the cache.
FEW = 1200

# How many times nine blocks the pool has whose only device is removed, for the mapping's memory.
MAPPED = 16384


def scattered(folder, size, blocks, punched):
    """Makes a pool of so many blocks of one unit, of which the first of each nine is punched, so many times."""
    with Zr(folder, 'a:%d' % size) as zr:
        zr.do('create p 1 a', 'make 1 1', *fills(1, blocks, 1))
        zr.do(*['punch 1 %d %d' % (UNIT * (HELD + 1) * k, UNIT) for k in range(punched)], 'export')


def imported(folder, blocks):
    """Of a pool in a folder: what an import, each of the rounds, a `write` alone and a `drop` cost, and the memory.

    What an open pool holds at rest is read of a process whose C library gives back what is freed; else what an import
    needed on its way would count.
    """
    with Zr(folder, 'a', env=dict(os.environ, MALLOC_MMAP_THRESHOLD_='65536', MALLOC_TRIM_THRESHOLD_='65536')) as zr:
        zr.do('import')
        rest = zr.memory('VmRSS')
    with Zr(folder, 'a') as zr:
        opened = zr.do('import')
        most = zr.memory('VmHWM')
        rounds, write = rounds_on(zr, blocks), writes_on(zr)
        dropped = zr.do('drop 1')
    return opened, rounds, write, dropped, rest, most


def commits(runs, memory, disk):
    """What a commit writes, and what work and memory cost on a pool of many extents, beside one of few extents."""
    holes = EXTENTS * 6 // 5
    blocks, few = holes * (HELD + 1), FEW * (HELD + 1)
    name, beside = '%d extents' % EXTENTS, 'of few extents'
    mean = row('units a commit writes, %s, mean' % name, '64', 'units', least=1)
    median = row('units a commit writes, %s, median' % name, '32', 'units', least=1)
    opened = row('import, %s' % name, READ, 'ms')
    linear = row('import, a unit read, %s' % name, beside, 'us', least=0.5)
    both = row('write and sync, %s' % name, beside, 'us', least=0.5)
    alone = row('write, %s' % name, beside, 'us', least=0.5)
    dropped = row('drop, a block, %s' % name, beside, 'us', least=0.5)
    rest = row('memory of an open pool, an extent', '64', 'bytes', least=1)
    most = row('memory of an import, an extent', '64', 'bytes', least=1)
    with Folder(memory) as folder:
        scattered(folder, device(blocks, 1), few, 0)
        one = imported(folder, few)
    with Folder(memory) as folder:
        scattered(folder, device(blocks, 1), blocks, holes)
        many = imported(folder, blocks)
        bound = bound_read(folder, many[0])
    written = [cost.written / UNIT for cost in many[1]]
    mean.add(statistics.mean(written), 64)
    median.add(statistics.median(written), 32)
    opened.add(many[0].processor * 1e3, bound.processor * 1e3)
    linear.add(*(cost.processor / (cost.read / UNIT) * 1e6 for cost in (many[0], one[0])))
    one_time, many_time = (statistics.median(cost.processor for cost in each[1]) for each in (one, many))
    both.add(many_time * 1e6, one_time * 1e6)
    alone.add(many[2] * 1e6, one[2] * 1e6)
    dropped.add(many[3].processor / blocks * 1e6, one[3].processor / few * 1e6)
    rest.add((many[4] - one[4]) / EXTENTS, 64)
    most.add((many[5] - one[5]) / EXTENTS, 64)
    return [mean, median, opened, linear, both, alone, dropped, rest, most]


def rounds_on(zr, blocks):
    """The cost of each of the rounds: a `write` of a block that stands, anywhere, and a `sync`."""
    anywhere = random.Random(1)
    each = []
    for _ in range(ROUNDS):
        block = anywhere.randrange(blocks // (HELD + 1)) * (HELD + 1) + 1 + anywhere.randrange(HELD)
        each.append(zr.do('write 1 %d 7a' % (UNIT * block), 'sync'))
    return each


def writes_on(zr):
    """The processor time of a `write` of a whole block that the open group has."""
    zr.do('sync', 'write 1 %d 7a' % UNIT)
    lines = ['write 1 %d %s' % (UNIT, '7a' * UNIT)] * 200
    return zr.do(*lines).processor / len(lines)


def moved(zr, index):
    """Takes the steps of the removal of a device to its end: the cost, and how many units were copied."""
    cost, units = Cost(), 0
    while True:
        answer, step = zr.send(['step evac'] * 16 if units % 4096 == 0 else ['step evac'])
        cost += step
        for line in answer.splitlines():
            if line == 'gone %d' % index:
                return cost, units
            if line.startswith('copied '):
                units += int(line.split()[1])
            elif line != 'refused 19 nothing to do':
                raise Wrong(line)


def evac(runs, memory, disk):
    """The steps that move 896 MiB off a device of 1 GiB, beside `dd` of as many bytes between the same files. The device that takes the
    copies was written whole before, so that both find its blocks made; or it is new, and `dd` goes to another new file."""
    made = row('step evac to gone, 1 GiB, on a disk', 'dd bs=1M conv=fdatasync', 'MiB/s', least=0.8)
    fresh = row('step evac, to a new device', 'dd, to a new file', 'MiB/s')
    for _ in range(runs):
        for shown, was_written, target in ((made, True, 'b'), (fresh, False, 'c')):
            with Folder(disk) as folder:
                for name in 'bc':
                    with open(os.path.join(folder, name), 'wb') as it:
                        it.truncate(2048 * MIB)
                if was_written:
                    run_alone(['dd', 'if=/dev/zero', 'of=' + os.path.join(folder, 'b'), 'bs=1M', 'count=2048', 'conv=fdatasync,notrunc'])
                with Zr(folder, 'a:%d' % (1024 * MIB), 'b') as zr:
                    zr.do('create p 1 a', 'make 1 32', *fills(1, 7168, 32), 'sync', 'add b', 'remove a')
                    cost, units = moved(zr, 0)
                    zr.do('export')
                bound, _ = run_alone(['dd', 'if=' + os.path.join(folder, 'a'), 'of=' + os.path.join(folder, target), 'bs=1M',
                                      'count=%d' % (units * UNIT // MIB), 'conv=fdatasync,notrunc'])
                total = units * UNIT / MIB
                shown.add(total / cost.clock, total / bound.clock)
    return [made, fresh]


def chain(runs, memory, disk):
    """`read` of blocks that lie behind three devices that are gone, beside that of blocks that lie where they were put."""
    count = 4096
    made = row('read, 1-unit blocks, behind three devices', 'read of as many', 'us', least=0.5)
    for _ in range(runs):
        each = []
        for others in ((), ('b', 'c', 'd')):
            with Folder(memory) as folder:
                with Zr(folder, *('%s:%d' % (name, 64 * MIB) for name in ('a',) + others)) as zr:
                    zr.do('create p 1 a', 'make 1 1', *fills(1, count, 1))
                    for index, name in enumerate(others):
                        zr.do('add ' + name, 'remove ' + 'abc'[index])
                        moved(zr, index)
                    zr.do('export')
                with Zr(folder, *('a',) + others) as zr:
                    zr.do('import')
                    each.append(zr.do(*['read 1 %d 4096' % (k * UNIT) for k in range(count)]).processor / count * 1e6)
        made.add(each[1], each[0])
    return [made]


def mapped(folder, size, blocks, punched):
    """Of a pool whose only device was removed: the entries of its mapping, and what the program has of memory with it open."""
    scattered(folder, size, blocks, punched)
    with Zr(folder, 'a', 'b:%d' % size) as zr:
        zr.do('import', 'add b', 'remove a')
        moved(zr, 0)
        entries = sum(line.startswith('entry ') for line in zr.send(['map 0'])[0].splitlines())
        zr.do('export')
    with Zr(folder, 'a', 'b', env=dict(os.environ, MALLOC_MMAP_THRESHOLD_='65536', MALLOC_TRIM_THRESHOLD_='65536')) as zr:
        zr.do('import')
        return entries, zr.memory('VmRSS')


def mapping(runs, memory, disk):
    """What an open pool has of memory for the mapping of a device that is gone: one of many short entries beside one of few long ones."""
    made = row('memory of a mapping, an entry', '40', 'bytes', least=1)
    blocks = MAPPED * (HELD + 1)
    each = []
    for punched in (MAPPED, 0):
        with Folder(memory) as folder:
            each.append(mapped(folder, device(blocks, 1), blocks, punched))
    made.add((each[0][1] - each[1][1]) / (each[0][0] - each[1][0]), 40)
    return [made]


def generated(runs, memory, disk):
    """A generated run with two rounds of steps behind each line, beside the digests and the writes that it makes."""
    made = row('--gen 7:2000 --auto 2', 'digest and dd of its bytes', 'ms', least=0.5)
    for _ in range(runs):
        with Folder(memory) as folder:
            told = os.path.join(folder, 'io')
            words = PROGRAM + ['--gen', '7:2000', '--auto', '2'] + ['%s:%d' % (name, 64 * MIB) for name in 'abc']
            child = subprocess.Popen(['sh', '-c', '"$@"; cat /proc/$$/io > "$0"', told] + words, cwd=folder,
                                     stdin=subprocess.DEVNULL, stdout=subprocess.DEVNULL)
            _, status, usage = os.wait4(child.pid, 0)
            child.returncode = os.waitstatus_to_exitcode(status)
            if child.returncode != 0:
                raise Wrong('a generated run ended with status %d' % child.returncode)
            with open(told) as lines:
                io = dict(line.split(': ') for line in lines.read().splitlines())
            done = Cost(read=int(io['rchar']), written=int(io['wchar']))
            bound = bound_read(folder, done) + digest(UNIT, done.written / UNIT) + put(folder, UNIT, done.written // UNIT)
        made.add((usage.ru_utime + usage.ru_stime) * 1e3, bound.processor * 1e3)
    return [made]


# --- The chart ---------------------------------------------------------------------------------------------------------

def chart():
    """Each ratio as a bar, `|` where its aim is."""
    wide = 40
    print('\nhow much of the bound is reached, a sign for each %g of it; `|` is the aim, `>` goes on' % (2 / wide))
    for made in ROWS:
        length = min(wide, round(made.ratio() * wide / 2))
        bar = list(('#' * length).ljust(wide + 1))
        if made.ratio() > 2:
            bar[wide] = '>'
        if made.least is not None:
            bar[round(made.least * wide / 2)] = '|'
        print('%-46s %-28s %s %s' % (made.name, made.bound, ''.join(bar), share(made.ratio())))


def machine():
    """The machine in one line."""
    with open('/proc/cpuinfo') as told:
        model = re.search(r'model name\s*:\s*(.*)', told.read()).group(1)
    with open('/proc/meminfo') as told:
        memory = int(re.search(r'MemTotal:\s+(\d+)', told.read()).group(1))
    with open('/proc/loadavg') as told:
        load = told.read().split()[0]
    return '%s, %d processors, %d GiB, Linux %s, load %s before the run' % (
        model, os.cpu_count(), round(memory / MIB), os.uname().release, load)


def built(crate):
    """Builds a program of the repository, and answers where it is."""
    place = os.path.join(TOP, 'crates', crate)
    program = os.path.join(place, 'out', crate)
    if subprocess.run(['rt', 'run'], cwd=place, stdin=subprocess.DEVNULL, stdout=subprocess.DEVNULL,
                      stderr=subprocess.DEVNULL).returncode not in (0, 1) or not os.access(program, os.X_OK):
        sys.exit('bench: %s is not built' % crate)
    return program


PARTS = {'fill': fill, 'sync': sync, 'flushes': flushes, 'read': read, 'whole': whole, 'idents': idents,
         'spans': spans, 'allocate': allocate, 'commits': commits, 'evac': evac, 'chain': chain, 'mapping': mapping,
         'generated': generated}


def main():
    global PROGRAM, DIGEST, EXTENTS
    words = argparse.ArgumentParser(description='Times zr beside its bounds.')
    words.add_argument('--runs', type=int, default=5, help='runs of each row, of which the median counts')
    words.add_argument('--extents', type=int, default=10000, help='extents of the pool of many, about 10 units each')
    words.add_argument('--memory', default='/dev/shm', help='a folder in memory, for device files')
    words.add_argument('--disk', default=None, help='a folder on a disk, for device files')
    words.add_argument('--program', default=None, help='the program, if it is not the one of this repository')
    words.add_argument('parts', nargs='*', help='of ' + ', '.join(PARTS))
    said = words.parse_args()
    EXTENTS = said.extents
    PROGRAM = said.program.split() if said.program else [built('zr_cli')]
    DIGEST = built('zr_digest')
    disk = said.disk or os.path.join(TOP, 'bench', 'out')
    os.makedirs(disk, exist_ok=True)
    print(machine() + '\n')
    print(LINE % ('row', 'bound', 'measured', 'bound', '', 'ratio', 'aim', ''))
    for name in said.parts or PARTS:
        for made in PARTS[name](said.runs, said.memory, disk):
            show(made)
    chart()


if __name__ == '__main__':
    main()
