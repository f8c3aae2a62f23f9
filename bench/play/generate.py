"""Makes the scripts of this folder, each from a number.

generate.py > stdin          those of this folder's stdin
generate.py removals         those in which devices are given up
generate.py checkpoints      those in which pools go back: to a checkpoint, or to a recent group
generate.py reads            those in which devices are given up, each to be looked at for reads of a device that is gone
generate.py copies           the same, to be looked at for how many steps copy: a `status` behind each `remove` and `import`
generate.py sums < answers   a line for each script that was answered: the SHA-256 of its answers
"""
import hashlib, random, sys
SIZES = [1, 1, 2, 4, 8, 16, 32]
def script(seed, n=30):
    r = random.Random(seed)
    ndev = r.choice([1, 1, 2, 2, 3])
    names = ['a', 'b', 'c'][:ndev]
    size = {x: r.choice([8388608, 8388608, 8392704, 9437184, 16777216]) for x in names}
    if seed % 23 == 0: size[names[-1]] = 8126464
    words = ['%s:%d' % (x, size[x]) for x in names]
    kind = seed % 4      # 0: mixed, 1: fill up, 2: full groups, 3: far and sparse
    L = []
    first = names[:r.randint(1, ndev)]
    if seed % 11 == 0: L.append(r.choice(['status', 'make 1 1', 'import', 'export', 'add a', 'list']))
    L.append('create p%d %d %s' % (seed, seed, ' '.join(first)))
    rest = [x for x in names if x not in first]
    ids = {}
    def pick():
        if ids and r.random() < .93: return r.choice(sorted(ids))
        return r.choice([0, 1, 2, 15, 16, 17, 300, 16000, 65536])
    for _ in range(n):
        if len(ids) < 2 and r.random() < .7 or r.random() < .08:
            i = r.choice([0, 1, 2, 15, 16, 17, 300, 16000] + sorted(ids))
            un = r.choice(SIZES) if kind != 1 else r.choice([8, 16, 32])
            if r.random() < .05: un = r.choice([0, 3, 33]); 
            if r.random() < .05: i = 65536
            L.append('make %d %d' % (i, un))
            if un in SIZES and i < 65536: ids.setdefault(i, un)
            continue
        i = pick(); un = ids.get(i, 1); u = un * 4096
        far = [0, 0, 1, 2, 5, 31, 32, 33]
        if kind == 3: far += [63, 64, 500, 958]
        off = r.choice(far) * u + r.choice([0, 0, 0, 1, 4094, u - 1])
        k = r.randrange(100)
        if k < 22:
            ln = r.choice([1, 2, 5, 20, 60])
            L.append('write %d %d %s' % (i, off, bytes(r.choice([0, r.randrange(256)]) for _ in range(ln)).hex()))
        elif k < 50:
            lens = [1, 4096, u, u, 3 * u, 20 * u]
            if kind == 1: lens = [u, 16 * u, 40 * u, 64 * u]
            if kind == 2: lens = [u, 30 * u, 33 * u, 63 * u, 64 * u, 65 * u]
            L.append('fill %d %d %d %d' % (i, off, r.choice(lens), r.choice([0, 1, 65, 255, 7, 9])))
        elif k < 58:
            L.append('punch %d %d %d' % (i, off, r.choice([1, 4096, u, 3 * u, 33 * u, 64 * u, 0])))
        elif k < 62:
            L.append('drop %d' % i); ids.pop(i, None)
        elif k < 70:
            L.append('read %d %d %d' % (i, off, r.choice([1, 4, 30, 64, 4097, 0])))
        elif k < 74: L.append('sum %d' % i)
        elif k < 82: L.append('sync')
        elif k < 86: L += ['export', 'import']
        elif k < 88: L.append(r.choice(['import', 'create q 2 a', 'add z', 'add a']))
        elif k < 90 and rest: L.append('add ' + rest.pop())
        elif k < 93: L.append('list')
        elif k < 96: L.append('status')
        else: L.append('audit')
    L += ['list', 'status', 'audit'] + (['export'] if r.random() < .7 else [])
    return words, L


def short_runs(s):
    """A script in which free units lie in short runs."""
    r = random.Random(s)
    u = r.choice([8, 16]); dev = r.choice(['a:16777216', 'a:12582912'])
    L = ['create f %d a' % s, 'make 1 %d' % u, 'make 2 %d' % u]
    total = 2944 if '167' in dev else 1920
    n = total // (2 * u) - 2
    for k in range(n):
        if k > n // 2 and k % 5 == 0: L.append('sync')
        for i in (1, 2): L.append('fill %d %d %d %d' % (i, k * u * 4096, u * 4096, k % 250 + 1))
    L += ['sync', 'drop 1', 'sync', 'sync', 'sync', 'list', 'make 3 32', 'make 4 1']
    for k in range(14): L.append('fill 3 %d %d 7' % (k * 131072, 131072))
    L += ['fill 4 0 4096 1', 'status', 'sum 2', 'audit', 'export', 'import', 'sum 3', 'list']
    return [dev], L


def removals(seed, n=70):
    """A script in which devices are given up, with frees, checkpoints, ends of the program and upgrades beside."""
    r = random.Random(seed)
    ndev = r.choice([2, 2, 3, 3, 4])
    names = ['a', 'b', 'c', 'd'][:ndev]
    size = {x: r.choice([8388608, 8388608, 8392704, 9437184, 12582912, 16777216]) for x in names}
    words = ['%s:%d' % (x, size[x]) for x in names]
    if seed % 5 == 0: words = ['--auto', str(r.choice([1, 2, 3]))] + words
    first = names[:r.randint(1, ndev)]
    old = seed % 7 == 3
    L = ['create %sp%d %d %s' % ('-1 ' if old else '', seed, seed, ' '.join(first))]
    rest = [x for x in names if x not in first]
    full = seed % 3 == 0        # blocks of several units, up to refusals for room
    ids = {}
    for i in range(1, r.randint(2, 4)):
        un = r.choice([8, 16, 32, 4]) if full else r.choice([1, 1, 2, 4, 8])
        L.append('make %d %d' % (i, un)); ids[i] = un
        for k in range(r.randint(1, 4)):
            u = un * 4096
            L.append('fill %d %d %d %d' % (i, r.choice([0, 1, 5, 33]) * u, r.choice([u, 3 * u, 20 * u, 60 * u]), r.randrange(1, 256)))
    if seed % 4 == 1:           # many short extents, so many entries
        L += ['make 9 1', 'fill 9 0 262144 3', 'fill 9 262144 262144 4', 'fill 9 524288 262144 5']
        L += ['punch 9 %d 4096' % (k * 8192) for k in range(r.choice([20, 60, 90]))]
        ids[9] = 1
    if r.random() < .7: L.append('sync')

    def change():
        i = r.choice(sorted(ids)); un = ids[i]; u = un * 4096
        off = r.choice([0, 0, 1, 2, 5, 20, 31, 33, 40]) * u + r.choice([0, 0, 0, 1, 4094])
        k = r.randrange(100)
        if k < 35: L.append('punch %d %d %d' % (i, off, r.choice([1, u, 3 * u, 20 * u, 60 * u])))
        elif k < 70: L.append('fill %d %d %d %d' % (i, off, r.choice([1, u, u, 3 * u, 20 * u, 60 * u]), r.randrange(0, 256)))
        elif k < 78: L.append('write %d %d %s' % (i, off, bytes(r.randrange(256) for _ in range(5)).hex()))
        elif k < 84: L.append('sum %d' % i)
        elif k < 90: L.append('read %d %d %d' % (i, off, r.choice([1, 30, 64])))
        elif k < 94:
            L.append('drop %d' % i)
            if r.random() < .5: L.append('make %d %d' % (i, un))
            elif len(ids) > 1: ids.pop(i)
        else: L.append('sync')
    for _ in range(n):
        k = r.randrange(100)
        if k < 38: change()
        elif k < 47:
            L.append('remove ' + r.choice(names))
            if r.random() < .7: L += ['step evac'] * r.choice([1, 2, 3, 8, 140 if seed % 4 == 1 else 12])
        elif k < 67: L += ['step evac'] * r.choice([1, 1, 2])
        elif k < 68: L += ['step evac'] * (120 if seed % 4 == 1 else 10)
        elif k < 70: L.append('remove -s')
        elif k < 72: L.append('remove -n ' + r.choice(names))
        elif k < 76:
            if seed % 4 == 1 and 9 in ids: L.append('punch 9 %d %d' % (r.choice([0, 65536, 262144]), r.choice([40960, 131072, 262144])))
            L += ['step condense'] * r.choice([1, 2, 4])
        elif k < 79: L += ['export', r.choice(['import', 'import', 'import', 'import rewind', 'import txg %d' % r.randint(1, 12)]), 'import']
        elif k < 82 and rest: L.append('add ' + rest.pop())
        elif k < 84: L.append('checkpoint')
        elif k < 86: L.append('checkpoint -d')
        elif k < 88: L += ['step discard'] * r.choice([1, 2])
        elif k < 89: L.append('upgrade')
        elif k < 92: L.append('map %d' % r.randrange(4))
        elif k < 94: L.append('list')
        elif k < 96: L.append('status')
        elif k < 98: L.append('audit')
        else: L.append('sync')
    if r.random() < .5: L += ['step evac'] * 12
    L += ['list', 'status', 'audit'] + ['sum %d' % i for i in sorted(ids)] + ['map 0', 'map 1'] + (['export', 'import', 'list', 'audit'] if r.random() < .7 else [])
    return words, L


def condensing(s):
    """A script whose mappings have many entries, of which many become obsolete, over one removal or two."""
    r = random.Random(s)
    words = ['a:8388608', 'b:%d' % r.choice([8388608, 16777216]), 'c:16777216']
    L = ['create k%d %d a' % (s, s), 'make 9 1'] + ['fill 9 %d 262144 %d' % (k * 262144, k + 1) for k in range(5)]
    L += ['punch 9 %d 4096' % (k * 8192) for k in range(r.choice([70, 100, 150]))] + ['sync', 'add b', 'remove a', 'status']
    L += ['step evac'] * r.choice([60, 200]) + ['punch 9 0 40960'] * (s % 2) + ['step evac'] * 140 + ['map 0', 'status']
    for k in range(r.choice([4, 7])):
        L += ['punch 9 %d %d' % (k * 131072, r.choice([65536, 131072])), 'step condense', 'status']
        if r.random() < .5: L += [r.choice(['sync', 'export']), 'import', 'step condense']
    L += ['step condense'] * 4 + ['map 0', 'list', 'audit', 'sum 9', 'add c', 'remove b'] + ['step evac'] * 12
    L += ['map 0', 'map 1', 'fill 9 0 262144 7', 'drop 9', 'sync'] + ['step condense'] * 6 + ['map 0', 'map 1', 'list', 'status', 'audit', 'export', 'import', 'audit']
    return words, L


class Guess:
    """What a script has come to, if no line of it was refused for room: good enough to put lines where they are answered."""
    def __init__(self, r, seed, names, first):
        self.r, self.L, self.names = r, [], names
        self.old = seed % 3 == 0                    # a pool of the first version
        self.on, self.rest = list(first), [x for x in names if x not in first]
        self.cur, self.saved, self.leaving, self.ids = 1, None, None, {}
        self.L.append('create %sp%d %d %s' % ('-1 ' if self.old else '', seed, seed, ' '.join(first)))

    def say(self, *lines): self.L += lines

    def commit(self, line, groups=1):
        self.L.append(line); self.cur += groups

    def change(self):
        """A line that changes or reads an object."""
        r, i = self.r, self.r.choice(sorted(self.ids))
        u = self.ids[i] * 4096
        off = r.choice([0, 0, 1, 2, 5, 20, 31, 33]) * u + r.choice([0, 0, 0, 1, 4094])
        k = r.randrange(100)
        if k < 35: self.say('fill %d %d %d %d' % (i, off, r.choice([1, u, 3 * u, 20 * u, 60 * u]), r.randrange(256)))
        elif k < 60: self.say('punch %d %d %d' % (i, off, r.choice([1, u, 3 * u, 20 * u, 60 * u])))
        elif k < 72: self.say('write %d %d %s' % (i, off, bytes(r.randrange(256) for _ in range(5)).hex()))
        elif k < 80: self.say('drop %d' % i, 'make %d %d' % (i, self.ids[i]))
        elif k < 90: self.say('sum %d' % i)
        else: self.say('read %d %d %d' % (i, off, r.choice([1, 30, 64])))

    def reopen(self):
        """The pool is closed and opened: as it was, as it was at the checkpoint, or as a recent group left it."""
        r, k = self.r, self.r.randrange(100)
        rewinds = k < (55 if self.saved else 8)
        if k >= 70:
            for _ in range(r.choice([0, 1, 2, 2])): self.change(); self.commit('sync')
        self.commit('export')
        if rewinds:
            self.say('import rewind')
            if self.saved: self.cur += 1; self.on, self.old = list(self.saved[0]), self.saved[1]; self.saved = self.leaving = None
            else: self.say(r.choice(['import', 'import txg %d' % self.cur]))
        elif k < 70: self.say('import')
        else:
            for n in r.sample([3, 2, 2, 1, 1, 0, -1, r.randint(4, 9)], r.choice([1, 1, 2, 2, 3])): self.say('import txg %d' % max(self.cur - n, 0))
            self.cur += 1
            if r.random() < .6: self.say('import')

    def checkpoint(self):
        """A checkpoint is taken or given up."""
        r = self.r
        if not self.saved or r.random() < .1:
            if not self.saved and not self.leaving: self.saved = (list(self.on), self.old); self.cur += 2
            self.say('checkpoint')
            return
        if r.random() < .4:
            self.change()
            if self.old and r.random() < .6: self.old = False; self.commit('upgrade')
            elif r.random() < .5: self.change()
            return
        self.saved = None
        self.commit('checkpoint -d')
        for _ in range(r.choice([0, 0, 1, 2])): self.change()
        if r.random() < .5: self.say(r.choice(['checkpoint', 'checkpoint -d', 'remove ' + r.choice(self.names), 'remove -n ' + r.choice(self.names)]))
        self.say(*['step discard'] * r.choice([0, 1, 2, 2, 3]))

    def removal(self):
        """A device is given up, for a while or for good."""
        r = self.r
        if self.leaving:
            if r.random() < .4: self.commit('remove -s'); self.on.append(self.leaving); self.leaving = None
            else:
                self.say(*['step evac'] * r.choice([1, 2, 4]))
                if r.random() < .5: self.leaving = None; self.cur += 1
            return
        if len(self.on) == 1 and self.rest and r.random() < .9:
            self.commit('add ' + self.rest[0], 2); self.on.append(self.rest.pop(0))
        if len(self.on) == 1 and r.random() < .9:
            self.change()
            return
        if self.saved and r.random() < .6:
            self.saved = None
            self.commit('checkpoint -d')
            self.say('step discard', 'step discard')
        name = r.choice(self.on if r.random() < .9 else self.names)
        if name in self.on and len(self.on) > 1 and not self.saved: self.leaving = name; self.on.remove(name)
        self.commit('remove ' + name)
        self.say(*['step evac'] * r.choice([0, 1, 1, 2, 4]))
        if r.random() < .4: self.change()
        if self.leaving and r.random() < .3: self.commit('remove -s'); self.on.append(self.leaving); self.leaving = None
        if r.random() < .2: self.say(r.choice(['checkpoint', 'remove ' + r.choice(self.names)]))

    def other(self):
        """A line of another kind."""
        r, k = self.r, self.r.randrange(100)
        if k < 20 and self.rest:
            self.commit('add ' + self.rest[0], 2); self.on.append(self.rest.pop(0))
        elif k < 56 and self.old or k < 24: self.old = False; self.commit('upgrade')
        elif k < 60: self.say('step condense')
        elif k < 64: self.say('step discard')
        elif k < 70: self.say('checkpoint -d')
        elif k < 74: self.say('remove -s')
        else: self.say(r.choice(['list', 'status', 'audit', 'map %d' % r.randrange(3), 'remove -n ' + r.choice(self.names), 'step evac']))


def checkpoints(seed):
    """A script in which checkpoints are taken, given up and gone back to, and groups too, with removals before and after."""
    r = random.Random(seed)
    names = ['a', 'b', 'c'][:r.choice([1, 2, 2, 3, 3])]
    full = seed % 4 == 2        # small devices with little room
    size = {x: 8388608 if full else r.choice([8388608, 8388608, 8392704, 9437184, 12582912]) for x in names}
    words = ['%s:%d' % (x, size[x]) for x in names]
    if seed % 10 == 7: words = ['--auto', str(r.choice([1, 2]))] + words
    g = Guess(r, seed, names, names[:r.randint(1, len(names))])
    for i in range(1, r.randint(2, 4)):
        g.ids[i] = r.choice([16, 32, 32]) if full else r.choice([1, 1, 2, 4, 8])
        g.say('make %d %d' % (i, g.ids[i]))
        for _ in range(r.randint(1, 2)):
            u = g.ids[i] * 4096
            g.say('fill %d %d %d %d' % (i, r.choice([0, 1, 5, 33]) * u, r.choice([8, 12, 16] if full else [1, 3, 20, 60]) * u, r.randrange(1, 256)))
    end = r.randint(17, 30)
    while len(g.L) < end:
        k = r.randrange(100)
        if k < 30: g.change()
        elif k < 36: g.commit('sync')
        elif k < 56: g.checkpoint()
        elif k < 72: g.reopen()
        elif k < 86: g.removal()
        else: g.other()
    g.say('list', 'status', 'audit')
    g.reopen()
    g.say('list', 'audit', 'sum %d' % r.choice(sorted(g.ids)))
    return words, g.L


def checkpoints_and_condensing(s):
    """A script with more extents to discard, and more entries to condense, than one step takes, and a pool that goes back meanwhile."""
    r = random.Random(s)
    words = ['a:12582912', 'b:%d' % r.choice([12582912, 16777216]), 'c:8388608']
    holes = r.choice([70, 90, 140])
    last = 20 + (holes - 1) // 64       # the group that the `export` below commits
    L = ['create %sd%d %d a' % ('-1 ' if s % 3 == 0 else '', s, s), 'make 9 1'] + ['fill 9 %d 262144 %d' % (k * 262144, k + 1) for k in range(5)]
    L += ['sync', 'checkpoint'] + ['punch 9 %d 4096' % (k * 8192) for k in range(holes)] + ['status', 'checkpoint -d', 'checkpoint', 'step discard']
    L += ['step discard', 'status', 'fill 9 0 20480 8', 'step discard', 'step discard', 'checkpoint -d', 'add b', 'remove a', 'checkpoint']
    L += ['step evac'] * (holes + 14) + ['map 0'] + ['punch 9 %d 262144' % (65536 + k * 262144) for k in range(3)]
    L += ['sync', 'step condense', 'status', 'checkpoint', 'punch 9 851968 131072']
    L += ['step condense'] * r.choice([0, 1, 2]) + ['status', 'sync', 'step condense', 'export', r.choice(['import rewind', 'import rewind', 'import txg %d' % (last - 1), 'import txg %d' % (last - 2)])]
    L += ['import', 'status', 'map 0', 'list', 'audit', 'sum 9', 'punch 9 983040 131072'] + ['step condense'] * 3
    L += ['upgrade', 'checkpoint', 'drop 9', 'step condense', 'step condense', 'checkpoint -d', 'step discard', 'step discard', 'sync', 'status', 'map 0', 'list', 'audit']
    return words, L


def written_out(words, lines):
    """A script without rounds: their steps stand behind each line, so that each line has one answer."""
    if words[0] != '--auto': return words, lines
    steps = ['step evac', 'step discard', 'step condense'] * int(words[1])
    return words[2:], [it for line in lines for it in [line, *steps]]


def with_status(words, lines):
    """A script without rounds that asks for the status behind each `remove` and each `import`."""
    words, lines = written_out(words, lines)
    begins = lambda line: line.startswith(('remove ', 'import')) and not line.startswith('remove -')
    return words, [it for line in lines for it in [line, *['status'] * begins(line)]]


def removal_scripts():
    """The scripts in which devices are given up."""
    return (removals(s) if s % 25 else condensing(s) for s in range(1001, 1301))


def sums(answers):
    """The SHA-256 of the answers to each script: its replies, its status, and the digest of each device."""
    found, ended = [], False
    for line in answers:
        words = line.split(' ')
        if ended and not (len(words) == 2 and len(words[1]) == 65):
            found.append(hashlib.sha256()); ended = False
        elif not found: found.append(hashlib.sha256())
        found[-1].update(line.encode())
        ended = ended or words[0] == 'status' and len(words) == 2
    return [it.hexdigest() for it in found]


if __name__ == '__main__':
    if sys.argv[1:] == ['sums']:
        print('\n'.join(sums(sys.stdin)))
        sys.exit(0)
    made = {
        'checkpoints': (checkpoints(s) if s % 25 else checkpoints_and_condensing(s) for s in range(2001, 2301)),
        'removals': removal_scripts(),
        'reads': (written_out(*it) for it in removal_scripts()),
        'copies': (with_status(*it) for it in removal_scripts()),
        '': (script(s, 40) if s <= 200 else short_runs(s) for s in [*range(1, 201), 201, 202, 204]),
    }
    for words, lines in made[''.join(sys.argv[1:])]:
        if sys.argv[1:] in (['reads'], ['copies']): print('@' + sys.argv[1])
        print(' '.join(words))
        print('\n'.join(lines))
        print('====')
