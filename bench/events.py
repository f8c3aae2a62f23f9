#!/usr/bin/env python3
"""Makes the table of crates/zr_events: random lawful events over a space, and what the space is after each.

    bench/events.py            writes stdin and stdout of crates/zr_events
    bench/events.py full       prints what the space is after each event in full, as the program does with the word `full`

The model is plain: of each device an array with what each unit is used for, and a list of entries for its mapping. Its rules
stand at its functions, and it has no code in common with the program. `rt run` in crates/zr_events holds the program's answers
against the table, as the gate does.

What a unit is used for:
    .  free                     n  a block of the open group     L  a block of an earlier group
    c  a copy of the open group C  an earlier copy               K  kept for the checkpoint alone
    d  freed by the open group  1  freed by the last group       2  freed by the group before
    m  metadata                 s  metadata of the saved root    x, y, z  the same as d, 1, 2 of metadata
"""
import os
import sys

ROOT = os.path.join(os.path.dirname(os.path.abspath(__file__)), '..', 'crates', 'zr_events')
METASLAB = 512
HELD = 'nLcCK'


def runs(units, wanted):
    """The maximal runs of the units that are one of those wanted."""
    found = []
    for u, use in enumerate(units):
        if use not in wanted:
            continue
        if found and found[-1][0] + found[-1][1] == u:
            found[-1][1] += 1
        else:
            found.append([u, 1])
    return found


def runs_of(numbers):
    """The maximal runs of numbers."""
    found = []
    for u in sorted(numbers):
        if found and found[-1][0] + found[-1][1] == u:
            found[-1][1] += 1
        else:
            found.append([u, 1])
    return found


def spelled(extents):
    return ''.join(' %d+%d' % (a, n) for a, n in extents)


class Nowhere(Exception):
    """A unit leads to no unit of a device that is there."""


class Device:
    def __init__(self, added, units):
        self.state, self.added, self.gone = 'on', added, 0
        self.units = units
        self.use = ['.'] * units
        self.entries = []       # [source, length, device, destination, count of obsolete units]
        self.fresh = set()      # obsolete units that are not counted

    def free(self):
        return self.use.count('.')

    def entry_at(self, u):
        for entry in self.entries:
            if entry[0] <= u < entry[0] + entry[1]:
                return entry
        raise Nowhere()

    def has_entry(self, u):
        return any(e[0] <= u < e[0] + e[1] for e in self.entries)

    def copy_of(self, u):
        entry = self.entry_at(u)
        return entry[2], entry[3] + u - entry[0]

    def pieces(self, start, length):
        """Where the units of an extent lead, a piece for each entry."""
        found = []
        last = None
        for u in range(start, start + length):
            entry = self.entry_at(u)
            if entry is last:
                found[-1][2] += 1
            else:
                found.append([entry[2], entry[3] + u - entry[0], 1])
            last = entry
        return found


class Model:
    def __init__(self, policy):
        self.policy = policy
        self.devs = []
        self.ckpt = None            # None, ('held', txg) or ('discarding',)
        self.cond = None            # [device, entries worked through, entries kept]
        self.live = []              # addresses of blocks: (device, start, length, birth)
        self.meta = []              # addresses of metadata

    # ---- what is where

    def leaving(self):
        for i, d in enumerate(self.devs):
            if d.state == 'leaving':
                return i
        return None

    def uncopied(self):
        """The units of the leaving device that are to be copied yet."""
        i = self.leaving()
        if i is None:
            return []
        d = self.devs[i]
        return [u for u in range(d.units) if d.use[u] in HELD and not d.has_entry(u)]

    def serving(self):
        return [d for d in self.devs if d.state == 'on']

    def free(self):
        return sum(d.free() for d in self.serving())

    def visits(self, dev, start, length, split=0):
        """The hops and pieces of an address, in order."""
        if dev >= len(self.devs):
            raise Nowhere()
        d = self.devs[dev]
        if d.state != 'gone':
            if start + length > d.units:
                raise Nowhere()
            return [('piece', split, dev, start, length)]
        found = [('hop', 0, dev, start, length)]
        for to, place, n in d.pieces(start, length):
            found += self.visits(to, place, n, split)
            split += n
        return found

    def touch(self, dev, start, length):
        """How many pieces a free would touch."""
        count = 0
        for kind, _, i, a, n in self.visits(dev, start, length):
            count += 1
            d = self.devs[i]
            if kind == 'piece' and d.state == 'leaving':
                there = [u for u in range(a, a + n) if d.has_entry(u)]
                count += len({id(d.entry_at(u)) for u in there})
        return count

    def is_live(self, dev, start, length):
        """Whether a free may be asked for.

        It may where the address leads to as many units in use by blocks, and passes no unit that is obsolete and not counted
        yet, and where no entry on the way then has more obsolete units than units.
        """
        if length == 0:
            return False
        try:
            visits = self.visits(dev, start, length)
        except Nowhere:
            return False
        ends = [(i, u) for kind, _, i, a, n in visits if kind == 'piece' for u in range(a, a + n)]
        passed = {(i, u) for kind, _, i, a, n in visits if kind == 'hop' for u in range(a, a + n)}
        if len(set(ends)) < len(ends):
            return False
        if any(self.devs[i].use[u] not in 'nL' for i, u in ends):
            return False
        if any(u in self.devs[i].fresh for i, u in passed):
            return False
        for i, d in enumerate(self.devs):
            if d.state != 'gone':
                continue
            for src, n, _, _, count in d.entries:
                units = range(src, src + n)
                if count + sum(u in d.fresh or (i, u) in passed for u in units) > n:
                    return False
        return True

    # ---- allocations

    def place(self, want):
        """Where an allocation of so many units goes, or the length of the longest free run.

        The devices in service are tried by falling numbers of free units, the lower index first among equals, and of each
        device its metaslabs upward. In the first one that has a free run of so many units the policy names a run: the lowest
        that fits, or the shortest one and then the lowest. No run goes past the end of a metaslab.
        """
        order = sorted(range(len(self.devs)), key=lambda i: (-self.devs[i].free(), i))
        longest = 0
        for i in order:
            d = self.devs[i]
            if d.state != 'on':
                continue
            for slab in range(0, d.units, METASLAB):
                free = runs(d.use[slab:slab + METASLAB], '.')
                longest = max([longest] + [n for _, n in free])
                fit = [(n if self.policy == 'best' else 0, a) for a, n in free if n >= want]
                if fit:
                    return i, slab + min(fit)[1]
        return longest

    def take(self, want, use):
        """Takes units for this use. The answer is their place, or the length of the longest free run."""
        at = self.place(want)
        if isinstance(at, tuple):
            i, a = at
            self.devs[i].use[a:a + want] = [use] * want
        return at

    def alloc(self, want, birth):
        at = self.take(want, 'n')
        if not isinstance(at, tuple):
            return 'none %d' % at
        self.live.append((at[0], at[1], want, birth))
        return 'at %d %d' % at

    def alloc_meta(self, want):
        at = self.take(want, 'm')
        if not isinstance(at, tuple):
            return 'none %d' % at
        self.meta.append((at[0], at[1], want))
        return 'at %d %d' % at

    # ---- what is given back

    def give(self, i, u):
        """A block's unit has no use any more. What the open group took is free at once, and all else two commits later."""
        use = self.devs[i].use
        use[u] = {'n': '.', 'c': '.', 'L': 'd', 'C': 'd', 'K': 'd'}[use[u]]

    def free_unit(self, i, u, keeps):
        """The unit of a block that is freed.

        It is kept where a checkpoint may have it. On a device that is leaving a unit that was copied is obsolete from then on,
        and its copy goes with it.
        """
        d = self.devs[i]
        if keeps:
            d.use[u] = 'K'
            return
        if d.state == 'leaving' and d.has_entry(u):
            d.fresh.add(u)
            self.give(*d.copy_of(u))
        self.give(i, u)

    def free_block(self, dev, start, length, birth):
        """A checkpoint may have what was born by its group. What is passed on a device that is gone is obsolete."""
        if not self.is_live(dev, start, length):
            return 'no'
        keeps = self.ckpt is not None and self.ckpt[0] == 'held' and birth <= self.ckpt[1]
        for kind, _, i, a, n in self.visits(dev, start, length):
            for u in range(a, a + n):
                if kind == 'hop':
                    self.devs[i].fresh.add(u)
                else:
                    self.free_unit(i, u, keeps)
        self.live = [b for b in self.live if b[:3] != (dev, start, length)]
        return 'freed'

    def drop(self, dev, start, length):
        uses = set(self.devs[dev].use[start:start + length])
        if uses not in ({'m'}, {'s'}) or start + length > self.devs[dev].units:
            return 'no'
        self.devs[dev].use[start:start + length] = ['x'] * length
        self.meta = [m for m in self.meta if m != (dev, start, length)]
        return 'dropped'

    def commit(self, reset):
        """What the group two before this one freed is free. At a reset all that was freed is."""
        step = {'n': 'L', 'c': 'C', 'd': '1', '1': '2', '2': '.', 'x': 'y', 'y': 'z', 'z': '.'}
        if reset:
            step = {'n': 'L', 'c': 'C', 'd': '.', '1': '.', '2': '.', 'x': '.', 'y': '.', 'z': '.'}
        for d in self.devs:
            d.use = [step.get(use, use) for use in d.use]
        return 'committed'

    # ---- removals

    def remove(self, i):
        """A device leaves while no other does and there is no checkpoint. It gives out no more units, and stays otherwise."""
        d = self.devs[i] if i < len(self.devs) else None
        if d is None or d.state != 'on' or self.leaving() is not None or self.ckpt or 'K' in d.use:
            return 'no'
        d.state = 'leaving'
        return 'leaving'

    def plan(self):
        """The next units to be copied, and their place: (start, length, device, destination).

        They are the lowest that are left, in a row and at most 256. Where there is no place for so many it is half of them,
        or half of that, down to one.
        """
        left = self.uncopied()
        start = left[0]
        length = 1
        while start + length in left and length < 256:
            length += 1
        while not isinstance(self.place(length), tuple):
            length //= 2
        return (start, length) + self.place(length)

    def copy(self, done):
        left = self.uncopied()
        if not left:
            return 'nothing'
        if len(left) > self.free():
            return 'full'
        start, length, i, a = self.plan()
        if done:
            self.devs[i].use[a:a + length] = ['c'] * length
            self.devs[self.leaving()].entries.append([start, length, i, a, 0])
        return '%s %d+%d %d %d' % ('copied' if done else 'failed', start, length, i, a)

    def cancel(self):
        """The copies are freed, but those of units that are marked, which went before. The device is in service again."""
        i = self.leaving()
        if i is None:
            return 'no'
        d = self.devs[i]
        for src, n, _, _, _ in d.entries:
            for u in range(src, src + n):
                if u not in d.fresh:
                    self.give(*d.copy_of(u))
        d.entries, d.fresh, d.state = [], set(), 'on'
        return 'cancelled %d' % i

    def finish(self, txg):
        """All is copied, and no metadata is in the way. The copies are blocks, and of the device its mapping is left."""
        i = self.leaving()
        if i is None or self.uncopied() or any(d.gone >= txg for d in self.devs if d.state == 'gone'):
            return 'no'
        if 'm' in self.devs[i].use or any('s' in d.use for d in self.devs):
            return 'no'
        d = self.devs[i]
        d.state, d.gone, d.use = 'gone', txg, []
        for other in self.devs:
            other.use = [{'c': 'n', 'C': 'L'}.get(use, use) for use in other.use]
        return 'gone %d' % i

    # ---- checkpoints

    def hold(self, txg):
        """The metadata of the current root is that of the saved one."""
        if self.leaving() is not None or any('s' in d.use for d in self.devs):
            return 'no'
        for d in self.devs:
            d.use = ['s' if use == 'm' else use for use in d.use]
        self.ckpt = ('held', txg)
        return 'held'

    def discard(self):
        if self.leaving() is not None:
            return 'no'
        self.ckpt = ('discarding',)
        return 'discarding'

    def step(self):
        """The lowest 64 kept extents are given back, those of the lowest device first. Where there are none it ends."""
        lowest = [(i, a, n) for i, d in enumerate(self.devs) for a, n in runs(d.use, 'K')][:64]
        for i, a, n in lowest:
            for u in range(a, a + n):
                self.give(i, u)
        if not lowest:
            self.ckpt = None
        return 'given %d' % sum(n for _, _, n in lowest)

    # ---- condensing

    def due(self):
        """The lowest device that is gone of which a quarter of the mapped units is obsolete and not counted yet."""
        for i, d in enumerate(self.devs):
            mapped = sum(e[1] for e in d.entries)
            if d.state == 'gone' and d.fresh and 100 * len(d.fresh) >= 25 * mapped:
                return i
        return None

    def condense(self):
        """The first step counts for each entry its obsolete units. Each step works through 64 entries, and keeps those that
        have a unit in use. The last one puts what was kept in the place of the mapping.
        """
        if self.cond is None:
            i = self.due()
            if i is None:
                return 'nothing'
            for u in self.devs[i].fresh:
                self.devs[i].entry_at(u)[4] += 1
            self.devs[i].fresh = set()
            self.cond = [i, 0, []]
        i, at, kept = self.cond
        entries = self.devs[i].entries
        new = [e for e in entries[at:at + 64] if e[4] < e[1]]
        self.cond = [i, min(at + 64, len(entries)), kept + new]
        if self.cond[1] < len(entries):
            return 'kept %d' % len(new)
        self.devs[i].entries = self.cond[2]
        self.cond = None
        return 'done'

    # ---- what is told

    def columns(self, d):
        allocated = sum(use in 'nLcCms' for use in d.use)
        deferred = sum(use in 'd12xyz' for use in d.use)
        return '%d %d %d %d' % (allocated, d.use.count('K'), deferred, d.free())

    def part(self, i, d):
        late1 = spelled(runs(d.use, '1')) + spelled(runs(d.use, 'y')).replace(' ', ' m')
        late2 = spelled(runs(d.use, '2')) + spelled(runs(d.use, 'z')).replace(' ', ' m')
        opened = spelled(runs(d.use, 'd')) + spelled(runs(d.use, 'x')).replace(' ', ' m')
        entries = ''.join(' %d+%d:%d:%d*%d' % tuple(e) for e in d.entries)
        lines = ['dev %d %s added %d units %d gone %d' % (i, d.state, d.added, d.units, d.gone),
                 ' held' + spelled(runs(d.use, HELD)), ' kept' + spelled(runs(d.use, 'K')), ' late1' + late1,
                 ' late2' + late2, ' entries' + entries, ' fresh' + spelled(runs_of(d.fresh)), ' freed' + opened,
                 ' copies' + spelled(runs(d.use, 'cC'))]
        return '\n'.join(lines) + '\n'

    def where(self, dev, start, length):
        try:
            visits = self.visits(dev, start, length)
        except Nowhere:
            return 'nowhere'
        text = ''
        for kind, split, i, a, n in visits:
            text += ' hop %d %d+%d' % (i, a, n) if kind == 'hop' else ' piece %d %d %d+%d' % (split, i, a, n)
        return 'touch %d%s' % (self.touch(dev, start, length), text)

    def whole(self):
        ckpt = 'clear' if self.ckpt is None else ' '.join(str(word) for word in self.ckpt)
        cond = 'none'
        if self.cond:
            cond = '%d at %d' % tuple(self.cond[:2]) + ''.join(' %d+%d:%d:%d*%d' % tuple(e) for e in self.cond[2])
        meta = [sum(d.use.count(use) for d in self.devs) for use in 'myz']
        turning = sum(d.use.count(use) for d in self.serving() for use in 'myz')
        return 'ckpt %s\ncond %s\nleft %d turning %d past %d kept %d free %d\n' % (
            ckpt, cond, len(self.uncopied()), turning, max(meta), sum(d.use.count('K') for d in self.devs), self.free())

    def full(self):
        text = ''.join(self.part(i, d) for i, d in enumerate(self.devs)) + self.whole()
        for dev, start, length, _ in self.live:
            text += 'block %d %d+%d %s\n' % (dev, start, length, self.where(dev, start, length))
        return text


def sum_of(text):
    """FNV-1a, 64 bits."""
    total = 0xcbf29ce484222325
    for byte in text.encode():
        total = (total ^ byte) * 0x100000001b3 % 2 ** 64
    return total


class Table:
    """Lines of events, and the lines that they are answered."""

    def __init__(self, full):
        self.full = full
        self.events, self.answers = [], []

    def say(self, line, answer, model):
        text = model.full()
        columns = ''.join(' | ' + model.columns(d) for d in model.devs)
        self.events.append(line)
        self.answers.append('%s%s | %x' % (answer, columns, sum_of(text)))
        if self.full:
            self.answers.append(text.rstrip('\n'))


class Draws:
    """A linear congruential generator."""

    def __init__(self, seed):
        self.state = seed

    def below(self, n):
        self.state = (self.state * 6364136223846793005 + 1442695040888963407) % 2 ** 64
        return (self.state >> 33) % n

    def of(self, items):
        return items[self.below(len(items))]


class Game:
    """A game of so many events from a number."""

    def __init__(self, table, seed, policy, sizes, longest):
        self.table, self.draws, self.longest = table, Draws(seed), longest
        self.model = Model(policy)
        self.txg = 2
        table.say(policy, 'pool', self.model)
        for units in sizes:
            self.add(units, 1)

    def say(self, line, answer):
        self.table.say(line, answer, self.model)

    def add(self, units, txg):
        self.model.devs.append(Device(txg, units))
        self.say('add %d %d' % (units, txg), 'dev %d' % (len(self.model.devs) - 1))

    def alloc(self):
        want = 1 + self.draws.below(self.longest)
        self.say('alloc %d' % want, self.model.alloc(want, self.txg))

    def meta(self):
        want = 1 + self.draws.below(3)
        self.say('meta %d' % want, self.model.alloc_meta(want))

    def free(self):
        if self.model.live:
            dev, start, length, birth = self.draws.of(self.model.live)
            self.say('free %d %d %d %d' % (dev, start, length, birth),
                     self.model.free_block(dev, start, length, birth))

    def drop(self):
        if self.model.meta:
            self.say('drop %d %d %d' % self.draws_meta(), self.model.drop(*self.chosen))

    def draws_meta(self):
        self.chosen = self.draws.of(self.model.meta)
        return self.chosen

    def end_group(self, reset):
        self.say('reset' if reset else 'commit', self.model.commit(reset))
        self.txg += 1
        if self.draws.below(4) == 0:
            self.say('reopen', 'reopened')

    def commit(self):
        self.end_group(self.draws.below(6) == 0)

    def ask(self):
        """An address that may be a block's, or a part of one, or anything."""
        m = self.model
        if m.live and self.draws.below(2):
            dev, start, length, _ = self.draws.of(m.live)
            start += self.draws.below(2)
            length = max(1, length - self.draws.below(2))
        else:
            dev = self.draws.below(len(m.devs) + 1)
            start, length = self.draws.below(80), 1 + self.draws.below(6)
        answer = 'live ' if m.is_live(dev, start, length) else 'not live '
        self.say('ask %d %d %d' % (dev, start, length), answer + m.where(dev, start, length))

    # ---- how a game begins

    def fill(self, blocks):
        for _ in range(blocks):
            self.alloc()
        self.end_group(False)

    def thin(self, period):
        """Frees a block of so many, so that what is left is in pieces."""
        for block in self.model.live[::period]:
            self.say('free %d %d %d %d' % block, self.model.free_block(*block))

    def scatter(self, blocks):
        self.fill(blocks)
        self.thin(2)
        self.end_group(False)

    def move(self, blocks):
        """All that the first device holds is copied, in more pieces than a step of condensing works through."""
        self.scatter(blocks)
        self.add(220, self.txg)
        self.say('remove 0', self.model.remove(0))
        while self.model.uncopied():
            self.copy()
            if self.draws.below(5) == 0:
                self.free()
            if self.draws.below(9) == 0:
                self.end_group(False)
        self.finish()
        self.thin(3)
        while self.model.cond or self.model.due() is not None:
            self.condense()
            self.free()

    def save(self, blocks):
        """More is kept in pieces than a step of a discard gives back."""
        self.fill(blocks)
        self.hold()
        self.thin(2)
        self.give_up()
        while self.model.ckpt:
            self.step()
            self.alloc()

    def squeeze(self, blocks):
        """Long extents go into short runs, and their mapping is asked after each free whether it is due."""
        self.fill(blocks)
        for k, block in enumerate(list(self.model.live)):
            if k % 9 in (0, 1, 2, 5):
                self.say('free %d %d %d %d' % block, self.model.free_block(*block))
        self.end_group(True)
        self.add(60, self.txg)
        for want in (1, 2, 3, 3, 6, 9, 9):
            self.say('alloc %d' % want, self.model.alloc(want, self.txg))
        self.say('remove 1', self.model.remove(1))
        while self.model.uncopied():
            self.copy()
        self.finish()
        for block in [b for b in self.model.live if b[0] == 1]:
            self.say('free %d %d %d %d' % block, self.model.free_block(*block))
            self.say('condense', self.model.condense())

    # ---- removals

    def held_on(self, i):
        return sum(self.model.devs[i].use.count(use) for use in HELD)

    def remove(self):
        """Removes the device in service that holds most, or any."""
        m = self.model
        on = [i for i, d in enumerate(m.devs) if d.state == 'on']
        i = self.draws.of(on) if self.draws.below(4) == 0 else max(on, key=self.held_on)
        if m.leaving() is not None or m.ckpt:
            if self.draws.below(6) == 0:
                self.say('remove %d' % i, m.remove(i))
        elif len(on) > 1 and m.free() - m.devs[i].free() >= self.held_on(i):
            self.say('remove %d' % i, m.remove(i))

    def copy(self):
        if self.model.uncopied() or self.draws.below(12) == 0:
            done = self.draws.below(8) > 0
            self.say('copy' if done else 'fail', self.model.copy(done))

    def cancel(self):
        if self.model.leaving() is not None and self.draws.below(3) == 0:
            self.say('cancel', self.model.cancel())

    def finish(self):
        """Ends the removal once all is copied."""
        m = self.model
        i = m.leaving()
        if i is None or m.uncopied():
            return
        for dev, start, length in [a for a in m.meta if a[0] == i]:
            self.say('drop %d %d %d' % (dev, start, length), m.drop(dev, start, length))
        self.say('finish %d' % self.txg, m.finish(self.txg))
        if self.draws.below(3):
            self.end_group(True)
        if len(m.devs) < 7 and len(m.serving()) < 3:
            self.add(40 + self.draws.below(120), self.txg)

    # ---- checkpoints

    def hold(self):
        m = self.model
        if m.ckpt or m.leaving() is not None:
            return
        self.end_group(False)
        self.say('hold %d' % (self.txg - 1), m.hold(self.txg - 1))
        self.saved, m.meta = m.meta, []

    def discard(self):
        if self.model.ckpt and self.model.ckpt[0] == 'held' and self.draws.below(3) == 0:
            self.give_up()

    def give_up(self):
        """The checkpoint is given up, with the metadata of its root."""
        m = self.model
        self.say('discard', m.discard())
        for dev, start, length in self.saved:
            self.say('drop %d %d %d' % (dev, start, length), m.drop(dev, start, length))

    def step(self):
        if self.model.ckpt and self.model.ckpt[0] == 'discarding':
            self.say('step', self.model.step())

    def condense(self):
        if self.model.cond or self.model.due() is not None or self.draws.below(8) == 0:
            self.say('condense', self.model.condense())

    # ---- the whole

    def play(self, count, weights):
        """Events by their weights, up to so many lines of the table."""
        while len(self.table.events) < count:
            pick = self.draws.below(sum(weight for _, weight in weights))
            for name, weight in weights:
                if pick < weight:
                    getattr(self, name)()
                    break
                pick -= weight


WEIGHTS = [('alloc', 24), ('meta', 5), ('free', 21), ('drop', 4), ('commit', 6), ('ask', 10), ('remove', 4), ('copy', 22),
           ('cancel', 1), ('finish', 6), ('hold', 1), ('discard', 2), ('step', 3), ('condense', 4)]

GAMES = [
    # number, policy, units of the devices, longest block, how it begins and with how many blocks, events behind that
    (1, 'first', [90, 60], 4, 'scatter', 20, 400),
    (2, 'best', [90, 70, 50], 6, 'scatter', 20, 400),
    (3, 'first', [120, 130, 110], 1, 'scatter', 100, 400),
    (4, 'best', [40, 40, 40], 3, 'fill', 20, 400),
    (5, 'first', [600, 590], 16, 'scatter', 60, 300),
    (6, 'best', [150, 140, 30], 2, 'scatter', 60, 400),
    (7, 'first', [300, 20], 1, 'move', 160, 300),
    (8, 'first', [200, 20], 1, 'save', 160, 300),
    (9, 'first', [100], 1, 'squeeze', 96, 150),
]


def table(full):
    made = Table(full)
    for seed, policy, sizes, longest, beginning, blocks, events in GAMES:
        game = Game(made, seed, policy, sizes, longest)
        getattr(game, beginning)(blocks)
        game.play(len(made.events) + events, WEIGHTS)
    return made


def main():
    full = 'full' in sys.argv[1:]
    made = table(full)
    if full:
        print('\n'.join(made.answers))
        return
    for name, lines in (('stdin', made.events), ('stdout', made.answers)):
        with open(os.path.join(ROOT, name), 'w', encoding='utf-8') as file:
            file.write('\n'.join(lines) + '\n')


main()
