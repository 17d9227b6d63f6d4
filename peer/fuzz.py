#!/usr/bin/env python3
"""fuzz.py SEED COUNT OUTDIR            writes COUNT random lawful scripts
fuzz.py compare PROGRAM SEED COUNT [order|seed]
                                     model against PROGRAM on such scripts, with
                                     `run --order` and `run --seed S` (or one of them)
fuzz.py legal PROGRAM SEED COUNT [run|seed]
                                     the history that PROGRAM prints for `run` (threads) or
                                     `run --seed S` is legal and its trees are the
                                     replay's, whatever the turns were; `run --order` too
fuzz.py badlines PROGRAM SEED COUNT   the same with scripts that are damaged in one place
fuzz.py judge SCRIPT OUTPUT STATUS   what PROGRAM wrote for one script is that of a legal history, whatever the
                                     turns were; or with status 12, a front of that of one
fuzz.py stats SEED COUNT             what the model answers on such scripts"""
import collections
import copy
import os
import random
import subprocess
import sys

HERE = os.path.dirname(os.path.abspath(__file__))
sys.path.insert(0, HERE)
import model
from model import Fail, Need, word

NAMES = [b'a', b'b', b'd', b'f', b'g', b'x', b'l']
ODD = [b' s', b'\xff', b'%', b'caf\xc3\xa9', b'...', b'a.b', b'~', b'\x7f', b'\n', b'=']
FLAGS = (['r'] * 10 + ['rd'] * 4 + ['w', 'b'] * 3 + ['wc', 'bc'] * 5 + ['bca', 'wa', 'ba', 'wt', 'bct', 'wcx',
         'bcx', 'rc', 'rcx', 'ra', 'rx', 'wd', 'bd', 'rt', 'rcd', 'wcd', 'bcxta', 'wcxtad', 'bta', 'wctd'])
WEIGHTS = dict(mkdir=9, rmdir=6, open=14, close=5, read=5, pread=3, write=6, pwrite=4, lseek=4, truncate=4,
               ftruncate=3, stat=6, lstat=3, fstat=2, readdir=6, unlink=8, rename=14, link=6, symlink=6,
               readlink=2, undelete=5, chdir=6, fchdir=3, statfs=4, mountmem=3, mountnull=4, mountunion=5,
               umount=4, umountforce=3, revoke=4)


class Gen:
    def __init__(self, rng):
        self.r = rng
        self.callers = rng.randint(1, 4)
        self.limits = None
        if rng.random() < 0.3:
            p = rng.randint(self.callers, self.callers + 2)
            f, m = rng.randint(1, 6), rng.randint(1, 9)
            low = 9 * (f + 6 * p + 3 * m)
            self.limits = (p, f, m, rng.choice([low, low, low, min(4096, low + 57), 4096]))
        self.job = model.Job(self.limits or model.DEFAULT_LIMITS, [])
        self.w = self.job.world
        self.lines = []
        self.points = []                    # paths on which something was mounted
        self.mems = []                      # those of memory mounts
        self.opened = []                    # paths that were opened

    # ---- one call on the model

    def call(self, c, name, *args, keep=True):
        """Runs the call; it stays in the script where `keep`, or it did well or left an inner entry."""
        text = ('%d %s' % (c, name)).encode()
        for a in args:
            text += b' ' + (word(a) if isinstance(a, bytes) else str(a).encode())
        line = model.read_call(text, self.w.callers)
        before = len(self.job.history)
        self.job.live[c] = line
        while not self.job.step(c):
            pass
        reply = self.job.history[-1][3]
        good = reply[0] != 'error'
        if not keep and not good and len(self.job.history) == before + 1:
            self.job.history.pop()
            return False
        self.lines.append(text)
        if good and name in ('mountmem', 'mountnull', 'mountunion'):
            self.points.append(args[-1])
            if name == 'mountmem':
                self.mems.append(args[-1])
        if good and name == 'open':
            self.opened.append(args[0])
        return good

    # ---- paths

    def name(self):
        return self.r.choice(ODD) if self.r.random() < 0.05 else self.r.choice(NAMES)

    def descend(self, c, kind):
        """(relative?, components, the place or None)"""
        r, w = self.r, self.w
        cwd = w.cwds[c]
        rel = r.random() < 0.3 and not cwd.dead and not w.mounts[cwd.place[1]].cut
        comps = []
        try:
            d = cwd.place if rel else w.enter(('M', 0, 1))
            if not rel and self.points and r.random() < 0.45:
                p = r.choice(self.points)
                if p[:1] == b'/':
                    comps = [x for x in p.split(b'/') if x]
                    d = w.walk(c, (True, comps), 'Follow')
            for _ in range(r.choice([0, 1, 1, 2, 2, 2, 3, 3, 4])):
                if not w.is_dir(d):
                    break
                if rel and r.random() < 0.15:
                    comps.append(b'..')
                    d = w.up(d)
                    continue
                names = w.visible(d)
                if not names:
                    break
                n = r.choice(names)
                comps.append(n)
                q = w.child(d, n)
                if w.kind(q) == 'link':
                    if r.random() < 0.5:
                        break
                    q = w.walk(c, (not rel, comps), 'Follow')
                d = w.enter(q)
            return rel, comps, d
        except (Need, Fail):
            return rel, comps, None

    def path(self, c, kind):
        """kind: dir, file, any, new (an absent name), white, open, mount, mem."""
        r, w = self.r, self.w
        if kind == 'mount' and self.points and r.random() < 0.9:
            return r.choice(self.points[-6:])
        if kind == 'mem' and self.mems and r.random() < 0.8:
            p = r.choice(self.mems[-4:])
            return p if r.random() < 0.7 else p + b'/' + self.name()
        if kind == 'open' and self.opened and r.random() < 0.7:
            return r.choice(self.opened[-6:])
        want = {'dir': 'dir', 'mount': 'dir', 'mem': 'dir', 'new': 'dir', 'white': 'dir',
                'file': 'file', 'open': 'file', 'lower': 'file'}.get(kind)
        for k in range(8):
            rel, comps, d = self.descend(c, kind)
            if kind == 'lower' and k < 7 and (d is None or w.bare(d)[0] != 'L'):
                continue
            if want is None or (d is not None and w.kind(d) == want) or r.random() < 0.1:
                if kind == 'white':
                    s, u = w.carrier(d) if d is not None and w.is_dir(d) else (0, 1)
                    node = w.stores[s].nodes[u]
                    white = [n for n in node.names if node.names[n] is None]
                    if not white:
                        continue
                    comps = comps + [r.choice(white)]
                break
        if kind in ('new', 'white') and (kind == 'new' or r.random() < 0.2):
            comps = comps + [self.name()]
        # decorations
        if r.random() < 0.08:
            comps.insert(r.randint(0, len(comps)), b'.')
        if r.random() < 0.08 and comps:
            i = r.randint(1, len(comps))
            comps[i:i] = [b'..', comps[i - 1]] if comps[i - 1] not in (b'.', b'..') else [b'..']
        if r.random() < 0.04:
            comps.insert(r.randint(0, len(comps)), b'..')
        if r.random() < 0.05:
            comps.append(self.name())
        sep = b'//' if r.random() < 0.04 else b'/'
        p = sep.join(comps)
        if rel:
            p = p or b'.'
        else:
            p = b'/' + p
        if r.random() < 0.07:
            p += b'/'
        if r.random() < 0.004:
            p = r.choice([b'', b'/a\0b', b'/' + b'n' * 256, b'/' + b'n' * 255, b'/.' * 512, b'/' + b'./' * 511])
        return p

    def fd(self, c, writes=False, kind=None):
        fds = [(fd, o) for (k, fd), o in self.w.opens.items() if k == c]
        good = [fd for fd, o in fds if (not writes or o.write)
                and (kind is None or o.dead or self.w.kind(o.place) == kind)]
        if good and self.r.random() < 0.85:
            return self.r.choice(good)
        if fds and self.r.random() < 0.8:
            return self.r.choice(fds)[0]
        return self.r.choice([0, 1, 2, 3, 31, 4294967295])

    def bytes(self):
        r = self.r
        k = r.random()
        if k < 0.05:
            return b''
        if k < 0.09:
            return bytes([r.choice(b'xyz')]) * r.choice([4096, 4097, 8193, 5000])
        if k < 0.092:
            return b'q' * r.choice([65536, 65537])
        if k < 0.2:
            return bytes(r.choice([0, 0, 1, 255, 37, 32, 65]) for _ in range(r.randint(1, 9)))
        return ''.join(r.choice('abcdefgh') for _ in range(r.randint(1, 6))).encode()

    def target(self, c):
        r = self.r
        k = r.random()
        if k < 0.06:
            return r.choice([b'', b'a\0', b't' * 1024, b'/' + b't' * 256, b'/', b'.', b'..', b'./', b'//'])
        if k < 0.25:
            return self.name()
        if k < 0.4:
            return b'../' + self.name()
        return self.path(c, r.choice(['any', 'dir', 'file', 'new']))

    # ---- one random call

    def candidate(self, c, name):
        r = self.r
        p = lambda kind: self.path(c, kind)
        if name == 'mkdir':
            return name, p(r.choice(['new'] * 6 + ['white', 'any']))
        if name == 'rmdir':
            return name, p(r.choice(['dir'] * 6 + ['any', 'new', 'mount']))
        if name == 'open':
            f = r.choice(FLAGS)
            return name, p(r.choice(['new', 'file', 'white', 'new'] if 'c' in f else
                                    ['dir', 'dir', 'any'] if 'd' in f else ['file', 'lower', 'lower', 'any']
                                    if 'w' in f or 'b' in f else ['file', 'lower', 'dir', 'any'])), f
        if name == 'close':
            return name, self.fd(c)
        if name == 'read':
            return name, self.fd(c, kind='file'), r.choice([0, 1, 3, 9, 64, 4096, 5000, 9000, 65536, 65537])
        if name == 'pread':
            return (name, self.fd(c, kind='file'), r.choice([1, 3, 9, 5000, 65536, 65537]),
                    r.choice([0, 1, 3, 4096, 1048575, 4294967295]))
        if name == 'write':
            return name, self.fd(c, True), self.bytes()
        if name == 'pwrite':
            return (name, self.fd(c, True), r.choice([0, 1, 2, 5, 4095, 10000, 1048570, 1048575, 1048576, 4294967295]),
                    self.bytes())
        if name == 'lseek':
            h = r.choice(['set', 'cur', 'end'])
            return name, self.fd(c), h, r.choice([0, 0, 1, 2, 5, -1, -2, -3, 100, 1048570, 1048576, 4294967295, -4294967295])
        if name == 'truncate':
            return name, p(r.choice(['file', 'lower', 'lower', 'any'])), r.choice([0, 1, 2, 5, 20, 5000, 1048576, 1048577])
        if name == 'ftruncate':
            return name, self.fd(c, True), r.choice([0, 1, 2, 5, 20, 5000, 1048576, 1048577])
        if name in ('stat', 'lstat'):
            return name, p(r.choice(['any', 'any', 'file', 'dir', 'new', 'open', 'mount', 'white']))
        if name == 'fstat':
            return name, self.fd(c)
        if name == 'readdir':
            return name, self.fd(c, kind='dir')
        if name == 'unlink':
            return name, p(r.choice(['file', 'lower', 'any', 'any', 'new', 'open']))
        if name in ('rename', 'link'):
            a = p(r.choice(['any', 'any', 'lower', 'dir']) if name == 'rename' else r.choice(['file', 'lower', 'any']))
            k = r.random()
            if k < 0.3 and b'/' in a.rstrip(b'/'):
                b = a.rstrip(b'/').rsplit(b'/', 1)[0] + b'/' + self.name()     # beside A
            elif k < 0.36 and name == 'rename':
                b = a + b'/' + self.name()                                     # into itself
            else:
                b = p(r.choice(['new', 'new', 'any', 'file', 'dir', 'white']))
            return name, a, b
        if name == 'symlink':
            return name, self.target(c), p(r.choice(['new'] * 5 + ['white', 'any']))
        if name == 'readlink':
            return name, p('any')
        if name == 'undelete':
            return name, p(r.choice(['white'] * 6 + ['any', 'new']))
        if name in ('chdir', 'statfs'):
            return name, p(r.choice(['dir', 'dir', 'dir', 'any', 'mount']))
        if name == 'fchdir':
            return name, self.fd(c, kind='dir')
        if name == 'mountmem':
            return name, p(r.choice(['dir', 'dir', 'dir', 'mount']))
        if name == 'mountnull':
            return name, p(r.choice(['dir', 'mount'])), p('dir')
        if name == 'mountunion':
            return name, p(r.choice(['mem'] * 5 + ['dir'])), p(r.choice(['dir', 'dir', 'mount']))
        if name in ('umount', 'umountforce'):
            return name, p('mount')
        assert name == 'revoke'
        return name, p(r.choice(['open', 'open', 'file']))

    # ---- beginnings

    def begin(self):
        r = self.r
        c = lambda: r.randint(1, self.callers)
        for n in r.sample(NAMES, r.choice([1, 2, 2, 3])):
            self.call(c(), 'mkdir', b'/' + n)
            inside = [b'/' + n]
            for _ in range(r.randint(0, 2)):
                p = r.choice(inside) + b'/' + self.name()
                if self.call(c(), 'mkdir', p, keep=False):
                    inside.append(p)
            for _ in range(r.randint(0, 3)):
                k = c()
                p = r.choice(inside) + b'/' + self.name()
                if r.random() < 0.12:
                    self.call(k, 'symlink', self.target(k), p, keep=False)
                elif self.call(k, 'open', p, 'bc', keep=False) and r.random() < 0.8:
                    fd = max(fd for (x, fd) in self.w.opens if x == k)
                    self.call(k, 'write', fd, self.bytes())
                    if r.random() < 0.7:
                        self.call(k, 'close', fd)
        dirs = lambda: [b'/' + n for n in self.w.visible(self.w.enter(('M', 0, 1)))]
        style = r.random()
        if style < 0.2:                                   # a high stack of views
            at = r.choice(dirs())
            for k in range(r.randint(2, 6)):
                n = b'/m%d' % k
                if r.random() < 0.5:
                    self.call(c(), 'mkdir', n)
                    if self.call(c(), 'mountnull', at, n):
                        at = n
                else:
                    self.call(c(), 'mkdir', n)
                    self.call(c(), 'mountmem', n)
                    self.call(c(), 'mountunion', n, at)
                if r.random() < 0.4:
                    self.call(c(), 'mkdir', at + b'/' + self.name())
        elif style < 0.85:                                # a union, and perhaps a view of it
            at = r.choice(dirs())
            self.call(c(), 'mkdir', b'/u')
            self.call(c(), 'mountmem', b'/u')
            up = b'/u'
            if r.random() < 0.3:
                self.call(c(), 'mkdir', b'/u/' + NAMES[0])
                up = b'/u/' + NAMES[0]
            if r.random() < 0.4:
                self.call(c(), 'mkdir', up + b'/' + self.name())
            if r.random() < 0.4:
                self.call(c(), 'mkdir', b'/v')
                self.call(c(), 'mountnull', at, b'/v')    # the lower layer's own view
            self.call(c(), 'mountunion', up, at)
            if r.random() < 0.6:
                self.call(c(), 'mkdir', b'/n')
                self.call(c(), 'mountnull', at, b'/n')
                for k in range(r.randint(0, 2)):
                    self.call(c(), 'open', self.path(1, 'file'), 'r')
        else:
            for k in range(r.randint(0, 3)):
                name = r.choice(['mountmem', 'mountnull'])
                k = c()
                if name == 'mountmem':
                    self.call(k, name, self.path(k, 'dir'))
                else:
                    self.call(k, name, self.path(k, 'dir'), self.path(k, 'dir'))

    # ---- small stories

    def story(self):
        r = self.r
        c, k = r.randint(1, self.callers), r.randint(1, self.callers)
        what = r.random()
        if what < 0.45:                                   # older opens and a copy to the upper layer
            p = self.path(c, 'lower')
            self.call(c, 'open', p, 'r')
            p = b'/'.join(x for x in p.split(b'/') if x)
            tail = [b'', b'/' + p, self.path(k, 'lower')]
            views = [q for q in self.points if q[:1] == b'/']
            if views:
                self.call(k, 'open', r.choice(views) + b'/' + p.rsplit(b'/', 1)[-1], 'r', keep=False)
            for _ in range(r.randint(1, 2)):
                q = r.choice(tail[1:])
                self.call(k, *r.choice([('open', q, 'b'), ('truncate', q, r.choice([0, 2, 9])), ('open', q, 'wa'),
                                        ('rename', q, q + b'x'), ('link', q, q + b'y')]))
            for fd in sorted(fd for (x, fd) in self.w.opens if x == c)[-2:]:
                self.call(c, 'pread', fd, 9, 0)
        elif what < 0.75:                                 # a forced unmount with references
            p = self.path(c, 'mount')
            for _ in range(r.randint(1, 4)):
                x = r.randint(1, self.callers)
                q = r.choice([p, p + b'/' + self.name(), r.choice(self.points or [p])])
                self.call(x, *r.choice([('chdir', q), ('open', q, 'r'), ('open', q, 'bc')]), keep=r.random() < 0.3)
            if r.random() < 0.5:
                self.call(k, 'mountnull', p, self.path(k, 'dir'), keep=False)
            self.call(c, 'umountforce', p)
            for _ in range(r.randint(1, 3)):
                x = r.randint(1, self.callers)
                self.call(x, *r.choice([('stat', self.name()), ('stat', b'.'), ('lstat', b'..'), ('chdir', b'/'),
                                        ('open', b'.', 'r'), ('fchdir', self.fd(x)), ('umount', self.path(x, 'mount'))]))
        elif what < 0.88:                                 # revoke through views
            p = self.path(c, 'file')
            last = p.rstrip(b'/').rsplit(b'/', 1)[-1]
            self.call(c, 'open', p, r.choice(['r', 'b']))
            for q in self.points[-4:]:
                self.call(k, 'open', q + b'/' + last, r.choice(['r', 'b']), keep=False)
            self.call(r.randint(1, self.callers), 'revoke', p)
            for x in (c, k):
                self.call(x, *r.choice([('read', self.fd(x), 3), ('fstat', self.fd(x)), ('lseek', self.fd(x), 'end', 0),
                                        ('close', self.fd(x)), ('write', self.fd(x), b'w')]))
        else:                                             # a removed current directory
            p = self.path(c, 'new')
            if self.call(c, 'mkdir', p) and self.call(c, 'chdir', p):
                if r.random() < 0.5:
                    self.call(c, 'open', b'.', 'r')
                self.call(k, 'rmdir', p)
                for _ in range(r.randint(1, 3)):
                    self.call(c, *r.choice([('stat', b'.'), ('stat', b'..'), ('mkdir', b'x'), ('open', b'f', 'wc'),
                                            ('readdir', self.fd(c)), ('fchdir', self.fd(c)), ('chdir', b'..'),
                                            ('rename', b'/a', b'a'), ('mkdir', b'.'), ('statfs', b'a/b')]))

    def script(self):
        r = self.r
        self.begin()
        most = r.randint(20, 120)
        while len(self.lines) < most:
            c = r.randint(1, self.callers)
            if r.random() < 0.05:
                self.story()
                continue
            name = r.choices(list(WEIGHTS), list(WEIGHTS.values()))[0]
            if r.random() < 0.4:
                for _ in range(10):
                    if self.call(c, *self.candidate(c, name), keep=False):
                        break
            else:
                self.call(c, *self.candidate(c, name))
        out = [b'vfs 1']
        if self.limits:
            out.append(b'limits %d %d %d %d' % self.limits)
        return b''.join(l + b'\n' for l in out + self.lines[:120] + [b'end'])


def make(seed, i):
    return Gen(random.Random('%d:%d' % (seed, i))).script()


def by_model(script, seed=None):
    job = model.Job(*model.read_script(script))
    job.run_order() if seed is None else job.run_seed(seed)
    return 0, model.output(job)


def by_program(program, script, words):
    try:
        r = subprocess.run([program] + words, input=script, stdout=subprocess.PIPE, stderr=subprocess.DEVNULL,
                           timeout=60)
        return r.returncode, r.stdout
    except subprocess.TimeoutExpired as e:
        return 'timeout', e.stdout or b''


def clip(b, most=400):
    t = b.decode('latin-1') if b is not None else '(nothing)'
    return t if len(t) <= most else t[:most] + '... (%d bytes)' % len(t)


def difference(want, got):
    """The text of the first difference, with the lines before it."""
    if want[0] != got[0]:
        head = 'status: model %s, program %s' % (want[0], got[0])
    else:
        head = 'status %s' % want[0]
    a, b = want[1].split(b'\n'), got[1].split(b'\n')
    i = 0
    while i < min(len(a), len(b)) and a[i] == b[i]:
        i += 1
    lines = [head] + ['    ' + clip(l, 200) for l in a[:i]]
    lines.append('  model:   ' + clip(a[i] if i < len(a) else None))
    lines.append('  program: ' + clip(b[i] if i < len(b) else None))
    return '\n'.join(lines)


def kept(name, script):
    """Keeps a script that failed, and says where."""
    folder = os.path.join(HERE, 'failing')
    os.makedirs(folder, exist_ok=True)
    where = os.path.join(folder, name)
    with open(where, 'wb') as f:
        f.write(script)
    return where


def compare(program, seed, count, only=None):
    runs = failures = scripts = 0
    for i in range(count):
        script = make(seed, i)
        scripts += 1
        failed = False
        forms = [('order', ['run', '--order'], None), ('seed', ['run', '--seed', str(seed * 1000 + i)], seed * 1000 + i)]
        for form, words, s in forms:
            if only not in (None, form):
                continue
            runs += 1
            want, got = by_model(script, s), by_program(program, script, words)
            if want == got or failed:
                continue
            failed = True
            failures += 1
            where = kept('%d-%d.vfs' % (seed, i), script)
            print('---- %s, %s' % (where, ' '.join(words)))
            print(difference(want, got))
        if failures == 10:
            break
    print('%d scripts, %d runs, %d scripts failing' % (scripts, runs, failures))
    return 1 if failures else 0


# Calls that never answer ENOMEM.
SURE = ('close', 'read', 'pread', 'lseek', 'fstat')


def may_lack(world, doomed, c, call):
    """Whether the caller's call may answer ENOMEM; `doomed` has the callers with a Doom entry since their last call entry."""
    return call[0] not in SURE and c not in world.leaving and c not in doomed


def next_lines(world, left, doomed):
    """The lines that may follow a history, or, where no call is left, the trees."""
    if not any(left.values()):
        yield b'\n'.join([b'trees', *model.tree_lines(world), b'end', b''])
    for c in left:
        if not left[c]:
            continue
        call, text = left[c][0]
        try:
            yield text + b' = ' + model.reply_text(copy.deepcopy(world).apply(c, call)) + b'\n'
        except Fail as e:
            yield text + b' = error ' + e.errno.encode() + b'\n'
        except Need as e:
            yield b'%d + ' % c + model.inner_text(e.what) + b'\n'
        if may_lack(world, doomed, c, call):
            yield text + b' = error ENOMEM\n'


def illegal(script, out, front=False):
    """Why the output isn't that of a legal history of this script, or with `front` not the front of such a one, or None."""
    limits, calls = model.read_script(script)
    w = model.World(limits)
    left = {}
    for c, call, text in calls:
        left.setdefault(c, []).append((call, text))
    *lines, rest = out.split(b'\n')
    cut = front and b'trees' not in lines
    if cut and not lines:
        return None if b'vfs output 1'.startswith(rest) else 'no front of an output: ' + clip(out)
    if lines[:1] != [b'vfs output 1'] or not front and (lines[-1] != b'end' or rest or b'trees' not in lines):
        return 'the output has not its form: ' + clip(out)
    at = len(lines) if cut else lines.index(b'trees')
    doomed = set()                       # callers with a Doom entry since their last call entry

    def until(i, why):
        entry = clip(lines[i + 1] if i + 1 < len(lines) else rest)
        return '\n'.join('    ' + clip(x, 200) for x in lines[:i + 1]) + '\n  entry: ' + entry + why

    for i, l in enumerate(lines[1:at]):
        head = l.split(b' ', 2)
        c = int(head[0]) if head[0].isdigit() else 0
        if not left.get(c):
            return until(i, '\n  no call of that caller is left')
        call, text = left[c][0]
        inner = head[1:2] == [b'+']
        try:
            want = ('call', model.reply_text(w.apply(c, call))) if not (
                l == text + b' = error ENOMEM') else ('call', b'error ENOMEM')
        except Fail as e:
            want = ('call', model.reply_text(('error', e.errno)))
        except Need as e:
            want = ('inner', model.inner_text(e.what))
            if inner and l == b'%d + ' % c + want[1]:
                w.inner(c, e.what)
                if e.what[0] == 'doom':
                    doomed.add(c)
                continue
        if want[0] == 'inner':
            return until(i, '\n  model needs: ' + clip(want[1]))
        if l != text + b' = ' + want[1]:
            return until(i, '\n  model answers: ' + clip(text + b' = ' + want[1]))
        if want[1] == b'error ENOMEM' and not may_lack(w, doomed, c, call):
            return until(i, '\n  no ENOMEM is legal here')
        doomed.discard(c)
        left[c].pop(0)
    if cut:
        follows = any(l.startswith(rest) for l in next_lines(w, left, doomed))
        return None if follows else until(len(lines) - 1, '\n  no line that may follow begins so')
    if any(left.values()):
        return 'calls have no entry: %s' % {c: len(x) for c, x in left.items()}
    trees = b'\n'.join([*model.tree_lines(w), b'end', b''])
    found = b'\n'.join([*lines[at + 1:], rest])
    if trees != found and not (front and trees.startswith(found)):
        return difference((0, trees), (0, found))
    return None


def legal(program, seed, count, form='seed'):
    failures = runs = 0
    for i in range(count):
        script = make(seed, i)
        forms = [['run']] if form == 'run' else [['run', '--seed', str(seed * 1000 + i)], ['run', '--order']]
        for words in forms:
            runs += 1
            code, out = by_program(program, script, words)
            why = illegal(script, out) if code == 0 else 'status %s' % code
            if why:
                failures += 1
                where = kept('legal-%d-%d.vfs' % (seed, i), script)
                print('---- %s, %s' % (where, ' '.join(words)))
                print(why)
                break
        if failures == 10:
            break
    print('%d runs, %d failing' % (runs, failures))
    return 1 if failures else 0


def judge(script, out, status):
    """Looks at one run, of threads or in which an allocation was refused."""
    why = illegal(script, out, status == 12) if status in (0, 12) else 'status %d' % status
    if why:
        print(why)
    return 1 if why else 0


PIECES = [b' ', b'\n', b'%', b'%00', b'%0A', b'%2f', b'%41', b'-', b'0', b'00', b'-0', b'4294967296', b'99999999999999999999',
          b'end\n', b'vfs 1\n', b'limits 2 3 3 216\n', b'\0', b'\r', b'\xff', b'x', b'17', b'1 stat /\n', b'1  stat /\n',
          b'\t', b'+1', b'set', b'rx', b'rxc', b'A']
HEADS = [b'limits 16 256 16 4096', b'limits 16 256 16 4097', b'limits 0 1 1 90', b'limits 1 0 1 90', b'limits 1 1 0 90',
         b'limits 1 1 1 89', b'limits 1 1 1 90', b'limits 01 1 1 90', b'limits 17 1 1 4096', b'limits 1 257 1 4096',
         b'limits 1 1 17 4096', b'limits 16 256 16 3600', b'limits 16 256 16 3599', b'limits  1 1 1 90', b'limits 1 1 1',
         b'limits 1 1 1 90 ', b'limits', b'limits 1 1 1 90 1', b'limits 4 200 10 2286', b'limits 4 200 10 2285']


def damage(seed, i):
    r = random.Random('bad %d:%d' % (seed, i))
    s = make(seed, i)
    k = r.random()
    if k < 0.15:
        lines = s.split(b'\n')
        lines[1:2 if lines[1].startswith(b'limits') else 1] = [r.choice(HEADS)]
        return b'\n'.join(lines)
    if k < 0.2:
        body = b'1 stat /\n' * r.choice([4095, 4096, 4097])
        return b'vfs 1\n' + body + r.choice([b'end\n', b'end', b'', b'end\n1'])
    if k < 0.3:
        return s[:r.randint(0, len(s))]
    if k < 0.35:
        return s + r.choice(PIECES)
    at = r.randint(0, len(s) - 1)
    if k < 0.55:
        return s[:at] + s[at + 1:]
    if k < 0.65:
        return s[:at] + bytes([r.randint(0, 255)]) + s[at + 1:]
    if k < 0.8:
        lines = s.split(b'\n')
        j = r.randint(0, len(lines) - 1)
        ws = lines[j].split(b' ')
        ws[r.randint(0, len(ws) - 1)] = r.choice(PIECES).strip(b'\n')
        lines[j] = b' '.join(ws)
        return b'\n'.join(lines)
    return s[:at] + r.choice(PIECES) + s[at:]


def whole(script):
    try:
        return by_model(script)
    except model.Bad as e:
        return 65, b'bad line %d\n' % e.line


def badlines(program, seed, count):
    failures = 0
    kinds = collections.Counter()
    for i in range(count):
        script = damage(seed, i)
        want, got = whole(script), by_program(program, script, ['run', '--order'])
        kinds[want[0]] += 1
        if want != got:
            failures += 1
            where = kept('bad-%d-%d.vfs' % (seed, i), script)
            print('----', where)
            print(difference(want, got))
            if failures == 10:
                break
    print('%s, %d scripts failing' % (', '.join('%d of status %s' % (n, k) for k, n in sorted(kinds.items())), failures))
    return 1 if failures else 0


def stats(seed, count):
    calls, replies, inner, doomed, depth = (collections.Counter() for _ in range(5))
    sizes = []
    for i in range(count):
        script = make(seed, i)
        for s in (None, seed * 1000 + i):
            job = model.Job(*model.read_script(script))
            if s is None:
                job.run_order()
                sizes.append(len(job.calls))
                for m in job.world.mounts:
                    try:
                        depth[job.world.depth(('M', m, 1))] += 1
                    except KeyError:
                        depth['cut'] += 1
            else:
                job.run_seed(s)
            for e in job.history:
                if e[0] == 'inner':
                    inner[e[2][0]] += 1
                    continue
                name = e[2].split(b' ')[1].decode()
                calls[name] += 1
                replies[name, e[3][1] if e[3][0] == 'error' else 'ok'] += 1
    for n in sorted(calls):
        row = sorted(((k, v) for (m, k), v in replies.items() if m == n), key=lambda x: -x[1])
        print('%-12s %6d  %s' % (n, calls[n], ' '.join('%s %d' % kv for kv in row)))
    good = sum(v for (m, k), v in replies.items() if k == 'ok')
    print('calls %d, ok %d%%, inner %s, mounts left by depth %s, script calls %d..%d' % (
        sum(calls.values()), 100 * good // sum(calls.values()), dict(inner), dict(depth), min(sizes), max(sizes)))


def main(a):
    if len(a) in (4, 5) and a[0] == 'compare':
        return compare(a[1], int(a[2]), int(a[3]), a[4] if len(a) == 5 else None)
    if len(a) in (4, 5) and a[0] == 'legal':
        return legal(a[1], int(a[2]), int(a[3]), *a[4:])
    if len(a) == 4 and a[0] == 'judge':
        with open(a[1], 'rb') as script, open(a[2], 'rb') as out:
            return judge(script.read(), out.read(), int(a[3]))
    if len(a) == 4 and a[0] == 'badlines':
        return badlines(a[1], int(a[2]), int(a[3]))
    if len(a) == 3 and a[0] == 'stats':
        return stats(int(a[1]), int(a[2])) or 0
    if len(a) == 3:
        os.makedirs(a[2], exist_ok=True)
        for i in range(int(a[1])):
            with open(os.path.join(a[2], '%s-%d.vfs' % (a[0], i)), 'wb') as f:
                f.write(make(int(a[0]), i))
        return 0
    print(__doc__, file=sys.stderr)
    return 64


if __name__ == '__main__':
    sys.exit(model.run_deep(lambda: main(sys.argv[1:])))
