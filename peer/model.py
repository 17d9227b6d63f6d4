#!/usr/bin/env python3
"""A second model of the file calls, which takes the words of vfs_cli and writes what it writes.

It was written apart from the crates and their definitions, for clarity and not for speed, so that
what either has wrong shows where the two are compared (fuzz.py). Memory is ample: no call answers
ENOMEM.

Places are tuples:
  ('M', mount, ino)                    Mem
  ('N', mount, lower)                  Null
  ('U', mount, ino)                    UnionUp
  ('L', mount, dir, name, lower)       UnionLow
"""
import re
import sys
import threading

# ---------------------------------------------------------------- limits

SCRIPT_BYTES = 1048576
MAX_CALLS = 4096
FD_PER_CALLER = 32
PATH_BYTES = 1023
NAME_BYTES = 255
MAX_LINKS = 32
MAX_DEPTH = 4
FILE_BYTES = 1048576
IO_BYTES = 65536
U32 = 4294967295
DEFAULT_LIMITS = (16, 256, 16, 4096)
M64 = (1 << 64) - 1


class Fail(Exception):
    """The call's reply is this error."""
    def __init__(self, errno):
        self.errno = errno


class Need(Exception):
    """The call needs this inner entry."""
    def __init__(self, what):
        self.what = what


# ---------------------------------------------------------------- data

class Dir:
    kind = 'dir'
    def __init__(self, parent, opaque):
        self.parent = parent
        self.opaque = opaque
        self.names = {}          # name -> inode number, or None for a whiteout


class File:
    kind = 'file'
    def __init__(self, data=b''):
        self.data = bytearray(data)


class Link:
    kind = 'link'
    def __init__(self, target):
        self.target = target


class Store:
    def __init__(self):
        self.nodes = {1: Dir(1, False)}
        self.next = 2
        self.given = {}          # ino -> set of (dir, name) that give it (an index only)

    def set_name(self, u, n, ino):
        """The name n of directory u gives ino (None: a whiteout)."""
        self.clear_name(u, n)
        self.nodes[u].names[n] = ino
        if ino is not None:
            self.given.setdefault(ino, set()).add((u, n))

    def clear_name(self, u, n):
        names = self.nodes[u].names
        if n in names:
            old = names.pop(n)
            if old is not None:
                self.given[old].discard((u, n))

    def is_given(self, ino):
        return bool(self.given.get(ino))

    def name_of(self, ino):
        (pair,) = self.given[ino]        # a linked directory has exactly one name
        return pair[1]


class Mount:
    def __init__(self, number, kind, on, layer=None, store=None, upper=None, lower=None):
        self.number = number
        self.kind = kind                 # 'mem', 'null', 'union'
        self.on = on
        self.cut = False
        self.layer = layer               # null
        self.store, self.upper, self.lower = store, upper, lower     # union

    def layers(self):
        if self.kind == 'null':
            return [self.layer]
        if self.kind == 'union':
            return [('M', self.store, self.upper), self.lower]
        return []

    def root(self):
        if self.kind == 'mem':
            return ('M', self.number, 1)
        if self.kind == 'null':
            return ('N', self.number, self.layer)
        return ('U', self.number, self.upper)


class Open:
    def __init__(self, place, read, write, append):
        self.place, self.read, self.write, self.append = place, read, write, append
        self.offset = 0
        self.dead = False


class Cwd:
    def __init__(self, place):
        self.place = place
        self.dead = False


class World:
    def __init__(self, limits):
        self.callers, self.files, self.most_mounts, self.vnodes = limits
        self.stores = {0: Store()}
        self.mounts = {0: Mount(0, 'mem', None)}
        self.opens = {}                  # (caller, fd) -> Open
        self.cwds = {c: Cwd(('M', 0, 1)) for c in range(1, self.callers + 1)}
        self.leaving = {}                # caller -> mount
        self.next_mount = 1

    # ------------------------------------------------------------ functions of places

    def is_root(self, p):
        return p == self.mounts[p[1]].root()

    def bare(self, p):
        while p[0] == 'N':
            p = p[2]
        return p

    def carrier(self, p):
        """Store and inode of a directory place."""
        b = self.bare(p)
        if b[0] == 'M':
            return (b[1], b[2])
        assert b[0] == 'U', p
        return (self.mounts[b[1]].store, b[2])

    def base(self, p):
        """(store, inode) of the Mem place on which p rests."""
        if p[0] == 'M':
            return (p[1], p[2])
        if p[0] == 'U':
            return (self.mounts[p[1]].store, p[2])
        return self.base(p[-1])

    def node(self, p):
        s, i = self.base(p)
        return self.stores[s].nodes[i]

    def kind(self, p):
        return self.node(p).kind

    def is_dir(self, p):
        return self.kind(p) == 'dir'

    def depth(self, p):
        m = self.mounts[p[1]]
        if m.kind == 'mem':
            return 0
        return 1 + self.depth(m.layer if m.kind == 'null' else m.lower)

    def stores_of(self, p):
        m = self.mounts[p[1]]
        if m.kind == 'mem':
            return {m.number}
        if m.kind == 'null':
            return self.stores_of(m.layer)
        return {m.store} | self.stores_of(m.lower)

    def linked_at(self, s, u):
        return u == 1 or self.stores[s].is_given(u)

    def linked(self, d):
        return self.linked_at(*self.carrier(d))

    # ------------------------------------------------------------ child, lower part, parent

    def child(self, d, n):
        """The child's place, or None for Absent; raises Need."""
        if d[0] == 'M':
            i = self.stores[d[1]].nodes[d[2]].names.get(n)
            return None if i is None else ('M', d[1], i)
        if d[0] == 'N':
            q = self.child(d[2], n)
            return None if q is None else ('N', d[1], q)
        _, m, u = d
        names = self.stores[self.mounts[m].store].nodes[u].names
        if n in names:
            return None if names[n] is None else ('U', m, names[n])
        lower = self.low(m, u)
        if lower is None:
            return None
        q = self.child(lower, n)
        if q is None:
            return None
        if self.is_dir(q):
            raise Need(('shadow', m, u, n))
        return ('L', m, u, n, q)

    def low(self, m, u):
        """The lower part of the directory u of the union m, or None; raises Need."""
        mt = self.mounts[m]
        st = self.stores[mt.store]
        if not self.linked_at(mt.store, u):
            return None
        if u == mt.upper:
            return mt.lower
        node = st.nodes[u]
        if node.opaque or u == 1:
            return None
        above = self.low(m, node.parent)
        if above is None:
            return None
        q = self.child(above, st.name_of(u))
        return q if q is not None and self.is_dir(q) else None

    def parent_in(self, d):
        if self.is_root(d):
            return d
        if d[0] == 'M':
            return ('M', d[1], self.stores[d[1]].nodes[d[2]].parent)
        if d[0] == 'N':
            return ('N', d[1], self.parent_in(d[2]))
        return ('U', d[1], self.stores[self.mounts[d[1]].store].nodes[d[2]].parent)

    def visible(self, d):
        if d[0] == 'M':
            names = self.stores[d[1]].nodes[d[2]].names
            return sorted(n for n in names if names[n] is not None)
        if d[0] == 'N':
            return self.visible(d[2])
        names = self.stores[self.mounts[d[1]].store].nodes[d[2]].names
        lower = self.low(d[1], d[2])
        out = {n for n in names if names[n] is not None}
        if lower is not None:
            out |= {n for n in self.visible(lower) if n not in names}
        return sorted(out)

    # ------------------------------------------------------------ mounts

    def covers(self, m):
        return m.on is not None and m.number not in self.leaving.values()

    def covering(self, p):
        for m in self.mounts.values():
            if self.covers(m) and m.on == p:
                return m
        return None

    def stands_on(self, a, b):
        if a not in self.mounts:
            return False
        return any(l[1] == b or self.stands_on(l[1], b) for l in self.mounts[a].layers())

    def standing_on(self, b):
        return {a for a in self.mounts if self.stands_on(a, b)}

    def live_refs(self):
        """(place, sort key, at) of live opens and live current directories."""
        for (c, fd), o in self.opens.items():
            if not o.dead:
                yield o.place, (c, 0, fd), ('fd', c, fd)
        for c, w in self.cwds.items():
            if not w.dead:
                yield w.place, (c, 1, 0), ('cwd', c)

    def first(self, refs):
        refs = list(refs)
        if not refs:
            return None
        return min(refs, key=lambda r: (-self.depth(r[0]), r[1]))[2]

    def referenced(self, m):
        if any(p[1] == m for p, _, _ in self.live_refs()):
            return True
        for x in self.mounts.values():
            if self.covers(x) and x.on[1] == m:
                return True
            if any(l[1] == m for l in x.layers()):
                return True
        return False

    def busy(self, d):
        c = self.carrier(d)
        return any(self.covers(m) and self.carrier(m.on) == c for m in self.mounts.values())

    # ------------------------------------------------------------ store edits through a place d

    def make(self, d, n, node, shadow=False):
        s, u = self.carrier(d)
        st = self.stores[s]
        if st.next == U32:
            raise Fail('ENOSPC')
        i = st.next
        st.next += 1
        if node.kind == 'dir':
            node.parent = u
            node.opaque = (not shadow) and n in st.nodes[u].names and st.nodes[u].names[n] is None
        st.nodes[i] = node
        st.set_name(u, n, i)
        return i

    def drop(self, d, n):
        s, u = self.carrier(d)
        if self.bare(d)[0] == 'M':
            self.stores[s].clear_name(u, n)
        else:
            self.stores[s].set_name(u, n, None)

    def gone(self, place):
        """A directory that is removed or replaced loses its whiteouts."""
        s, u = self.carrier(place)
        for n in [n for n, i in self.stores[s].nodes[u].names.items() if i is None]:
            self.stores[s].clear_name(u, n)
        assert not self.stores[s].nodes[u].names

    # ------------------------------------------------------------ walks

    def enter(self, p, into_cut=False):
        while True:
            m = self.covering(p)
            if m is None:
                return p
            if m.cut and not into_cut:
                raise Fail('EIO')
            p = m.root()

    def up(self, d, into_cut=False):
        while d[1] != 0 and self.is_root(d):
            d = self.mounts[d[1]].on
        return self.enter(self.parent_in(d), into_cut)

    def check_dir(self, d):
        if not self.is_dir(d):
            raise Fail('ENOTDIR')
        if not self.linked(d):
            raise Fail('ENOENT')

    def walk(self, caller, path, form):
        """Follow, NoFollow: the place.  Mount: the mount's number.
        Parent: None for Dot, else (dir, name, child or None).
        Create: ('at', place) or ('absent', dir, name)."""
        absolute, todo = path[0], list(path[1])
        last = None
        if form == 'Parent' and todo:
            last = todo.pop()
        final = lambda: form == 'Mount' and not todo      # is this enter the last one
        if absolute:
            d = self.enter(('M', 0, 1), final())
        else:
            cwd = self.cwds[caller]
            if cwd.dead:
                raise Fail('ENOTDIR')
            if self.mounts[cwd.place[1]].cut:
                raise Fail('EIO')
            d = cwd.place
        links = 0
        while todo:
            c = todo.pop(0)
            self.check_dir(d)
            if c == b'.':
                d = self.enter(d, final())
            elif c == b'..':
                d = self.up(d, final())
            else:
                q = self.child(d, c)
                if q is None:
                    if form == 'Create' and not todo:
                        return ('absent', d, c)
                    raise Fail('ENOENT')
                if self.kind(q) == 'link' and not (form == 'NoFollow' and not todo):
                    links += 1
                    if links > MAX_LINKS:
                        raise Fail('ELOOP')
                    anew, comps = parse_path(self.node(q).target)
                    todo = comps + todo
                    if anew:
                        d = self.enter(('M', 0, 1), final())
                else:
                    d = self.enter(q, final())
        if form == 'Parent':
            self.check_dir(d)
            if last is None or last in (b'.', b'..'):
                return None
            return (d, last, self.child(d, last))
        if form == 'Create':
            return ('at', d)
        if form == 'Mount':
            if not self.is_root(d):
                raise Fail('EINVAL')
            return d[1]
        return d

    # ------------------------------------------------------------ inner entries

    def inner(self, caller, what):
        if what[0] == 'shadow':
            _, m, u, n = what
            self.make(('U', m, u), n, Dir(0, False), shadow=True)
        elif what[0] == 'copyup':
            _, m, u, n = what
            q = self.child(self.low(m, u), n)
            src = self.node(q)
            node = File(src.data) if src.kind == 'file' else Link(src.target)
            i = self.make(('U', m, u), n, node)
            old, new = ('L', m, u, n, q), ('U', m, i)

            def turn(p):
                if p == old:
                    return new
                if p[0] in 'NL':
                    return p[:-1] + (turn(p[-1]),)
                return p
            for o in self.opens.values():
                o.place = turn(o.place)
        elif what[0] == 'detach':
            m = what[1]
            for a in {m} | self.standing_on(m):
                self.mounts[a].cut = True
            self.leaving[caller] = m
        elif what[0] == 'doom':
            at = what[1]
            place = (self.opens[at[1:]] if at[0] == 'fd' else self.cwds[at[1]]).place
            for x in list(self.opens.values()) + list(self.cwds.values()):
                if x.place == place:
                    x.dead = True
        else:
            assert False, what

    # ------------------------------------------------------------ calls

    def apply(self, caller, call):
        """Answers the reply and changes the world, or raises Fail or Need
        with the world unchanged."""
        word, args = call
        paths = []
        for letter, a in zip(CALLS[word], args):
            if letter in 'PABU' or (letter == 'T' and word == 'mountnull'):
                paths.append(parse_path(a))
        return getattr(self, 'do_' + word)(caller, paths, args)

    def get_open(self, caller, fd):
        o = self.opens.get((caller, fd))
        if o is None:
            raise Fail('EBADF')
        return o

    def need_copyup(self, place):
        b = self.bare(place)
        if b[0] == 'L':
            s = self.mounts[b[1]].store
            if self.stores[s].next == U32:
                raise Fail('ENOSPC')
            raise Need(('copyup', b[1], b[2], b[3]))

    def has_lower_part(self, place):
        b = self.bare(place)
        return b[0] == 'U' and self.low(b[1], b[2]) is not None

    def present(self, c, path, dot):
        """The directory and the last name of a path, and what stands there, which must be something;
        the error `dot` where the path ends with no name."""
        r = self.walk(c, path, 'Parent')
        if r is None:
            raise Fail(dot)
        if r[2] is None:
            raise Fail('ENOENT')
        return r

    def do_mkdir(self, c, paths, a):
        r = self.walk(c, paths[0], 'Parent')
        if r is None or r[2] is not None:
            raise Fail('EEXIST')
        self.make(r[0], r[1], Dir(0, False))
        return ('ok',)

    def do_rmdir(self, c, paths, a):
        d, n, q = self.present(c, paths[0], 'EINVAL')
        if not self.is_dir(q):
            raise Fail('ENOTDIR')
        if self.busy(q):
            raise Fail('EBUSY')
        if self.visible(q):
            raise Fail('ENOTEMPTY')
        self.drop(d, n)
        self.gone(q)
        return ('ok',)

    def do_open(self, c, paths, a):
        flags = a[1]
        reads, writes = flags[0] in 'rb', flags[0] in 'wb'
        if ('t' in flags and not writes) or ('c' in flags and 'd' in flags):
            raise Fail('EINVAL')
        mine = {fd for (k, fd) in self.opens if k == c}
        if len(mine) >= FD_PER_CALLER:
            raise Fail('EMFILE')
        if len(self.opens) >= self.files:
            raise Fail('ENFILE')
        missing = None
        if 'c' in flags and 'x' in flags:
            r = self.walk(c, paths[0], 'Parent')
            if r is None or r[2] is not None:
                raise Fail('EEXIST')
            missing = r[0], r[1]
        elif 'c' in flags:
            r = self.walk(c, paths[0], 'Create')
            if r[0] == 'absent':
                missing = r[1], r[2]
            else:
                place = r[1]
        else:
            place = self.walk(c, paths[0], 'Follow')
        if missing is None:
            if self.is_dir(place) and writes:
                raise Fail('EISDIR')
            if not self.is_dir(place) and 'd' in flags:
                raise Fail('ENOTDIR')
            if writes:
                self.need_copyup(place)
        else:
            self.make(missing[0], missing[1], File())
            place = self.child(missing[0], missing[1])
        if 't' in flags:
            self.node(place).data = bytearray()
        fd = 0
        while fd in mine:
            fd += 1
        self.opens[(c, fd)] = Open(place, reads, writes, 'a' in flags)
        return ('fd', fd)

    def do_close(self, c, paths, a):
        self.get_open(c, a[0])
        del self.opens[(c, a[0])]
        return ('ok',)

    def read_checks(self, c, fd, n):
        o = self.get_open(c, fd)
        if o.dead:
            raise Fail('EIO')
        if not o.read:
            raise Fail('EBADF')
        if self.is_dir(o.place):
            raise Fail('EISDIR')
        if n > IO_BYTES:
            raise Fail('EINVAL')
        return o

    def do_read(self, c, paths, a):
        o = self.read_checks(c, a[0], a[1])
        data = bytes(self.node(o.place).data[o.offset:o.offset + a[1]])
        o.offset += len(data)
        return ('data', data)

    def do_pread(self, c, paths, a):
        o = self.read_checks(c, a[0], a[1])
        return ('data', bytes(self.node(o.place).data[a[2]:a[2] + a[1]]))

    def write_some(self, c, fd, w, at):
        """Answers the open and the end of the write, or the open and None for no bytes."""
        o = self.get_open(c, fd)
        if o.dead:
            raise Fail('EIO')
        if not o.write:
            raise Fail('EBADF')
        if len(w) > IO_BYTES:
            raise Fail('EINVAL')
        if not w:
            return o, None
        f = self.node(o.place)
        start = len(f.data) if o.append else (o.offset if at is None else at)
        end = start + len(w)
        if end > FILE_BYTES:
            raise Fail('EFBIG')
        if len(f.data) < start:
            f.data.extend(bytes(start - len(f.data)))
        f.data[start:end] = w
        return o, end

    def do_write(self, c, paths, a):
        o, end = self.write_some(c, a[0], a[1], None)
        if end is not None:
            o.offset = end
        return ('count', len(a[1]))

    def do_pwrite(self, c, paths, a):
        self.write_some(c, a[0], a[2], a[1])
        return ('count', len(a[2]))

    def size(self, place):
        node = self.node(place)
        return {'dir': lambda: 0, 'file': lambda: len(node.data),
                'link': lambda: len(node.target)}[node.kind]()

    def do_lseek(self, c, paths, a):
        o = self.get_open(c, a[0])
        if o.dead:
            raise Fail('EBADF')
        origin = {'set': 0, 'cur': o.offset, 'end': self.size(o.place)}[a[1]]
        at = origin + a[2]
        if at < 0 or at > U32:
            raise Fail('EINVAL')
        o.offset = at
        return ('offset', at)

    def set_length(self, place, n):
        f = self.node(place)
        if n < len(f.data):
            del f.data[n:]
        else:
            f.data.extend(bytes(n - len(f.data)))

    def do_truncate(self, c, paths, a):
        p = self.walk(c, paths[0], 'Follow')
        if self.is_dir(p):
            raise Fail('EISDIR')
        if a[1] > FILE_BYTES:
            raise Fail('EFBIG')
        self.need_copyup(p)
        self.set_length(p, a[1])
        return ('ok',)

    def do_ftruncate(self, c, paths, a):
        o = self.get_open(c, a[0])
        if o.dead:
            raise Fail('EBADF')
        if not o.write:
            raise Fail('EINVAL')
        if a[1] > FILE_BYTES:
            raise Fail('EFBIG')
        self.set_length(o.place, a[1])
        return ('ok',)

    def do_stat(self, c, paths, a):
        p = self.walk(c, paths[0], 'Follow')
        return ('stat', self.kind(p), self.size(p))

    def do_lstat(self, c, paths, a):
        p = self.walk(c, paths[0], 'NoFollow')
        return ('stat', self.kind(p), self.size(p))

    def do_fstat(self, c, paths, a):
        o = self.get_open(c, a[0])
        if o.dead:
            raise Fail('EBADF')
        return ('stat', self.kind(o.place), self.size(o.place))

    def do_readdir(self, c, paths, a):
        o = self.get_open(c, a[0])
        if o.dead:
            raise Fail('EBADF')
        if not self.is_dir(o.place):
            raise Fail('ENOTDIR')
        return ('names', self.visible(o.place))

    def do_unlink(self, c, paths, a):
        d, n, q = self.present(c, paths[0], 'EPERM')
        if self.is_dir(q):
            raise Fail('EPERM')
        self.drop(d, n)
        return ('ok',)

    def do_rename(self, c, paths, a):
        # 1
        da, na, src = self.present(c, paths[0], 'EINVAL')
        # 2
        r = self.walk(c, paths[1], 'Parent')
        if r is None:
            raise Fail('EINVAL')
        db, nb, tgt = r
        # 3
        if da[1] != db[1]:
            raise Fail('EXDEV')
        # 4
        if src == tgt:
            return ('ok',)
        if self.is_dir(src):
            # 5
            if self.busy(src):
                raise Fail('EBUSY')
            # 6
            s, u = self.carrier(db)
            while True:
                if (s, u) == self.carrier(src):
                    raise Fail('EINVAL')
                if u == 1:
                    break
                u = self.stores[s].nodes[u].parent
            # 7
            if self.has_lower_part(src):
                raise Fail('EXDEV')
            # 8
            if tgt is not None and not self.is_dir(tgt):
                raise Fail('ENOTDIR')
        if tgt is not None and self.is_dir(tgt):
            # 9
            if not self.is_dir(src):
                raise Fail('EISDIR')
            # 10
            if self.busy(tgt):
                raise Fail('EBUSY')
            # 11
            if self.visible(tgt):
                raise Fail('ENOTEMPTY')
            # 12
            if self.has_lower_part(tgt):
                raise Fail('EXDEV')
        # 13
        self.need_copyup(src)
        s, i = self.base(src)
        sb, ub = self.carrier(db)
        names = self.stores[sb].nodes[ub].names
        white = nb in names and names[nb] is None
        self.drop(da, na)
        self.stores[sb].set_name(ub, nb, i)
        if self.is_dir(src):
            node = self.stores[s].nodes[i]
            node.parent = ub
            if white or self.bare(db)[0] == 'U':
                node.opaque = True
        if tgt is not None and self.is_dir(tgt):
            self.gone(tgt)
        return ('ok',)

    def do_link(self, c, paths, a):
        p = self.walk(c, paths[0], 'Follow')
        if self.is_dir(p):
            raise Fail('EPERM')
        r = self.walk(c, paths[1], 'Parent')
        if r is None or r[2] is not None:
            raise Fail('EEXIST')
        d, n, _ = r
        if p[1] != d[1]:
            raise Fail('EXDEV')
        self.need_copyup(p)
        s, u = self.carrier(d)
        self.stores[s].set_name(u, n, self.base(p)[1])
        return ('ok',)

    def do_symlink(self, c, paths, a):
        t = a[0]
        if not t:
            raise Fail('ENOENT')
        if b'\0' in t:
            raise Fail('EINVAL')
        if len(t) > PATH_BYTES:
            raise Fail('ENAMETOOLONG')
        r = self.walk(c, paths[0], 'Parent')
        if r is None or r[2] is not None:
            raise Fail('EEXIST')
        self.make(r[0], r[1], Link(t))
        return ('ok',)

    def do_readlink(self, c, paths, a):
        p = self.walk(c, paths[0], 'NoFollow')
        if self.kind(p) != 'link':
            raise Fail('EINVAL')
        return ('target', self.node(p).target)

    def do_undelete(self, c, paths, a):
        r = self.walk(c, paths[0], 'Parent')
        if r is None:
            raise Fail('EEXIST')
        d, n, _ = r
        s, u = self.carrier(d)
        names = self.stores[s].nodes[u].names
        if n not in names or names[n] is not None:
            raise Fail('EEXIST')
        self.stores[s].clear_name(u, n)
        return ('ok',)

    def do_chdir(self, c, paths, a):
        p = self.walk(c, paths[0], 'Follow')
        if not self.is_dir(p):
            raise Fail('ENOTDIR')
        self.cwds[c] = Cwd(p)
        return ('ok',)

    def do_fchdir(self, c, paths, a):
        o = self.get_open(c, a[0])
        if o.dead or not self.is_dir(o.place):
            raise Fail('ENOTDIR')
        self.cwds[c] = Cwd(o.place)
        return ('ok',)

    def do_statfs(self, c, paths, a):
        p = self.walk(c, paths[0], 'Follow')
        return ('fs', p[1], self.mounts[p[1]].kind)

    def room_for_mount(self):
        if len(self.mounts) >= self.most_mounts:
            raise Fail('ENFILE')
        if self.next_mount == U32:
            raise Fail('ENOSPC')

    def add_mount(self, kind, on, **more):
        m = self.next_mount
        self.next_mount += 1
        self.mounts[m] = Mount(m, kind, on, **more)
        return m

    def walk_dir(self, c, path):
        p = self.walk(c, path, 'Follow')
        if not self.is_dir(p):
            raise Fail('ENOTDIR')
        return p

    def do_mountmem(self, c, paths, a):
        p = self.walk_dir(c, paths[0])
        self.room_for_mount()
        self.stores[self.add_mount('mem', p)] = Store()
        return ('ok',)

    def do_mountnull(self, c, paths, a):
        t = self.walk_dir(c, paths[0])
        p = self.walk_dir(c, paths[1])
        if t == p:
            raise Fail('EDEADLK')
        if self.depth(t) == MAX_DEPTH:
            raise Fail('ELOOP')
        self.room_for_mount()
        self.add_mount('null', p, layer=t)
        return ('ok',)

    def do_mountunion(self, c, paths, a):
        u = self.walk_dir(c, paths[0])
        p = self.walk_dir(c, paths[1])
        if u[0] != 'M' or u[1] in self.stores_of(p):
            raise Fail('EINVAL')
        if self.depth(p) == MAX_DEPTH:
            raise Fail('ELOOP')
        self.room_for_mount()
        self.add_mount('union', p, store=u[1], upper=u[2], lower=p)
        return ('ok',)

    def do_umount(self, c, paths, a):
        m = self.walk(c, paths[0], 'Mount')
        if m == 0:
            raise Fail('EINVAL')
        if self.referenced(m):
            raise Fail('EBUSY')
        del self.mounts[m]
        return ('ok',)

    def do_umountforce(self, c, paths, a):
        if c in self.leaving:
            m = self.leaving[c]
            among = {m} | self.standing_on(m)
            at = self.first(r for r in self.live_refs() if r[0][1] in among)
            if at is not None:
                raise Need(('doom', at))
            del self.mounts[m]
            del self.leaving[c]
            return ('ok',)
        m = self.walk(c, paths[0], 'Mount')
        if m == 0:
            raise Fail('EINVAL')
        among = {m} | self.standing_on(m)
        if any(self.covers(x) and x.on[1] in among for x in self.mounts.values()):
            raise Fail('EBUSY')
        raise Need(('detach', m))

    def do_revoke(self, c, paths, a):
        p = self.walk(c, paths[0], 'Follow')
        if self.kind(p) != 'file':
            raise Fail('EINVAL')
        b = self.base(p)
        at = self.first(r for r in self.live_refs() if r[2][0] == 'fd' and self.base(r[0]) == b)
        if at is not None:
            raise Need(('doom', at))
        return ('ok',)


# ---------------------------------------------------------------- paths

def parse_path(b):
    if not b:
        raise Fail('ENOENT')
    if b'\0' in b:
        raise Fail('EINVAL')
    comps = [x for x in b.split(b'/') if x]
    if len(b) > PATH_BYTES or any(len(x) > NAME_BYTES for x in comps):
        raise Fail('ENAMETOOLONG')
    return b[:1] == b'/', comps


# ---------------------------------------------------------------- script text

CALLS = {
    'mkdir': 'P', 'rmdir': 'P', 'open': 'PF', 'close': 'D', 'read': 'DN', 'pread': 'DNO',
    'write': 'DW', 'pwrite': 'DOW', 'lseek': 'DHI', 'truncate': 'PN', 'ftruncate': 'DN',
    'stat': 'P', 'lstat': 'P', 'fstat': 'D', 'readdir': 'D', 'unlink': 'P', 'rename': 'AB',
    'link': 'AB', 'symlink': 'TP', 'readlink': 'P', 'undelete': 'P', 'chdir': 'P',
    'fchdir': 'D', 'statfs': 'P', 'mountmem': 'P', 'mountnull': 'TP', 'mountunion': 'UP',
    'umount': 'P', 'umountforce': 'P', 'revoke': 'P',
}
assert len(CALLS) == 30


class Bad(Exception):
    def __init__(self, line):
        self.line = line


NUMBER = re.compile(rb'(0|[1-9][0-9]*)\Z')
FLAGS = re.compile(rb'[rwb]c?x?t?a?d?\Z')
WORDRE = re.compile(rb'(%|([!-$&-~]|%[0-9a-f]{2})+)\Z')


def number(w, most):
    if not NUMBER.match(w) or len(w) > 20 or int(w) > most:
        raise ValueError
    return int(w)


def read_word(w):
    if not WORDRE.match(w):
        raise ValueError
    if w == b'%':
        return b''
    out = bytearray()
    i = 0
    while i < len(w):
        if w[i] == 0x25:
            x = int(w[i + 1:i + 3], 16)
            if 0x21 <= x <= 0x7e and x != 0x25:
                raise ValueError
            out.append(x)
            i += 3
        else:
            out.append(w[i])
            i += 1
    return bytes(out)


PRINTED = [bytes([x]) if 0x21 <= x <= 0x7e and x != 0x25 else b'%%%02x' % x for x in range(256)]


def word(b):
    return b''.join(PRINTED[x] for x in b) if b else b'%'


def read_arg(letter, w):
    if letter in 'PABTUW':
        return read_word(w)
    if letter in 'NOD':
        return number(w, U32)
    if letter == 'I':
        if w[:1] == b'-':
            n = number(w[1:], U32)
            if n == 0:
                raise ValueError
            return -n
        return number(w, U32)
    if letter == 'H':
        if w not in (b'set', b'cur', b'end'):
            raise ValueError
        return w.decode()
    assert letter == 'F'
    if not FLAGS.match(w):
        raise ValueError
    return w.decode()


def read_call(line, callers):
    """(caller, (word, args), text); raises ValueError."""
    ws = line.split(b' ')
    caller = number(ws[0], callers)
    if caller < 1 or len(ws) < 2:
        raise ValueError
    name = ws[1].decode('latin-1')
    if name not in CALLS or len(ws) != 2 + len(CALLS[name]):
        raise ValueError
    args = tuple(read_arg(l, w) for l, w in zip(CALLS[name], ws[2:]))
    return caller, (name, args), line


def read_limits(line):
    ws = line.split(b' ')
    if len(ws) != 5:
        raise ValueError
    p, f, m, n = (number(w, U32) for w in ws[1:])
    if not (1 <= p <= 16 and 1 <= f <= 256 and 1 <= m <= 16
            and 9 * (f + 6 * p + 3 * m) <= n <= 4096):
        raise ValueError
    return p, f, m, n


def read_script(data):
    """(limits, calls); raises Bad."""
    limits = DEFAULT_LIMITS
    calls = []
    at, no, ended = 0, 0, False
    while True:
        no += 1
        if at == len(data):
            if ended:
                return limits, calls
            raise Bad(no)
        stop = data.find(b'\n', at)
        if stop < 0 or ended:
            raise Bad(no)
        line = data[at:stop]
        at = stop + 1
        try:
            if no == 1:
                if line != b'vfs 1':
                    raise ValueError
            elif line == b'end':
                ended = True
            elif no == 2 and line.split(b' ')[0] == b'limits':
                limits = read_limits(line)
            else:
                if len(calls) == MAX_CALLS:
                    raise ValueError
                calls.append(read_call(line, limits[0]))
        except ValueError:
            raise Bad(no)


# ---------------------------------------------------------------- runs

# The calls whose dooms and own entry are made in one step.
ONE_STEP = ('revoke',)

class Job:
    def __init__(self, limits, calls):
        self.world = World(limits)
        self.calls = calls                     # (caller, call, text) in order
        self.left = {}                         # caller -> its calls that haven't begun
        for line in calls:
            self.left.setdefault(line[0], []).append(line)
        self.live = {}                         # caller -> its live call
        self.history = []                      # ('call', caller, text, reply) or ('inner', caller, what)

    def turn(self, c):
        """Begins the caller's next call or steps the live one; answers whether a call ended."""
        if c not in self.live:
            self.live[c] = self.left[c].pop(0)
            return False
        return self.step(c)

    def step(self, c):
        _, call, text = self.live[c]
        while True:
            try:
                reply = self.world.apply(c, call)
            except Fail as e:
                reply = ('error', e.errno)
            except Need as e:
                try:
                    if e.what[0] in ('shadow', 'copyup'):
                        s = self.world.mounts[e.what[1]].store
                        if self.world.stores[s].next == U32:
                            raise Fail('ENOSPC')
                    self.world.inner(c, e.what)
                    self.history.append(('inner', c, e.what))
                    if call[0] in ONE_STEP and e.what[0] in ('detach', 'doom'):
                        continue
                    return False
                except Fail as f:
                    reply = ('error', f.errno)
            self.history.append(('call', c, text, reply))
            del self.live[c]
            return True

    def run_order(self):
        for line in self.calls:
            while not self.turn(line[0]):
                pass

    def run_seed(self, seed):
        turn = 0
        while True:
            who = sorted(set(self.live) | {c for c in self.left if self.left[c]})
            if not who:
                return
            self.turn(who[mix(seed, turn) % len(who)])
            turn += 1


def mix(seed, k):
    z = (seed + (k + 1) * 0x9E3779B97F4A7C15) & M64
    z = ((z ^ (z >> 30)) * 0xBF58476D1CE4E5B9) & M64
    z = ((z ^ (z >> 27)) * 0x94D049BB133111EB) & M64
    return z ^ (z >> 31)


# ---------------------------------------------------------------- output text

def reply_text(r):
    k = r[0]
    if k == 'ok':
        return b'ok'
    if k in ('fd', 'count', 'offset'):
        return b'%s %d' % (k.encode(), r[1])
    if k in ('data', 'target'):
        return k.encode() + b' ' + word(r[1])
    if k == 'stat':
        return b'stat %s %d' % (r[1].encode(), r[2])
    if k == 'names':
        return b'names' + b''.join(b' ' + word(n) for n in r[1])
    if k == 'fs':
        return b'fs %d %s' % (r[1], r[2].encode())
    assert k == 'error'
    return b'error ' + r[1].encode()


def inner_text(w):
    if w[0] in ('shadow', 'copyup'):
        return b'%s %d %d %s' % (w[0].encode(), w[1], w[2], word(w[3]))
    if w[0] == 'detach':
        return b'detach %d' % w[1]
    if w[1][0] == 'fd':
        return b'doom %d fd %d' % w[1][1:]
    return b'doom %d cwd' % w[1][1]


def history_lines(history):
    for e in history:
        if e[0] == 'call':
            yield e[2] + b' = ' + reply_text(e[3])
        else:
            yield b'%d + ' % e[1] + inner_text(e[2])


def place_text(p):
    if p is None:
        return b'-'
    if p[0] == 'M':
        return b'm%d:%d' % p[1:]
    if p[0] == 'U':
        return b'u%d:%d' % p[1:]
    assert p[0] == 'N'
    return b'n%d(%s)' % (p[1], place_text(p[2]))


def tree_lines(w):
    for number in sorted(w.mounts):
        m = w.mounts[number]
        t = b'mount %d %s on %s' % (number, m.kind.encode(), place_text(m.on))
        if m.kind == 'null':
            t += b' over ' + place_text(m.layer)
        elif m.kind == 'union':
            t += b' up ' + place_text(('M', m.store, m.upper)) + b' low ' + place_text(m.lower)
        yield t + (b' cut' if m.cut else b'')
        if m.kind != 'mem':
            continue
        st = w.stores[number]
        for i in sorted(st.nodes):
            if i != 1 and not st.is_given(i):
                continue
            node = st.nodes[i]
            if node.kind == 'dir':
                yield b'dir %d %d %s' % (i, node.parent, b'opaque' if node.opaque else b'plain')
                for n in sorted(node.names):
                    if node.names[n] is None:
                        yield b'white ' + word(n)
                    else:
                        yield b'name %s %d' % (word(n), node.names[n])
            elif node.kind == 'link':
                yield b'link %d %s' % (i, word(node.target))
            else:
                t = b'file %d %d' % (i, len(node.data))
                for r in re.finditer(rb'[^\0]+', node.data):
                    t += b' %d:%s' % (r.start(), word(r.group()))
                yield t


def output(job):
    lines = [b'vfs output 1', *history_lines(job.history), b'trees', *tree_lines(job.world), b'end']
    return b''.join(l + b'\n' for l in lines)


def summary(job):
    calls = [e for e in job.history if e[0] == 'call']
    errors = [e for e in calls if e[3][0] == 'error']
    rows = [('calls', len(calls)), ('callers', len({e[1] for e in calls})),
            ('ok', len(calls) - len(errors)), ('error', len(errors)), ('nomemory', 0),
            ('inner', len(job.history) - len(calls)), ('entries', len(job.history)),
            ('mounts', len(job.world.mounts))]
    return b''.join(b'%s %d\n' % (k.encode(), n) for k, n in rows) + b'end\n'


# ---------------------------------------------------------------- generator

def gen_script(seed, count):
    lines = ['1 mkdir /base', '1 mkdir /up', '1 mkdir /view', '1 mkdir /base/d0', '1 mountmem /up',
             '1 mountunion /up /base', '1 mountnull /base /view', '1 open /base/f0 bc']
    dirs = ['/base', '/view', '/up', '/base/d0']
    for j in range(8, count):
        r = mix(seed, j)
        x = '%s/f%d' % (dirs[(r >> 8) % 4], (r >> 16) % 8)
        y = '%s/f%d' % (dirs[(r >> 24) % 4], (r >> 32) % 8)
        d = (r >> 40) % 4
        n = (r >> 48) % 256
        if n == 0:
            last = 'umountforce /view'
        elif n % 2:
            last = 'revoke ' + x
        else:
            last = 'lstat ' + y
        call = ['mkdir ' + x, 'rmdir ' + x, 'open %s bc' % x, 'open %s r' % x,
                'close %d' % d, 'read %d %d' % (d, n), 'write %d %s' % (d, 'abcdefgh'[:n % 8 + 1]),
                'lseek %d set %d' % (d, n), 'truncate %s %d' % (x, n), 'stat ' + x, 'unlink ' + x,
                'rename %s %s' % (x, y), 'link %s %s' % (x, y), 'readdir %d' % d, 'undelete ' + x,
                last][r % 16]
        lines.append('%d %s' % (1 + j % 4, call))
    return b''.join(l.encode() + b'\n' for l in ['vfs 1'] + lines + ['end'])


# ---------------------------------------------------------------- the program

def decimal(s, least, most):
    if not re.fullmatch(r'0|[1-9][0-9]*', s, re.ASCII) or len(s) > 20 or not least <= int(s) <= most:
        raise ValueError
    return int(s)


def main(words):
    """(status, bytes written)"""
    seed = count = None
    try:
        if words == ['run', '--order']:
            form = 'run'
        elif len(words) == 3 and words[:2] == ['run', '--seed']:
            form, seed = 'run', decimal(words[2], 0, M64)
        elif len(words) == 5 and words[0] in ('gen', 'show') and words[1] == '--seed' and words[3] == '--calls':
            form, seed, count = words[0], decimal(words[2], 0, M64), decimal(words[4], 8, MAX_CALLS)
        else:
            return 64, b''
    except ValueError:
        return 64, b''
    if form == 'show':
        return 0, gen_script(seed, count)
    if form == 'gen':
        job = Job(*read_script(gen_script(seed, count)))
        job.run_seed(seed)
        return 0, summary(job)
    data = sys.stdin.buffer.read(SCRIPT_BYTES + 1)
    if len(data) > SCRIPT_BYTES:
        return 27, b''
    try:
        job = Job(*read_script(data))
    except Bad as e:
        return 65, b'bad line %d\n' % e.line
    if seed is None:
        job.run_order()
    else:
        job.run_seed(seed)
    return 0, output(job)


def run_deep(f):
    """Runs f with room for deep recursion."""
    out = []
    sys.setrecursionlimit(1000000)
    threading.stack_size(512 << 20)
    t = threading.Thread(target=lambda: out.append(f()))
    t.start()
    t.join()
    return out[0] if out else None


if __name__ == '__main__':
    result = run_deep(lambda: main(sys.argv[1:]))
    if result is None:
        sys.exit(99)
    sys.stdout.buffer.write(result[1])
    sys.stdout.buffer.flush()
    sys.exit(result[0])
