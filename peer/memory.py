#!/usr/bin/env python3
"""memory.py PROGRAM FOLDER SCRIPT..   refuses PROGRAM each allocation of its runs in turn

FOLDER has refuse_malloc.so, and room for a few files. The judge is tried on the last script. Ten scripts that PROGRAM
makes are run too, and one with long replies. .ci/memory says what each run is held to."""
import collections
import mmap
import multiprocessing
import os
import re
import select
import signal
import sys
import time

HERE = os.path.dirname(os.path.abspath(__file__))
sys.path.insert(0, HERE)
import fuzz
import model

SECONDS = 20                            # after so many a run counts as one that never ends
MOST_FAILURES = 5                       # so many failures of one form of one script are told; then its runs stop
WANTING = b' = error ENOMEM\n'

Form = collections.namedtuple('Form', 'name words seed threads')
Task = collections.namedtuple('Task', 'program name script form')


def forms(number):
    return [Form('run --order', ['run', '--order'], None, False),
            Form('run --seed', ['run', '--seed', str(number)], number, False),
            Form('run', ['run'], None, True)]


# ---- the judge

class WantingJob(model.Job):
    """A job in which the entries of these numbers tell want of memory, where they may."""

    def __init__(self, script, wanting):
        super().__init__(*model.read_script(script))
        self.wanting = wanting

    def step(self, c):
        _, call, text = self.live[c]
        if len(self.history) not in self.wanting or not fuzz.may_lack(self.world, (), c, call):
            return super().step(c)
        self.history.append(('call', c, text, ('error', 'ENOMEM')))
        del self.live[c]
        return True


def modelled(script, form, wanting):
    """What the second model writes for a script where these entries tell want of memory."""
    job = WantingJob(script, wanting)
    job.run_order() if form.seed is None else job.run_seed(form.seed)
    return model.output(job)


def wrong(script, form, status, out, refused=1):
    """Why a run mustn't end so where so many allocations were refused, or None."""
    if status not in (0, 12):
        return 'status %s' % status
    if out.count(WANTING) + (status == 12) > refused:
        return 'memory is wanting more than once: status %d, %s' % (status, fuzz.clip(out, 2000))
    if form.threads:
        return fuzz.illegal(script, out, status == 12)
    lines = out.split(b'\n')
    told = {i for i, l in enumerate(lines[1:-1]) if (l + b'\n').endswith(WANTING)}
    # A line that is cut off may tell want of memory too.
    texts = [modelled(script, form, w) for w in (told, told | {len(lines) - 2})[:1 + (status == 12)]]
    if out == texts[0] or status == 12 and any(t.startswith(out) for t in texts):
        return None
    return fuzz.difference((status, texts[0]), (status, out))


def false_runs(script, form):
    """What is false, with status and output, of runs of the script in which one allocation was refused."""
    in_order, out = (modelled(script, f, ()) for f in (forms(0)[0], form))
    entries = out[:out.index(b'\ntrees\n')].count(b'\n')
    done = out.replace(b' = ok\n', WANTING, 1)
    answer = b' = error EEXIST\n'.join(out.rsplit(b' = ok\n', 1))
    trees = re.sub(rb'\nname (\S+) ', rb'\nname \1x ', out, 1)
    twice = modelled(script, form, (entries - 2, entries - 1))
    once = modelled(script, form, (entries - 1,))
    first = out.index(b'\n') + 1
    second = out.index(b'\n', first) + 1
    fewer, more = out[:first] + out[second:], out[:second] + out[first:]
    half = len(out) // 2
    yield 'a call that was done tells want of memory', 0, done
    yield 'a read tells want of memory', 0, re.sub(rb' = data \S+\n', WANTING, out, 1)
    yield 'two calls tell want of memory', 0, twice
    yield 'a call and the status tell want of memory', 12, once[:once.index(WANTING) + len(WANTING)]
    yield 'another answer', 0, answer
    yield 'another tree', 0, trees
    yield 'a call too few', 0, fewer
    yield 'a call too many', 0, more
    yield 'a front with status 0', 0, out[:half]
    yield 'nothing with status 0', 0, b''
    yield 'more than the output', 0, out + b'end\n'
    yield 'more than the output, with status 12', 12, out + b'end\n'
    yield 'a front that ends with another byte', 12, out[:half] + b'\0'
    yield 'a front with another answer', 12, answer[:-1]
    yield 'a front with another tree', 12, trees[:-1]
    yield 'a front with a call too few', 12, fewer[:half]
    yield 'status 75', 75, b''
    yield 'a signal', -signal.SIGSEGV, b''
    yield 'status 1 after the output', 1, out
    if form.seed is not None:
        yield 'the turns of another form', 0, in_order


def true_runs(script, form):
    """The same of runs that are right: with each entry that may tell want of memory, and fronts."""
    out = modelled(script, form, ())
    yield 'the output', 0, out
    for k in range(out[:out.index(b'\ntrees\n')].count(b'\n')):
        yield 'entry %d tells want of memory' % k, 0, modelled(script, form, (k,))
    for k in [0, 1, *range(50, len(out), 50), len(out)]:
        yield 'a front of %d bytes' % k, 12, out[:k]


def try_judge(script):
    """Tries the judge on runs that are made up: how many it judges rightly, and where it fails."""
    tried, failures = 0, []
    for form in forms(1):
        made = [(True, *run) for run in false_runs(script, form)] + [(False, *run) for run in true_runs(script, form)]
        tried += len(made)
        failures += ['the judge %s of %s: %s' % ('passes' if is_false else 'refuses', form.name, what)
                     for is_false, what, status, out in made
                     if is_false != bool(wrong(script, form, status, out))]
    return tried, failures


# ---- runs

class Runs:
    """Runs of the program in the folder, one after the other."""

    def __init__(self, task):
        self.task = task
        self.count_file = './count.%d' % os.getpid()
        self.script_file = './script.%d' % os.getpid()
        with open(self.count_file, 'w+b') as f:
            f.write(bytes(8))
            f.flush()
            self.count = mmap.mmap(f.fileno(), 8)
        with open(self.script_file, 'wb') as f:
            f.write(task.script)

    def run(self, refused):
        """The status, the output and the count of allocations of a run that is refused this one, or none by 0."""
        self.count[:] = bytes(8)
        env = dict(LD_PRELOAD='./refuse_malloc.so', ALLOCATION_COUNT=self.count_file, REFUSED_ALLOCATION=str(refused))
        out, theirs = os.pipe()
        pid = os.posix_spawn(self.task.program, [self.task.program] + self.task.form.words, env, file_actions=[
            (os.POSIX_SPAWN_OPEN, 0, self.script_file, os.O_RDONLY, 0),
            (os.POSIX_SPAWN_DUP2, theirs, 1),
            (os.POSIX_SPAWN_OPEN, 2, '/dev/null', os.O_WRONLY, 0)])
        os.close(theirs)
        text = self.read_all(out)
        if text is None:
            os.kill(pid, signal.SIGKILL)
        os.close(out)
        status = os.waitstatus_to_exitcode(os.waitpid(pid, 0)[1])
        if text is None:
            status, text = 'none after %d seconds' % SECONDS, b''
        return status, text, int.from_bytes(self.count[:], sys.byteorder)

    def read_all(self, out):
        """All that is written to the pipe, or None where its end doesn't come in time."""
        end = time.monotonic() + SECONDS
        text = b''
        while select.select([out], [], [], max(0, end - time.monotonic()))[0]:
            piece = os.read(out, 65536)
            if not piece:
                return text
            text += piece
        return None


def outcome(status, out):
    if status == 12:
        return 'status 12 and a front' if out else 'status 12 and nothing written'
    return 'a call that finds no memory' if WANTING in out else 'all done'


OUTCOMES = [outcome(12, b''), outcome(12, b'v'), outcome(0, WANTING), outcome(0, b'')]
Told = collections.namedtuple('Told', 'runs outcomes failures')


def refuse_each(task):
    """Refuses a form of a script each of its allocations in turn."""
    runs = Runs(task)
    outcomes = collections.Counter()
    failures = []
    # With threads one run may make some more allocations than another.
    whole = [runs.run(0) for _ in range(4 if task.form.threads else 1)]
    most = max(count for _, _, count in whole)
    for status, out, _ in whole:
        why = wrong(task.script, task.form, status, out, 0)
        if why:
            failures.append('no allocation refused: ' + why)
    if most == 0:
        failures.append('no allocation is counted: is the program linked dynamically?')
    judged = {}
    refused = 0
    while refused < most and len(failures) < MOST_FAILURES:
        refused += 1
        status, out, count = runs.run(refused)
        if (status, out) not in judged:
            judged[status, out] = wrong(task.script, task.form, status, out)
        why = judged[status, out]
        if not why and count < refused and not task.form.threads:
            why = 'the run ended with %d allocations' % count
        if why:
            failures.append('allocation %d of %d refused: %s' % (refused, most, why))
        outcomes[outcome(status, out)] += 1
    return Told(len(whole) + refused, outcomes, failures)


# ---- all of it

def long_script():
    """A script with few calls and long replies, whose output is written in pieces."""
    lines = [b'vfs 1', b'1 open /f bc', b'1 write 0 ' + b'w' * 65536, b'2 open /f r', b'2 read 0 65536',
             b'1 mkdir /d', b'1 pread 0 65536 1', b'2 pread 0 65536 2', b'1 open /d/g wc', b'1 close 0', b'end']
    return b''.join(l + b'\n' for l in lines)


def scripts(program, files):
    for name in files:
        with open(name, 'rb') as f:
            yield os.path.basename(name), f.read()
    for seed in range(1, 11):
        words = ['show', '--seed', str(seed), '--calls', '40']
        status, script = fuzz.by_program(program, b'', words)
        if (status, script) != (0, model.gen_script(seed, 40)):
            raise SystemExit('memory: %s: status %s, or another script' % (' '.join(words), status))
        yield ' '.join(words), script
    yield 'long replies', long_script()


def main(program, folder, *files):
    cases = list(scripts(program, files))
    os.chdir(folder)
    passed, failures = try_judge(cases[len(files) - 1][1])
    passed -= len(failures)
    print('memory: the judge: %d runs that are made up judged rightly' % passed)
    for why in failures:
        print('memory: ' + why)
    failed = len(failures)
    outcomes = {form.name: collections.Counter() for form in forms(0)}
    tasks = [Task(program, name, script, form)
             for i, (name, script) in enumerate(cases, 1) for form in forms(i)]
    with multiprocessing.Pool(len(os.sched_getaffinity(0))) as pool:
        for task, told in zip(tasks, pool.imap(refuse_each, tasks)):
            for why in told.failures:
                print('memory: %s, %s, %s' % (task.name, ' '.join(task.form.words), why))
            outcomes[task.form.name].update(told.outcomes)
            failed += len(told.failures)
            passed += told.runs - len(told.failures)
    for form, counts in outcomes.items():
        print('memory: %s: %s' % (form, ', '.join('%s %d' % (what, counts[what]) for what in OUTCOMES)))
        for what in OUTCOMES:
            # When a thread's allocations come isn't the same in each run, so some outcomes are left to chance.
            if counts[what] == 0 and (form != 'run' or what != outcome(12, b'v')):
                print('memory: %s: no run ended with %s' % (form, what))
                failed += 1
    print('memory: %d passed, %d failed' % (passed, failed))
    return 1 if failed else 0


if __name__ == '__main__':
    sys.exit(main(*sys.argv[1:]))
