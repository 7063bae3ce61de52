#!/usr/bin/env python3
"""Writes a script for vtree, for timing.

usage: generate.py KIND LINES
       generate.py schedule LINES

files   directories, and in each a file that is written and read, in turn
listed  like files, with every 50th line an `ls` of one of the directories
escaped like files, with an escape in each fourth line
deep    files at the end of a path of 40 directories, written and read
one     names in one directory that grows with the script
users   files of eight users, made, linked, renamed, written and read by descriptor, and removed, in directories that
        have one user as owner and another one in their group; some of the calls are refused
links   files that are made, linked, renamed, read by descriptor and removed through chains of up to 40 links
mounts  binds, moves and unmounts in a namespace of some 4,000 mounts, and files written and read through them
spaces  200 namespaces of 20 mounts each: unshared, entered and left, with mounts of their own in between
sealed  the same namespaces, then for each in turn whether its task is sealed off
received60, received600, received2000
        one mount and its unmount, which so many namespaces receive, and files read on a copy
services60, services600, services2000
        a mount and its unmount in one of so many namespaces, each with peer groups of its own that are slaves of one
        group
chain   a mount and its unmount along 200 peer groups, each the slave of the one before
trees   a tree of 1,000 mounts, bound recursively onto a shared mount with one more peer, and unmounted lazily
lazy60, lazy600, lazy2000
        three mounts at a shared mount with one more peer, and their lazy unmount, in a world with so many other mounts
ending10, ending100
        containers that begin and end, so many at a time: each is a task with a namespace of its own, whose copy of a
        shared mount becomes a slave and then shared; between two of them the host mounts and unmounts, which all receive
handed10
        the same, and each container has one in it whose mount is its slave and which ends later: the group that ends
        hands it to the host's
climbs  a tree, each directory in the one before, and 20 paths of 1,364 `..` from its end
parts   the same under a mount of a part of the filesystem
exits   tasks that are all forked first, and then end in the order in which they were forked
stacks  mounts over one another at one place, and paths that lead through all of them
layers2, layers8, layers64
        an overlay of so many lower layers, and paths of 3 and of 12 words to what its top layer has, its bottom layer, and
        none of them
merged2, merged8, merged64
        an overlay of so many lower layers, and `ls` of a directory of 1,000 names that all of them have a part of
locked  files of 1,000 directories, written and read in turn beside 64 live overlays of three layers each; each 20th line
        writes in one of the layers, and is refused
turns   files of four tasks, each in a directory of its own, written and read in turn
later60, later600, later2000
        so many mounted filesystems, of which the oldest is unmounted, again and again, and a new one mounted in its place

The number of directories is 1,000, or fewer for a short script. The same words give the same script.

`schedule` writes the schedule for the script `turns` of so many lines, for `vtree turns SCRIPT SCHEDULE`: the tasks take
turns as in the script, and each call has as many as it takes.
"""
import collections
import itertools
import sys

DIRECTORIES = 1000


def files(lines):
    count = min(DIRECTORIES, max(1, lines // 10))
    for i in range(count):
        yield f't mkdir /d{i}'
    for i in range(lines - count):
        place = f'/d{i % count}/f{i // (2 * count)}'
        yield f't write {place} value-{i}' if (i // count) % 2 == 0 else f't read {place}'


def listed(lines):
    count = min(DIRECTORIES, max(1, lines // 10))
    for i, line in enumerate(files(lines)):
        yield f't ls /d{i % count}' if i > count and i % 50 == 0 else line


def escaped(lines):
    for i, line in enumerate(files(lines)):
        yield line.replace('/d', r'/\x64') if i % 4 == 3 else line


def deep(lines):
    path = ''
    for i in range(40):
        path += f'/level-{i}'
        yield f't mkdir {path}'
    for i in range(lines - 40):
        yield f't write {path}/f{i % 100} {i}' if i % 200 < 100 else f't read {path}/f{i % 100}'


def one(lines):
    yield 't mkdir /names'
    for i in range(lines - 1):
        # names in no order of their bytes
        yield f't write /names/{(i * 7919) % 1000003} {i}'


USERS = 8


def rounds(left, count, work):
    """So many lines of work, one round after the other."""
    i = 0
    while left > 0:
        for line in work(i, count):
            if left > 0:
                yield line
            left -= 1
        i += 1


def users(lines):
    count = min(DIRECTORIES, max(USERS, lines // 100)) // USERS * USERS
    for user in range(USERS):
        yield f't fork {1000 + user} {1000 + user} {1000 + (user + 1) % USERS},100 -'
    for i in range(count):
        yield f't mkdir /d{i}'
        yield f't chown /d{i} {1000 + i % USERS} {1000 + i % USERS}'
        yield f't chmod /d{i} {"1777" if i % 5 == 0 else "775"}'
    yield from rounds(lines - USERS - 3 * count, count, users_round)


def users_round(i, count):
    """One user's files in his own directory and in one of the next user's, and what a third makes of them."""
    user, first = i % USERS, i // USERS * USERS % count
    task, third = f't.{user + 1}', f't.{(user + 2) % USERS + 1}'
    own, theirs = f'/d{first + user}', f'/d{first + (user + 1) % USERS}'
    yield f'{task} open {own}/f rw create 640'
    yield f'{task} pwrite 0 0 value-{i}'
    yield f'{task} pread 0 0 100'
    yield f'{task} link {own}/f {own}/g'
    yield f'{task} chown {own}/f - 100'
    yield f'{task} rename {own}/f {theirs}/h{user}'
    yield f'{third} read {theirs}/h{user}'
    yield f'{third} write {own}/x no'
    yield f'{task} stat {theirs}/h{user}'
    yield f'{third} unlink {own}/g'
    yield f'{task} chmod {own}/g 600'
    yield f'{third} read {own}/g'
    yield f'{task} unlink {own}/g'
    yield f'{task} unlink {theirs}/h{user}'
    yield f'{task} pread 0 0 100'
    yield f'{task} close 0'
    yield f'{task} mkdir {own}/sub 700'
    yield f'{third} ls {own}/sub'
    yield f'{task} rmdir {own}/sub'
    yield f'{task} lstat {own}'


CHAIN = 20


def links(lines):
    count = min(DIRECTORIES // 10, max(1, lines // 1000))
    for i in range(count):
        yield f't mkdir /d{i}'
        yield f't symlink /d{i} /l{i}-1'
        for k in range(2, CHAIN + 1):
            yield f't symlink l{i}-{k - 1} /l{i}-{k}'
    yield from rounds(lines - count * (CHAIN + 1), count, links_round)


def links_round(i, count):
    """Files through one chain or a part of it, or through two, which with the file's own link are 40."""
    short = f'/l{i % count}-{i % CHAIN + 1}'
    long = f'/l{(i + 1) % count}-{CHAIN}/../l{i % count}-{CHAIN - 1}'
    yield f't write {long}/f value-{i}'
    yield f't link {short}/f {long}/g'
    yield f't symlink g {short}/s'
    yield f't open {long}/s r'
    yield f't rename {long}/g {short}/h'
    yield 't pread 0 0 100'
    yield 't close 0'
    yield f't unlink {short}/f'
    yield f't unlink {long}/h'
    yield f't unlink {short}/s'


MOUNTS = 4000


def mounts(lines):
    count = min(MOUNTS, max(1, lines // 20))
    yield 't mkdir /w'
    for i in range(count):
        if i % 100 == 0:
            yield f't mkdir /m{i // 100}'
        yield f't mkdir /m{i // 100}/{i % 100}'
        yield f't mount plain /m{i // 100}/{i % 100}'
    yield from rounds(lines - 2 * count - (count + 99) // 100 - 1, count, mounts_round)


def mounts_round(i, count):
    """A file on one mount is read through a bind of it, which moves, and is taken away again."""
    place = f'/m{i * 37 % count // 100}/{i * 37 % count % 100}'
    yield f't write {place}/f value-{i}'
    yield f't bind {place} /w'
    yield 't read /w/f'
    yield 't mkdir /w/d'
    yield f't bind / {place}/d'
    yield f't stat {place}/d/w'
    yield f't move {place}/d /w/d'
    yield 't remount /w/d ro'
    yield 't write /w/d/no x'
    yield 't umount /w/d'
    yield 't rmdir /w/d'
    yield 't umount /w'


SPACES = 200


SPACES_MADE = 38 + 10 + 2 * SPACES


def spaces_made(names):
    """The namespaces, each with a task of its own."""
    for i in range(19):
        yield f't mkdir /m{i}'
        yield f't mount plain /m{i}'
    for i in range(10):
        yield 't fork'
        for k in range(SPACES // 10):
            yield f't.{i + 1} fork'
            names.append(f't.{i + 1}.{k + 1}')
    for name in names:
        yield f'{name} unshare'


def spaces(lines):
    names = []
    yield from spaces_made(names)
    yield from rounds(lines - SPACES_MADE, SPACES, lambda i, count: spaces_round(i, names))


def sealed(lines):
    names = []
    yield from spaces_made(names)
    for i in range(lines - SPACES_MADE):
        yield f'! sealed {names[i % SPACES]}'


def spaces_round(i, names):
    """A task makes a mount that another one sees once it has entered, and leaves again for a copy of its own."""
    one, other = names[i % SPACES], names[(i * 7 + 1) % SPACES]
    yield f'{one} mount plain /m{i % 19}'
    yield f'{one} write /m{i % 19}/f value-{i}'
    yield f'{other} setns {one}'
    yield f'{other} read /m{i % 19}/f'
    yield f'{other} unshare'
    yield f'{one} umount /m{i % 19}'
    yield f'{other} read /m{i % 19}/f'
    yield f'{other} umount /m{i % 19}'


def shared_mount():
    yield 't mkdir /a'
    yield 't mount plain /a'
    yield 't mkdir /a/b'
    yield 't type /a shared'


def forked(count, names):
    """So many tasks, none with more than 40 children, each in a namespace of its own."""
    for i in range((count + 39) // 40):
        yield 't fork'
        for k in range(min(40, count - 40 * i)):
            yield f't.{i + 1} fork'
            names.append(f't.{i + 1}.{k + 1}')
    for name in names:
        yield f'{name} unshare'


def received(lines, count):
    """One mount and its unmount, which the namespaces of all tasks receive."""
    names = []
    yield from shared_mount()
    yield from forked(count, names)
    yield from rounds(lines - 4 - (count + 39) // 40 - 2 * count, count, lambda i, count: received_round(i, names))


def received_round(i, names):
    yield 't mount plain /a/b'
    yield f't write /a/b/f value-{i}'
    yield f'{names[i * 7 % len(names)]} read /a/b/f'
    yield 't umount /a/b'


def services(lines, count):
    """Namespaces that receive from the first one and are shared themselves, as system managers make them."""
    names = []
    yield from shared_mount()
    yield from forked(count, names)
    for name in names:
        yield f'{name} type /a slave'
        yield f'{name} type /a shared'
    yield from rounds(lines - 4 - (count + 39) // 40 - 4 * count, count, lambda i, count: services_round(i, names))


def services_round(i, names):
    name = names[i * 7 % len(names)]
    yield f'{name} mount plain /a/b'
    yield f'{name} write /a/b/f value-{i}'
    yield f'{name} read /a/b/f'
    yield f'{name} umount /a/b'


GROUPS = 200


def chain(lines):
    yield 't mkdir /g0'
    yield 't mount plain /g0'
    yield 't mkdir /g0/d'
    yield 't type /g0 shared'
    for i in range(1, GROUPS):
        yield f't mkdir /g{i}'
        yield f't bind /g{i - 1} /g{i}'
        yield f't type /g{i} slave'
        yield f't type /g{i} shared'
    yield from rounds(lines - 4 * GROUPS, GROUPS, chain_round)


def chain_round(i, count):
    """A mount at one of the groups, which those below it receive, and a file that is read at the last."""
    yield f't mount plain /g{i * 37 % count}/d'
    yield f't write /g{i * 37 % count}/d/f value-{i}'
    yield f't read /g{count - 1}/d/f'
    yield f't umount /g{i * 37 % count}/d'


TREE = 1000


def trees(lines):
    yield 't mkdir /tree'
    yield 't mount plain /tree'
    for i in range(TREE - 1):
        # each mount has up to nine children
        place = '/tree' + ''.join(f'/{digit}' for digit in str(i + 1))
        yield f't mkdir {place}'
        yield f't mount plain {place}'
    yield 't mkdir /s'
    yield 't mount plain /s'
    yield 't mkdir /s/d'
    yield 't type /s shared'
    yield 't mkdir /r'
    yield 't bind /s /r'
    yield from rounds(lines - 2 * TREE - 6, TREE, trees_round)


def trees_round(i, count):
    place = ''.join(f'/{digit}' for digit in str(i * 37 % (count - 1) + 1))
    yield f't write /tree{place}/f value-{i}'
    yield 't rbind /tree /s/d'
    yield f't read /r/d{place}/f'
    yield 't lazy /s/d'


def lazy(lines, count):
    yield from shared_mount()
    yield 't mkdir /r'
    yield 't bind /a /r'
    yield 't mkdir /others'
    for i in range(count):
        yield f't mkdir /others/{i}'
        yield f't mount plain /others/{i}'
    yield from rounds(lines - 7 - 2 * count, count, lazy_round)


def lazy_round(i, count):
    yield 't mount plain /a/b'
    yield 't mkdir /a/b/c'
    yield 't mount plain /a/b/c'
    yield f't bind /others/{i * 37 % count} /a/b/c'
    yield 't lazy /a/b'


CHILDREN = 60


def forks():
    """Tasks, one after another, with the lines that make them: parents are made when they are needed, and end with their
    last fork."""
    for first, second, third in itertools.product(range(1, CHILDREN + 1), repeat=3):
        made = [f't.{first}.{second} fork']
        if third == 1:
            made.insert(0, f't.{first} fork')
            if second == 1:
                made.insert(0, 't fork')
        if third == CHILDREN:
            made.append(f't.{first}.{second} exit')
            if second == CHILDREN:
                made.append(f't.{first} exit')
        yield f't.{first}.{second}.{third}', made


def ending(lines, count, is_nested=False):
    yield from shared_mount()
    yield from itertools.islice(endings(count, is_nested), lines - 4)


def endings(count, is_nested):
    """A container begins, an event of the host reaches all that are there, and the oldest one ends."""
    alive = collections.deque()
    left_behind = collections.deque()
    for i, (name, made) in enumerate(forks()):
        yield from made
        yield f'{name} unshare'
        yield f'{name} type /a slave'
        yield f'{name} type /a shared'
        if is_nested:
            yield f'{name} fork'
            yield f'{name}.1 unshare'
            yield f'{name}.1 type /a slave'
        alive.append(name)
        yield 't mount plain /a/b'
        yield f't write /a/b/f value-{i}'
        yield f'{alive[0]} read /a/b/f'
        yield 't umount /a/b'
        if len(alive) > count:
            yield f'{alive[0]} exit'
            if is_nested:
                left_behind.append(f'{alive[0]}.1')
            alive.popleft()
        if len(left_behind) > count:
            yield f'{left_behind.popleft()} exit'


def later(lines, count):
    yield 't mkdir /l'
    for i in range(count):
        yield f't mkdir /l/{i}'
        yield f't mount plain /l/{i}'
        yield f't write /l/{i}/f first'
    yield from rounds(lines - 1 - 3 * count, count, later_round)


def later_round(i, count):
    yield f't umount /l/{i % count}'
    yield f't mount plain /l/{i % count}'
    yield f't write /l/{i % count}/f value-{i}'
    yield f't read /l/{(i + 1) % count}/f'


SHALLOW = ('s', 't')
DEEP = tuple(f'a{number}' for number in range(11))
MERGED = 1000


def directories(top, words):
    for end in range(len(words) + 1):
        yield f't mkdir {"/".join([top, *words[:end]])}'


def overlay(at, lowers):
    yield f't mkdir {at}'
    yield f't mount overlay {at} lowerdir={":".join(lowers)}'


def layers(lines, count):
    lowers = [f'/l{number}' for number in range(count)]
    places = ['/'.join(words) for words in (SHALLOW, DEEP)]
    made = []
    for lower in lowers:
        made += directories(lower, SHALLOW)
        made += [line for line in directories(lower, DEEP)][1:]
    for place in places:
        made.append(f't write {lowers[0]}/{place}/top first')
        made.append(f't write {lowers[-1]}/{place}/bottom last')
    made += overlay('/m', lowers)
    yield from made
    paths = [f'/m/{place}/{name}' for name in ('top', 'bottom', 'none') for place in places]
    for i in range(lines - len(made)):
        yield f't read {paths[i % len(paths)]}'


def merged(lines, count):
    lowers = [f'/l{number}' for number in range(count)]
    made = []
    for lower in lowers:
        made += directories(lower, ('n',))
    made += [f't write {lowers[number % count]}/n/{number} x' for number in range(MERGED)]
    made += overlay('/m', lowers)
    yield from made
    for _ in range(lines - len(made)):
        yield 't ls /m/n'


LIVE = 64


def locked(lines):
    made = []
    for number in range(LIVE):
        lowers = [f'/o{number}/{name}' for name in ('a', 'b', 'c')]
        made.append(f't mkdir /o{number}')
        for lower in lowers:
            made += directories(lower, ('d',))
            made.append(f't write {lower}/d/f x')
        made += overlay(f'/o{number}/m', lowers)
    yield from made
    for i, line in enumerate(files(lines - len(made))):
        yield f't write /o{i % LIVE}/b/d/f y' if i > DIRECTORIES and i % 20 == 0 else line


UPWARD = 1364


def climbs(lines, top='/tree'):
    """A tree, each directory in the one before, and 20 paths that go up from its end."""
    paths = min(20, lines // 4)
    yield 't mkdir /tree'
    if top != '/tree':
        yield f't mkdir {top}'
        yield f't bind /tree {top}'
    yield f't chdir {top}'
    depth = (lines - paths - 4) // 2
    for _ in range(depth):
        yield 't mkdir a'
        yield 't chdir a'
    for _ in range(paths):
        yield 't stat ' + '../' * min(UPWARD, depth)


def tasks_in_turn(count):
    """The names of so many tasks beside the first, in an order in which each can be forked: 64 forks of each."""
    names = collections.deque(['t'])
    made = []
    while len(made) < count:
        parent = names.popleft()
        for number in range(1, 65):
            if len(made) == count:
                break
            child = f'{parent}.{number}'
            yield parent, child
            made.append(child)
            names.append(child)


def exits(lines):
    tasks = list(tasks_in_turn(lines // 2))
    for parent, _ in tasks:
        yield f'{parent} fork'
    for _, child in tasks:
        yield f'{child} exit'


def stacks(lines):
    high = min(2000, max(1, lines // 10))
    yield 't mkdir /m'
    for _ in range(high):
        yield 't mount plain /m'
    yield 't mkdir /m/d'
    for i in range(lines - high - 2):
        yield 't stat /m/d'


WORKERS = [f't.{number}' for number in range(1, 5)]


def turns(lines):
    for _ in WORKERS:
        yield 't fork'
    for name in WORKERS:
        yield f'{name} mkdir /{name}'
    for i in range(lines - 2 * len(WORKERS)):
        name = WORKERS[i % len(WORKERS)]
        word = 'read' if i // len(WORKERS) % 2 else 'write'
        text = '' if word == 'read' else ' text'
        yield f'{name} {word} /{name}/f{i // (2 * len(WORKERS))}{text}'


def schedule(lines):
    """The turns of a script `turns`: a call takes one for each word of its path, and one more."""
    for line in turns(lines):
        name, _, *paths = line.split(' ')
        for _ in range(1 + (paths[0].count('/') if paths else 0)):
            yield name


KINDS = {
    'files': files, 'listed': listed, 'escaped': escaped, 'deep': deep, 'one': one, 'users': users, 'links': links, 'mounts': mounts,
    'spaces': spaces, 'sealed': sealed,
    'received60': lambda lines: received(lines, 60), 'received600': lambda lines: received(lines, 600),
    'received2000': lambda lines: received(lines, 2000),
    'services60': lambda lines: services(lines, 60), 'services600': lambda lines: services(lines, 600),
    'services2000': lambda lines: services(lines, 2000), 'chain': chain, 'trees': trees,
    'lazy60': lambda lines: lazy(lines, 60), 'lazy600': lambda lines: lazy(lines, 600),
    'lazy2000': lambda lines: lazy(lines, 2000), 'ending10': lambda lines: ending(lines, 10),
    'ending100': lambda lines: ending(lines, 100), 'handed10': lambda lines: ending(lines, 10, is_nested=True),
    'later60': lambda lines: later(lines, 60), 'later600': lambda lines: later(lines, 600),
    'later2000': lambda lines: later(lines, 2000),
    'layers2': lambda lines: layers(lines, 2), 'layers8': lambda lines: layers(lines, 8),
    'layers64': lambda lines: layers(lines, 64), 'merged2': lambda lines: merged(lines, 2),
    'merged8': lambda lines: merged(lines, 8), 'merged64': lambda lines: merged(lines, 64), 'locked': locked,
    'climbs': climbs, 'parts': lambda lines: climbs(lines, '/part'), 'exits': exits, 'stacks': stacks, 'turns': turns,
}


def main():
    if len(sys.argv) == 3 and sys.argv[1] == 'schedule' and sys.argv[2].isdigit():
        for line in schedule(int(sys.argv[2])):
            print(line)
        return
    if len(sys.argv) != 3 or sys.argv[1] not in KINDS or not sys.argv[2].isdigit():
        sys.exit(__doc__.strip())
    out = sys.stdout
    for line in KINDS[sys.argv[1]](int(sys.argv[2])):
        out.write(line + '\n')


if __name__ == '__main__':
    main()
