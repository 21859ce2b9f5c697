"""Drives `desk` as its users do, kills it at random moments, damages its files by hand and tries each refusal.

    python3 test_desk.py [SEED [DESK ..]]

With programs named, each start takes one of them at random, and what only desk.c says is not tried: so two programs can take turns on the
same files. The user is the library's own, called from Python. The log's file is read here by its description in desk.c, apart from its
code.
"""
import ctypes, hashlib, os, random, shutil, signal, subprocess, sys, tempfile, time

HERE = os.path.dirname(os.path.abspath(__file__))
DESK = os.path.join(HERE, "desk")
PROGRAMS = [os.path.abspath(program) for program in sys.argv[2:]]
ARCHIVE = os.path.join(HERE, "../../crates/kozbrax/out/libkozbrax.a")
N, NAME = 3, "studio"
WORK = tempfile.mkdtemp(prefix="kozbrax-test-desk-")
USERS = os.path.join(WORK, "users")


class Served(ctypes.Structure):
    _fields_ = [("code", ctypes.c_uint32), ("answer", ctypes.c_uint32), ("used", ctypes.c_uint64)]


class Asked(ctypes.Structure):
    _fields_ = [(f, ctypes.c_uint32) for f in ("code", "refusal", "server", "length", "ended", "author", "entry")]


def load_library():
    path = os.path.join(WORK, "libkozbrax.so")
    subprocess.run(["cc", "-shared", "-o", path, "-Wl,--whole-archive", ARCHIVE, "-Wl,--no-whole-archive"], check=True)
    library = ctypes.CDLL(path)
    for name in ("update_start", "write_start", "read_start", "give_up_start", "take"):
        getattr(library, "kozbrax_" + name).restype = Asked
    library.kozbrax_server.restype = Served
    return library


def size(n):
    return ctypes.c_size_t(n)


class User:
    """User 1 of the log. `send` takes a server's number and a request and gives the answer."""

    def __init__(self, library, key):
        self.library, self.key = library, key
        self.kept, self.path, self.signature, self.call, self.hashes, self.held, self.request, self.entry = (
            ctypes.create_string_buffer(n) for n in (46, 672, 2508, 82, 1248, 1026, 2566, 1024))
        self.who = (N, 1, NAME.encode().ljust(16, b"\0"), key.public, size(56))

    def run(self, asked, send):
        while asked.code == 0 and not asked.ended:
            answer = send(asked.server, self.request.raw[:asked.length])
            k = self.key
            asked = self.library.kozbrax_take(*self.who, k.id, k.seed, k.tree, size(65504), answer, size(len(answer)), self.kept,
                                              self.path, self.signature, self.call, self.hashes, self.held, self.request, size(2566),
                                              self.entry, size(1024))
        return asked

    def update(self, send):
        return self.run(self.library.kozbrax_update_start(*self.who, self.kept, self.call, self.request, size(2566)), send)

    def write(self, entry, send):
        randomizer = hashlib.sha256(b"second secret" + self.kept.raw[36:40] + entry).digest()
        return self.run(self.library.kozbrax_write_start(*self.who, self.key.tree, size(65504), entry, size(len(entry)), randomizer,
                                                         self.kept, self.path, self.call, self.held, self.request, size(2566)), send)

    def give_up(self, send):
        return self.run(self.library.kozbrax_give_up_start(*self.who, self.kept, self.path, self.call, self.request, size(2566)), send)

    def read(self, position, send):
        asked = self.run(self.library.kozbrax_read_start(*self.who, position, self.kept, self.call, self.request, size(2566),
                                                         self.entry, size(1024)), send)
        return asked.code, asked.author, self.entry.raw[:asked.entry]


class Key:
    def __init__(self, library):
        self.seed, self.id = bytes([7] * 32), bytes([9] * 16)
        tree, public = ctypes.create_string_buffer(65504), ctypes.create_string_buffer(56)
        assert library.kozbrax_lms_generate(self.seed, self.id, tree, size(65504)) == 0
        assert library.kozbrax_lms_public_key(self.id, tree, size(65504), public, size(56)) == 0
        self.tree, self.public = tree, public.raw


class Model:
    """The same server in memory, with which a desk's answers and files are compared."""

    def __init__(self, library, key, own):
        self.library, self.key, self.own, self.used = library, key, own, 0
        self.head, self.store, self.answer = (ctypes.create_string_buffer(n) for n in (79, 10**6, 2552))

    def ask(self, request):
        served = self.library.kozbrax_server(N, self.own, NAME.encode().ljust(16, b"\0"), self.key.public, size(56), self.head,
                                             self.store, size(10**6), ctypes.c_uint64(self.used), request, size(len(request)),
                                             self.answer, size(2552))
        self.used = served.used
        return self.answer.raw[:served.answer]

    def state(self):
        return self.head.raw, self.store.raw[:self.used]


def arguments(folder, own, new=False, n=N, name=NAME, users=USERS, limit=None):
    program = random.choice(PROGRAMS) if PROGRAMS else DESK
    return [program] + ["new"] * new + [folder, str(n), str(own), name, users] + ([] if limit is None else [str(limit)])


class Desk:
    """A desk process, started on its folder."""

    def __init__(self, folder, own, **others):
        os.makedirs(folder, exist_ok=True)
        self.folder, self.own = folder, own
        self.process = subprocess.Popen(arguments(folder, own, **others), stdin=subprocess.PIPE, stdout=subprocess.PIPE,
                                        stderr=subprocess.PIPE)

    def put(self, request):
        self.process.stdin.write(len(request).to_bytes(2, "big") + request)
        self.process.stdin.flush()

    def get(self):
        head = self.process.stdout.read(2)
        answer = self.process.stdout.read(int.from_bytes(head, "big")) if len(head) == 2 else b""
        return answer if len(head) == 2 and len(answer) == int.from_bytes(head, "big") else None

    def ask(self, request):
        self.put(request)
        return self.get()

    def kill(self):
        self.process.send_signal(signal.SIGKILL)
        self.process.communicate()

    def end(self):
        errors = self.process.communicate()[1].decode()
        return self.process.returncode, errors


def file_of(folder):
    with open(os.path.join(folder, "log"), "rb") as f:
        return f.read()


def write_file(folder, data):
    with open(os.path.join(folder, "log"), "wb") as f:
        f.write(data)


def slot_state(data, at):
    """Number, head, and used part of the store of a valid slot, else None."""
    slot, store = data[at:at + 167], data[8192:]
    before, used = (int.from_bytes(slot[i:i + 8], "big") for i in (119, 127))
    if len(slot) < 167 or before > used or used > len(store):
        return None
    check = hashlib.sha256(slot[:135] + store[before:used]).digest()
    return (int.from_bytes(slot[:8], "big"), slot[40:119], store[:used]) if check == slot[135:] else None


def state_of(data):
    return max((s for s in (slot_state(data, 0), slot_state(data, 4096)) if s), default=None)


def passed(what):
    print("passed:", what, flush=True)


def refused(what, words, command, status=1):
    """The command is refused with one line that has these words, and exits with 1."""
    run = subprocess.run(command, input=b"", capture_output=True)
    line = run.stderr.decode()
    assert (run.returncode, run.stdout, line.count("\n")) == (status, b"", 1) and words in line, (what, run)
    passed("%s: %s" % (what, line.strip()))


def mend_lock(folder):
    """Where a server was killed while it took the lock: does what the refusal says. Returns whether it was so."""
    lock, taking = os.path.join(folder, "lock"), os.path.join(folder, "lock.taking")
    if not os.path.exists(taking) and (not os.path.exists(lock) or os.path.getsize(lock) > 0):
        return False
    for path in (lock, taking):
        if os.path.exists(path):
            os.remove(path)
    return True


class Servers:
    """N desks. Each request may find its server killed before it, while it is served, or after its answer has come."""

    def __init__(self, library, key, folder, kills):
        self.folders = [os.path.join(folder, str(i + 1)) for i in range(N)]
        self.desks = [Desk(f, i + 1, new=True) for i, f in enumerate(self.folders)]
        assert all(desk.ask(b"") for desk in self.desks)
        self.models = [Model(library, key, i + 1) for i in range(N)]
        self.kills, self.killed, self.late, self.mended = kills, 0, 0, 0

    def state(self, i):
        return state_of(file_of(self.folders[i]))[1:]

    def answered(self, i, request, answer):
        """The answer is the model's, and what it says is in the file."""
        assert answer == self.models[i].ask(request), self.desks[i].end()
        assert self.state(i) == self.models[i].state(), "an answer left before its change was saved"

    def restart(self, i, request):
        """Kills a desk. What was answered is there still, or one change more, of the request that was not answered."""
        self.desks[i].kill()
        self.killed += 1
        self.mended += mend_lock(self.folders[i])
        if self.state(i) != self.models[i].state():
            self.models[i].ask(request)
            assert self.state(i) == self.models[i].state(), "an accepted change was lost"
            self.late += 1
        self.desks[i] = Desk(self.folders[i], i + 1)

    def send(self, server, request):
        i = server - 1
        while random.random() < self.kills:
            moment = random.choice(("before", "during", "during", "after"))
            if moment != "before":
                self.desks[i].put(request)
            if moment == "during":
                time.sleep(random.choice((0, 0.0002, 0.0005, 0.001, 0.002)))
            if moment == "after":
                self.answered(i, request, self.desks[i].get())
            self.restart(i, request)
        answer = self.desks[i].ask(request)
        self.answered(i, request, answer)
        return answer

    def end(self):
        for desk in self.desks:
            assert desk.end()[0] == 0
            assert set(os.listdir(desk.folder)) <= {"log", "lock.new"}


def run_with_kills(library, key):
    servers, user = Servers(library, key, os.path.join(WORK, "kills"), 0.3), User(library, key)
    entries = [b"\1" + random.randbytes(random.choice((0, 1, 40, 1023))) for _ in range(40)]
    for entry in entries:
        assert user.write(entry, servers.send).code == 0
    assert servers.killed > 100
    other = User(library, key)
    assert other.update(servers.send).code == 0
    for reader in (user, other):
        assert [reader.read(i + 1, servers.send) for i in range(len(entries))] == [(0, 1, e) for e in entries]
    servers.end()
    passed("40 writes and 80 reads, %d kills, %d of them between a change and its answer, %d while the lock was taken"
           % (servers.killed, servers.late, servers.mended))


class Dropped(Exception):
    """A request that is not sent: its call is dropped."""


def give_ups_with_kills(library, key):
    """Writes that are dropped at a Reserve and given up, while desks are killed: another write then takes the position."""
    servers, user, given_up = Servers(library, key, os.path.join(WORK, "give-ups"), 0.3), User(library, key), 0

    def send_some(server, request):
        if request[2] == 6 or (request[2] == 5 and random.random() < 0.3):
            raise Dropped
        return servers.send(server, request)

    for i in range(20):
        try:
            user.write(b"\1given up %d" % i, send_some)
        except Dropped:
            asked = user.give_up(servers.send)
            assert asked.code == (28 if user.kept.raw[43] else 0)
            given_up += asked.code == 0
        entry = b"\1given up %d" % i if user.kept.raw[40] else b"\1kept %d" % i
        assert user.write(entry, servers.send).code == 0
        assert user.read(i + 1, servers.send) == (0, 1, entry)
    servers.end()
    assert given_up > 3
    passed("20 writes dropped at a Reserve or the PutOperation, %d of them given up, %d kills" % (given_up, servers.killed))


def older_slots(data):
    """The places of the slots that are valid as version 0.1.0 laid them."""
    places, store = [], data[8192:]
    for at in (0, 4096):
        before, used = (int.from_bytes(data[at + i:at + i + 8], "big") for i in (79, 87))
        check = hashlib.sha256(data[at:at + 95] + store[before:used]).digest()
        places += [at] if before <= used <= len(store) and check == data[at + 95:at + 127] else []
    return places


def start_and_end(folder, own):
    """A start with no request, and the file after it."""
    assert Desk(folder, own).end()[0] == 0
    return file_of(folder)


def cut_starts(folder, own, older):
    """What a start on a file of version 0.1.0 leaves where it is cut in one of its two saves: the next start has the same state."""
    whole = start_and_end(folder, own)
    number, head, store = state_of(whole)
    assert not older_slots(whole) and slot_state(whole, 0) and slot_state(whole, 4096)
    first, second = (0, 4096) if slot_state(whole, 0)[0] < slot_state(whole, 4096)[0] else (4096, 0)
    for saved in list(range(0, 334, 30)) + [167, 333]:
        data = bytearray(older)
        data[first:first + min(saved, 167)] = whole[first:first + min(saved, 167)]
        data[second:second + max(saved - 167, 0)] = whole[second:second + max(saved - 167, 0)]
        write_file(folder, data)
        after = start_and_end(folder, own)
        assert not older_slots(after) and state_of(after)[0] >= number - 1 and state_of(after)[1:] == (head, store), saved
    write_file(folder, older)


def older_files(library, key):
    """Files of version 0.1.0, from before give-ups, with a head of 39 bytes in each slot, are read as they are. Both slots are laid anew at the
    start, also where one of them, or a part of one, was before the start was cut; so version 0.1.0 finds no state to go on from."""
    servers, user = Servers(library, key, os.path.join(WORK, "older"), 0), User(library, key)
    for i in range(3):
        assert user.write(b"\1firing %d" % i, servers.send).code == 0
    servers.end()
    for folder, model in zip(servers.folders, servers.models):
        data = bytearray(file_of(folder))
        for at in (0, 4096):
            slot, store = data[at:at + 167], data[8192:]
            before, used = (int.from_bytes(slot[i:i + 8], "big") for i in (119, 127))
            older = slot[:79] + slot[119:135]
            data[at:at + 167] = (older + hashlib.sha256(older + store[before:used]).digest()).ljust(167, b"\0")
        assert older_slots(data) == [0, 4096]
        write_file(folder, data)
        cut_starts(folder, model.own, data)
        model.head[39:79] = bytes(40)
    desks = [Desk(f, i + 1) for i, f in enumerate(servers.folders)]

    def send(server, request):
        answer = desks[server - 1].ask(request)
        assert answer == servers.models[server - 1].ask(request)
        return answer

    assert user.write(b"\1firing 3", send).code == 0
    assert [user.read(i + 1, send) for i in range(4)] == [(0, 1, b"\1firing %d" % i) for i in range(4)]
    assert all(desk.end() == (0, "") for desk in desks)
    assert all(servers.state(i) == model.state() for i, model in enumerate(servers.models))
    assert not any(older_slots(file_of(folder)) for folder in servers.folders)
    passed("files of version 0.1.0: read, and both slots laid anew at the start, also at one that was cut in its saves")


def order_of_calls(requests):
    """Between a write to the log's file and the next answer the file is synchronized, and the store too where it has changed."""
    if not shutil.which("strace"):
        print("not tried, since there is no strace: the order of writing and synchronizing")
        return
    folder, trace = os.path.join(WORK, "order"), os.path.join(WORK, "trace")
    os.makedirs(folder)
    messages = b"".join(len(r).to_bytes(2, "big") + r for r in requests)
    subprocess.run(["strace", "-o", trace, "-e", "trace=openat,write,msync,fsync"] + arguments(folder, 1, new=True), input=messages,
                   stdout=subprocess.DEVNULL, check=True)
    with open(trace) as f:
        lines = f.read().split("\n")
    opened = next(i for i, line in enumerate(lines) if '"log", O_RDWR' in line)
    file = lines[opened].split()[-1]
    pending, saves, records = False, 0, 0
    for line in lines[opened:]:
        if line.startswith("write(%s," % file):
            pending, saves = True, saves + 1
        pending = pending and not line.startswith("fsync(%s)" % file)
        records += line.startswith("msync(")
        assert not (pending and line.startswith("write(1,")), "an answer left before the file was synchronized"
    number, _, store = state_of(file_of(folder))
    assert saves == number - 1 and records == store.count(b"\x4b\x53")
    passed("%d saves, %d of them with a record: each is synchronized before its answer" % (saves, records))


def new_logs_with_kills():
    """A server that is killed while it begins a log leaves none, or a whole one."""
    there = 0
    for i in range(60):
        folder = os.path.join(WORK, "new-%d" % i)
        desk = Desk(folder, 1, new=True)
        time.sleep(random.uniform(0, 0.004))
        desk.kill()
        mend_lock(folder)
        whole = os.path.exists(os.path.join(folder, "log"))
        there += whole
        assert Desk(folder, 1, new=not whole).end() == (0, "")
        assert state_of(file_of(folder)) == (1, bytes(79), b"")
    passed("60 new logs with a kill: %d were there, the others could be begun again" % there)


def power_failures(library, key):
    """The last change, a stored record, came to the disk in part: the state before it counts, and the repeated request is accepted."""
    servers, user, steps = Servers(library, key, os.path.join(WORK, "power"), 0), User(library, key), []

    def send(server, request):
        before = file_of(servers.folders[server - 1])
        answer = servers.send(server, request)
        steps.append((server, request, answer, before, file_of(servers.folders[server - 1])))
        return answer

    for i in range(4):
        assert user.write(b"\1firing %d" % i, send).code == 0
    servers.end()
    tried = 0
    for server, request, answer, before, after in steps:
        old, new = state_of(before), state_of(after)
        if old == new:
            continue
        folder, at, used = servers.folders[server - 1], 0 if new[0] % 2 else 4096, (len(old[2]), len(new[2]))
        slot, record = slice(at, at + 167), slice(8192 + used[0], 8192 + used[1])
        kinds = [("nothing", [], old), ("half of the slot", [slice(at, at + 64)], old), ("all", [slot, record], new)]
        if used[0] != used[1]:
            kinds += [("the slot alone", [slot], old), ("the record alone", [record], old),
                      ("the slot and half of the record", [slot, slice(record.start, (record.start + record.stop) // 2)], old)]
        for what, parts, wanted in kinds:
            data = bytearray(before.ljust(len(after), b"\0"))
            for part in parts:
                data[part] = after[part]
            write_file(folder, data)
            assert state_of(data) == wanted, what
            desk = Desk(folder, server)
            assert desk.ask(request) == answer and desk.end()[0] == 0, what
            assert state_of(file_of(folder)) == new, what
            tried += 1
    passed("%d ways in which a change came to the disk in part" % tried)
    return [request for server, request, *_ in steps if server == 1]


def damages(library, key):
    servers, user = Servers(library, key, os.path.join(WORK, "damage"), 0), User(library, key)
    for i in range(2):
        assert user.write(b"\1firing %d" % i, servers.send).code == 0
    servers.end()
    folder, data = servers.folders[0], file_of(servers.folders[0])
    number, _, store = state_of(data)

    def with_bytes(*places):
        changed = bytearray(data)
        for place in places:
            changed[place] ^= 1
        write_file(folder, changed)

    newest, oldest = (0, 4096) if number % 2 else (4096, 0)
    for at in range(167):
        with_bytes(newest + at)
        code, line = Desk(folder, 1).end()
        assert code == 0 and "going on from state %d" % (number - 1) in line, (at, line)
        with_bytes(oldest + at)
        code, line = Desk(folder, 1).end()
        assert code == 0 and "going on from state %d" % number in line, (at, line)
    passed("each of the 167 bytes of either slot changed: the other slot counts")
    with_bytes(newest + 3, oldest + 100)
    refused("both slots damaged", "neither of its slots", arguments(folder, 1))
    with_bytes(8192)
    refused("the first record damaged", "not whole", arguments(folder, 1))
    write_file(folder, data[:8192 + len(store) - 1])
    code, line = Desk(folder, 1).end()
    assert code == 0 and "going on from state %d" % (number - 1) in line, line
    passed("the last record cut by a byte: the state before it counts")
    write_file(folder, data[:100])
    refused("the file cut within slot 1", "neither of its slots", arguments(folder, 1))
    write_file(folder, data[:8192 + len(store)])
    assert Desk(folder, 1).end() == (0, "")
    write_file(folder, data)
    refused("a store above the limit", "more than STORE_BYTES", arguments(folder, 1, limit=len(store) - 1))
    assert Desk(folder, 1, limit=len(store)).end() == (0, "") and state_of(file_of(folder)) == state_of(data)
    return folder


def refusals(folder):
    def users_of(length):
        path = os.path.join(WORK, "users-%d" % length)
        with open(path, "wb") as f:
            f.write(bytes(length))
        return path

    empty = os.path.join(WORK, "empty")
    os.makedirs(empty)
    refused("no arguments", "usage", [DESK])
    refused("too many arguments", "usage", arguments(folder, 1, limit=1) + ["more"])
    refused("no log", "no log", arguments(empty, 1))
    refused("a log already", "already", arguments(folder, 1, new=True))
    refused("no folder", "cannot open the folder", arguments(os.path.join(WORK, "none"), 1))
    for n, own in ((1, 1), (17, 1), ("", 1), ("2x", 1), (3, 0), (3, 4), (3, -1)):
        refused("N %s, OWN %s" % (n, own), "must be", arguments(empty, own, n=n))
    for name in ("", "seventeen letters"):
        refused("name '%s'" % name, "1 to 16 bytes", arguments(empty, 1, name=name))
    for length in (0, 55, 57, 65 * 56):
        refused("users' file of %d bytes" % length, "1 to 64 keys", arguments(empty, 1, users=users_of(length)))
    refused("no users' file", "cannot open the users", arguments(empty, 1, users=os.path.join(WORK, "none")))
    for limit in ("", "x", "-1", 2**63 - 8192, 2**64, 10**30):
        refused("limit '%s'" % limit, "STORE_BYTES", arguments(empty, 1, limit=limit))
    for others in ({"n": 4}, {"own": 2}, {"name": "kiln"}, {"users": users_of(56)}, {"users": users_of(64 * 56)}):
        refused("other setup %s" % list(others), "another N, OWN, NAME or USERS", arguments(**{"folder": folder, "own": 1, **others}))
    assert os.listdir(empty) == [] and sorted(os.listdir(folder)) == ["log"]


def answers_once(desk):
    try:
        return desk.ask(b"") is not None
    except BrokenPipeError:
        return False


def locks(folder):
    lock, taking = os.path.join(folder, "lock"), os.path.join(folder, "lock.taking")

    def put(text):
        with open(lock, "w") as f:
            f.write(text)

    desk = Desk(folder, 1)
    assert desk.ask(b"") is not None
    with open(lock) as f:
        assert f.read() == "%d\n" % desk.process.pid
    refused("a second server", "process %d holds" % desk.process.pid, arguments(folder, 1))
    gone = desk.process.pid
    desk.kill()
    assert os.path.exists(lock)
    open(taking, "w").close()
    refused("another takes over", "remove lock.taking and lock", arguments(folder, 1))
    os.remove(taking)
    for text in ("", "\n", "x\n", "12", "-5\n", "0\n", "99999999999\n", "1 2\n", "12\n\n"):
        put(text)
        refused("lock %r" % text, "cannot be read", arguments(folder, 1))
    for _ in range(20):
        put("%d\n" % gone)
        desks = [Desk(folder, 1) for _ in range(8)]
        answers = [desk for desk in desks if answers_once(desk)]
        assert len(answers) == 1 and all(desk.end()[0] == (0 if desk in answers else 1) for desk in desks)
    for sign in (signal.SIGTERM, signal.SIGINT, signal.SIGHUP):
        desk = Desk(folder, 1)
        assert desk.ask(b"") is not None
        desk.process.send_signal(sign)
        assert desk.end()[0] == 1
    assert sorted(os.listdir(folder)) == ["log"]
    passed("the lock of a process that is gone is taken by one of eight, 20 times; ended by a signal, a server removes its lock")


def frames(library, folder):
    desk = Desk(folder, 1)
    for length in (0, 1, 2, 25, 26, 58, 2566, 65535):
        for request in (bytes(length), random.randbytes(length)):
            answer = desk.ask(request)
            assert len(answer) == 10 and answer[9] == 1, (length, answer)
    for rest, words in ((b"\0", "within a message's length"), (b"\0\5abcd", "4 bytes of 5"), (b"\377\377", "0 bytes of 65535")):
        desk.process.stdin.write(rest)
        code, line = desk.end()
        assert code == 1 and words in line, line
        desk = Desk(folder, 1)
    desk.end()
    passed("messages of 0 to 65,535 bytes are answered; a message that is cut is not, and said")


def limits(library, key):
    """A store that ends before a record fits answers 9; with a greater limit the same log goes on."""
    for limit in (0, 1000, 3000):
        folder, user = os.path.join(WORK, "limit-%d" % limit), User(library, key)
        desks = [Desk(os.path.join(folder, str(i)), i + 1, new=True, limit=limit) for i in range(N)]
        code = 0
        while code == 0:
            asked = user.write(b"\1" + bytes(100), lambda s, r: desks[s - 1].ask(r))
            code = asked.code
        assert (code, asked.refusal) == (11, 9)
        for i, desk in enumerate(desks):
            assert desk.end()[0] == 0
            assert len(file_of(desk.folder)) <= 8192 + limit
            desks[i] = Desk(desk.folder, i + 1, limit=2**40)
        assert user.write(b"\1" + bytes(100), lambda s, r: desks[s - 1].ask(r)).code == 0
        for desk in desks:
            assert desk.end()[0] == 0
    passed("limits of 0, 1,000 and 3,000 bytes: 9 where a record does not fit, and the write goes on under a greater limit")


def main():
    seed = int(sys.argv[1]) if len(sys.argv) > 1 else random.randrange(10**6)
    random.seed(seed)
    print("seed", seed, flush=True)
    library = load_library()
    key = Key(library)
    with open(USERS, "wb") as f:
        f.write(key.public)
    if not PROGRAMS:
        folder = damages(library, key)
        refusals(folder)
        locks(folder)
        frames(library, folder)
        limits(library, key)
    older_files(library, key)
    requests = power_failures(library, key)
    if not PROGRAMS:
        order_of_calls(requests)
    new_logs_with_kills()
    run_with_kills(library, key)
    give_ups_with_kills(library, key)
    shutil.rmtree(WORK)
    print("all passed")


main()
