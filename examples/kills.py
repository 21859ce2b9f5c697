"""Four desks and two controllers on named pipes: writes, strikes, give-ups, reads and boards, while desks and controllers are killed at random
moments.

    python3 examples/kills.py [SEED [KILLS]]

It runs crates/desk/out/desk and crates/controller/out/controller, which `rt run` in crates/desk and crates/controller leaves, in a folder of
its own, and ends by itself after KILLS kills, 150 where nothing is said. Checked are: what a controller was told to be accepted (code 0) is
never lost; every entry reads back, by both users, with its author; a write that was given up is in no view, and both users can go on after it; once a give-up has begun, nothing
but a give-up goes on; and no signature number is used for two signatures, in any request that left a controller, whether a desk took it in or
not.
"""
import hashlib, os, random, re, shutil, signal, subprocess, sys, tempfile, time

ROOT = os.path.dirname(os.path.dirname(os.path.abspath(__file__)))
DESK, CONTROLLER = (os.path.join(ROOT, "crates", name, "out", name) for name in ("desk", "controller"))
N, NAME, USERS = 4, "firing log no. 1", 2


def path(*parts):
    return os.path.join(WORK, *map(str, parts))


class Server:
    """A desk and its link. Each run of a controller gets new pipes and a new desk, since a pipe may still hold the answer to a controller
    that was killed. `tee` notes what comes in, before the desk takes it."""

    def __init__(self, number):
        self.number, self.folder = number, path("server", number)
        self.ends = [path("links", "%d.%s" % (number, end)) for end in ("in", "out")]
        self.words = [self.folder, str(N), str(number), NAME, path("users")]
        os.makedirs(self.folder)
        subprocess.run([DESK, "new"] + self.words, stdin=subprocess.DEVNULL, check=True)

    def start(self):
        for end in self.ends:
            os.mkfifo(end)
        line = 'tee -p -a "$1" < "$2" | "${@:4}" > "$3" 2>> "$1.said"'
        self.pipeline = subprocess.Popen(["bash", "-c", line, "desk", path("trace", self.number)] + self.ends + [DESK] + self.words,
                                        stderr=subprocess.DEVNULL)

    def kill(self):
        """Kills the desk that the lock names. Whether there was one."""
        try:
            with open(os.path.join(self.folder, "lock")) as f:
                os.kill(int(f.read()), signal.SIGKILL)
            return 1
        except (OSError, ValueError):
            return 0

    def end(self):
        """Waits until the desk has ended, as it does when its input ends. One that no controller has asked is let go by opening its link."""
        end = time.time() + 30
        while self.pipeline.poll() is None:
            assert time.time() < end, "a desk does not end with its input"
            held = [os.open(name, os.O_RDWR | os.O_NONBLOCK) for name in self.ends]
            os.close(held[0])
            time.sleep(0.001)
            os.close(held[1])
        for name in self.ends:
            os.remove(name)
        clear_lock(self.folder)


def clear_lock(folder):
    """What docs/OPERATING.md says under 'Lock', for a folder in which nothing runs."""
    for name in ("lock", "lock.taking", "lock.new"):
        if os.path.exists(os.path.join(folder, name)):
            os.remove(os.path.join(folder, name))


class Log:
    def __init__(self, kills):
        self.wanted, self.killed, self.cut, self.given_up, self.apart, self.unheard, self.entries = kills, 0, 0, 0, 0, 0, []
        self.servers = [Server(i + 1) for i in range(N)]

    def run(self, user, *words, kills=True):
        """One run of a controller, in which it or a desk may be killed. What it printed."""
        for server in self.servers:
            server.start()
        kind = 9 if words[0] == "give-up" else 5
        words = [CONTROLLER, path("user", user), str(N), str(user), NAME, path("users"), path("links", "")] + list(words)
        before = [len(frames(i + 1)) for i in range(N)]
        run = subprocess.Popen(words, stdout=subprocess.PIPE, stderr=subprocess.PIPE)
        if kills and random.random() < 0.7:
            if random.random() < 0.5:
                time.sleep(random.choice((0, random.uniform(0, 0.01), random.uniform(0, 0.05))))
            else:
                wait_for(run, before, kind)
            victim = random.choice(self.servers + [run] * N)
            if victim is run and run.poll() is None:
                run.kill()
                self.killed += 1
            elif victim is not run:
                self.killed += victim.kill()
        out, said = run.communicate(timeout=60)
        clear_lock(path("user", user))
        for server in self.servers:
            server.end()
        return out.decode() + "".join(line for line in said.decode().splitlines(True) if "not whole: OPERATING, Files" not in line)

    def until_done(self, user, *words, give_up=0.0):
        """Runs a command again until it is done: code 0, or what a read prints. A write that was cut may be given up: then nothing. One that
        was killed after its end was saved and before that was printed is done; run again, it would write its entry once more."""
        for _ in range(200):
            said = self.run(user, *words)
            if re.match(r"code 0,|\d+, by user", said):
                return said
            assert not said or re.match(r"no answer|code 11, the server's [48],|.*OPERATING, Lock", said), (words, said)
            version, opened = saved(user)
            if not said and words[0] in ("write", "strike") and not opened and version == len(self.entries) + 1:
                self.unheard += 1
                return "code 0, version %d" % version
            self.cut += 1
            if random.random() < 0.2:
                self.look_in(3 - user)
            if random.random() < give_up and self.give_up(user, *words):
                return None
        raise AssertionError("never done: %s" % (words,))

    def give_up(self, user, *words):
        """Gives a write up that was cut. Whether it could be: 28 says that it was not opened yet, or that its entry may have been sent."""
        for _ in range(200):
            said = self.run(user, "give-up")
            if said.startswith("code 0,"):
                self.note(user, words, said, 0)
                self.given_up += 1
                return True
            if said.startswith("code 28,"):
                return False
            assert not said or re.match(r"no answer|.*OPERATING, Lock", said), said
            self.look_in(3 - user)
            if "its give-up has begun" in said:
                for refused in (words, ("update",)):
                    said = self.run(user, *refused)
                    assert not said or re.match(r"code 18,|.*OPERATING, Lock", said), (refused, said)
        raise AssertionError("never given up: %s" % (words,))

    def look_in(self, user):
        """The other user's Update while a write may be open: done, or refused because of it; 12 is for a give-up that was cut."""
        said = self.run(user, "update")
        assert not said or re.match(r"no answer|code 0,|code 11, the server's [48],|code 12,|.*OPERATING, Lock", said), said
        self.apart += said.startswith("code 12,")

    def write(self, user, *words):
        said = self.until_done(user, *words, give_up=0.4)
        if said is not None:
            self.note(user, words, said, 1)

    def note(self, user, words, said, written):
        """Notes the entry, if one was written: the version says so."""
        version = int(re.match(r"code 0, version (\d+)", said).group(1))
        assert version == len(self.entries) + written, (version, len(self.entries), written, said)
        self.entries += [(user, words)] * written

    def read(self, user, position):
        author, words = self.entries[position - 1]
        contents = words[1] if words[0] == "write" else "strikes " + words[1]
        said = self.until_done(user, "read", str(position))
        assert said == "%d, by user %d: %s\n" % (position, author, contents), (said, words)


def saved(user):
    """Version and mark of an open write in the newest whole slot of a user's state (docs/OPERATING.md, 'Files')."""
    with open(path("user", user, "state"), "rb") as f:
        state = f.read()
    slots = [state[at:at + 4324] for at in (0, 8192)]
    newest = max(s for s in slots if s[4292:] == hashlib.sha256(s[:4292]).digest())
    return int.from_bytes(newest[40:44], "big"), newest[80] == 1


def frames(number):
    """The requests that came to a server, by the trace of its link, the last one perhaps in part."""
    found, data = [], b""
    if os.path.exists(path("trace", number)):
        with open(path("trace", number), "rb") as f:
            data = f.read()
    while data:
        length = int.from_bytes(data[:2], "big")
        found.append(data[2:2 + length])
        data = data[2 + length:]
    return found


def wait_for(run, before, kind):
    """Waits until a request of a kind has come to a server since the run began, or the run has ended."""
    while run.poll() is None:
        if any(request[2:3] == bytes([kind]) for i in range(N) for request in frames(i + 1)[before[i]:]):
            return


def signatures():
    """Author and signature number of each signature that left a controller; two signatures with one number are an error."""
    seen = {}
    for number in range(1, N + 1):
        for request in frames(number):
            if request[2] == 8:
                author, signature = request[19:21], request[58:]
                known = seen.setdefault((author, signature[:4]), signature)
                assert known == signature, "one number for two signatures"
    return len(seen)


def main():
    kills = int(sys.argv[2]) if len(sys.argv) > 2 else 150
    for user in range(1, USERS + 1):
        os.makedirs(path("user", user))
        subprocess.run([CONTROLLER, path("user", user), "key"], check=True, stdout=subprocess.DEVNULL)
    for folder in ("links", "trace"):
        os.makedirs(path(folder))
    with open(path("users"), "wb") as users:
        for user in range(1, USERS + 1):
            with open(path("user", user, "public"), "rb") as f:
                users.write(f.read())
    log = Log(kills)
    try:
        while log.killed < kills or len(log.entries) < 20:
            user = random.choice((1, 2))
            if log.entries and random.random() < 0.2:
                log.write(user, "strike", str(random.randint(1, len(log.entries))))
            else:
                log.write(user, "write", "firing %d: %s" % (len(log.entries), "cone " * random.randint(0, 190)))
            log.until_done(3 - user, "update")
            if log.entries:
                log.read(random.choice((1, 2)), random.randint(1, len(log.entries)))
        for user in (1, 2):
            log.until_done(user, "update")
            for position in range(1, len(log.entries) + 1):
                log.read(user, position)
        boards = [log.run(user, "board", kills=False) for user in (1, 2)]
        assert boards[0] == boards[1]
    finally:
        for server in log.servers:
            server.pipeline.kill()
    print("%d entries, %d kills, %d commands that had to be run again, %d writes given up, %d Updates refused with 12 meanwhile, %d done whose "
          "end was not printed, %d signatures with as many numbers; all read back by both users"
          % (len(log.entries), log.killed, log.cut, log.given_up, log.apart, log.unheard, signatures()))
    shutil.rmtree(WORK)


seed = int(sys.argv[1]) if len(sys.argv) > 1 else random.randrange(10**6)
random.seed(seed)
print("seed", seed, flush=True)
WORK = tempfile.mkdtemp(prefix="kozbrax-kills-")
main()
