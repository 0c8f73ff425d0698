"""What the program loss_runs prints, worked out without it.

The memory server and the mirror are written from docs/SERVERS.md and the pager from docs/LOG.md, rule
by rule and under the documents' own headings; where these are silent, from the definitions in
crates/parity_log/specs. The draws are those of crates/fickle/src, and the drive (which call comes when,
over which servers, and what is counted), which no document has, is that of crates/loss_runs/src.

Run: python3 tools/loss_model.py
"""

PAGE_SIZE = 512


def page_of(value):
    """The page of a value: (value + j) mod 256 in byte j. Its bytes are kept as one int, so the
    exclusive or of two pages is the exclusive or of two ints, and the page of zeros is 0."""
    return int.from_bytes(bytes((value + j) % 256 for j in range(PAGE_SIZE)), "little")


PAGE_OF = [page_of(value) for value in range(256)]


# ---------------------------------------------------------------- servers (docs/SERVERS.md)
#
# A put says whether it was done; a get gives the page, or None where it is refused; a free is done.
# Why a server refuses (none or gone) is not told, since no rule of the pager looks at it. Every page
# is whole and no slot is past the end here, so nothing is refused as length or as range.


class Memory:
    """The memory server: it loses nothing but by a fall."""

    LAST_ERA = 4294967295

    def __init__(self, size):
        self.size = size
        self.slots = [None] * size
        self.era = 0
        self.up = True

    def put(self, slot, page):
        if not self.up:
            return False
        self.slots[slot] = page
        return True

    def get(self, slot):
        # a server that is down holds nothing
        return self.slots[slot]

    def free(self, slot):
        self.slots[slot] = None

    def fall(self):
        # on one that is down a fall is done without effect
        if self.up:
            self.up = False
            self.era += 1
            self.slots = [None] * self.size

    def back(self):
        """Whether it was done; otherwise it is refused as worn."""
        if self.era == self.LAST_ERA:
            return False
        # one that was down is empty already, and one that is up stays as it is
        self.up = True
        return True


class Mirror:
    """The mirror, over two servers."""

    def __init__(self, first, second):
        self.first = first
        self.second = second
        self.size = min(first.size, second.size)
        # making a mirror frees every slot of both halves
        for half in (first, second):
            for slot in range(half.size):
                half.free(slot)

    def put(self, slot, page):
        # both halves are asked, whatever the first says
        by_first = self.first.put(slot, page)
        by_second = self.second.put(slot, page)
        return by_first or by_second

    def get(self, slot):
        page = self.first.get(slot)
        if page is None:
            page = self.second.get(slot)
        return page

    def free(self, slot):
        self.first.free(slot)
        self.second.free(slot)

    def fall(self):
        self.first.fall()
        self.second.fall()

    def back(self):
        by_first = self.first.back()
        by_second = self.second.back()
        return by_first or by_second


# ---------------------------------------------------------------- the fickle server (docs/SERVERS.md)


class Draws:
    """A fixed sequence of numbers."""

    def __init__(self, seed):
        self.seed = seed

    def below(self, end):
        self.seed = (self.seed * 1664525 + 1013904223) % 2**32
        return (self.seed >> 16) % end


# the odds, of 1024 calls: how many may lose a page and how many may make the server fall
ODDS_PAGES = 16
ODDS_FALLS = 1


class Fickle:
    """A server over another, of which it loses a page, or which it makes fall, before a call. Its
    losses are far fewer than the most that it may count, so they are not counted here."""

    def __init__(self, below, seed):
        self.below = below
        self.size = below.size
        self.draws = Draws(seed)

    def befall(self, slot):
        # both draws are taken before every call, also where the first one loses nothing
        draw = self.draws.below(1024)
        which = self.draws.below(65536)
        if draw >= ODDS_PAGES + ODDS_FALLS:
            return
        # one draw in four takes the named slot, the others any
        victim = slot if which % 4 == 0 else which // 4 % self.size
        # only if that slot is got from the server below, which may itself lose the page before this
        if self.below.get(victim) is None:
            return
        if draw < ODDS_PAGES:
            self.below.free(victim)
        else:
            self.below.fall()

    def put(self, slot, page):
        self.befall(slot)
        return self.below.put(slot, page)

    def get(self, slot):
        self.befall(slot)
        return self.below.get(slot)

    def free(self, slot):
        self.befall(slot)
        self.below.free(slot)

    # a fall and a back are passed on, without a draw
    def fall(self):
        self.below.fall()

    def back(self):
        return self.below.back()


# ---------------------------------------------------------------- the pager (docs/LOG.md)

# the states of a group
FREE, OPEN, CLOSED = "free", "open", "closed"

# the states of a page: NOT_OUT, (OUT, group, position), or (LOST, group, missing set)
OUT, LOST, NONE = "out", "lost", "none"
NOT_OUT = ("not out", None, None)

# what a visit of a group came to
INTACT, REBUILT, FAILED = "intact", "rebuilt", "failed"


class Pager:
    def __init__(self, bank, groups, spares):
        """A pager over data servers 0 to S - 1 and the parity server, number S. Group g owns slot g
        of every server."""
        self.bank = bank
        self.servers = len(bank) - 1  # S
        self.groups = groups  # G
        self.capacity = (groups - spares) * self.servers  # C
        assert 2 <= self.servers <= 8 and 3 <= groups <= 32 and 2 <= spares <= groups - 1
        assert all(server.size >= groups for server in bank)
        self.pages = [NOT_OUT] * self.capacity
        self.states = [FREE] * groups
        self.opened_last = None
        self.open = None  # the number of the open group
        self.filled = 0  # how many positions of the open group are filled, from 0 up
        self.parity = 0  # the running parity

    # ------------------------------------------------ Tables

    def page_at(self, group, position):
        """The page that the table names at a position, or None where the position is old."""
        named = (OUT, group, position)
        return self.pages.index(named) if named in self.pages else None

    def live(self, group):
        """How many positions of the group are live."""
        return sum(1 for state, where, _ in self.pages if state == OUT and where == group)

    def members(self, group):
        """How many of the servers, from 0 up, have a member of the group."""
        if self.states[group] == FREE:
            return 0
        if self.states[group] == OPEN:
            return self.filled
        return self.servers + 1

    def weight(self, server):
        """What the member on a server adds to a missing set."""
        return 256 if server == self.servers else 2**server

    # ------------------------------------------------ Reading a page

    def ask_others(self, group, server):
        """Every other member than this server's is asked once, in ascending order, the parity last,
        going on after a refusal. What was delivered, added up, and the set of those that refused."""
        added = self.parity if self.states[group] == OPEN else 0
        missing = 0
        for other in range(self.members(group)):
            if other != server:
                page = self.bank[other].get(group)
                if page is None:
                    missing += self.weight(other)
                else:
                    added ^= page
        return added, missing

    def read(self, group, position):
        """The page at a position and no set, or no page and the set of the members that refused."""
        page = self.bank[position].get(group)
        if page is not None:
            return page, 0
        page, missing = self.ask_others(group, position)
        if missing == 0:
            return page, 0
        return None, missing + self.weight(position)

    def pagein(self, page):
        """Nothing and the page, or the refusal and nothing."""
        state, group, position = self.pages[page]
        if state == OUT:
            content, missing = self.read(group, position)
            # one that is found lost here stays out
            return (None, content) if missing == 0 else (LOST, None)
        if state == LOST:
            return LOST, None
        return NONE, None

    # ------------------------------------------------ Pageout

    def pageout(self, page, content):
        """Nothing, or the refusal."""
        if self.open is None:
            self.open_next()  # step 1
        group, position = self.open, self.filled
        # after the cleaning, which may have moved the page or found it lost
        earlier = self.pages[page]
        done = self.place(page, content)  # step 2
        self.left(earlier)  # step 3
        self.close_full()  # step 4
        return None if done else self.judge(page, group, position)  # step 5

    def open_next(self):
        """Step 1: the first free group met going up, round from the group after the one opened last;
        if it is the only free one, a cleaning runs."""
        start = 0 if self.opened_last is None else self.opened_last + 1
        going_up = [(start + k) % self.groups for k in range(self.groups)]
        free = [group for group in going_up if self.states[group] == FREE]
        self.open = self.opened_last = free[0]
        self.states[self.open] = OPEN
        if len(free) == 1:
            self.clean()

    def place(self, page, content):
        """Step 2: the page is put at the next position of the open group, added to the running
        parity, and named in the table, whether or not the put is done."""
        done = self.bank[self.filled].put(self.open, content)
        self.pages[page] = (OUT, self.open, self.filled)
        self.parity ^= content
        self.filled += 1
        return done

    def left(self, state):
        """Step 3, for the group that a page in this state was out at."""
        was, group, _ = state
        if was == OUT and self.states[group] == CLOSED and self.live(group) == 0:
            self.make_free(group)

    def make_free(self, group):
        """The group's slot is freed on data servers 0 to S - 1 and then on the parity server."""
        self.states[group] = FREE
        for server in self.bank:
            server.free(group)

    def close_full(self):
        """Step 4: if position S - 1 was filled, the running parity is put on the parity server,
        whether or not that is done; then it is cleared and the group is closed."""
        if self.filled == self.servers:
            self.bank[self.servers].put(self.open, self.parity)
            self.parity = 0
            self.states[self.open] = CLOSED
            self.open = None
            self.filled = 0

    def judge(self, page, group, position):
        """Step 5, after a refused put: if another member refuses, the page becomes lost. By now the
        group may be closed, and then the parity server is asked too."""
        _, missing = self.ask_others(group, position)
        if missing == 0:
            return None
        out = self.pages[page]
        self.pages[page] = (LOST, group, missing + self.weight(position))
        self.left(out)
        return LOST

    def clean(self):
        """Cleaning: the closed group with the fewest live positions, the lowest number among equals.
        Each live page is read and then placed before the next one is read."""
        closed = [group for group in range(self.groups) if self.states[group] == CLOSED]
        cleaned = min(closed, key=lambda group: (self.live(group), group))
        for position in range(self.servers):
            page = self.page_at(cleaned, position)
            if page is None:
                continue
            content, missing = self.read(cleaned, position)
            if missing == 0:
                self.place(page, content)  # and not read back
            else:
                self.pages[page] = (LOST, cleaned, missing)
        # only now, since its members restore one another
        self.make_free(cleaned)

    # ------------------------------------------------ Free

    def free(self, page):
        """The page becomes not out, whatever it was, and step 3 applies."""
        earlier = self.pages[page]
        self.pages[page] = NOT_OUT
        self.left(earlier)

    # ------------------------------------------------ Falls and returns

    def fall(self, server):
        self.bank[server].fall()

    def back(self, server):
        return self.bank[server].back()

    # ------------------------------------------------ Rebuilding a server

    def begin(self, server):
        return Job(server, self.groups)

    def step(self, job):
        """One group further; past the last group a step is done and changes nothing."""
        if job.group < job.groups:
            visit = self.visit(job.server, job.group)
            job.group += 1
            job.rebuilt += visit == REBUILT
            job.failed += visit == FAILED

    def visit(self, server, group):
        """If the server has a member there that refuses, what all others come to is put at it."""
        if server >= self.members(group):
            return INTACT
        if self.bank[server].get(group) is not None:
            return INTACT
        page, missing = self.ask_others(group, server)
        if missing != 0:
            return FAILED
        return REBUILT if self.bank[server].put(group, page) else FAILED


class Job:
    """A rebuild job: the members on one server put back, a group at each step."""

    def __init__(self, server, groups):
        self.server = server
        self.groups = groups
        self.group = 0
        self.rebuilt = 0
        self.failed = 0

    def close(self):
        """How many were rebuilt, how many failed, and how many groups are unvisited."""
        return self.rebuilt, self.failed, self.groups - self.group


# ---------------------------------------------------------------- the book (crates/loss_runs/src/book.rt)

PAGES = 16
NOTHING = ("nothing", None)


class Tally:
    """What the calls of all runs came to."""

    def __init__(self):
        self.outs = self.lost_outs = self.frees = 0
        self.equal = self.lost = self.none = 0
        self.rebuilt = self.failed = 0
        self.wrong = 0


class Book:
    """What each page should be: nothing, a value, or lost."""

    def __init__(self, tally):
        self.tally = tally
        self.pages = [NOTHING] * PAGES

    def paged_out(self, page, value, refusal):
        if refusal is None:
            self.pages[page] = ("value", value)
            self.tally.outs += 1
        else:
            self.pages[page] = (LOST, None)
            self.tally.lost_outs += 1

    def paged_in(self, page, content, refusal):
        booked, value = self.pages[page]
        if booked == "value" and refusal is None and content == PAGE_OF[value]:
            self.tally.equal += 1
        elif booked == "value" and refusal == LOST:
            # a cleaning may have lost it, which no answer told
            self.pages[page] = (LOST, None)
            self.tally.lost += 1
        elif booked == LOST and refusal == LOST:
            self.tally.lost += 1
        elif booked == "nothing" and refusal == NONE:
            self.tally.none += 1
        else:
            self.tally.wrong += 1

    def freed(self, page):
        self.pages[page] = NOTHING
        self.tally.frees += 1


# ---------------------------------------------------------------- the drive (crates/loss_runs/src/runs.rt)

CALLS = 1000


def rebuild(pager, server, tally):
    """A rebuild, with a step for each group."""
    job = pager.begin(server)
    for _ in range(pager.groups):
        pager.step(job)
    rebuilt, failed, unvisited = job.close()
    tally.wrong += unvisited != 0
    tally.rebuilt += rebuilt
    tally.failed += failed


def drive(bank, groups, spares, pulled, seed, tally):
    """Drives a pager by drawn calls on its first pages. `pulled` draws the number of the server that
    is made to fall, brought back or rebuilt."""
    pager = Pager(bank, groups, spares)
    draws = Draws(seed)
    book = Book(tally)
    pages = min(pager.capacity, PAGES)
    for _ in range(CALLS):
        # the page is drawn before the call, and for every call
        page = draws.below(65536) % pages
        call = draws.below(128)
        if call <= 58:
            value = draws.below(256)
            book.paged_out(page, value, pager.pageout(page, PAGE_OF[value]))
        elif call <= 106:
            refusal, content = pager.pagein(page)
            book.paged_in(page, content, refusal)
        elif call <= 118:
            pager.free(page)
            book.freed(page)
        elif call == 119:
            pager.fall(pulled(draws))
        elif call <= 123:
            tally.wrong += not pager.back(pulled(draws))
        else:
            rebuild(pager, pulled(draws), tally)


def any_of(servers):
    return lambda draws: draws.below(servers)


def only(server):
    return lambda draws: server


# ---------------------------------------------------------------- the banks (crates/loss_runs/src/banks.rt)

SIZE = 8  # 4096 bytes


def seed_of(seed, server):
    return (seed * 8 + server) * 2654435761 % 2**32


def losing(seed, server):
    """A memory server that loses, by a sequence of its own."""
    return Fickle(Memory(SIZE), seed_of(seed, server))


def three(seed):
    return [losing(seed, server) for server in range(3)]


def five(seed):
    return [losing(seed, server) for server in range(5)]


def mixed(seed):
    """A mirror of two that lose, a server that loses twice over, and three that lose."""
    mirror = Mirror(losing(seed, 0), losing(seed, 1))
    twice = Fickle(losing(seed, 5), seed_of(seed, 6))
    return [mirror, twice, losing(seed, 2), losing(seed, 3), losing(seed, 4)]


def one_losing(seed):
    return [losing(seed, 1) if server == 1 else Memory(SIZE) for server in range(5)]


# ---------------------------------------------------------------- what is printed (crates/loss_runs/src/main.rt)

SEEDS = 300


def show(words, bank, groups, spares, pulled):
    tally = Tally()
    for seed in range(SEEDS):
        drive(bank(seed), groups, spares, pulled, seed, tally)
    t = tally
    print(f"{words}, G {groups}, q {spares}: {t.outs} pageouts done, {t.lost_outs} lost, {t.frees} frees")
    print(
        f"  pageins: {t.equal} as booked, {t.lost} lost, {t.none} of pages not out; "
        f"groups: {t.rebuilt} rebuilt, {t.failed} failed; {t.wrong} wrong"
    )


def main():
    show("five memory servers", five, 6, 2, any_of(5))
    show("five memory servers", five, 8, 4, any_of(5))
    show("three memory servers", three, 3, 2, any_of(3))
    show("a mirror and four memory servers", mixed, 6, 2, any_of(5))
    show("one that loses and four that do not", one_losing, 6, 2, only(1))


if __name__ == "__main__":
    main()
