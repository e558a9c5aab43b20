"""Finds all outcomes of a program's threads over the orders of their single steps; what weakly ordered memory allows besides is not among them.

    smemu outcomes PROGRAM --threads N [--switches N] [--states N] [--show WHAT].. [--jobs N] [--plans PREFIX]
                      [--order] [--page] [--move] [--signal S [--to THREAD]] [--most N] [--vl BITS] [--svl BITS] [--slice N] [--budget N] [--cores N]

An order says which thread makes the next operation on what they share (docs/WORLDS.md). Orders are tried with no change of thread first, then with
one, and so on, until there are no more: a change counts where the thread that is left could go on; it does not yield there, nor wait in a loop.
States that are equal but for counts are looked at once. Each outcome is shown with how many orders make it, and with a plan for `sim` and a report
for `debug`, `smemu gdb` and others, PREFIX.1.plan, PREFIX.1.report and so on; PREFIX is the name of the program.

WHAT is exit (how each thread stops), words (the shared words that are not zero), `word N`, output, or a line of a report by its name, as `x 3`, za;
exit and words where nothing is said. --switches N tries orders with at most N changes; --states N looks at so many states at most (20000).
--order shows of each outcome the operations of an order that makes it: thread, place, instruction, and what it found or left.
--page writes such an order as a page, PREFIX.1.html and so on: lanes of the threads with their
lines of C, and the shared words after each operation.
--move tries each plan again with a thread moved to another core, one place at a time: nothing may change.
--signal S lets signal S, which the program posts, come at each place in turn, and says whether all is after the handler as it was before.
Both try at most --most N places (1000). The status is 1 where there is more than one outcome, a move changes something or a signal does; else it is 3
where a bound was met (--switches, --states, --most), and the last line says what was not looked at.
"""
import argparse
import collections
import concurrent.futures
import os
import pathlib
import tempfile

from smemu_tools.user import (disturbances, emulator, places, progress, recorded, report_page,
                              report_places, reports, worlds)

ENDLESS = "no end"
# how far a thread is followed alone to see whether it waits in a loop
LOOP = 64


class Node:
    """A state of the world, and where a step of each thread leads."""

    def __init__(self, state):
        self.state, self.edges, self.yields, self.ahead = state, {}, set(), {}

    @property
    def outcome(self):
        return self.state.outcome

    def going(self):
        return self.state.going()

    def is_done(self, thread):
        return self.state.stops[thread] != "none"


class Bound(Exception):
    """The bound on states was met."""


class Signalled(Exception):
    """A thread posts a signal, so states have to be told apart by more."""


class Search:
    """Looks at the states that orders lead to, those with fewer changes of thread first."""

    def __init__(self, world, words):
        self.world, self.most, self.jobs = world, words.states, words.jobs
        self.nodes, self.outcomes, self.free = {}, {}, {}
        self.level, self.is_all = 0, False
        # the orders that are still to be followed, with as many changes of thread and with one more
        self.now, self.later = 0, 0
        self.progress = progress.Progress()

    # states

    def keep(self, state, ahead):
        """The key of a state, which is kept if there is none like it, with a thread's next step where that is known."""
        node = self.nodes.get(state.key)
        if node is None:
            if len(self.nodes) >= self.most:
                raise Bound()
            if state.has_post and not self.world.has_signals:
                raise Signalled()
            node = self.nodes[state.key] = Node(state)
            node.ahead.update(ahead)
            if state.outcome is not None:
                self.outcomes.setdefault(state.outcome, node)
        return state.key

    def step(self, state, thread):
        """The state to which a thread's step leads, or None where it goes on for ever without an event."""
        try:
            return self.world.step(state, thread)
        except worlds.Endless:
            return None

    def begin(self):
        """The key of the first state, in which each thread that makes no event is at its end."""
        state = self.world.start()
        for thread in range(self.world.threads):
            after = self.step(state, thread)
            state = state if after is None or after.has_event else after
        return self.keep(state, {})

    def follow(self, key, thread):
        """The state to which a thread's step leads, or None, and its next step, if it makes one: where it makes no more events it is at its end."""
        node = self.nodes[key]
        after = node.ahead.pop(thread, None) or self.step(node.state, thread)
        # a state that is known was looked at so before
        if after is None or after.stops[thread] != "none" or after.key in self.nodes:
            return after, None, after is not None and after.has_yield
        ahead = self.step(after, thread)
        if ahead is None or ahead.has_event:
            return after, ahead, after.has_yield
        return ahead, None, after.has_yield

    def find(self, wanted, pool):
        """Finds the edges that are wanted, several at once."""
        new = list(dict.fromkeys((key, thread) for key, thread in wanted if thread not in self.nodes[key].edges))
        for at in range(0, len(new), 64):
            part = new[at:at + 64]
            for (key, thread), (state, ahead, has_yield) in zip(part, pool.map(lambda it: self.follow(*it), part)):
                if has_yield:
                    self.nodes[key].yields.add(thread)
                self.nodes[key].edges[thread] = key if state is None else self.keep(state, {thread: ahead} if ahead else {})
            self.progress.show(self.how_far())

    def how_far(self):
        """How much was looked at, what is left of the bound, and how many orders go on."""
        number, level = len(self.nodes), self.level
        return (f"states {number}, {self.most - number} left of --states; "
                f"orders that go on: {self.now} with {changes(level)}, {self.later} with {level + 1}; "
                f"outcomes {len(self.outcomes)}")

    # orders

    def may_leave(self, key, thread, pool):
        """Tells whether a change away from a thread is none: it has stopped, it yields, or it waits in a loop."""
        node = self.nodes[key]
        if thread is None or node.is_done(thread):
            return True
        self.find([(key, thread)], pool)
        if thread in node.yields:
            return True
        at = key
        for _ in range(LOOP):
            self.find([(at, thread)], pool)
            if self.nodes[at].edges[thread] == key:
                return True
            at = self.nodes[at].edges[thread]
            if self.nodes[at].is_done(thread):
                return False
        return False

    def explore(self, switches):
        """Looks at all states that at most so many changes of thread lead to, or at all where that is None."""
        with concurrent.futures.ThreadPoolExecutor(self.jobs) as pool:
            self.start = self.begin()
            met = {(self.start, None)}
            later = self.explore_level([(self.start, None)], met, pool)
            self.level = 1
            while later and (switches is None or self.level <= switches):
                self.find([(key, thread) for key, thread in later], pool)
                level = []
                for key, thread in later:
                    self.come((self.nodes[key].edges[thread], thread), met, level)
                later = self.explore_level(level, met, pool)
                self.level += 1
            self.is_all = not later

    def explore_level(self, queue, met, pool):
        """Looks at the states of one number of changes; the answer is the steps that one change more leads to."""
        later = []
        while queue:
            self.now, self.later = len(queue), len(later)
            # states of a batch are looked at together
            self.find([(key, last) for key, last in queue if last is not None and not self.nodes[key].is_done(last)], pool)
            free = [(key, last, self.may_leave(key, last, pool)) for key, last in queue]
            self.free.update(((key, last), is_free) for key, last, is_free in free)
            self.find([(key, thread) for key, _, is_free in free if is_free for thread in self.nodes[key].going()], pool)
            queue = []
            for key, last, is_free in free:
                for thread in self.nodes[key].going():
                    if thread != last and not is_free:
                        later.append((key, thread))
                    else:
                        self.come((self.nodes[key].edges[thread], thread), met, queue)
        return later

    @staticmethod
    def come(state, met, queue):
        if state not in met:
            met.add(state)
            queue.append(state)

    # what was found

    def in_order(self):
        """The states, each before those that it leads to, and the edges that lead round again."""
        order, back, on_path, done = [], set(), set(), set()
        stack = [(self.start, None)]
        while stack:
            key, edges = stack.pop()
            if edges is None:
                if key in done:
                    continue
                on_path.add(key)
                edges = iter(sorted(self.nodes[key].edges.items()))
            for thread, to in edges:
                if to in on_path:
                    back.add((key, thread))
                elif to not in done:
                    stack += [(key, edges), (to, None)]
                    break
            else:
                on_path.discard(key)
                done.add(key)
                order.append(key)
        return order[::-1], back

    def orders(self, switches):
        """How many orders make each outcome, with at most so many changes where that is not None."""
        order, back = self.in_order()
        ways, found = {self.start: {(None, 0): 1}}, collections.Counter()
        for key in order:
            node, here = self.nodes[key], ways.pop(key, {})
            if node.outcome is not None:
                found[node.outcome] += sum(here.values())
            for (last, used), number in here.items():
                for thread, to in node.edges.items():
                    # a state that was not looked at by this thread is past the bound
                    then = used + (switches is not None and thread != last and not self.free.get((key, last), True))
                    if (key, thread) not in back and (switches is None or then <= switches):
                        state = (None, 0) if switches is None else (thread, then)
                        there = ways.setdefault(to, {})
                        there[state] = there.get(state, 0) + number
        return found

    def endless(self):
        """A state from which no order leads to an end, with as few threads that go on as there are, the last one that was found, or None."""
        before = collections.defaultdict(set)
        for key, node in self.nodes.items():
            for to in node.edges.values():
                before[to].add(key)
        open_keys = [key for key, node in self.nodes.items() if len(node.edges) < len(node.going()) or node.outcome is not None]
        ends = set(open_keys)
        while open_keys:
            new = before[open_keys.pop()] - ends
            ends |= new
            open_keys += new
        without = [node for key, node in self.nodes.items() if key not in ends]
        return min(reversed(without), key=lambda node: len(node.going()), default=None)


def outcome_of(seen, show):
    """What is shown of a state in which all threads have stopped."""
    return ", ".join(part for what in show for part in shown(seen, what))


def shown(seen, what):
    name, _, number = what.partition(" ")
    if what == "exit":
        stops = [block.stop.split(" ", 1) for block in seen.blocks]
        yield "exit " + " ".join(stop[1] if stop[0] == "exited" else f"({' '.join(stop)})" for stop in stops)
    elif what == "words":
        yield from (f"word {at} = {value}" for at, value in seen.words().items())
    elif name == "word":
        yield f"word {number} = {seen.words().get(int(number), 0)}"
    elif what == "output":
        data = (bytes.fromhex("".join(line[4:] for line in block.lines("out"))) for block in seen.blocks)
        yield "output " + " ".join(repr(it.decode(errors="replace")) for it in data)
    else:
        for thread, block in enumerate(seen.blocks):
            yield f"{thread}: " + (" ".join(block.lines(what)) or f"{what} 0")


def endless_text(state):
    """What is said of a state from which no order leads to an end."""
    return f"{ENDLESS}: " + ", ".join(
        f"thread {thread} waits at {state.places[thread]:016x}" if stop == "none" else f"thread {thread} {stop}" for thread, stop in enumerate(state.stops))


def look(words):
    """The search, after all that is to be looked at, and whether the bound was met."""
    world = worlds.World(words.program, options_of(words), words.threads, words.cores, lambda seen: outcome_of(seen, words.show))
    while True:
        search = Search(world, words)
        try:
            search.explore(words.switches)
            return search, False
        except Signalled:
            world.has_signals = True
        except Bound:
            return search, True
        finally:
            search.progress.clear()


def options_of(words):
    """The options for `sim` that were given."""
    given = {name: getattr(words, name) for name in ("vl", "svl", "slice", "budget")}
    return [it for name, value in given.items() if value is not None for it in (f"--{name}", str(value))]


def head(search, is_cut, orders, words):
    """What was tried: a line."""
    number = f"{orders} orders of {words.threads} threads, {len(search.nodes)} states"
    if is_cut:
        if not search.level:
            return f"{number}: the bound on states was met before all orders without a change of thread were tried"
        return f"{number}: the bound on states was met; all with at most {changes(search.level - 1)} were tried"
    if search.is_all:
        return f"all {number}"
    return f"{number}: all with at most {changes(words.switches)}"


def changes(number):
    return f"{number} change{'s' * (number != 1)} of thread"


def write_outcome(search, node, prefix):
    """Writes a plan that makes an outcome and, where all threads stop, the report; the answer is what `sim` writes for it."""
    plan = search.world.plan(node.state.pieces)
    pathlib.Path(f"{prefix}.plan").write_text(plan)
    seen = search.world.try_plan(plan)
    if node.outcome is not None:
        pathlib.Path(f"{prefix}.report").write_text(seen.report)
    return seen


def order_of(search, node, seen, program, report):
    """The operations of an order, a line each: thread, place, instruction, and what the operation found or left."""
    known, texts = places.Places(program), {}
    # of threads that have not stopped there is no report, and so no instructions
    for thread in {thread for thread, _ in node.state.trail} if node.outcome is not None else ():
        counts = [count for it, count in node.state.trail if it == thread]
        answers = recorded.Recorded(program, report, thread).ask([it for count in counts for it in (f"goto {count - 1}", "where")])[1::2]
        texts.update(((thread, count), answer[0].split(" ", 3)[2:]) for count, answer in zip(counts, answers))
    known.learn(int(pc, 16) for pc, _ in texts.values())
    for step, event in zip(node.state.trail, search.world.counting(seen.history)):
        event = event_of(event)
        where = ""
        if step in texts and event.kind != "poll":
            pc, text = texts[step]
            where = f"{known.text(int(pc, 16))}: {text}: "
        yield f"{step[0]}: {where}{event}"


def event_of(line):
    """The event of a line of a history."""
    _, _, kind, place, *values = line.split(" ")
    return reports.Event(kind, int(place), *(int(it, 16) for it in values))


def write_page(path, seen, text, words):
    """Writes an order as a page, with the places of its operations where all threads stop."""
    report = reports.parse(seen.text)
    found = report_places.Found(words.program, path.with_suffix(".report"), report)
    title = f"{pathlib.Path(words.program).name}: {text}"
    chosen = {"size": "s", "how": "signed", "isOrder": True}
    path.write_text(report_page.page([report], [path.stem], None, chosen, [found], title))


def show_outcomes(search, is_cut, words):
    """Writes each outcome with its orders and its plan; the answer is whether there is more than one, or one in which not all threads have stopped."""
    limit = None if search.is_all and not is_cut else search.level - 1
    counts = search.orders(limit)
    print(head(search, is_cut, sum(counts.values()), words))
    lines = [(str(counts[text]) if counts[text] else "?", text, node) for text, node in search.outcomes.items()]
    endless = None if is_cut else search.endless()
    if endless:
        lines.append(("", endless_text(endless.state), endless))
    width = max([len(number) for number, _, _ in lines], default=0)
    with tempfile.TemporaryDirectory() as folder:
        for at, (number, text, node) in enumerate(lines, 1):
            prefix = f"{words.plans}.{at}" if words.plans else f"{folder}/{at}"
            seen = write_outcome(search, node, prefix)
            names = [f"{prefix}.plan", *[f"{prefix}.html"] * words.page] if words.plans else []
            print(f"  {number.rjust(width)} {text}" + ("    " + " ".join(names) if names else ""))
            if words.page:
                write_page(pathlib.Path(f"{prefix}.html"), seen, text, words)
            if words.order:
                for line in order_of(search, node, seen, words.program, f"{prefix}.report"):
                    print(f"  {' ' * width}   {line}")
    return len(lines) > 1 or bool(endless)


def unseen(search, is_cut, words):
    """What the bounds of a search left."""
    if is_cut:
        return [f"orders beyond the first {words.states} states (--states {words.states})"]
    return [] if search.is_all else [f"orders with more than {changes(words.switches)} (--switches {words.switches})"]


def arguments():
    parser = argparse.ArgumentParser(description=__doc__, formatter_class=argparse.RawDescriptionHelpFormatter)
    parser.add_argument("program", metavar="PROGRAM")
    parser.add_argument("--threads", type=int, default=1, metavar="N")
    parser.add_argument("--cores", type=int, metavar="N", help="as many as threads, and at least 2, where it is not given")
    parser.add_argument("--switches", type=int, metavar="N")
    parser.add_argument("--states", type=int, default=20000, metavar="N")
    parser.add_argument("--show", action="append", metavar="WHAT")
    parser.add_argument("--jobs", type=int, default=min(4, os.cpu_count() or 1), metavar="N")
    parser.add_argument("--plans", metavar="PREFIX", help="of the plans and reports that are written; an empty text: none")
    parser.add_argument("--order", action="store_true")
    parser.add_argument("--page", action="store_true")
    parser.add_argument("--move", action="store_true")
    parser.add_argument("--signal", type=int, metavar="S")
    parser.add_argument("--to", type=int, metavar="THREAD", help="the thread to which the signal comes, where it is posted to several")
    parser.add_argument("--most", type=int, default=1000, metavar="N")
    for name in ("vl", "svl", "slice", "budget"):
        parser.add_argument(f"--{name}", type=int, metavar="N")
    words = parser.parse_args()
    words.show = words.show or ["exit", "words"]
    words.cores = words.cores or max(2, words.threads)
    words.plans = pathlib.Path(words.program).stem if words.plans is None else words.plans
    if words.page and not words.plans:
        parser.error("--page writes files, and an empty --plans none")
    if not 1 <= words.threads <= min(32, worlds.RESIDENTS * words.cores) or words.cores > 64:
        parser.error("1 to 32 threads, at most 8 on a core, and 64 cores at most")
    return words


def main():
    words = arguments()
    if words.signal is not None:
        return disturbances.try_signal(words, options_of(words), lambda seen: outcome_of(seen, words.show))
    search, is_cut = look(words)
    is_wrong, left = show_outcomes(search, is_cut, words), unseen(search, is_cut, words)
    plans = [node.state.pieces for node in search.outcomes.values()]
    if words.move:
        is_changed, more_left = disturbances.try_moves(search.world, plans, words)
        is_wrong, left = is_wrong or is_changed, left + more_left
    if left:
        print(f"not looked at: {', '.join(left)}")
    return 1 if is_wrong else emulator.NOT_ALL if left else 0
