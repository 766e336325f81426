"""Scripts from a seed, in which machines make days while the sweeper sweeps. They are
biased to what may lose a piece where a rule is wrong."""

from common import sha256

MACHINES = range(4)

# Pieces in the order of their names, so that a piece is known by its place here.
PIECES = sorted(["61", "62", "63", "74"], key=lambda digits: sha256(bytes.fromhex(digits)))


class Script:
    """Lines, and what they do, as far as is needed to go on with steps that are done
    and with others that are refused."""

    def __init__(self, source):
        self.source = source
        self.lines = []
        self.pieces = list(range(source.choice((2, 3, 3, 4))))
        # What is in its place and aside.
        self.place, self.aside = set(), set()
        # The pieces of each day, and of the days that machines make.
        self.days, self.making = {}, {}
        # The machines on the list, those that have raised their number, and the highest numbers.
        self.listed = list(MACHINES)
        self.raised = set()
        self.highest = [0] * len(MACHINES)
        # What the sweeper does, and what is left for it.
        self.point = "rests"
        self.left, self.back, self.away = [], [], []
        self.noted = self.highest
        # Whether the sweep that goes on has not been stopped, and how many such sweeps have ended.
        self.whole, self.whole_sweeps = False, 0

    def chance(self, share):
        return self.source.random() < share

    # Steps that are done.

    def begin(self, machine):
        self.lines.append(f"begin {machine}")
        self.making[machine] = []

    def see(self, machine, piece):
        self.lines.append(f"see {machine} {PIECES[piece]}")
        self.making[machine].append(piece)
        self.place.add(piece)

    def raise_number(self, machine):
        self.lines.append(f"raise {machine}")
        self.highest[machine] += 1
        self.raised.add(machine)

    def name(self, machine):
        self.lines.append(f"name {machine}")
        self.days[machine, self.highest[machine]] = self.making.pop(machine)
        self.raised.discard(machine)

    def break_off(self, machine):
        self.lines.append(f"break {machine}")
        del self.making[machine]
        self.raised.discard(machine)

    def go(self, machine, number):
        self.lines.append(f"go {machine} {number}")
        del self.days[machine, number]

    def part(self, machine):
        self.lines.append(f"part {machine}")
        self.listed.remove(machine)
        self.making.pop(machine, None)
        self.raised.discard(machine)

    def look(self):
        self.lines.append("look")
        self.left = sorted(self.place.difference(*self.days.values()))
        self.point = "puts aside"
        self.whole = True

    def put_aside(self):
        self.lines.append("aside")
        piece = self.left.pop(0)
        self.place.discard(piece)
        self.aside.add(piece)

    def note(self):
        self.lines.append("note")
        self.noted = self.highest[:]
        self.point = "waits"

    def decide(self):
        self.lines.append("decide")
        had = set().union(*self.days.values())
        self.back, self.away = sorted(self.aside & had), sorted(self.aside - had)
        self.point = "ends"
        self.rest_if_done()

    def next(self):
        self.lines.append("next")
        piece = (self.back or self.away)[0]
        if self.back:
            self.place.add(self.back.pop(0))
        else:
            self.away.pop(0)
        self.aside.discard(piece)
        self.rest_if_done()

    def rest_if_done(self):
        if not self.back and not self.away:
            self.point = "rests"
            self.whole_sweeps += self.whole

    def stop(self):
        self.lines.append("stop")
        self.point = {"puts aside": "rests", "ends": "anew"}.get(self.point, self.point)
        self.whole = False

    # What is waited for.

    def finished(self, machine):
        """Whether the machine has finished a day since its number was noted."""
        return any(of == machine and number > self.noted[machine] for of, number in self.days)

    def waited_for(self):
        return [machine for machine in self.listed if not self.finished(machine)]

    def finish(self, machine, sees=0.0):
        """The next step of the machine on its way to a day; `sees` is the chance that it sees to a piece first."""
        if machine not in self.making:
            self.begin(machine)
        elif machine in self.raised:
            self.name(machine)
        elif self.chance(sees):
            self.see(machine, self.some_piece())
        else:
            self.raise_number(machine)

    def finish_day(self, machine):
        self.finish(machine)
        while machine in self.making:
            self.finish(machine)

    # Any step.

    def some_piece(self):
        """One that is aside, or about to be put aside, rather than another."""
        endangered = self.left if self.point == "puts aside" else list(self.aside)
        return self.source.choice(endangered if endangered and self.chance(0.6) else self.pieces)

    def machine_step(self):
        if not self.listed:
            return
        machine = self.source.choice(self.listed)
        if machine not in self.making:
            self.begin(machine)
        elif self.chance(0.25 if self.point == "waits" else 0.08):
            self.break_off(machine)
        elif machine in self.raised:
            # Some stay as they are for a while.
            if self.chance(0.7):
                self.name(machine)
        elif self.chance(0.75):
            self.see(machine, self.some_piece())
        else:
            self.raise_number(machine)

    def find_first(self, piece):
        """A machine sees to a piece that is about to be put aside."""
        makers = [machine for machine in self.listed if machine not in self.raised]
        if makers:
            machine = self.source.choice(makers)
            if machine not in self.making:
                self.begin(machine)
            self.see(machine, piece)

    def sweeper_step(self):
        match self.point:
            case "rests":
                # Rather where there is something to put aside.
                if self.chance(0.1) or self.place.difference(*self.days.values()):
                    self.look()
                else:
                    self.machine_step()
            case "puts aside" if self.left:
                if self.chance(0.1):
                    self.stop()
                    return
                if self.chance(0.4):
                    self.find_first(self.left[0])
                self.put_aside()
            case "puts aside":
                if self.chance(0.1):
                    self.stop()
                else:
                    self.note()
            case "waits":
                waited_for = self.waited_for()
                if self.chance(0.05):
                    self.stop()
                elif not waited_for:
                    self.decide()
                elif self.chance(0.05):
                    self.lines.append("decide")
                else:
                    self.finish(self.source.choice(waited_for), sees=0.4)
            case "ends":
                if self.chance(0.15):
                    self.stop()
                else:
                    self.next()
            case "anew":
                if self.chance(0.1):
                    self.stop()
                else:
                    self.decide()

    def let_go(self):
        if self.days:
            self.go(*self.source.choice(list(self.days)))

    def refused(self):
        """A step that is refused."""
        machine = self.source.randrange(5)
        steps = [f"go {machine} {self.source.choice((0, 9999))}", f"part {4 + machine}"]
        if machine not in self.listed:
            steps += [f"{step} {machine}" for step in ("begin", "see", "raise", "name", "break", "part")]
        elif machine not in self.making:
            steps += [f"{step} {machine}" for step in ("see", "raise", "name", "break")]
        elif machine in self.raised:
            steps += [f"{step} {machine}" for step in ("begin", "see", "raise")]
        else:
            steps += [f"{step} {machine}" for step in ("begin", "name")]
        done = {"rests": ["look"], "puts aside": ["aside" if self.left else "note"], "waits": ["decide"]}
        done |= {"ends": ["next"], "anew": ["decide"]}
        sweeper = [step for step in ("look", "aside", "note", "decide", "next") if step not in done[self.point]]
        self.lines.append(self.source.choice(self.source.choice((steps, sweeper))))

    def dare(self):
        """Steps that are refused, and that a wrong rule might let pass."""
        match self.point:
            case "puts aside" if self.left:
                self.lines.append("note")
                if self.chance(0.5):
                    for machine in self.listed:
                        self.finish_day(machine)
                    self.find_first(self.left[0])
            case "waits" if self.waited_for():
                self.lines += ["decide", *["next"] * len(self.aside)]
            case _:
                self.refused()

    def step(self, parts, dares=0.01):
        """Any step; with `parts`, a machine may be gone for good then. `dares` is the
        chance of steps that are refused and dangerous."""
        if self.chance(dares):
            self.dare()
            return
        at = self.source.random()
        if at < 0.42:
            self.machine_step()
        elif at < 0.8:
            self.sweeper_step()
        elif at < 0.88:
            self.let_go()
        elif at < 0.94:
            self.refused()
        elif at < 0.98:
            self.lines.append("show")
        elif parts and self.listed:
            # One that makes a day, if there is any.
            self.part(self.source.choice(list(self.making) or self.listed))

    # The way back to a store without pieces and days.

    def let_all_go(self):
        for machine in list(self.making):
            self.break_off(machine)
        for machine, number in list(self.days):
            self.go(machine, number)

    def sweep(self):
        """Goes on to the end of the sweep."""
        while self.point == "puts aside":
            if self.left:
                self.put_aside()
            else:
                self.note()
        if self.point == "waits":
            for machine in self.waited_for():
                while not self.finished(machine):
                    self.finish(machine)
        if self.point in ("waits", "anew"):
            self.decide()
        while self.point == "ends":
            self.next()

    def clear(self):
        """Then there are no days, nothing is aside, and often nothing is in its place."""
        self.let_all_go()
        self.sweep()
        if self.aside or self.place and self.chance(0.4):
            self.look()
            self.sweep()
        self.let_all_go()


def scripts(source, count, most=70):
    """So many scripts, each of so many steps at most, in one: each leaves the store
    without days and with nothing aside, though with names in lists and with highest
    numbers. In the later ones machines part. It ends in the middle of the last one.
    Beside it, how many sweeps come to their end without a stop."""
    script = Script(source)
    for number in range(count):
        if number:
            script.clear()
        for _ in range(source.randrange(10, most + 1)):
            script.step(parts=number * 3 >= count * 2)
    script.lines.append("show")
    return "\n".join(script.lines).encode(), script.whole_sweeps


def daring_script(source):
    """One script, in which few machines are left, and which dares much."""
    script = Script(source)
    for machine in source.sample(MACHINES, source.choice((2, 3, 3))):
        if script.chance(0.5):
            # It leaves a piece that no day has.
            script.begin(machine)
            script.see(machine, source.choice(script.pieces))
        script.part(machine)
    for _ in range(source.randrange(20, 100)):
        script.step(parts=True, dares=0.15)
    return "\n".join(script.lines).encode()
