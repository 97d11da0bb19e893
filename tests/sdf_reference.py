"""Simulates cells with delays of paths, by the rules of IEEE 1364 for module paths.

It reads neither netlists nor files of delays, and knows nothing of `vsim_netlist`; tests/sdf.py makes both from the same delays.

What changes at one time does so at once. When the value of an output's function changes, the output follows after the delay of that input
which has just changed, the least of several: that for a rise where the new value is 1 or the old one 0, else that for a fall. To z counts the
third delay or, from x, the longer of both; from z to x the shorter. A change that is under way is cancelled by the next one. An input without
a delay takes the longest of the others, as does what follows at time 0 from no change of an input.
A register takes from an input of the design what that had before the edge. So it does from all pins if its data are a formula: that is a gate
of its own, whose value comes after the edge.
"""
import heapq

from liberty import UNKNOWN, Instance, Value


class TimedCell(Instance):
    """A cell in a netlist: the nets of its pins, and for each output the delays from its inputs, as {input: (rise, fall[, off])}."""

    def __init__(self, kind, nets, delays, initial=None):
        super().__init__(kind)
        self.nets, self.delays = nets, delays
        if kind.state and initial:
            plain = Value(initial)
            self.values.update(zip(kind.state[1], (plain, ~plain)))
        self.function = {pin: self.output(*functions) for pin, functions in kind.outputs.items()} if kind.state and initial \
            else dict.fromkeys(kind.outputs, "x")
        self.shown, self.serial = dict(self.function), dict.fromkeys(kind.outputs, 0)

    def take(self, changed, late):
        """Takes the values of pins that have changed, of which some are late for a register. Returns the letters of the outputs."""
        data = self.kind.parts.get("next_state") if self.kind.state else None
        seen = {} if data and not isinstance(data.tree, str) else {pin: value for pin, value in changed.items() if pin not in late}
        before = {**self.values, **seen}
        self.values.update(changed)
        if self.kind.state:
            part = {it: function.value(before if it == "next_state" else self.values) for it, function in self.kind.parts.items()}
            clock = part.get("clocked_on", UNKNOWN)
            taken = self.stored(part, (self.clock.letter, clock.letter) == ("0", "1"))
            self.clock = clock
            self.values.update(zip(self.kind.state[1], taken or []))
        return {pin: self.output(*functions) for pin, functions in self.kind.outputs.items()}

    def delay(self, pin, old, new, changed):
        """Returns after what time an output follows."""
        paths = self.delays[pin]
        if new == "z" and any(len(it) == 3 for it in paths.values()):
            times = {it: path[2] if len(path) == 3 else path[0] for it, path in paths.items()}
        elif (old, new) in (("x", "z"), ("z", "x")):
            choose = max if new == "z" else min
            times = {it: choose((time for time in path[:2] if time is not None), default=None) for it, path in paths.items()}
        else:
            times = {it: path[0 if new == "1" or old == "0" else 1] for it, path in paths.items()}
        known = {it: time for it, time in times.items() if time is not None}
        return min((known[it] for it in changed if it in known), default=max(known.values(), default=0))


def resolved(values):
    """Returns the value of a net with several drivers."""
    known = {it for it in values if it != "z"}
    return "z" if not known else known.pop() if len(known) == 1 else "x"


class Simulation:
    """Cells, and the inputs of the design with their changes, as [(time, {net: letter})]."""

    def __init__(self, cells, inputs, stimuli):
        self.cells, self.inputs, self.events = cells, inputs, []
        self.readers, self.drivers, self.levels, self.changes = {}, {}, {}, {}
        for cell in cells:
            for pin in cell.kind.inputs:
                self.readers.setdefault(cell.nets[pin], []).append((cell, pin))
            for pin in cell.kind.outputs:
                if pin in cell.nets:
                    self.drivers.setdefault(cell.nets[pin], []).append((cell, pin))
        for net, drivers in self.drivers.items():
            self.levels[net] = resolved([cell.shown[pin] for cell, pin in drivers])
            self.changes[net] = [(0, self.levels[net])]
        for time, values in stimuli:
            self.put(time, values)
        for cell in cells:
            cell.values.update((pin, Value(self.levels.get(cell.nets[pin], "x"))) for pin in cell.kind.inputs)
            self.follow(0, cell, {}, {})

    def put(self, time, what):
        heapq.heappush(self.events, (time, len(self.events), id(what), what))

    def follow(self, time, cell, changed, late):
        """Lets a cell take the values of some pins, and its outputs follow."""
        for pin, new in cell.take(changed, late).items():
            old = cell.function[pin]
            if new != old:
                cell.function[pin] = new
                cell.serial[pin] += 1
                self.put(time + cell.delay(pin, old, new, changed), (cell, pin, new, cell.serial[pin]))

    def changed_nets(self, events):
        """Carries out events of one time, and returns the nets that change."""
        found = {}
        for what in events:
            if isinstance(what, dict):
                found.update(what)
                continue
            cell, pin, new, serial = what
            if serial == cell.serial[pin] and pin in cell.nets:
                cell.shown[pin] = new
                net = cell.nets[pin]
                found[net] = resolved([other.shown[it] for other, it in self.drivers[net]])
        return {net: level for net, level in found.items() if self.levels.get(net, "x") != level}

    def note(self, time, net, level):
        """Notes a change, in place of another one at the same time."""
        changes = self.changes.setdefault(net, [(0, "x")])
        if changes[-1][0] == time and time:
            changes.pop()
        if not changes or changes[-1][1] != level:
            changes.append((time, level))

    def run(self):
        """Returns for each net its changes, as [(time, letter)]."""
        while self.events:
            time, events = self.events[0][0], []
            while self.events and self.events[0][0] == time:
                events.append(heapq.heappop(self.events)[3])
            touched = {}
            for net, level in self.changed_nets(events).items():
                self.levels[net] = level
                self.note(time, net, level)
                for cell, pin in self.readers.get(net, ()):
                    touched.setdefault(id(cell), (cell, {}))[1][pin] = Value(level if level in "01" else "x")
            for cell, changed in touched.values():
                self.follow(time, cell, changed, {pin for pin in changed if cell.nets[pin] in self.inputs})
        return self.changes
