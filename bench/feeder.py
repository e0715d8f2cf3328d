#!/usr/bin/env python3
"""Writes a feeder as N-Triples, and scripts for it, to the standard output.

    feeder.py base SEGMENTS            the base: blocks of ten segments in a row and a lateral of ten behind a switch
    feeder.py acts SEGMENTS ACTS       a script of switching orders that are all accepted, with a trace at its end
    feeder.py switches SEGMENTS ACTS   a script that opens and closes the switches of the laterals
    feeder.py laterals SEGMENTS MANY   a script that opens the switch of a lateral, and traces the lateral so many times
    feeder.py source MANY              a script that traces from the source so many times
"""
import sys

CIM = "http://iec.ch/TC57/CIM100#"
TYPE = "http://www.w3.org/1999/02/22-rdf-syntax-ns#type"
NODE, SEGMENT, SWITCH, TERMINAL, ITEM = 1, 2, 3, 4, 5
SOURCE = "00000006-0000-4000-8000-000000000001"


def uuid(group, number):
    return f"{group:08x}-0000-4000-8000-{number:012x}"


class Base:
    """A base as it is written, statement by statement."""

    def __init__(self):
        self.lines, self.terminals = [], 0

    def say(self, subject, name, what):
        self.lines.append(f"<urn:uuid:{subject}> <{name}> {what} .\n")

    def node(self, number):
        self.say(uuid(NODE, number), TYPE, f"<{CIM}ConnectivityNode>")

    def terminal(self, owner, node, side):
        self.terminals += 1
        terminal = uuid(TERMINAL, self.terminals)
        self.say(terminal, TYPE, f"<{CIM}Terminal>")
        self.say(terminal, CIM + "Terminal.ConductingEquipment", f"<urn:uuid:{owner}>")
        self.say(terminal, CIM + "Terminal.ConnectivityNode", f"<urn:uuid:{uuid(NODE, node)}>")
        self.say(terminal, CIM + "ACDCTerminal.sequenceNumber", f'"{side}"')

    def equipment(self, identifier, kind, nodes):
        self.say(identifier, TYPE, f"<{CIM}{kind}>")
        for side, node in enumerate(nodes, 1):
            self.terminal(identifier, node, side)

    def segment(self, number, first, second):
        self.equipment(uuid(SEGMENT, number), "ACLineSegment", [first, second])
        self.say(uuid(SEGMENT, number), CIM + "Conductor.length", '"100"')


def base(segments):
    """In the block k the nodes 21 k + 1 to 21 k + 10 stand in a row, and 21 k + 11 to 21 k + 21 along the lateral."""
    made = Base()
    made.node(0)
    made.equipment(SOURCE, "EnergySource", [0])
    for block in range(segments // 20):
        first = 21 * block
        for number in range(1, 22):
            made.node(first + number)
        before = 0 if block == 0 else first - 11
        for number in range(10):
            made.segment(20 * block + number, before, first + number + 1)
            before = first + number + 1
        made.equipment(uuid(SWITCH, block), "LoadBreakSwitch", [first + 5, first + 11])
        for number in range(10):
            made.segment(20 * block + 10 + number, first + 11 + number, first + 12 + number)
    return "".join(made.lines)


def acts(segments, count):
    """Twelve orders of every kind, on one block after another; what is placed is taken away again."""
    lines = []
    for number in range(0, count, 12):
        block = number // 12 * 7 % (segments // 20)
        switch, segment, item = uuid(SWITCH, block), uuid(SEGMENT, 20 * block + 3), uuid(ITEM, number)
        node, next_node = uuid(NODE, 21 * block + 2), uuid(NODE, 21 * block + 7)
        lines += [
            f"open {switch}", f"close {switch}",
            f"cut {item} {segment} 40000", f"remove {item}",
            f"clamp {item} {segment} 60000", f"remove {item}",
            f"jumper {item} n:{node} n:{next_node} ABC", f"remove {item}",
            f"ground {item} n:{node} ABC", f"remove {item}",
            f"open {switch}", f"release {switch}",
        ][: count - number]
    lines.append(f"trace {SOURCE} ABC")
    return "".join(f"c1 {line}\n" for line in lines)


def switches(segments, count):
    blocks = segments // 20
    return "".join(f"c1 {('open', 'close')[number % 2]} {uuid(SWITCH, number // 2 % blocks)}\n" for number in range(count))


def laterals(segments, count):
    block = segments // 40
    lines = [f"open {uuid(SWITCH, block)}"] + [f"trace {uuid(SEGMENT, 20 * block + 19)} ABC"] * count
    return "".join(f"c1 {line}\n" for line in lines)


def source(count):
    return f"c1 trace {SOURCE} ABC\n" * count


WRITERS = {writer.__name__: writer for writer in (base, acts, switches, laterals, source)}
sys.stdout.write(WRITERS[sys.argv[1]](*map(int, sys.argv[2:])))
