#!/usr/bin/env bash
# Checks and traces bases that are made to be slow, each in one size and in twice that size, and prints the times and how they grow:
# bench/growth.sh [STATEMENTS] (of the larger size, 1,000,000 if left out). Twice the size should take little more than twice
# the time.
set -eu
top="$(cd "$(dirname "${BASH_SOURCE[0]}")/.." && pwd)"
"$top/bin/room" --prove
python3 - "$top/crates/room/out/room" "${1:-1000000}" <<'PYTHON'
import itertools, random, subprocess, sys, tempfile, time

room, most = sys.argv[1], int(sys.argv[2])
type_, cim = "<http://www.w3.org/1999/02/22-rdf-syntax-ns#type>", "http://iec.ch/TC57/CIM100#"


def subject(number):
    return "<urn:uuid:00000000-0000-4000-8000-%012x>" % number


def is_a(s, name):
    return f"{s} {type_} <{cim}{name}> ."


def says(s, name, value):
    return f'{s} <{cim}{name}> {value} .'


def terminal(t, equipment, number):
    return [is_a(t, "Terminal"), says(t, "Terminal.ConductingEquipment", equipment), says(t, "ACDCTerminal.sequenceNumber", f'"{number}"')]


def cuts_of_one_segment():
    segment = subject(1)
    yield [is_a(segment, "ACLineSegment"), *terminal(subject(2), segment, 1), *terminal(subject(3), segment, 2)]
    for i in itertools.count():
        cut = subject(1000 + 10 * i)
        own = [is_a(cut, "Cut"), says(cut, "Cut.ACLineSegment", segment), says(cut, "Cut.lengthFromTerminal1", f'"{i}.5"')]
        yield own + terminal(subject(1001 + 10 * i), cut, 1) + terminal(subject(1002 + 10 * i), cut, 2)


def types_of_one_subject():
    for i in itertools.count():
        phase = subject(1000 + i)
        yield [f"{subject(5)} {type_} <http://a/{i}> .", is_a(phase, "EnergyConsumerPhase"), says(phase, "EnergyConsumerPhase.EnergyConsumer", subject(5))]


def numbers_of_one_terminal():
    ends = (subject(1), subject(2))
    yield [is_a(t, "Terminal") for t in ends]
    for i in itertools.count():
        yield [is_a(subject(1000 + i), "ACLineSegment"), *(s for t in ends for s in (says(t, "Terminal.ConductingEquipment", subject(1000 + i)), says(t, "ACDCTerminal.sequenceNumber", f'"{i}"')))]


def terminals_at_one_node():
    yield [is_a(subject(1), "ConnectivityNode")]
    for i in itertools.count():
        ground = subject(1000 + 2 * i)
        yield [is_a(ground, "Ground"), *terminal(subject(1001 + 2 * i), ground, 1), says(subject(1001 + 2 * i), "Terminal.ConnectivityNode", subject(1))]


def statements_in_any_order():
    chance = random.Random(1)
    while True:
        yield [f'{subject(chance.getrandbits(48))} <http://x/p> "v" .']


def source_at(node):
    return [is_a(node, "ConnectivityNode"), is_a(subject(1), "EnergySource"), *at(subject(2), subject(1), 1, node)]


def at(t, equipment, number, node):
    return [*terminal(t, equipment, number), says(t, "Terminal.ConnectivityNode", node)]


def full_nodes():
    """Nodes with 1,024 terminals, joined by breakers."""
    node = subject(3)
    yield source_at(node)
    for i in itertools.count(1):
        first, before, node = 10_000 * i, node, subject(10_000 * i)
        breaker = subject(first + 1)
        grounds = [(subject(first + 10 + 2 * j), subject(first + 11 + 2 * j)) for j in range(1022)]
        yield [
            is_a(node, "ConnectivityNode"),
            is_a(breaker, "Breaker"),
            *at(subject(first + 2), breaker, 1, before),
            *at(subject(first + 3), breaker, 2, node),
            *(s for ground, t in grounds for s in (is_a(ground, "Ground"), *at(t, ground, 1, node))),
        ]


def segments_with(marks):
    """Segments one behind another, with 256 marks each."""
    node = subject(3)
    yield source_at(node)
    for i in itertools.count(1):
        first, before, node = 10_000 * i, node, subject(10_000 * i)
        segment = subject(first + 1)
        yield [
            is_a(node, "ConnectivityNode"),
            is_a(segment, "ACLineSegment"),
            *at(subject(first + 2), segment, 1, before),
            *at(subject(first + 3), segment, 2, node),
            *(s for j in range(256) for s in marks(segment, first + 10 + 4 * j, j)),
        ]


def clamp(segment, number, place):
    mark = subject(number)
    own = [is_a(mark, "Clamp"), says(mark, "Clamp.ACLineSegment", segment), says(mark, "Clamp.lengthFromTerminal1", f'"{place}"')]
    return own + terminal(subject(number + 1), mark, 1)


def closed_cut(segment, number, place):
    mark = subject(number)
    own = [is_a(mark, "Cut"), says(mark, "Cut.ACLineSegment", segment), says(mark, "Cut.lengthFromTerminal1", f'"{place}"')]
    closed = [says(mark, "Switch.open", '"false"')]
    return own + closed + terminal(subject(number + 1), mark, 1) + terminal(subject(number + 2), mark, 2)


def clamped_segments():
    return segments_with(clamp)


def cut_segments():
    return segments_with(closed_cut)


def whole_groups(shape, size):
    written = 0
    for group in shape():
        written += len(group)
        if written > size:
            return
        yield from group


def seconds(shape, size, *task):
    with tempfile.NamedTemporaryFile("w", suffix=".nt") as file:
        file.writelines(line + "\n" for line in whole_groups(shape, size))
        file.flush()
        start = time.monotonic()
        command, *rest = task or ("check",)
        text = subprocess.run([room, command, file.name, *rest], stdout=subprocess.PIPE).stdout
        return time.monotonic() - start, text.split(b"\n", 1)[0].decode()


def compare(shape, *task):
    half, _ = seconds(shape, most // 2, *task)
    whole, answer = seconds(shape, most, *task)
    print(f"{shape.__name__.replace('_', ' ')}: {half:.2f} s, twice the size {whole:.2f} s ({whole / half:.1f} times): {answer}")


for shape in (cuts_of_one_segment, types_of_one_subject, numbers_of_one_terminal, terminals_at_one_node, statements_in_any_order):
    compare(shape)
for shape in (full_nodes, clamped_segments, cut_segments):
    compare(shape, "trace", "00000000-0000-4000-8000-000000000001", "ABC")
PYTHON
