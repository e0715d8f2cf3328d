#!/usr/bin/env bash
# Tries the grammar on the RDF 1.1 N-Triples test suite of the W3C: bench/w3c.sh FOLDER, which holds its .nt files and
# manifest.ttl (Debian's source package serd has them under test/NTriplesTests). Each subject is mapped to an identifier, and
# so is each blank node. Every positive case must then be read, every negative one refused, but for those that only a relative
# IRI makes negative, and a positive case with its blank nodes left as they are must be refused for a blank node.
set -eu
top="$(cd "$(dirname "${BASH_SOURCE[0]}")/.." && pwd)"
"$top/bin/room" --prove
python3 - "$top/crates/room/out/room" "$1" <<'PYTHON'
import hashlib, os, re, subprocess, sys, tempfile

room, folder = sys.argv[1:]
manifest = open(os.path.join(folder, "manifest.ttl"), encoding="utf-8").read()
cases = re.findall(r"rdft:TestNTriples(Positive|Negative)Syntax\s*;.*?mf:action\s+<([^>]*)>", manifest, re.S)
# Negative by an IRI that is not absolute, and by nothing else.
relative = {"nt-syntax-bad-uri-06.nt", "nt-syntax-bad-uri-07.nt", "nt-syntax-bad-uri-08.nt", "nt-syntax-bad-uri-09.nt"}


def identifier(name):
    digits = hashlib.md5(name).hexdigest()
    return ("<urn:uuid:%s-%s-%s-%s-%s>" % (digits[:8], digits[8:12], digits[12:16], digits[16:20], digits[20:])).encode()


def with_subjects(kind, text):
    # An IRI at the front of a line is a subject. What may make a negative case negative stays.
    inside = rb"[^>\n]*" if kind == "Positive" else rb'[^<>"{}|^`\\\x00-\x20]*'
    return re.sub(rb"(?m)^([ \t]*)<(" + inside + rb")>", lambda m: m.group(1) + identifier(m.group(2)), text)


def without_blank_nodes(text):
    node = rb"_:[A-Za-z0-9:_][A-Za-z0-9:_.-]*"
    text = re.sub(rb"(?m)^([ \t]*)(" + node + rb")", lambda m: m.group(1) + identifier(m.group(2)), text)
    return re.sub(rb"(>[ \t]*)(" + node + rb")(?=[ \t]*\.[ \t]*(#.*)?$)", lambda m: m.group(1) + identifier(m.group(2)), text, flags=re.M)


def answer(text):
    with tempfile.NamedTemporaryFile(suffix=".nt") as file:
        file.write(text)
        file.flush()
        return subprocess.run([room, "check", file.name], stdout=subprocess.PIPE).stdout.decode().strip()


counts, wrong = {"read": 0, "refused": 0, "blank": 0, "relative": 0}, []
for kind, name in cases:
    text = open(os.path.join(folder, name), "rb").read()
    mapped = with_subjects(kind, text)
    got = answer(without_blank_nodes(mapped) if kind == "Positive" else mapped)
    if kind == "Positive":
        counts["read"] += 1
        if not got.startswith("ok "):
            wrong.append((name, got))
        if without_blank_nodes(mapped) != mapped:
            counts["blank"] += 1
            if not answer(mapped).endswith(" Blank"):
                wrong.append((name, "blank nodes: " + answer(mapped)))
    elif name in relative:
        counts["relative"] += 1
    else:
        counts["refused"] += 1
        if not got.startswith("document ") or got.endswith(" Subject"):
            wrong.append((name, got))
for name, got in wrong:
    print(f"WRONG {name}: {got}")
print(f"{counts['read']} positive cases read ({counts['blank']} of them refused with their blank nodes), {counts['refused']} negative cases refused, {counts['relative']} relative IRIs passed over; {len(wrong)} wrong")
sys.exit(1 if wrong or not cases else 0)
PYTHON
