#!/usr/bin/python3
"""Reads real PDB files with our reader and with gemmi, and compares atoms, chains, residues, C-alphas, oxygens and segments.

usage: compare.py KNOWN FILE ... -- READER [ARGUMENT ...]

READER gets a file's path as its last argument and writes the job, or a line 'refused NUMBER VALUE' on standard error. One line is printed
for each file. KNOWN lists what is expected other than plain agreement: a file's name, then 'refused NUMBER LINE' or 'differs THING'. The
exit status is 1 where anything is otherwise."""

import collections
import gzip
import re
import struct
import subprocess
import sys
import tempfile

import gemmi

Atom = collections.namedtuple("Atom", "serial role residue chain xyz")


class Job:
    """A version 1 job's fields, by document 01."""

    def __init__(self, b):
        length, version, c, self.residues, s, a = struct.unpack_from(">IBHHHH", b)
        assert version == 1 and length == len(b) - 4 and len(b) == 13 + c + 9 * s + 33 * a, "not a job"
        self.visible = list(b[13:13 + c])
        at = 13 + c
        self.segments = [struct.unpack_from(">BII", b, at + 9 * i) for i in range(s)]
        at += 9 * s
        rows = [struct.unpack_from(">IBHHddd", b, at + 33 * i) for i in range(a)]
        self.atoms = [Atom(r[0], r[1], r[2], r[3], r[4:]) for r in rows]


def role_by_gemmi(atom):
    if atom.name == "CA" and atom.element.name == "C":
        return 1
    return 2 if atom.name == "O" else 0


def by_gemmi(text):
    """gemmi's first model: for each of its ATOM records (chain, number, insertion code), atom; and the segments by those names."""
    try:
        st = gemmi.read_pdb_string(text, split_chain_on_ter=False)
    except RuntimeError:
        # Old files have their own name in columns 73 to 80, where gemmi looks for elements and charges.
        st = gemmi.read_pdb_string(text, max_line_length=72, split_chain_on_ter=False)
    atoms = []
    for chain in st[0] if len(st) else []:
        for residue in chain:
            if residue.het_flag == "A":
                name = (chain.name[-1:] or " ", residue.seqid.num, residue.seqid.icode)
                atoms += [(name, atom) for atom in residue]

    def name_of(address):
        seqid = address.res_id.seqid
        return (address.chain_name[-1:] or " ", seqid.num, seqid.icode)

    segments = [(1, name_of(h.start), name_of(h.end)) for h in st.helices]
    for sheet in st.sheets:
        segments += [(2, name_of(s.start), name_of(s.end)) for s in sheet.strands]
    return atoms, segments


def differences(job, atoms, segments):
    """What differs, in words; nothing where all agrees."""
    found = []
    ours = sorted(job.atoms, key=lambda a: a.serial)
    theirs = sorted(atoms, key=lambda a: a[1].serial)
    if [a.serial for a in ours] != [a.serial for _, a in theirs]:
        return [f"atoms: {len(ours)} against {len(theirs)} of gemmi"]
    names, chains = {}, {}
    first, last = {}, {}
    bits = 0
    for a, (name, g) in zip(ours, theirs):
        if names.setdefault(a.residue, name) != name or chains.setdefault(a.chain, name[0]) != name[0]:
            found.append(f"residues: atom {a.serial}")
        if a.role != role_by_gemmi(g):
            found.append(f"roles: atom {a.serial} '{g.name}' of {g.element.name}")
        far = max(abs(p - q) for p, q in zip(a.xyz, g.pos.tolist()))
        bits += a.xyz != tuple(g.pos.tolist())
        if far > 1e-9:
            found.append(f"coordinates: atom {a.serial} by {far}")
    if len(set(names.values())) != len(names) or len(names) != job.residues:
        found.append(f"residues: {job.residues} against {len(set(names.values()))} of gemmi")
    if len(set(chains.values())) != len(chains) or len(chains) != len(job.visible):
        found.append("chains")
    # Numbers by first appearance, and a segment's serials, in the order of the file.
    seen_residues, seen_chains = [], []
    for a in job.atoms:
        if a.residue not in first:
            seen_residues.append(a.residue)
            first[a.residue] = a.serial
        if a.chain not in seen_chains:
            seen_chains.append(a.chain)
        last[a.residue] = a.serial
    if seen_residues != list(range(job.residues)) or seen_chains != list(range(len(job.visible))):
        found.append("numbers by first appearance")
    number = {name: r for r, name in names.items()}
    expected = [(k, first.get(number.get(p)), last.get(number.get(q))) for k, p, q in segments]
    # gemmi keeps helices and strands apart, and strands by their sheet.
    if collections.Counter(job.segments) != collections.Counter(expected):
        found.append(f"segments: {len(job.segments)} against {len(expected)} of gemmi")
    if bits:
        found.append(f"bits of coordinates: {bits} atoms")
    return found


def read(reader, path):
    """The job, or the refusal's words."""
    done = subprocess.run(reader + [path], capture_output=True)
    refused = re.search(rb"refused (\d+) (\d+)", done.stderr)
    if refused:
        return "refused {} {}".format(*(int(n) for n in refused.groups()))
    assert done.returncode == 0, (path, done.stderr)
    return Job(done.stdout)


def look(reader, path):
    """What became of a file, in words, and how."""
    with gzip.open(path) if path.endswith(".gz") else open(path, "rb") as f:
        raw = f.read()
    with tempfile.NamedTemporaryFile(suffix=".pdb") as plain:
        plain.write(raw)
        plain.flush()
        job = read(reader, plain.name)
    if isinstance(job, str):
        number = int(job.split()[2])
        line = raw.split(b"\n")[number - 1].rstrip(b"\r").decode("latin-1")
        return job, f"line {number}: '{line}'"
    alphas = sum(a.role == 1 for a in job.atoms)
    counts = f"{len(job.visible)} chains, {job.residues} residues, {len(job.atoms)} atoms, {alphas} C-alphas, {len(job.segments)} segments"
    found = differences(job, *by_gemmi(raw.decode("latin-1")))
    kinds = sorted({f.split(":")[0] for f in found})
    return ("differs " + ", ".join(kinds) if kinds else "agrees"), counts + "".join("; " + f for f in found[:3])


def main():
    end = sys.argv.index("--")
    known_path, files, reader = sys.argv[1], sys.argv[2:end], sys.argv[end + 1:]
    with open(known_path) as f:
        known = dict(line.strip().split(": ", 1) for line in f if ": " in line and not line.startswith("#"))
    tally, bad = collections.Counter(), 0
    for path in files:
        name = "/".join(path.split("/")[-2:])
        what, how = look(reader, path)
        tally[" ".join(what.split()[:2]) if what.startswith("refused") else what] += 1
        expected = known.get(name, "agrees")
        mark = "" if what == expected else f"   (expected: {expected})"
        bad += what != expected
        print(f"{name}: {what}{mark} - {how}")
    print(f"{len(files)} files: " + ", ".join(f"{count} {what}" for what, count in sorted(tally.items())))
    print("all as expected" if bad == 0 else f"{bad} not as expected")
    sys.exit(bad != 0)


main()
