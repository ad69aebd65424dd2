# A protein of so many residues as a PDB file: awk -v residues=300 -f bench/protein.awk
# Forty residues, a helix of 14, a coil of 8, a strand of 8 and a turn of 10, again and again, up and down and in rows of twenty, in chains of 4,000 residues.
# Helices turn right by 100 degrees and rise 1.5 a residue, strands 3.3; of each residue come N, CA, C and O.

# where the C-alpha of residue r stands: leaves x, y, z
function place(r,   u, i, row, column, last, up, a, b, h, across) {
    u = int(r / 40); i = r % 40; row = int(u / 20); column = u % 20; last = column == 19
    if (row % 2) column = 19 - column
    up = u % 2 ? -1 : 1
    a = b = across = 0
    if (i < 14) { h = 1.5 * i; a = 2.3 * cos(i * pi / 1.8); b = 2.3 * sin(i * pi / 1.8) }
    else if (i < 22) { h = 22.1 + 3.4 * (i - 14); a = 0.8 * sin(1.3 * i); b = 0.8 * cos(1.9 * i) }
    else if (i < 30) { h = 45.9 + 3.3 * (i - 21); a = i % 2 ? 0.9 : -0.9 }
    else { h = 72.3 + 12 * sin((i - 29) * pi / 11); across = 12 - 12 * cos((i - 29) * pi / 11) }
    # a stack that runs down is one that runs up, turned about its y, so that helices keep their hand
    x = 24 * column + up * a + (last ? 0 : (row % 2 ? -across : across))
    y = 24 * row + b + (last ? across : 0)
    z = up > 0 ? h : 72.3 - h
}

function name(r) { return substr("ALALEUGLYVALGLUSERLYSASPTHRILE", 3 * (r % 10) + 1, 3) }
function chain(r) { return substr("ABCDEFGHIJ", int(r / 4000) + 1, 1) }
function number(r) { return r % 4000 + 1 }

function atom(r, what, px, py, pz) {
    printf "ATOM  %5d  %-3s %s %s%4d    %8.3f%8.3f%8.3f  1.00 20.00           %s  \n", ++serial, what, name(r), chain(r), number(r), px, py, pz, substr(what, 1, 1)
}

# the way to where a neighbour is, by a part of it; at an end the other neighbour's, backwards
function toward(r, to, part) {
    if (to < 0 || to >= residues) { to = 2 * r - to; part = -part }
    px = cx[r] + part * (cx[to] - cx[r]); py = cy[r] + part * (cy[to] - cy[r]); pz = cz[r] + part * (cz[to] - cz[r])
}

BEGIN {
    pi = atan2(0, -1)
    for (r = 0; r < residues; r++) { place(r); cx[r] = x; cy[r] = y; cz[r] = z }
    printf "%-80s\n", "HEADER    A PROTEIN OF " residues " RESIDUES, GENERATED"
    for (r = 0; r + 13 < residues; r += 40) {
        n = n % 999 + 1
        printf "HELIX  %3d %3d %s %s %4d  %s %s %4d  1%30s %5d    \n", n, n, name(r), chain(r), number(r), name(r + 13), chain(r + 13), number(r + 13), "", 14
    }
    for (r = 22; r + 7 < residues; r += 40)
        printf "SHEET    1   A 1 %s %s%4d  %s %s%4d  0%40s\n", name(r), chain(r), number(r), name(r + 7), chain(r + 7), number(r + 7), ""
    for (r = 0; r < residues; r++) {
        i = r % 40; up = int(r / 40) % 2 ? -1 : 1
        toward(r, r - 1, 0.38); atom(r, "N", px, py, pz)
        atom(r, "CA", cx[r], cy[r], cz[r])
        toward(r, r + 1, 0.40); atom(r, "C", px, py, pz)
        # an oxygen points along its helix, and to either side of a strand by turns
        if (i < 14) pz += 1.23 * up
        else if (i % 2) py += 1.23
        else py -= 1.23
        atom(r, "O", px, py, pz)
        if (r % 4000 == 3999 || r == residues - 1) printf "%-80s\n", "TER"
    }
    printf "%-80s\n", "END"
}
