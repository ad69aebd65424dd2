# Sourced by tests/programs/run: files of which a person is told something, and what.
atom() { # NAME SERIAL ATOM RESIDUE CHAIN NUMBER X
    printf '%-6s%5d %-4s %3s %s%4d    %8.3f%8.3f%8.3f  1.00 20.00\n' "$1" "$2" "$3" "$4" "$5" "$6" "$7" 0 0
}
tells 0 ./ribbon-job "$pdb" <<'TEXT'
note: read: chains 1 residues 6 segments 1 atoms 12 C-alphas 6
note: models: 2; the first is read
TEXT

# a selenomethionine in HETATM lines in the middle of a helix, twice listed, and one that has ATOM lines too
{
    echo 'HELIX    1   1 GLY A    1  GLY A    5  1                                   5    '
    atom ATOM 1 ' CA' GLY A 1 0
    atom ATOM 2 ' CA' GLY A 2 4
    atom HETATM 3 ' CA' MSE A 3 8
    atom HETATM 4 ' CA' MSE A 3 8.1
    atom ATOM 5 ' CA' MSE A 4 12
    atom HETATM 6 ' CA' MSE A 4 12.1
    atom ATOM 7 ' CA' GLY A 5 16
    atom HETATM 8 'CA' CA A 6 30
    echo END
} >"$at/mse.pdb"
tells 0 ./ribbon-job "$at/mse.pdb" <<'TEXT'
note: read: chains 1 residues 4 segments 1 atoms 4 C-alphas 4
note: left out, since their C-alphas stand in HETATM lines: MSE A 3 (residues: 1); the ribbon lacks them, and a helix or strand over one comes in pieces
TEXT
{
    atom ATOM 1 ' CA' GLY A 1 0
    for i in {2..20}; do atom HETATM "$i" ' CA' MSE B "$i" "$i"; done
} >"$at/many.pdb"
tells 0 ./ribbon-job "$at/many.pdb" <<'TEXT'
note: read: chains 1 residues 1 segments 0 atoms 1 C-alphas 1
note: left out, since their C-alphas stand in HETATM lines: MSE B 2, MSE B 3, MSE B 4, MSE B 5, MSE B 6, MSE B 7, MSE B 8, MSE B 9, MSE B 10, MSE B 11, MSE B 12, MSE B 13, and others (residues: 19); the ribbon lacks them, and a helix or strand over one comes in pieces
note: no END line: is the file whole? What is cut off here is missing from the model
TEXT

# files that are no PDB files
gzip -c "$pdb" >"$at/six.pdb.gz"
tells 0 ./ribbon-job "$at/six.pdb.gz" <<'TEXT'
note: read: chains 0 residues 0 segments 0 atoms 0 C-alphas 0
note: no ATOM line was read: is this a PDB file? It is packed by gzip: unpack it first (gunzip)
TEXT
printf 'data_1ABC\nloop_\n_atom_site.group_PDB\n_atom_site.id\nATOM 1\n' >"$at/one.cif"
tells 0 ./ribbon-job "$at/one.cif" <<'TEXT'
note: read: chains 0 residues 0 segments 0 atoms 0 C-alphas 0
note: lines that begin as ATOM, HELIX or SHEET and are passed over, since all six columns of a name count: 1; the first is: ATOM 1
note: no ATOM line was read: is this a PDB file? It looks like mmCIF, which is not read yet: take the PDB file of the structure
TEXT
tr '\n' '\r' <"$pdb" >"$at/cr.pdb"
tells 0 ./ribbon-job "$at/cr.pdb" <<'TEXT'
note: read: chains 0 residues 0 segments 0 atoms 0 C-alphas 0
note: no ATOM line was read: is this a PDB file? Its lines end at CR alone: turn each CR into an LF (tr '\r' '\n')
TEXT
atom ATOM 1 ' CA' GLY A 1 0 | tr '\n' '\r' >"$at/cr.pdb"
atom ATOM 2 ' CA' GLY A 2 4 | tr '\n' '\r' >>"$at/cr.pdb"
tells 0 ./ribbon-job "$at/cr.pdb" <<'TEXT'
note: read: chains 1 residues 1 segments 0 atoms 1 C-alphas 1
note: the lines end at CR alone, so that the whole file is one line: turn each CR into an LF (tr '\r' '\n')
note: no END line: is the file whole? What is cut off here is missing from the model
TEXT
{ echo 'MODEL        1'; echo ENDMDL; atom ATOM 1 ' CA' GLY A 1 0; echo END; } >"$at/behind.pdb"
tells 0 ./ribbon-job "$at/behind.pdb" <<'TEXT'
note: read: chains 0 residues 0 segments 0 atoms 0 C-alphas 0
note: no ATOM line was read: the first model has none, and what follows its ENDMDL is not read
TEXT
tells 0 ./ribbon-job /dev/null <<'TEXT'
note: read: chains 0 residues 0 segments 0 atoms 0 C-alphas 0
note: no ATOM line was read: is this a PDB file? It is empty
TEXT
printf '\377\376A\0T\0' >"$at/utf16.pdb"
tells 0 ./ribbon-job "$at/utf16.pdb" <<'TEXT'
note: read: chains 0 residues 0 segments 0 atoms 0 C-alphas 0
note: no ATOM line was read: is this a PDB file? It is UTF-16 text: save it as plain ASCII
TEXT
tells 0 ./ribbon-job README.md <<'TEXT'
note: read: chains 0 residues 0 segments 0 atoms 0 C-alphas 0
note: no ATOM line was read: is this a PDB file? Such a line begins with ATOM and two blanks, in capitals
TEXT

# names one column too far to the left, a serial of six digits behind a byte-order mark, with a byte that would move a terminal's cursor
{ atom ATOM 1 'CA' GLY A 1 0; atom ATOM 2 'CA' GLY A 2 4; echo 'END   '; } >"$at/left.pdb"
tells 0 ./ribbon-job "$at/left.pdb" <<'TEXT'
note: read: chains 1 residues 2 segments 0 atoms 2 C-alphas 0
note: no atom is a C-alpha, so there is nothing to draw: an atom's name stands in columns 13 to 16, a C-alpha's is ' CA '
TEXT
{ printf '\357\273\277'; atom ATOM 1 ' CA' GLY A 1 0; atom ATOM 2 ' CA' GLY A 2 4; printf 'ATOM 100000  CA \033[2J GLY\n'; echo 'HELIX2'; echo END; } >"$at/marks.pdb"
tells 0 ./ribbon-job "$at/marks.pdb" <<'TEXT'
note: read: chains 1 residues 1 segments 0 atoms 1 C-alphas 1
note: the file begins with a byte-order mark, so that its first line is passed over: save it as plain ASCII
note: lines that begin as ATOM, HELIX or SHEET and are passed over, since all six columns of a name count: 2; the first is: ATOM 100000  CA ?[2J GLY
TEXT

# refusals: the line at fault, what in it is at fault, and what to do
short="what to do: fetch the file again if it was cut; if trailing blanks were stripped, pad its lines with blanks to 80 columns"
digits="what to do: correct the columns; serials past 99999 and residues past 9999 do not fit a PDB file: split it by its chains"
absent="what to do: shorten it to residues that have ATOM lines (a modified residue often stands in HETATM lines alone), or leave the line out"
refuses() { # FILE NUMBER LINE WHAT WHAT-TO-DO [FAULT]: the refusal's line, the line of the file, the fault in it, what it means, what to do
    { printf 'refused %s %s\nline %s: ' "$2" "$3" "$3"; sed -n "$3p" "$1" | cut -c1-80; [ -z "${6-}" ] || printf '%s\n' "$6"; printf '%s\n%s\n' "$4" "$5"; } >"$at/said"
    tells 1 ./ribbon-job "$1" <"$at/said"
}
awk 'NR == 14 { $0 = substr($0, 1, 53) } { print }' "$pdb" >"$at/short.pdb"
refuses "$at/short.pdb" 12 14 'line 14 ends before its last column, which is 54 for ATOM, 38 for HELIX and SHEET' "$short"
wrong() { # COLUMNS AT TEXT FAULT: the six residues with TEXT from column AT on in line 6
    awk -v at="$2" -v text="$3" -v line="$1" 'NR == line { $0 = substr($0, 1, at - 1) text substr($0, at + length(text)) } { print }' "$pdb" >"$at/wrong.pdb"
    refuses "$at/wrong.pdb" 13 "$1" "a serial, a sequence number or a coordinate is not right in line $1" "$digits" "$4"
}
number='a minus or none, and digits, between blanks' places='are no number with a point and three digits behind it'
wrong 6 7 'A0000' 'its columns 7 to 11 are no serial: digits between blanks'
wrong 6 7 '   -3' 'its columns 7 to 11 are no serial: digits between blanks'
wrong 6 23 'A000' "its columns 23 to 26 are no residue number: $number"
wrong 6 31 '    4.00' "its columns 31 to 38, x, $places"
wrong 6 39 '   1,000' "its columns 39 to 46, y, $places"
wrong 6 47 '   1.0e0' "its columns 47 to 54, z, $places"
wrong 2 22 ' 3 3' "its columns 22 to 25 are no residue number: $number"
wrong 2 34 '    ' "its columns 34 to 37 are no residue number: $number"
missing() { echo "the helix or strand in line $1 begins or ends at a residue that no ATOM line has"; }
sed '2s/GLY A    3/MSE A   33/' "$pdb" >"$at/absent.pdb"
refuses "$at/absent.pdb" 14 2 "$(missing 2)" "$absent" 'no right ATOM line has its residue MSE A 33'
sed '2s/GLY A    4  1/MSE B    4  1/' "$pdb" >"$at/absent.pdb"
refuses "$at/absent.pdb" 14 2 "$(missing 2)" "$absent" 'no right ATOM line has its residue MSE B 4'
sheet() { printf 'SHEET    1   A 1 %s %s  0\n' "$1" "$2"; tail -n +3 "$pdb"; }
sheet 'GLY A   3A' 'GLY A   4 ' >"$at/sheet.pdb"
refuses "$at/sheet.pdb" 14 1 "$(missing 1)" "$absent" 'no right ATOM line has its residue GLY A 3A'
sheet 'GLY A   3 ' 'GLY A  44 ' >"$at/sheet.pdb"
refuses "$at/sheet.pdb" 14 1 "$(missing 1)" "$absent" 'no right ATOM line has its residue GLY A 44'
sheet 'GLY A   x ' 'GLY A   4 ' >"$at/sheet.pdb"
refuses "$at/sheet.pdb" 13 1 'a serial, a sequence number or a coordinate is not right in line 1' "$digits" "its columns 23 to 26 are no residue number: $number"
structure 17000 17000 | grep -v HELIX >"$at/past.pdb"
tells 1 ./ribbon-job "$at/past.pdb" <<'TEXT'
refused 15 0
a job has at most 255 chains, 16384 residues, 65535 segments and 65535 atoms, and the file has more
what to do: split the file by its chains
TEXT
{ yes REMARK || true; } | head -c 5000001 >"$at/long.txt"
tells 1 ./ribbon-job "$at/long.txt" <<'TEXT'
too long: ribbon-job has room for a file of 5000000 bytes
what to do: split the file by its chains, or read it with the library, which has no such limit (include/ribbon.h)
TEXT
printf '_atom_site.id\nATOM   1    N N   . MET A 1 1   ? 27.340 24.430 2.614  1.00 9.67  ? 1   MET A N   1\n' >"$at/rows.cif"
tells 1 ./ribbon-job "$at/rows.cif" <<TEXT
refused 13 2
line 2: ATOM   1    N N   . MET A 1 1   ? 27.340 24.430 2.614  1.00 9.67  ? 1   MET A N 
its columns 23 to 26 are no residue number: a minus or none, and digits, between blanks
a serial, a sequence number or a coordinate is not right in line 2
$digits
the file looks like mmCIF, which is not read yet: take the PDB file of the structure
TEXT
# as many residues as a job holds, and one more in HETATM lines
{ structure 16384 16384 | grep -v 'HELIX\|END'; atom HETATM 1 ' CA' MSE D 1 0; echo END; } >"$at/full.pdb"
tells 0 ./ribbon-job "$at/full.pdb" <<'TEXT'
note: read: chains 3 residues 16384 segments 0 atoms 16384 C-alphas 16384
note: residues whose C-alphas stand in HETATM lines alone are left out; there are too many residues to name them
TEXT
# a file as long as there is room for, on the stack that a system gives, with residues left out
{ for i in {1..300}; do atom HETATM "$i" ' CA' MSE B "$i" "$i"; done; structure 60000 5000 | sed 's/  $//' | tail -n +10; yes REMARK || true; } | head -c 5000000 >"$at/room.pdb"
tells 0 ./ribbon-job "$at/room.pdb" <<'TEXT'
note: read: chains 3 residues 5000 segments 0 atoms 60000 C-alphas 5000
note: left out, since their C-alphas stand in HETATM lines: MSE B 1, MSE B 2, MSE B 3, MSE B 4, MSE B 5, MSE B 6, MSE B 7, MSE B 8, MSE B 9, MSE B 10, MSE B 11, MSE B 12, and others (residues: 300); the ribbon lacks them, and a helix or strand over one comes in pieces
TEXT
