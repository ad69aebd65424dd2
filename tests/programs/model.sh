# Sourced by tests/programs/run: what `ribbon` says, and what it leaves, where all goes well, where a file is refused, and where a machine fails.
model=$at/model
mkdir "$model"
small=(bash -c 'ulimit -Ss 8192; ulimit -Hs 8192; exec "$@"' small)

# What a command leaves of OUT.stl: nothing, and no part of it either, unless it ended with 0.
leaves_nothing() { # COMMAND ...
    [ -z "$(ls -A "$model")" ] || fail "'$*' left $(ls -A "$model")"
}

six='read: chains 1 residues 6 atoms 12 helices 1 strands 0
note: models: 2; the first is read
built: tubes 3 vertices 350 triangles 688, closed: proved'
thin='coils are 0.5 mm thick and strands 0.3, too thin for a nozzle of 0.4 mm: --scale 4 makes coils 2.0 mm thick'
tells 0 ./ribbon "$pdb" <<TEXT
$six
size: 20.0 x 2.0 x 0.5 mm at 1 mm to the angstrom
print: $thin, 80.0 x 8.0 x 2.0 mm in all
written: 34484 bytes
TEXT
tells 0 ./ribbon --scale 4 "$pdb" <<TEXT
$six
size: 80.0 x 8.0 x 2.0 mm at 4 mm to the angstrom
print: coils are 2.0 mm thick and strands 1.2, thick enough for a nozzle of 0.4 mm
written: 34484 bytes
TEXT
tells 0 ./ribbon --scale=2.050 "$pdb" <<TEXT
$six
size: 41.0 x 4.1 x 1.0 mm at 2.05 mm to the angstrom
print: coils are 1.0 mm thick and strands 0.6, thick enough for a nozzle of 0.4 mm
written: 34484 bytes
TEXT

# the same model from a name, from standard input, from a packed file, by -o, through a link, in both rooms
timeout 120 ./ribbon "$pdb" >"$at/six.stl" 2>/dev/null
cp "$pdb" "$at/-x"
does 0 '' "$at/six.stl" ./ribbon - <"$pdb"
does 0 '' "$at/six.stl" ./ribbon <"$pdb"
does 0 '' "$at/six.stl" ./ribbon "$at/six.pdb.gz"
does 0 '' "$at/six.stl" "${small[@]}" ./ribbon "$pdb"
(cd "$at" && does 0 '' "$at/six.stl" "$root/ribbon" -- -x)
does 0 'written: 34484 bytes' "$at/nothing" ./ribbon "$pdb" -o "$model/six.stl"
cmp "$model/six.stl" "$at/six.stl" || fail '-o writes another model'
[ "$(ls "$model")" = six.stl ] || fail "-o leaves more than the model: $(ls "$model")"
[ "$(stat -c %a "$model/six.stl")" = "$(printf %o $((0666 & ~$(umask))))" ] || fail '-o makes a file that others cannot read'
echo old >"$at/target.stl"
ln -sf "$at/target.stl" "$model/six.stl"
does 0 '' "$at/nothing" ./ribbon -o "$model/six.stl" "$pdb"
cmp "$at/target.stl" "$at/six.stl" && [ -L "$model/six.stl" ] || fail '-o through a link writes something else than what the link names'
rm "$model/six.stl"

# wrong usage
for words in '--scale' '-o' '--scale 0' '--scale 1000.001' '--scale 0.0004' '--scale 1.' '--scale -1' '--scale 1e3' '--scale 00001' 'one two' '--largest'; do
    # shellcheck disable=SC2086 # the words are meant
    does 2 'ribbon' "$at/nothing" ./ribbon $words </dev/null
done
does 2 'is no scale' "$at/nothing" ./ribbon --scale '' "$pdb"
does 2 'name is empty' "$at/nothing" ./ribbon '' <"$pdb"
does 2 'this is a folder' "$at/nothing" ./ribbon -o "$at" "$pdb"
does 2 'something else than a file is there' "$at/nothing" ./ribbon -o /dev/full "$pdb"
cp "$pdb" "$at/own.pdb"
does 2 'this is the file that is read' "$at/nothing" ./ribbon -o "$at/own.pdb" "$at/own.pdb"
cmp "$pdb" "$at/own.pdb" || fail 'the file that was read was changed'
does 2 'no file can be made beside it: No such file or directory' "$at/nothing" ./ribbon -o "$at/no such folder/six.stl" "$pdb"
# a terminal takes no model
status=0
timeout 120 script -qec "./ribbon $pdb" /dev/null >"$at/out" 2>&1 </dev/null || status=$?
[ "$status" = 2 ] && grep -q 'standard output is a terminal' "$at/out" || fail "a terminal for a model: status $status" "$(head -c 300 "$at/out")"

# reads that fail: no such file, a folder, a closed input, one that breaks behind a line, a packed file that is cut
does 2 'nowhere: No such file or directory' "$at/nothing" ./ribbon nowhere
does 2 'nowhere.gz: No such file or directory' "$at/nothing" ./ribbon nowhere.gz
does 2 'Is a directory' "$at/nothing" ./ribbon examples
does 2 'cannot be read: Is a directory' "$at/nothing" ./ribbon <examples
does 2 'standard input cannot be read: Bad file descriptor' "$at/nothing" ./ribbon <&-
does 2 'standard input cannot be read: Input/output error' "$at/nothing" "$at/broken" "$at/long.pdb" "$cut" ./ribbon
does 2 'standard input cannot be read: Input/output error' "$at/nothing" "$at/broken" "$at/long.pdb" "$cut" ./ribbon -o "$model/cut.stl"
leaves_nothing ./ribbon -o
head -c -20 "$at/six.pdb.gz" >"$at/cut.pdb.gz"
does 2 'it cannot be unpacked whole' "$at/nothing" ./ribbon "$at/cut.pdb.gz"
# a break far into a long file, where the room has been changed for a longer one
structure 30000 8000 >"$at/2mb.pdb"
[ "$(wc -c <"$at/2mb.pdb")" -gt 1500001 ] || fail 'the long file is not long'
does 2 'standard input cannot be read: Input/output error' "$at/nothing" "$at/broken" "$at/2mb.pdb" 1600010 ./ribbon
does 0 'written: ' <(timeout 120 "$oracle" ribbon "$at/2mb.pdb" 2>/dev/null) ./ribbon "$at/2mb.pdb"
# a file that is cut while it is read
cp "$at/2mb.pdb" "$at/shrinking.pdb"
does 2 'changed while it was read' "$at/nothing" "$at/shrink" "$at/shrinking.pdb" 700000 ./ribbon

# writes that fail: a full disk, a closed output, a reader that goes away, a limit on the size of files
does 2 'the model cannot be written: No space left on device' "$at/nothing" "${full[@]}" ./ribbon "$pdb"
does 2 'the model cannot be written: Bad file descriptor' "$at/nothing" bash -c "exec ./ribbon $pdb >&-"
{ status=0; timeout 120 ./ribbon "$at/2mb.pdb" 2>"$at/err" || status=$?; echo "$status" >"$at/status"; } | head -c 10 >/dev/null
[ "$(cat "$at/status")" = 2 ] && grep -q 'the model cannot be written: Broken pipe' "$at/err" || fail "a reader that goes away: status $(cat "$at/status")" "$(cat "$at/err")"
does 2 'the model cannot be written: File too large' "$at/nothing" bash -c "ulimit -f 16; exec ./ribbon -o '$model/six.stl' '$pdb'"
leaves_nothing ./ribbon -o
# a program that the system stops, here for want of memory, leaves no model, and the wrapper says so
does 2 'the program was stopped before its end' "$at/nothing" bash -c "ulimit -v 70000; exec ./ribbon -o '$model/six.stl' '$at/2mb.pdb'"
leaves_nothing ./ribbon -o

# refusals: the same words as ribbon-job's; no model, none by -o either
tells 1 ./ribbon "$at/short.pdb" <<TEXT
refused 12 14
line 14: $(sed -n 14p "$at/short.pdb")
line 14 ends before its last column, which is 54 for ATOM, 38 for HELIX and SHEET
$short
TEXT
for file in "$at/short.pdb" "$at/absent.pdb" "$at/past.pdb" "$at/one.cif" /dev/null; do
    does 1 '' "$at/nothing" ./ribbon "$file"
    does 1 '' "$at/nothing" ./ribbon -o "$model/none.stl" "$file"
    leaves_nothing ./ribbon -o "$model/none.stl" "$file"
done
tells 1 ./ribbon /dev/null <<'TEXT'
read: chains 0 residues 0 atoms 0 helices 0 strands 0
note: no ATOM line was read: is this a PDB file? It is empty
nothing to build: the file has no two neighbouring residues with a C-alpha each, so that there is no tube
what to do: see that it is the PDB file of a protein, with ATOM lines
TEXT
# without a long stack: a mesh, residues and a file that are too large for the small room, and what to do
does 1 'raise the limit of the stack' "$at/nothing" "${small[@]}" ./ribbon "$at/2mb.pdb"
structure 3000 1025 >"$at/1025.pdb"
does 1 'refused 9 0' "$at/nothing" "${small[@]}" ./ribbon "$at/1025.pdb"
does 0 'residues 1025' <(timeout 120 "$oracle" ribbon "$at/1025.pdb" 2>/dev/null) ./ribbon "$at/1025.pdb"

# a chain that comes apart: a missing residue, an insertion code, a number below 0, a residue alone, a blank chain
{
    for i in -2 -1 0 1; do atom ATOM $((i + 9)) ' CA' GLY ' ' "$i" $((4 * i)); done
    for i in 5 6; do atom ATOM $((i + 9)) ' CA' GLY ' ' "$i" $((4 * i)); done
    for i in 1 2; do atom ATOM $((i + 30)) ' CA' GLY A "$i" $((4 * i)); done
    atom ATOM 33 ' CA' GLY A 2 20 | sed 's/A   2 /A   2B/'
    atom ATOM 34 ' CA' GLY A 3 24
    atom ATOM 35 ' CA' GLY A 9 99
} >"$at/apart.pdb"
tells 0 ./ribbon "$at/apart.pdb" <<'TEXT'
read: chains 2 residues 11 atoms 11 helices 0 strands 0
note: no END line: is the file whole? What is cut off here is missing from the model
built: tubes 4 vertices 424 triangles 832, closed: proved
break: chain (blank) between residues 1 and 5
break: chain A between residues 2 and 2B
break: the print comes in loose parts there: a residue is missing, C-alphas stand more than 5 angstrom apart, or two helices or strands meet
alone: chain A residue 9
note: a residue alone has no neighbour with a C-alpha within 5 angstrom, so that no tube holds it: it is not in the print
size: 32.0 x 0.5 x 0.5 mm at 1 mm to the angstrom
print: coils are 0.5 mm thick and strands 0.3, too thin for a nozzle of 0.4 mm: --scale 4 makes coils 2.0 mm thick, 128.0 x 2.0 x 2.0 mm in all
written: 41684 bytes
TEXT
