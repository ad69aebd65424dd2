# Sourced by the wrappers at the root: builds a proved program once, and runs it. The kit makes programs and static libraries for x86-64 alone.
command -v rt >/dev/null || { echo "${0##*/}: the Rattle kit's command 'rt' is not on the PATH" >&2; exit 2; }

# Said before a build and in ./test: another kit may prove the same, and whether it does is what the build tells.
compare_kit() {
    local here
    here=$(rt version)
    [ "$here" = "$(cat "$root/KIT")" ] || echo "note: the kit here is '$here', and this was last proved whole with '$(cat "$root/KIT")' (docs/CHANGING.md)" >&2
}

fresh() { # FILE: it is there, and no source is newer. No process is started for it, since every start asks
    local source
    [ -e "$1" ] || return 1
    for source in "$root/crates.txt" "$root"/crates/*/src/*.rt; do
        [ ! "$source" -nt "$1" ] || return 1
    done
}

# The crates that NAME stands on, by crates.txt, each before those that stand on it, and itself.
below() { # NAME
    awk -F: -v name="$1" '
        !/^#/ && NF > 1 { split($1, w, " "); of[w[1]] = $2 }
        function visit(c,   n, i, d) { if (c in seen || !(c in of)) return; seen[c] = 1; n = split(of[c], d, " "); for (i = 1; i <= n; i++) visit(d[i]); print c }
        END { visit(name) }' "$root/crates.txt"
}

# The crate whose static library NAME is: a library that crates of Rattle stand on is none itself, and has a crate that exports its calls.
exporter() { # NAME
    case $1 in ribbon_c) echo ribbon_exports ;; *) echo "$1" ;; esac
}

put() { # FILE TO: puts it there whole, also where what stands there is running
    mkdir -p "${2%/*}"
    cp "$1" "$2.$$"
    mv -f "$2.$$" "$2"
}

# Runs `rt WORD` in a crate's folder with a line for each crate that is proved: which of how many, and how long. The prover's own lines go to a log. Crates that
# were proved before have no line. `rt run` starts the program too, with no word and nothing to read: it is built where rt says that it starts it.
show_progress() { # CRATE LOG WORD
    local crate=$1 log=$2 word=$3 began=$SECONDS last=$SECONDS n=0 name='' of status line
    of=$(below "$crate" | wc -l)
    set +e
    (cd "$root/crates/$crate" && rt "$word" </dev/null 3>&-) 2>&1 | tee "$log" | while IFS= read -r line; do
        case $line in
            'crate '*': modules '*) name=${line#crate } name=${name%%:*} ;;
            'logic=proved '*) n=$((n + 1)); printf '[%2d/%s] %s proved (%s s)\n' "$n" "$of" "$name" $((SECONDS - last)); last=$SECONDS ;;
            'logic=not-proved'*) printf '%s NOT PROVED\n' "$name" ;;
            'rt: the library '*) printf '%s\n' "$line" ;;
        esac
    done >&2
    status=${PIPESTATUS[0]}
    set -e
    [ "$word" != run ] || { grep -aq '^rt: running out/' "$log" && status=0 || status=1; }
    [ "$status" = 0 ] || { echo "${0##*/}: this could not be built: $log has what the prover said" >&2; exit 1; }
    echo "built in $((SECONDS - began)) s" >&2
}

# Makes a file of a crate by `rt WORD` and puts it where it belongs, under a lock, so that what is started at once is built once.
make_once() { # FILE WHAT WORD CRATE MADE
    fresh "$1" && return
    mkdir -p "$root/target/log"
    exec 9>"$root/target/lock"
    if ! flock -n 9; then
        echo "${0##*/}: something else is being built; waiting for it" >&2
        flock 9
    fi
    if ! fresh "$1"; then
        compare_kit
        echo "${0##*/}: building $2, which proves the crates that it stands on: minutes the first time, seconds later" >&2
        show_progress "$4" "$root/target/log/build-$4.out" "$3"
        put "$root/crates/$4/out/$5" "$1"
    fi
    exec 9>&-
}

build() { # NAME
    make_once "$root/target/bin/$1" "the program $1" run "$1" "$1"
}

build_library() { # NAME: the static library for C
    local crate
    crate=$(exporter "$1")
    make_once "$root/target/staticlib/lib$1.a" "the static library $1" lib "$crate" "lib$crate.a"
}

# Right after `rt ci` passed: takes the programs that it proved and built, and makes the static libraries over the crates that it proved, so that nothing is proved
# a second time. Where that fails, as where rt puts back what an earlier check had kept, whoever asks for the library builds it.
take_proved() {
    local main name crate dep kit made words
    for main in "$root"/crates/*/src/main.rt; do
        name=${main%/src/main.rt} name=${name##*/}
        put "$root/crates/$name/out/$name" "$root/target/bin/$name"
    done
    kit=$(readlink -f "$(command -v rt)")
    kit=${kit%/bin/rt}
    mkdir -p "$root/target/log"
    for name in ribbon_c floats_c; do
        crate=$(exporter "$name")
        made=$root/target/log/lib$name.a
        words=(--crate-name "$crate" src/lib.rt --crate-type staticlib --extern "std=$kit/rlibs/std.rlib" -L "dependency=$kit/rlibs")
        for dep in $(below "$crate"); do
            [ "$dep" = "$crate" ] || words+=(--extern "$dep=$root/crates/$dep/out/rlib/$dep.rlib")
        done
        words+=(--antt-project "$kit/rattle/logic/antt-project.json" --logic-built "$kit/logic_built" --toolchain "$kit/toolchain" -o "$made")
        rm -f "$made"
        if (cd "$root/crates/$crate" && "$kit/bin/rattle" build "${words[@]}") >"$root/target/log/build-$crate.out" 2>&1; then
            put "$made" "$root/target/staticlib/lib$name.a"
        else
            echo "${0##*/}: the static library $name could not be made of what was proved (target/log/build-$crate.out), and is built anew" >&2
        fi
        rm -f "$made"
    done
}

command_of() { # NAME: leaves the words that run it in the array `words`, one to a place, since a path may hold blanks
    words=("$root/target/bin/$1")
}

# A descriptor that is closed would be taken by the next file that is opened: standard input is then one that cannot be read, standard output one that cannot be
# written, and the program says so.
hold_descriptors() {
    { : 5>&2; } || exec 2>/dev/null
    { : 5<&0; } 2>/dev/null || exec 0>/dev/null
    { : 5>&1; } 2>/dev/null || exec 1</dev/null
}

# Runs a program and ends with its status. A Rattle program has none of its own: its last act is to write it to descriptor 3, 0 where all went well and 1 or 2
# where not. Where nothing comes the program was stopped, and what it wrote is not whole: that is status 1, or what `stopped` has.
run() { # NAME [ARGUMENT ...]
    local status ended=0
    command_of "$1"
    { status=$("${words[@]}" "${@:2}" 3>&1 1>&4 4>&-) || ended=$?; } 4>&1
    case $status in
        0 | 1 | 2) exit "$status" ;;
        *) echo "${0##*/}: the program was stopped before its end (status $ended): what it wrote is not whole" >&2; exit "${stopped:-1}" ;;
    esac
}

# A program opens a file by a name that is UTF-8 text. One whose name is not is opened here, and what it is given is the name of the descriptor: leaves it in
# `name`. No process is started for a name of ASCII alone.
name_for() { # STATUS FILE: STATUS ends where it cannot be opened, which is said as the program says it
    local LC_ALL=C why
    name=$2
    [[ $2 == *[!$'\1'-$'\177']* ]] || return 0
    ! printf %s "$2" | iconv -f UTF-8 -t UTF-8 >/dev/null 2>&1 || return 0
    why=$( { exec 6<"$2"; } 2>&1) || { printf '%s: %s\n' "$2" "${why##*: }" >&2; exit "$1"; }
    exec 6<"$2"
    name=/proc/self/fd/6
}

usage() { sed -n '2,/^set /s/^# \{0,1\}//p' "$0"; }

# The words of a command that takes one file: leaves in `file` nothing for standard input, or the file's name. -- ends the options.
one_file() { # [WORD ...]
    file=()
    case ${1-} in
        -h | --help) usage; exit 0 ;;
        --) shift ;;
        -) [ $# = 1 ] || { usage >&2; exit 2; }; return ;;
        -?*) echo "${0##*/}: there is no option '$1'" >&2; usage >&2; exit 2 ;;
    esac
    [ $# -le 1 ] || { usage >&2; exit 2; }
    [ $# = 0 ] || { name_for 1 "$1"; file=("$name"); }
}

# The words of a command that takes none.
no_words() { # [WORD ...]
    case ${1-} in -h | --help) usage; exit 0 ;; esac
    [ $# = 0 ] || { usage >&2; exit 2; }
}
