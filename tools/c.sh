# Sourced by the examples and by tests/c/run: compiles C for x86-64 and runs it. A program is linked whole, so that it needs no loader and runs the same on every
# machine.
. "$root/tools/run.sh"
. "$root/tools/packages.sh"
cd "$root"
built=target/examples # where link_c puts a program, and run_c finds it

cc=x86_64-linux-gnu-gcc
if ! command -v "$cc" >/dev/null; then
    cc=gcc
    need_package gcc gcc libc6-dev
fi

# No program needs libm: without errno a square root is the machine's instruction.
link_c() { # PROGRAM ARCHIVE [WORD ...]: examples/PROGRAM.c with the archive, to $built/PROGRAM
    mkdir -p "$built"
    "$cc" -std=c11 -Wall -Wextra -Werror -O2 -fno-fast-math -fno-math-errno -static -I include "${@:3}" "examples/$1.c" "$2" -o "$built/$1"
}

compile() { # PROGRAM LIBRARY [WORD ...]: examples/PROGRAM.c with a proved library, which is built where it is not there
    build_library "$2"
    link_c "$1" "target/staticlib/lib$2.a" "${@:3}"
}

run_c() { # PROGRAM [ARGUMENT ...]
    "$built/$1" "${@:2}"
}
