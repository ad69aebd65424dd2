# Sourced by what needs a Debian package: one function, which says what it installs and why.

need_package() { # COMMAND PACKAGE ...: installs the packages where there is no such command; with '-' for COMMAND, where one of the packages is missing
    local command=$1 packages=("${@:2}") who=$0 get=(env DEBIAN_FRONTEND=noninteractive apt-get -qq) why said
    if [ "$command" = - ]; then
        ! dpkg -s "${packages[@]}" >/dev/null 2>&1 || return 0
        why="$who needs what is in there"
    else
        ! command -v "$command" >/dev/null || return 0
        why="$who runs $command"
    fi
    if ! command -v apt-get >/dev/null; then
        echo "$who: there is no apt-get here: install ${packages[*]} by hand, since $why" >&2
        return 1
    fi
    if [ "$(id -u)" != 0 ]; then
        if ! command -v sudo >/dev/null; then
            echo "$who: there is no sudo here: let root install ${packages[*]}, since $why" >&2
            return 1
        fi
        get=(sudo "${get[@]}")
    fi
    echo "installing ${packages[*]} from Debian, since $why" >&2
    if ! said=$("${get[@]}" update 2>&1 && "${get[@]}" install -y --no-install-recommends "${packages[@]}" 2>&1); then
        printf '%s\n' "$said" "$who: ${packages[*]} could not be installed; apt-get says why above" >&2
        return 1
    fi
}
