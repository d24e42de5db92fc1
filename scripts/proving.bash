# What the scripts that prove have in common. They source it with the top of the repository as the current folder.
# shellcheck shell=bash

# The layers that some reach, themselves among them, as crates.txt has them, lowest first: a line NAME: DEP DEP for each.
layers() { # NAME...
    WANTED="$*" awk '
        function visit(name,    dep, count, i) {
            if (!(name in deps) || name in met) return
            met[name]
            count = split(deps[name], dep, " ")
            for (i = 1; i <= count; i++) visit(dep[i])
            print name ":" deps[name]
        }
        { sub(/#.*/, "") }
        colon = index($0, ":") {
            split(substr($0, 1, colon - 1), words, " ")
            name = words[1]
            deps[name] = substr($0, colon + 1)
        }
        END {
            count = split(ENVIRON["WANTED"], wanted, " ")
            for (i = 1; i <= count; i++) visit(wanted[i])
        }' crates.txt
}

# Runs a command that has rt prove layers, and tells on standard error how many of TOTAL are proved, the last of them, and the time so far: on a terminal in one line that
# is written anew every second, else in a line for each layer that is proved now. The command writes `== NAME` before each layer, as `prove` does. A layer of which rt then
# has nothing to say is as it was when it was last proved, and is only counted. Where the command fails, all that it said is shown. Its status is returned. Runs in one
# repository wait for each other.
proving() { # TOTAL COMMAND...
    local total=$1 me=scripts/${0##*/} said='' line='' piece layer='' last='' end=$'\n' status=0
    local -A proved=()
    shift
    exec 9<crates || return 2
    flock -n 9 || {
        echo "$me: another run is proving here; this one waits for it" >&2
        flock 9
    }
    [ ! -t 2 ] || end=''
    SECONDS=0
    exec 8< <("$@" </dev/null 2>&1)
    while :; do
        # A read that is timed out leaves the piece of a line that has come.
        if IFS= read -r -t 1 -u 8 piece; then
            line+=$piece
            said+=$line$'\n'
            if [[ $line =~ ^==\ ([A-Za-z0-9_]+)$ ]]; then
                [ -z "$layer" ] || proved[$layer]=1
                layer=${BASH_REMATCH[1]}
            elif [[ $line == logic=proved\ * && -n $layer ]]; then
                last=$layer
                proved[$last]=1
                told "$end"
            fi
            line=''
        elif [ $? -gt 128 ]; then
            line+=$piece
            [ -n "$end" ] || told ''
        else
            said+=$line$piece
            break
        fi
    done
    wait $! || status=$?
    exec 8<&- 9<&-
    if [ -z "$end" ]; then
        if [ -n "$last" ]; then told $'\n'; else printf '\r\033[K' >&2; fi
    fi
    [ "$status" -eq 0 ] || printf '%s\n' "$said" >&2
    return "$status"
}

# The line of `proving`, and how it ends.
told() { # END
    local start='' time="$SECONDS s"
    [ "$SECONDS" -lt 60 ] || time="$((SECONDS / 60)) min $((SECONDS % 60)) s"
    [ -n "$end" ] || start=$'\r\033[K'
    printf '%s%s: %d of %d layers proved%s, %s%s' "$start" "$me" "${#proved[@]}" "$total" "${last:+, last $last}" "$time" "$1" >&2
}

# ---- what was made, and of what

# What a layer's program or archive is made of, by content: the kit, the machine, and the layers with their files.
made_of() { # NAME
    local folder folders=()
    rt version && uname -m && layers "$1" || return
    for folder in $(layers "$1" | sed 's,\([^:]*\):.*,crates/\1/src crates/\1/specs crates/\1/proofs,'); do
        [ ! -d "$folder" ] || folders+=("$folder")
    done
    find "${folders[@]}" -type f -exec sha256sum {} + | sort
}

# Is the file the one that was made from what is here? FILE.made holds what it was made of, and the file itself.
current() { # NAME FILE
    [ -f "$2" ] && [ -f "$2.made" ] && { made_of "$1" && sha256sum "$2"; } | sha256sum | cmp -s - "$2.made"
}

# Notes what a file was made of. Where a source has changed since BEFORE was asked nobody knows which one was read, so there is no note.
noted() { # NAME FILE BEFORE
    rm -f "$2.made"
    [ "$(made_of "$1")" != "$3" ] || { printf '%s\n' "$3" && sha256sum "$2"; } | sha256sum >"$2.made"
}

# Proves a layer over those below it, each in its own folder, lowest first, and builds it. `rt run` runs the program too, which has nothing to read here.
prove() { # NAME
    local name
    for name in $(layers "$1" | cut -d: -f1); do
        echo "== $name"
        if [ -f "crates/$name/src/main.rt" ]; then
            (cd "crates/$name" && rt run </dev/null) || return
        else
            (cd "crates/$name" && rt lib) || return
        fi
    done
}

# ---- what `rt ci` leaves: its programs, and the libraries of the layers, which no other command of rt takes for proved

# The file that each library below a layer has of its own making, by which it is known.
formats() { # NAME
    local name
    for name in $(layers "$1" | cut -d: -f1); do
        [ "$name" = "$1" ] || sha256sum "crates/$name/out/rlib/$name.rlib/format" || return
    done
}

# Notes that the libraries below a layer are those that `rt ci` left just now. One with a stamp is older: rt ci has put back what was here before it.
noted_below() { # NAME BEFORE
    local below=crates/$1/out/below.made name
    mkdir -p "crates/$1/out" && rm -f "$below"
    for name in $(layers "$1" | cut -d: -f1); do
        [ ! -e "crates/$name/out/rlib/stamp" ] || return 0
    done
    [ "$(made_of "$1")" = "$2" ] || return 0
    { printf '%s\n' "$2" && formats "$1"; } | sha256sum >"$below" || rm -f "$below"
}

# Are they still those?
current_below() { # NAME
    local below=crates/$1/out/below.made
    [ -f "$below" ] && { made_of "$1" && formats "$1"; } 2>/dev/null | sha256sum | cmp -s - "$below"
}

# Proves a static library alone, over the libraries that `rt ci` left, and builds its archive: what `rt lib` does, but for the layers below.
prove_over() { # NAME
    local kit words deps dep
    # rt tells where the page to read first lies: at the top of the kit.
    kit=$(rt doc) && kit=${kit%/*} || return
    words=(--crate-name "$1" src/lib.rt --crate-type staticlib --links "$1=" --extern "std=$kit/rlibs/std.rlib" -L "dependency=$kit/rlibs")
    deps=$(layers "$1" | sed -n "s/^$1://p")
    for dep in $deps; do
        if [ -d "crates/$dep" ]; then words+=(--extern "$dep=../$dep/out/rlib/$dep.rlib"); else words+=(--extern "$dep=$kit/rlibs/$dep.rlib"); fi
    done
    for dep in $(layers "$1" | cut -d: -f1); do
        echo "== $dep"
        [ "$dep" = "$1" ] || words+=(-L "dependency=../$dep/out/rlib")
    done
    words+=(--antt-project "$kit/rattle/logic/antt-project.json" --logic-built "$kit/logic_built" --toolchain "$kit/toolchain" --backend llvm --jobs 2)
    (cd "crates/$1" && "$kit/bin/rattle" build "${words[@]}" -o "out/lib$1.a")
}
