# shellcheck shell=bash disable=SC2154,SC2015
# Builds in this repository, one at a time: read by ./lenthuc, tools/archive, tools/bundle and tools/shared-library. They set $me, their name, and
# $top, the repository's folder. What others build is waited for; on a terminal the crates that are being proved are named; a signal
# ends what was started.

building=$top/target/building
child='' link='' scratch=''
rt=$(type -P rt) || rt=

say() { printf '%s: %s\n' "$me" "$1" >&2; }

fail() {
    say "$1"
    exit 1
}

# One line of a terminal's standard error, which the next call overwrites; an empty one takes it away.
show() {
    [ ! -t 2 ] || printf '\r\033[K%s' "${1:+$me: $1}" >&2
}

# Ends what was started, each with its group if it has one, then this process by the same signal. $child is what is no job.
end() {
    local started
    trap - "$1" EXIT
    for started in $(jobs -p) $child; do
        kill -TERM -- "-$started" 2>/dev/null || kill -TERM "$started" 2>/dev/null || true
    done
    wait 2>/dev/null || true
    show ''
    leave
    kill -s "$1" "$$"
}
trap leave EXIT
trap 'end HUP' HUP
trap 'end INT' INT
trap 'end TERM' TERM

# Runs a command in a group of its own, which a signal ends as a whole, and waits for it. Meanwhile $watch is called, if set.
in_group() {
    local group status=0
    set -m
    "$@" &
    group=$!
    set +m
    while [ -t 2 ] && [ -n "${watch-}" ] && kill -0 "$group" 2>/dev/null; do
        "$watch"
        sleep 1 >/dev/null 2>&1 9>&- &
        wait -n "$group" "$!" || true
    done
    wait "$group" || status=$?
    return "$status"
}

# Takes the repository, for this process and what it starts, after everyone who has it. `flock` lets go of it by itself
# however they end. Without that command it is a link to the holder's process.
hold() {
    local held=$building/held
    mkdir -p "$building" 2>/dev/null && { : >>"$held"; } 2>/dev/null ||
        fail "what is wanted is not built yet or is out of date, and the folder $top cannot be written to"
    if command -v flock >/dev/null; then
        while
            exec 9>>"$held"
            flock -n 9 || { show "waits for another build in this folder"; in_group flock 9; }
            # whoever removed target/ meanwhile took this file too
            ! [ "$held" -ef /dev/fd/9 ]
        do mkdir -p "$building" || exit 1; done
    else
        until ln -s "$$" "$held.by" 2>/dev/null; do
            show "waits for another build in this folder"
            [ -d "/proc/$(readlink "$held.by" || echo self)" ] || rm -f "$held.by"
            in_group sleep 1
        done
        link=$held.by
    fi
    show ''
}

release() {
    exec 9>&-
    [ -z "$link" ] || rm -f "$link"
    link=
}

# What is left behind otherwise: the hold of the repository, and the folder $scratch, if set.
leave() {
    release
    [ -z "$scratch" ] || rm -rf "$scratch"
}

# How many crates NAME stands on, with itself.
crates_of() {
    awk -v name="$1" '
        function count(crate,    part, n, i) {
            if (!(crate in below) || seen[crate]++) return
            total++
            n = split(below[crate], part, " ")
            for (i = 1; i <= n; i++) count(part[i])
        }
        { sub(/#.*/, "") }
        split($0, side, ":") == 2 { split(side[1], head, " "); below[head[1]] = side[2] }
        END { count(name); print total + 0 }' "$top/crates.txt"
}

# rt names each crate that it takes up, lowest first: 'rt: NAME: begins with what a check kept in FOLDER', where another checkout of
# this machine has proved it, and 'rt: chose --jobs 2 for NAME'.
name_crates() {
    local line name begun=0 now=
    while IFS= read -r line; do
        case $line in
            "rt: chose --jobs "*" for "*) name=${line##* for } ;;
            "rt: "*": begins with what a check kept"*) name=${line#rt: } name=${name%%:*} ;;
            *) continue ;;
        esac
        [ "$name" != "$now" ] || continue
        begun=$((begun + 1))
        now=$name
    done <"$building/said"
    [ "$begun" -eq 0 ] || show "proves crate $begun of $crates: $now"
}

rt_quietly() {
    cd "$top/crates/$2" || exit
    exec rt "$1" </dev/null >"$building/said" 2>&1
}

# What rt said of the crate that it came to last, without what went well.
why_failed() {
    awk '
        /^rt: chose --jobs / { said = ""; next }
        !/^[a-z]+ [^ ]+: proved$/ && !/^(statements|library|logic|axioms) / { said = said $0 "\n" }
        END { printf "%s", said }' "$building/said"
}

# rt COMMAND in the folder of the crate NAME, quiet unless it fails. rt takes what it has proved before and is unchanged.
prove() {
    local crates watch=name_crates status=0
    crates=$(crates_of "$2")
    : >"$building/said"
    in_group rt_quietly "$@" || status=$?
    show ''
    [ "$status" -eq 0 ] || why_failed >&2
    return "$status"
}

# Puts what was built where it is looked for, under target/: whole or not at all, and only if it is another one.
keep() {
    local kept=$top/target/$2
    ! cmp -s "$1" "$kept" || return 0
    mkdir -p "${kept%/*}" && cp "$1" "$kept.new" && mv -f "$kept.new" "$kept"
}

# Proves the static library NAME, and writes target/staticlib/libNAME.a.
build_archive() {
    prove lib "$1" && keep "$top/crates/$1/out/lib$1.a" "staticlib/lib$1.a"
}

# Proves the program NAME, and writes target/bin/NAME. rt runs it too, on no input.
build_program() {
    prove run "$1" && keep "$top/crates/$1/out/$1" "bin/$1"
}

# The identity of the kit that the rt at a path belongs to.
identify() {
    local kit=${1%/bin/rt}
    identity=
    [ ! -f "$kit/KIT-ID" ] || read -r identity <"$kit/KIT-ID" || true
}

# What a build notes as it starts, for is_unchanged: the path of rt and its kit's identity, a line each.
note_rt() {
    rt=$(readlink -f "$rt")
    identify "$rt"
    printf '%s\n' "$rt" "$identity"
}

# NOTE FILE..: no source and none of these files has changed since a build made its note, and rt is the same. A machine without
# rt takes what is built. rt's own work, in crates/NAME/out, is no source, and it makes that folder in crates/NAME.
is_unchanged() {
    local note=$1 newer known
    shift
    [ -f "$note" ] || return 1
    mapfile -t known <"$note"
    [ "${#known[@]}" -gt 1 ] || return 1
    identify "${known[0]}"
    [ -z "$rt" ] || [ "$rt" -ef "${known[0]}" ] && [ "$identity" = "${known[1]}" ] || return 1
    newer=$(find "$top/crates.txt" "$top/crates" "$@" -path "$top/crates/*/out" -prune -o \
        \( -newer "$note" -o -cnewer "$note" \) ! \( -path "$top/crates/*" ! -path "$top/crates/*/*" \) -print -quit 2>&1) || return 1
    [ -z "$newer" ]
}
