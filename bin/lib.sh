# Sourced by the scripts of bin/: what they say, and how they prove and build. A script sets `me` to its name first.

# How many minutes the crates of the archives take from nothing. The crates of a program are fewer, and take less.
MINUTES=20

# The crates whose archives hosts link: the calls of one venue, and those of four behind one line.
ARCHIVES=(c_api_c dispatch_c)

# The top of the repository, also where a script was started through a symbolic link.
top=$(cd "$(dirname "$(readlink -f "${BASH_SOURCE[0]}")")/.." && pwd -P)

say() { printf '%s: %s\n' "$me" "$1" >&2; }

# A wrong command line.
wrong() {
    printf '%s: %s\ntry: %s --help\n' "$me" "$1" "$me" >&2
    exit 2
}

fail() {
    say "$1"
    exit 1
}

has() { command -v "$1" >/dev/null 2>&1; }

# needed NAME...: the crates that these stand on, themselves among them, a line each, in the order in which rt proves them.
needed() {
    awk -v todo="$*" '
        function visit(name, k, used, count) {
            if (!(name in deps) || name in seen) return
            seen[name] = 1
            count = split(deps[name], used, " ")
            for (k = 1; k <= count; k++) visit(used[k])
            print name
        }
        { sub(/#.*/, "") }
        at = index($0, ":") {
            # Before the colon the word staticlib may stand after the name.
            split(substr($0, 1, at - 1), words, " ")
            deps[words[1]] = substr($0, at + 1)
        }
        END {
            count = split(todo, names, " ")
            for (k = 1; k <= count; k++) visit(names[k])
        }' "$top/crates.txt"
}

# follow NAME...: reads what rt says into $log, and tells of each of these crates, in the order in which rt proves them,
# that it is proved, and its place among them: on a terminal in one line. Of one that was proved before rt says nothing.
follow() {
    local line name='' order=" $* " before
    while IFS= read -r line; do
        printf '%s\n' "$line" >>"$log"
        case $line in
        'rt: chose --jobs '*' for '*) name=${line##* }; continue ;;
        'logic=proved '*) ;;
        *) continue ;;
        esac
        case $order in *" $name "*) ;; *) continue ;; esac
        before=${order%" $name "*}
        # shellcheck disable=SC2086
        set -- "$name" $before
        if [ -t 2 ]; then
            printf '\r%s: %s of %s crates proved: %s\033[K' "$me" $# "$whole" "$name" >&2
        else
            say "$# of $whole crates proved: $name"
        fi
    done
    [ ! -t 2 ] || printf '\r\033[K' >&2
}

# Has the proving of no other script run beside this one's, and sets log and whole for it.
begin_proving() { # NAME...
    has rt || fail 'rt, the Rattle toolchain, is not in PATH: README.md tells what is needed'
    log=$top/target/log/${me//\//-}.log
    mkdir -p "$top/target/log"
    : >"$log"
    whole=$(needed "$@" | wc -l)
    # Two at a time would write the same log and the same files of target/.
    if has flock; then
        exec 9>"$top/target/lock"
        flock -n 9 || { say 'waiting for another script that proves here'; flock 9; }
    fi
}

# in_crate NAME WORD...: what rt says in a crate's folder, without what the program writes that `rt run` runs.
in_crate() {
    cd "$top/crates/$1" || exit
    shift
    case $1 in
    run) rt "$@" </dev/null 2>&1 >/dev/null 9>&- ;;
    *) rt "$@" </dev/null 2>&1 9>&- ;;
    esac
}

# Tells what rt refused, and ends.
refused() { # STATUS
    grep -E '^(fn .*: (not proved|no proof)|rt: the library .* did not build)' "$log" >&2 || tail -n 5 "$log" >&2
    fail "rt ended with status $1; all that it said is in $log"
}

# prove_program NAME: has target/bin/NAME, proved.
prove_program() {
    # Where bin/install has put it there is nothing to prove.
    [ -e "$top/crates.txt" ] || return 0
    local order status=0
    order=$(needed "$1")
    begin_proving "$1"
    [ -x "$top/target/bin/$1" ] ||
        say "proving and building the program and all that it stands on, $whole crates, this once: up to $MINUTES minutes"
    # shellcheck disable=SC2086
    (in_crate "$1" run) | follow $order || status=$?
    # Where rt has come to run the program, the program is proved, and the status is its own.
    [ "$status" -eq 0 ] || grep -q "^rt: running out/$1;" "$log" || refused "$status"
    # A copy, since `rt ci` removes what stands in crates/NAME/out.
    mkdir -p "$top/target/bin"
    { cp "$top/crates/$1/out/$1" "$top/target/bin/$1.new" && mv -f "$top/target/bin/$1.new" "$top/target/bin/$1"; } ||
        fail "not written: $top/target/bin/$1"
    exec 9>&-
}

# build PACKAGE: has host/target/release/PACKAGE.
build() {
    local folder=$top/host/target program=$top/host/target/release/$1
    if [ -x "$program" ] && { ! has cargo || [ ! -w "$folder" ]; }; then return; fi
    has cargo || fail 'cargo, which Rust has, is not in PATH: README.md tells what is needed'
    [ -x "$program" ] || say "building host/target/release/$1, this once"
    local words=(--release --offline --quiet --manifest-path "$top/host/Cargo.toml" -p "$1")
    CARGO_TARGET_DIR=$folder cargo build "${words[@]}" >&2 || fail "host/target/release/$1 was not built"
}

# archive_of NAME: the archive of this crate, below the top, under the name that hosts know: that of the crate whose calls
# it exports.
archive_of() { printf 'target/staticlib/lib%s.a' "${1%_c}"; }

# Whether an archive is there, and no crate is younger. What rt makes in crates/NAME/out does not count.
is_new() { # NAME
    local archive
    archive=$top/$(archive_of "$1")
    [ -f "$archive" ] && [ ! "$top/crates.txt" -nt "$archive" ] &&
        [ -z "$(find "$top/crates" -mindepth 2 -name out -prune -o -newer "$archive" -print -quit)" ]
}

# Has both archives, each a copy of crates/NAME/out/libNAME.a.
archives() {
    local name archive order needs=no status
    for name in "${ARCHIVES[@]}"; do is_new "$name" || needs=yes; done
    [ "$needs" = yes ] || return 0
    order=$(needed "${ARCHIVES[@]}")
    begin_proving "${ARCHIVES[@]}"
    say "proving and building the engine's archives and all that they stand on: about $MINUTES minutes"
    for name in "${ARCHIVES[@]}"; do
        archive=$(archive_of "$name")
        say "proving $name and writing $archive"
        status=0
        # shellcheck disable=SC2086
        (in_crate "$name" lib) | follow $order || status=$?
        [ "$status" -eq 0 ] || refused "$status"
        mkdir -p "$top/target/staticlib"
        { cp "$top/crates/$name/out/lib$name.a" "$top/$archive.new" && mv -f "$top/$archive.new" "$top/$archive"; } ||
            fail "not written: $top/$archive"
    done
    exec 9>&-
}
