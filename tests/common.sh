# Shared by the scripts tool, library, build, installed and pages, each called with [ARCHIVE]: the
# proved library, default ../target/staticlib/libnoferkash.a. Exit 1: a case failed. Exit 2: something
# is missing.
script=tests/$(basename "$0")
here=$(dirname "$(realpath "$0")")
top=$(realpath "$here/..")
archive=$(realpath -m "${1:-$top/target/staticlib/libnoferkash.a}")
corpus=$here/corpus
expected=$here/corpus/expected
song=$corpus/midicsv-src__test.mid
song_text=$expected/midicsv-src__test.csv
full='No space left on device'
version=$(sed -n 's/^#define NOFERKASH_VERSION "\(.*\)"$/\1/p' "$top/include/noferkash.h")
export LC_ALL=C
umask 022
unset MAKEFLAGS MAKELEVEL DESTDIR PKG_CONFIG_PATH

cases=0
failures=0
part=

# begin PROGRAM..: these are needed. Builds the tool, and goes to an empty folder, $made/work; all
# that is made stands in $made, which goes at the end.
begin() {
    local missing=0 needed
    [ "$(id -u)" != 0 ] || set -- "$@" setpriv
    for needed in gcc make "$@"; do
        if ! command -v "$needed" >/dev/null; then
            echo "$script: $needed is missing" >&2
            missing=1
        fi
    done
    if [ ! -f "$archive" ]; then
        echo "$script: $archive is missing (.ci/prove staticlib noferkash makes it)" >&2
        missing=1
    fi
    [ "$missing" = 0 ] || exit 2

    made=$(mktemp -d) || exit 2
    trap 'chmod -R u+rwX "$made" && rm -rf "$made"' EXIT
    # Some cases run as another user, who must reach the tool and the folder.
    chmod 755 "$made"
    mkdir -m 777 "$made/work"
    tool=$made/noferkash
    make -s -C "$top" tool ARCHIVE="$archive" BUILD="$made" >"$made/out" 2>&1 || {
        cat "$made/out" >&2
        echo "$script: make tool failed" >&2
        exit 1
    }
    holds "make tool gives a warning" test ! -s "$made/out"
    as_other "$tool" --version >/dev/null || {
        echo "$script: another user cannot run $tool (set TMPDIR to a folder open to all)" >&2
        exit 2
    }
    cd "$made/work" || exit 2
}

# The last line; the exit status of the whole.
finish() {
    echo "$script: $cases cases, $failures failed"
    [ "$failures" = 0 ]
}

failed() {
    failures=$((failures + 1))
    echo "FAILED ($part): $*" >&2
}

# holds WHAT COMMAND..: the command succeeds.
holds() {
    local what=$1
    shift
    cases=$((cases + 1))
    "$@" >/dev/null 2>&1 || failed "$what"
}

same() {
    holds "$1 and $2 differ" cmp "$1" "$2"
}

# ends STATUS COMMAND..: the exit status. Standard output is kept in ../out, standard error in ../err.
ends() {
    local status=$1 got
    shift
    cases=$((cases + 1))
    "$@" >"$made/out" 2>"$made/err"
    got=$?
    [ "$got" = "$status" ] || failed "exit $got, not $status: $*"
}

# try STATUS LINE COMMAND..: as ends, and all of standard error, which is that one line or nothing.
try() {
    local status=$1 line=$2 said
    shift 2
    ends "$status" "$@"
    # All of it: reading ends at a byte 0, or fails at the end.
    if IFS= read -r -d '' said <"$made/err" || [ "$said" != "${line:+$line$'\n'}" ]; then
        failed "standard error '$(tr -d '\0' <"$made/err")', not '$line': $*"
    fi
}

# silent STATUS LINE COMMAND..: as try, and nothing on standard output.
silent() {
    try "$@"
    holds "standard output is not empty: ${*:3}" test ! -s "$made/out"
}

# starts STATUS START COMMAND..: as silent, but standard error is one line that begins so.
starts() {
    local status=$1 start=$2 said
    shift 2
    ends "$status" "$@"
    mapfile said <"$made/err"
    [ "${#said[@]}" = 1 ] || failed "standard error '${said[*]}' is not one line: $*"
    [[ ${said[0]:-} == "$start"*$'\n' ]] || failed "standard error '${said[*]}', not '$start..': $*"
    [ ! -s "$made/out" ] || failed "standard output is not empty: $*"
}

# unchanged BEFORE AFTER WHAT: two files of what state said are the same.
unchanged() {
    cases=$((cases + 1))
    cmp -s "$1" "$2" || failed "$3: $(diff "$1" "$2" | head -n 20)"
}

# lines STATUS COMMAND..: as ends, and standard error is what ../lines has.
lines() {
    ends "$@"
    cmp -s "$made/err" "$made/lines" ||
        failed "standard error '$(head -c 2000 "$made/err")', not '$(head -c 2000 "$made/lines")': ${*:2}"
}

# An old file that a failing run must leave: its bytes, and the file itself.
make_old() {
    rm -f "$1"
    echo old >"$1"
    stat -c '%i %Y %a' "$1" >"$made/old-state"
}

old_stays() {
    echo old >"$made/old"
    same "$1" "$made/old"
    stat -c '%i %Y %a' "$1" >"$made/new-state"
    same "$made/old-state" "$made/new-state"
    no_leftovers
}

no_leftovers() {
    holds "left over: $(find "$made/work" -name '.noferkash-*')" \
        test -z "$(find "$made/work" -name '.noferkash-*')"
}

# state FOLDER [BUT]: what is in the folder, but for the name BUT: of each name the kind, the inode,
# permissions and owner; of files and links also size, time, bytes and aim.
state() {
    (
        cd "$1" || exit 2
        find . -path "./${2:-:}" -o -type d -printf '%p %y %i %m\n' -o -type p -printf '%p %y %i %m\n' \
            -o -printf '%p %y %i %m %U:%G %s %T@ %l\n'
        find . -path "./${2:-:}" -o -type f -exec cksum {} + 2>/dev/null
    ) | sort
}

as_other() {
    if [ "$(id -u)" = 0 ]; then
        setpriv --reuid=65534 --regid=65534 --clear-groups "$@"
    else
        "$@"
    fi
}

header='MThd\0\0\0\6\0\0\0\1\0\x60'
end='\0\xFF\x2F\0'

# track LENGTH BODY: a file of one track; the body begins at byte 22.
track() {
    printf "${header}MTrk\\0\\0\\0$1$2"
}

# pair LENGTH BODY LENGTH BODY: a file of format 1 with two tracks; the first body begins at byte 22.
pair() {
    printf "MThd\\0\\0\\0\\6\\0\\1\\0\\2\\0\\x60MTrk\\0\\0\\0$1$2MTrk\\0\\0\\0$3$4"
}

# filmed RATE FILE: the file with another division, SMPTE time code; RATE is frames a second x ticks a frame, as 25x40.
filmed() {
    head -c 12 "$2"
    printf "\\x$(printf %x $((256 - ${1%x*})))\\x$(printf %x "${1#*x}")"
    tail -c +15 "$2"
}

# gather_written: $made/written has NAME.short.mid and NAME.full.mid of each file of the corpus, as csvmidi wrote them.
# It refuses SMPTE time code; files with that are gen-csvmidi__own_allkinds but for the division, which their names tell.
gather_written() {
    local file name manner
    mkdir "$made/written"
    for file in "$corpus"/*.mid; do
        name=$(basename "$file" .mid)
        for manner in short full; do
            case $name in
            *smpte*) filmed "${name##*smpte}" "$expected/gen-csvmidi__own_allkinds.$manner.mid" ;;
            *) cat "$expected/$name.$manner.mid" ;;
            esac >"$made/written/$name.$manner.mid"
        done
    done
}

# text LINE: a text whose line 3 is given.
text() {
    printf '0, 0, Header, 0, 1, 96\n1, 0, Start_track\n%s\n1, 0, End_track\n0, 0, End_of_file\n' "$1"
}
