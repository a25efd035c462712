# What the commands at the top of the repository share: a program is proved and built on first use, with a word on how far that is, and then run.
# A command sets `here`, the folder of the repository, and `command`, its own name, and then reads this file: . "$here/tools/program.sh"

# Says something on standard error, in the command's name.
say() {
    echo "$command: $*" >&2
}

# The crates of the repository that the crates named stand on, themselves included, one a line. With no name: all.
crates_below() {
    awk -v wanted="$*" '
        { sub(/#.*/, ""); gsub(/:/, " : ") }
        NF > 1 { below[$1] = ""; for (i = 3; i <= NF; i++) below[$1] = below[$1] " " $i; if (wanted == "") wish[$1] = 1 }
        END {
            n = split(wanted, names, " ")
            for (i = 1; i <= n; i++) wish[names[i]] = 1
            do {
                more = 0
                for (c in wish) {
                    n = split(below[c], names, " ")
                    for (i = 1; i <= n; i++) if ((names[i] in below) && !(names[i] in wish)) { wish[names[i]] = 1; more = 1 }
                }
            } while (more)
            for (c in wish) if (c in below) print c
        }' "$here/crates.txt"
}

# Reads what `rt` prints, keeps it all in the file $1, and says on standard error how far it is: crates proved of $2, then edits refused of $3.
# On a terminal that is one line, written again; elsewhere a line for every tenth part.
progress() {
    awk -v kept="$1" -v crates="$2" -v edits="${3-0}" -v name="$command" -v again="$([ -t 2 ] && echo yes)" '
        function tell(what, k, n) {
            if (again) printf "\r%s: %s: %d of %d\033[K", name, what, k, n >"/dev/stderr"
            else if (int(k * 10 / n) > int((k - 1) * 10 / n)) printf "%s: %s: %d of %d\n", name, what, k, n >"/dev/stderr"
            fflush("/dev/stderr")
        }
        { print >kept; fflush(kept) }
        (edits > 0 ? /^rt: [a-z0-9_]+ (proved|is kept)/ : /^logic=proved/) { tell("crates proved", ++proved, crates) }
        /^rt: must-fail .*: refused/ { tell("wrong edits refused", ++refused, edits) }
        END { if (again && proved + refused) printf "\n" >"/dev/stderr" }'
}

# Ends the command with status 1 unless the Rattle kit is there.
need_kit() {
    command -v rt >/dev/null && return
    say "the Rattle kit's command 'rt' is needed and was not found"
    exit 1
}

# Proves the crate $1 and builds it by `rt $2`, and puts what that made, the file $3 of the crate's out/, there as the file $4, if that was never built, or if
# a file of the crates is newer. Ends the command with status 1 if that fails; $5 says what it is. A program that is built is run once, on nothing.
build() {
    need_kit
    if [ -f "$4" ] && [ -z "$(find "$here/crates" -mindepth 2 -name out -prune -o -newer "$4" -print 2>/dev/null | head -n 1)" ] && [ ! "$here/crates.txt" -nt "$4" ]; then
        return
    fi
    kept=$(mktemp) || exit 1
    say "proving and building $1 first; this takes some minutes"
    { (cd "$here/crates/$1" && rm -f "out/$3" && rt check && { [ "$2" = check ] || rt "$2" || [ "$2" = run ]; } && [ -f "out/$3" ]) 2>&1 </dev/null; echo "$?" >"$kept.status"; } |
        progress "$kept" "$(crates_below "$1" | wc -l)"
    built=$(cat "$kept.status")
    [ "$built" -eq 0 ] || tail -n 20 "$kept" >&2
    rm -f "$kept" "$kept.status"
    if [ "$built" -ne 0 ]; then
        say "the $5 $1 could not be proved and built"
        exit 1
    fi
    mkdir -p "$(dirname "$4")" && cp "$here/crates/$1/out/$3" "$4" && touch "$4" || exit 1
}

build_program() {
    build "$1" run "$1" "$here/target/bin/$1" program
}

# The calls from C stand in the library $1, and in $1_c as functions that C links.
build_library() {
    build "$1_c" lib "lib$1_c.a" "$here/target/staticlib/lib$1.a" library
}

# Finds the kit: its compiler and C library, $tools.
find_tools() {
    kit=$(dirname "$(rt doc)")
    tools=$kit/toolchain
}

# Runs the program $1, which build_program built, with the arguments that follow. A program has no status of its own: what it says on standard error is a
# failure, status 1.
run_program() {
    program=$here/target/bin/$1
    shift
    said=$(mktemp) || exit 1
    "$program" "$@" 2>"$said"
    status=$?
    if [ -s "$said" ]; then
        cat "$said" >&2
        [ "$status" -ne 0 ] || status=1
    fi
    rm -f "$said"
    return "$status"
}

# Compiles the C file $1 by the kit's compiler, with the words that follow it, as the object $2. The kit has no C headers: those of tools/c stand for them.
compile_c() {
    find_tools
    from=$1
    to=$2
    shift 2
    "$tools/bin/clang" --target=x86_64-unknown-linux-gnu -O2 -fPIE -nostdinc -isystem "$here/tools/c" -I "$here/include" "$@" -c "$from" -o "$to"
}

# Links objects and libraries, from the second argument on, as the program $1, by the kit's linker and C library. Its words are shown if it fails.
link_c() {
    find_tools
    to=$1
    shift
    linked=$("$kit/bin/rattle-link" --target x86_64-unknown-linux-gnu --toolchain "$tools" -o "$to" "$@" 2>&1) && return
    echo "$linked" >&2
    return 1
}

# Says in words what each frame of the session $1 asks, and what its answer in the file $2 says; with the number of a frame as $3, of that frame alone,
# beside its line in the recorded answers $4.
in_words() {
    tr '\000' '?' <"$1" | LC_ALL=C answers=$2 frame=${3-} recorded=${4-} awk -f "$here/tools/words.awk"
}
