# Builds what is proved, and compiles, links and runs C code, with the Rattle kit's own tools, for scripts to source: the programs are for x86-64 on every machine.
# The kit has no C headers, and a machine's own would bind the programs to that machine: tools/include declares what they use.

repository=$(CDPATH='' cd -- "$(dirname "${BASH_SOURCE[0]}")/.." && pwd -P)

# say WORD...: a line on standard error; that it cannot be written is no reason to stop
say() { printf '%s: %s\n' "${0##*/}" "$*" >&2 2>/dev/null || true; }

# The kit's folder, which rt tells at once. Without rt it is that of the last build here, because what is built can be run all the same.
last_kit=$repository/target/built/kit.folder
if [ -n "${RATTLE_HOME:-}" ]; then
    kit=$RATTLE_HOME
elif command -v rt >/dev/null; then
    kit=$(rt doc) || exit 1
    kit=${kit%/*}
elif [ -f "$last_kit" ]; then
    kit=$(<"$last_kit")
else
    say "there is no rt on the path, and nothing is built here"
    exit 1
fi
kit_tools=$kit/toolchain
kit_target=x86_64-unknown-linux-gnu

# with_known CRATE: the crate and all that it knows, as crates.txt has them, one to a line
with_known() {
    awk -v crate="$1" '
        function visit(name,    known, count, i) {
            if (name in seen) return
            seen[name] = 1
            print name
            count = split(knows[name], known, " ")
            for (i = 1; i <= count; i++) visit(known[i])
        }
        { sub(/#.*/, ""); split($0, sides, ":"); split(sides[1], words, " "); knows[words[1]] = sides[2] }
        END { visit(crate) }' "$repository/crates.txt"
}

# sources_of CRATE: a sum over the kit's identity and all that the crate is proved from. Times are not looked at: a checkout sets new ones, a copy
# may keep old ones, and a file that was deleted has none.
sources_of() {
    local crate part
    local -a folders=()
    for crate in $(with_known "$1"); do
        for part in src specs proofs; do
            if [ -d "$repository/crates/$crate/$part" ]; then folders+=("crates/$crate/$part"); fi
        done
    done
    (
        cd "$repository" || exit
        cat "$kit/KIT-ID"
        find crates.txt "${folders[@]}" -type f -exec sha256sum {} + | LC_ALL=C sort
    ) | sha256sum
}

# is_built CRATE FILE: was the file built from the sources as they are, and not changed since? target/built/CRATE has a sum of both.
is_built() {
    [ -f "$2" ] && [ "$(cat "$repository/target/built/$1" 2>/dev/null)" = "$(sources_of "$1" && sha256sum <"$2")" ]
}

# Waits until nobody else builds here. The lock is on the repository's folder, open as descriptor 9: it ends with the last process of the build, however
# that ends, and no file of it can be left behind.
build_alone() {
    local status=0
    flock -n 9 2>/dev/null || status=$?
    case $status in
    0) ;;
    1)
        say "another build is under way here; waiting for it to end"
        flock 9
        ;;
    *) say "flock is missing or does not work here: let nothing else build here meanwhile" ;;
    esac
}

# have_built CRATE FILE COMMAND...: has the command prove the crate and build the file, unless that is done; names each crate that is being proved, and
# shows all that was said if it fails
have_built() {
    local crate=$1 file=$2 target=$repository/target
    shift 2
    if is_built "$crate" "$file"; then return; fi
    command -v rt >/dev/null || {
        say "there is no rt on the path, and ${file#"$repository"/} is not built from the sources as they are"
        return 1
    }
    { mkdir -p "$target/built" && [ -w "$target/built" ]; } 2>/dev/null || {
        say "$target cannot be written, and $crate has to be proved and built there: run this once as someone who may write there, or in a copy of the repository"
        return 1
    }
    (
        set -o pipefail
        build_alone
        # whoever built meanwhile may have built this
        if is_built "$crate" "$file"; then exit; fi
        say "proving and building $crate, as far as it changed; from nothing this takes some minutes"
        sources=$(sources_of "$crate")
        cd "$repository" || exit
        "$@" </dev/null 2>&1 | tee "$target/built/$crate.said" | while IFS= read -r line; do
            case $line in 'rt: chose --jobs '*' for '*) say "proving ${line##* }" ;; esac
        done || {
            cat "$target/built/$crate.said" >&2
            say "$crate is not proved and built"
            exit 1
        }
        # what changed during the build may be in it or not
        if [ "$sources" = "$(sources_of "$crate")" ]; then
            { echo "$sources" && sha256sum <"$file"; } >"$target/built/$crate"
            echo "$kit" >"$last_kit"
        fi
    ) 9<"$repository"
}

# have_program CRATE: has its program in target/bin
have_program() { have_built "$1" "$repository/target/bin/$1" build_program "$1"; }

# rt runs what it has built: on an empty input, of which the programs here make nothing.
build_program() {
    rm -f "crates/$1/out/$1"
    (cd "crates/$1" && rt run) || return
    keep "crates/$1/out/$1" "target/bin/$1"
}

# The archive of the proved library, under the name that C and Rust callers link.
archive=$repository/target/staticlib/librunner.a
have_archive() { have_built runner_c "$archive" build_archive; }

build_archive() {
    (cd crates/runner_c && rt lib) || return
    keep crates/runner_c/out/librunner_c.a target/staticlib/librunner.a
}

# keep FILE PLACE: a copy of what was built, whole or not there at all
keep() {
    mkdir -p "$(dirname "$2")" && cp "$1" "$2.new" && mv "$2.new" "$2"
}

# compile FILE.c OBJECT [FLAG...]
compile() {
    local source=$1 object=$2
    shift 2
    mkdir -p "$(dirname "$object")"
    "$kit_tools/bin/clang" --target=$kit_target -std=c11 -O2 -fPIC -Wall -Wextra -Wconversion -Wshadow -pedantic \
        -nostdinc -isystem "$repository/tools/include" "$@" -c "$source" -o "$object"
}

# link OUT OBJECT...: what the linker says is shown only if it fails
link() {
    local out=$1 said
    shift
    said=$("$kit/bin/rattle-link" --target $kit_target --toolchain "$kit_tools" -o "$out" "$@" 2>&1) || {
        printf '%s\n' "$said" >&2
        return 1
    }
}

# execute PROGRAM WORD...: under the kit's loader and C library, on another processor under its emulator
execute() {
    local emulator=$kit_tools/bin/qemu-x86_64
    [ -x "$emulator" ] || emulator=
    ${emulator:+"$emulator"} "$kit_tools/lib/ld-linux-x86-64.so.2" --library-path "$kit_tools/lib" "$@"
}

# build NAME FILE...: compiles the C files, named from tests/, and links them with the objects and archives among the words to target/tests/NAME
build() {
    local name=$1 word object folder=$repository/target/tests
    local -a objects=()
    shift
    for word in "$@"; do
        case $word in
        *.c)
            object=$folder/${word%.c}.o
            compile "$repository/tests/$word" "$object" -I "$repository/include" || return
            objects+=("$object")
            ;;
        *) objects+=("$word") ;;
        esac
    done
    link "$folder/$name" "${objects[@]}"
}
