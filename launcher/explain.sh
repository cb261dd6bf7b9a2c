# shellcheck shell=bash disable=SC2154
# What the launcher says on standard error of how the program has ended: what its status means, and what to do.
# It is sourced by the launcher, which sets parts and kinds_page.

note() {
    printf 'mikadocherry: %s\n' "$1" >&2
}

# Says what a status means, given what was said on standard output, and the words.
explain() {
    local status=$1 said=$2
    shift 2
    case $status in
        2) note "wrong words: mikadocherry --help says which are right" ;;
        3) explain_refusal "$said" "$@" ;;
        4) note "status 4: a file couldn't be read, and no file was touched$(why_unread "$@")" ;;
        5) note "status 5: OUT, CERT or standard output couldn't be written$(why_unwritten "$@")" ;;
        6) note "status 6: memory was wanting. A file takes some 10 to 30 times the bytes of its .debug_info" ;;
    esac
}

# Of the files that are read the first that can't be, and why, where that can be seen.
why_unread() {
    local name names=("${@:2:1}")
    [ "$1" != check ] || names=("${@:2}")
    for name in "${names[@]}"; do
        if [ -z "$name" ]; then printf ': a name is empty'
        elif [ ! -e "$name" ]; then printf ": %q isn't there" "$name"
        elif [ -d "$name" ]; then printf ': %q is a folder' "$name"
        elif [ ! -r "$name" ]; then printf ': %q may not be read' "$name"
        else continue
        fi
        return
    done
}

# The same of the files that are written.
why_unwritten() {
    local name names=()
    case $1 in
        shrink) names=("${@:3}") ;;
        make) names=("${@:4}") ;;
    esac
    for name in "${names[@]}"; do
        if [ -z "$name" ]; then printf ': a name is empty'
        elif [ -d "$name" ]; then printf ': %q is a folder' "$name"
        elif [ ! -d "$(dirname -- "$name")" ]; then printf ": the folder of %q isn't there" "$name"
        elif [ -e "$name" ] && [ ! -w "$name" ]; then printf ': %q may not be written' "$name"
        elif [ ! -e "$name" ] && [ ! -w "$(dirname -- "$name")" ]; then printf ': the folder of %q may not be written' "$name"
        else continue
        fi
        [ "$name" != "${4-}" ] || [ "$1" != shrink ] || printf '. CERT is written last, and OUT is whole'
        return
    done
    printf ': the disk may be full'
    [ "$1" != shrink ] || printf '. CERT is written last: where it was that, OUT is whole'
}

# `refused KIND at PLACE`, by check `refused in KIND at PLACE` or `refused out KIND at PLACE`: the section, and what to do.
explain_refusal() {
    local which=IN file=$3 section
    [[ $1 =~ ^refused\ ((in|out)\ )?([A-Za-z0-9]+)\ at\ ([0-9]+)$ ]] || return 0
    if [ "${BASH_REMATCH[2]}" = out ]; then which=OUT file=$4; fi
    local kind=${BASH_REMATCH[3]} place=${BASH_REMATCH[4]}
    section=$(section_of "$file" "$kind" "$place")
    note "$which is refused: ${section:-$kind}: $(advice "$kind" "$section")"
}

# The name of the section of which a refusal tells, or nothing where it can't be looked up.
section_of() {
    [ -f "$1" ] && command -v python3 >/dev/null || return 0
    [[ $1 = /* ]] || set -- "./$1" "$2" "$3"
    python3 -I -S -B "$parts/elf_headers.py" "$@" 2>/dev/null
}

# What to do about a kind of refusal, in a section where that is known.
advice() {
    case $1 in
        NotElf64) echo "it is no ELF-64 file with the lowest byte first" ;;
        FileType) echo "only linked files are read: link object files first" ;;
        Torn | Overlap | Placed) echo "headers name bytes that it lacks or needs elsewhere: run this before debug files are split off" ;;
        Compressed) echo "compile and link without -gz; compress afterwards" ;;
        Relocated) echo "link without -r and --emit-relocs" ;;
        TwoSections) echo "two sections have this name: link them into one" ;;
        UnitHead | LineHead)
            echo "not version 5 of DWARF in 32-bit form: compile all with -gdwarf-5, also assembler files and libraries" ;;
        FormUnknown) echo "a form that isn't known: run this before dwz -m, or dwz without -m" ;;
        Op) echo "an operation of an expression that isn't known: compile with -gdwarf-5" ;;
        Limit) echo "it passes a limit in size or count: $kinds_page says which" ;;
        Companion) advice_for_section "$2" ;;
        *) echo "$1 says what is wrong or unusual there: $kinds_page" ;;
    esac
}

# What to do about a section that isn't read.
advice_for_section() {
    case $1 in
        .debug_macro) echo "compile without -g3" ;;
        .debug_macinfo) echo "compile with -gdwarf-5 and without -g3" ;;
        .debug_loc | .debug_ranges | .debug_types) echo "compile all with -gdwarf-5, also libraries" ;;
        .debug_names) echo "compile without -gpubnames, and link without an index" ;;
        .gdb_index) echo "link without --gdb-index; gdb-add-index adds an index afterwards" ;;
        .debug_pubnames | .debug_pubtypes | .debug_gnu_pubnames | .debug_gnu_pubtypes)
            echo "compile without -gpubnames, -ggnu-pubnames and -gsplit-dwarf" ;;
        .debug_sup) echo "run this before dwz -m, or dwz without -m" ;;
        *.dwo | .debug_cu_index | .debug_tu_index) echo "compile without -gsplit-dwarf" ;;
        *) echo "a debug section that isn't read: $kinds_page says which are" ;;
    esac
}
