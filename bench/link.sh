# Sourced by bench/run and bench/patterns: judges arguments, compiles, and links an older build of the library beside
# the present one. The script sets PROGRAM, its own name; USAGE; and OUT, the directory of what is built.
CC=${CC:-cc}
WARNINGS="-Wall -Wextra -Wconversion -Wshadow -pedantic"

wrong() {
    printf '%s: %s\n%s\n' "$PROGRAM" "$1" "$USAGE" >&2
    exit 2
}

# Takes a file that is there, and none twice: check_file TAKEN-BEFORE OPTION FILE ...
check_file() {
    [ -z "$1" ] || wrong "$2 is given twice"
    [ $# -gt 2 ] || wrong "$2 needs a file"
    [ -f "$3" ] || wrong "there is no file $3"
}

# Empties the directory of what is built and builds the archive: build_archive OLD.a OLD.h, either of which may be
# empty. The older archive and its header are copied first: the archive may be the same file.
build_archive() {
    mkdir -p "$OUT"
    rm -f "$OUT"/*.o "$OUT"/*.a "$OUT"/*.h
    if [ -n "$1" ]; then
        cp -- "$1" "$OUT/beside.a"
    fi
    if [ -n "$2" ]; then
        cp -- "$2" "$OUT/duhzarek.h"
    fi
    make -s build/libduhzarek.a >&2
}

# Compiles a source: compile NAME OBJECT FLAGS...
compile() {
    local name=$1 object=$2
    shift 2
    $CC -std=c11 -O2 $WARNINGS "$@" -c "bench/$name.c" -o "$OUT/$object.o"
}

# The flag for a header whose scan tells counts, as it did before it told blank rows: scan_flag HEADER
scan_flag() {
    case $(sed -n '/duhzarek_scan_image(/,/;/p' "$1") in
    *'counts['*) echo -DSCAN_COUNTS ;;
    esac
}

# Makes beside.o, the object that calls the older build, of OBJECT.o's source: compile_older OBJECT FLAGS... Where the
# older build has another header, the source is compiled once more, with that header.
compile_older() {
    local object=$1
    shift
    if [ -f "$OUT/duhzarek.h" ]; then
        compile "$object" beside -I"$OUT" $(scan_flag "$OUT/duhzarek.h") "$@"
    else
        cp "$OUT/$object.o" "$OUT/beside.o"
    fi
}

# Gives the older archive and beside.o, the object that calls it, other names of the symbols:
# add_older OBJECT SYMBOL OTHER. OBJECT.o calls the library and defines SYMBOL, which beside.o has as OTHER.
# A function that the older archive lacks is not taken from the library: it ends with the function's name and advice.
# Code and buffers of the two builds are aligned alike; else where they happen to lie makes one archive faster than
# its own copy.
add_older() {
    local object=$1 symbol=$2 other=$3 lacking
    local aligned=(--set-section-alignment '.text*=64' --set-section-alignment .bss=64)
    nm -g --defined-only "$OUT/beside.a" | awk 'NF == 3 { print $3 }' | sort -u > "$OUT/defined"
    nm -u "$OUT/beside.o" | awk '$2 ~ /^duhzarek_/ { print $2 }' | sort -u > "$OUT/called"
    lacking=$(comm -13 "$OUT/defined" "$OUT/called" | paste -sd' ')
    if [ -n "$lacking" ]; then
        wrong "the older build has no $lacking: name its header with --header"
    fi
    {
        awk '{ print $1, "beside_" $1 }' "$OUT/defined"
        echo "$symbol $other"
    } > "$OUT/renamed"
    objcopy "${aligned[@]}" build/libduhzarek.a "$OUT/libduhzarek.a"
    objcopy "${aligned[@]}" "$OUT/$object.o"
    objcopy "${aligned[@]}" --redefine-syms="$OUT/renamed" "$OUT/beside.a"
    objcopy "${aligned[@]}" --redefine-syms="$OUT/renamed" "$OUT/beside.o"
}

print_machine() {
    echo "- processor: $(lscpu | sed -n 's/^Model name: *//p'), $(nproc) cores"
    echo "- caches: $(lscpu | sed -n 's/^\(L[0-9][a-z]*\) cache: *\([^(]*[^( ]\).*/\1 \2/p' | paste -sd, | sed 's/,/, /g')"
    echo "- system: $(uname -sm)"
    echo "- C compiler: $($CC --version | head -n 1), -O2"
}
