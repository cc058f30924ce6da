#!/usr/bin/env bash
# bash host/check.sh ARCHIVE: the C header, the host, the examples, the manual and
# what is installed, over the archive that C programs link. Any difference fails
# it. What a machine lacks is said to be skipped, save a C compiler. Programs are
# left in target/host.
set -euo pipefail
cd "$(dirname "$0")/.."
archive=$1
out=target/host
costs=(small driveline ties spent)
weights=(workshop)
examples=("${costs[@]}" "${weights[@]}")
strict=(-Wall -Wextra -Wpedantic -Wconversion -Werror -Iinclude)
rm -rf "$out"
mkdir -p "$out"

say() { echo "host: $*"; }

fail() { say "$*"; exit 1; }

have() { command -v "$1" > /dev/null || { say "skipped: no $1"; return 1; }; }

# $1 file, $2 and $3 the lines before and behind, $4 which: a block's text
block() {
    awk -v before="$2" -v behind="$3" -v which="$4" '
        $0 == behind { inside = 0 }
        inside
        $0 == before { inside = ++seen == which }' "$1"
}

# $1 code or output, $2 its number: from the header's comments
from_header() {
    block include/leading.h " * @$1" " * @end$1" "$2" | sed 's/^ \* \{0,1\}//'
}

# $1 compiler, $2 language, $3 standard: the header alone, then its examples, run
header() {
    local program number
    "$1" -x "$2" -std="$3" "${strict[@]}" -fsyntax-only "$out/alone.c"
    for ((number = 1; number <= in_header; number++)); do
        program=$out/example$number-$1
        "$1" -x "$2" -std="$3" "${strict[@]}" -c "$out/example$number.c" -o "$program.o"
        "$1" "$program.o" "$archive" -o "$program"
        "$program" | cmp - "$out/example$number.expected"
    done
    say "header and its $in_header examples: $1 as $3"
}

# $1 compiler, $2 folder, further words for the compiler: the programs
build() {
    local compiler=$1 folder=$2 program
    shift 2
    mkdir -p "$folder"
    for program in leading_host leading_tables test_leading test_tables; do
        "$compiler" -std=c11 "${strict[@]}" "$@" "host/$program.c" "$archive" -o "$folder/$program"
    done
}

# $1 host, $2 what it has to print, its words; by refusals the status is 1
prints() {
    local host=$1 expected=$2 status=0
    shift 2
    "$host" "$@" > "$out/printed" 2> "$out/reason" || status=$?
    printf '%s\n' "$expected" | cmp - "$out/printed"
    case $expected in refused*) [ "$status" = 1 ] ;; *) [ "$status" = 0 ] ;; esac
}

# $1 host, $2 its status, $3 what its messages have, its words
says() {
    local host=$1 wanted=$2 message=$3 status=0
    shift 3
    "$host" "$@" > "$out/printed" 2> "$out/reason" < /dev/null || status=$?
    [ "$status" = "$wanted" ] || fail "leading_host $*: status $status"
    grep -qF -- "$message" "$out/reason" || fail "leading_host $*: does not say '$message'"
}

# $1 host: what it says of words and files that it cannot use, and its help
messages() {
    says "$1" 2 'no such option: -x' -x 3
    says "$1" 2 'no such option: -k5' -k5 examples/small.sheet
    says "$1" 2 'a number is wanted after: -k' examples/small.sheet -k
    says "$1" 2 'not a number, or too large: many' -k many
    says "$1" 2 'more than one file: b' a b
    says "$1" 2 'examples: Is a directory' examples
    says "$1" 2 'no_such_file: No such file' no_such_file
    says "$1" 1 'this looks like text' examples/small.plant
    says "$1" 1 'ends inside a field'
    ! grep -q 'looks like text' "$out/reason" || fail "leading_host: no text is no text"
    "$1" -k 1 --help > "$out/printed" || fail "leading_host --help: status $?"
    grep -q 'may take hours' "$out/printed" || fail "leading_host --help: no warning"
}

# $1 leading_tables: a refusal of the tables and one of the sheet, and what is no table
tables_refused() {
    local tables=$'numbers 1 0 0\nsizes 2\ncosts 0 3\ncounts\nliterals' status=0
    prints "$1" 'refused 16' write <<< "${tables/costs 0 3/costs 0}"
    prints "$1" 'refused 17' write <<< "${tables/sizes 2$'\n'costs 0 3/sizes 0$'\n'costs}"
    prints "$1" 'refused 5' read < /dev/null
    prints "$1" 'refused 6' read < examples/workshop.sheet
    for said in "${tables/3/many}" "${tables/3/65536}" "${tables/counts/count}" "${tables/1 0 0/1 0}"; do
        status=0
        "$1" write <<< "$said" > "$out/printed" 2> "$out/reason" || status=$?
        [ "$status" = 2 ] && [ ! -s "$out/printed" ] || fail "leading_tables write: $said"
    done
}

# $1 host: the small plant with weights, eight parts with the greatest product, refusals
weights_listed() {
    local sheet='\x02\x10\x20\x10\xf8\x08\x0f\x01\0\x98\x10\x06\x01\x04\x42\0'
    local eight='\x02\x40\0\0\xb2\x7f\x87\xf8\x7f\x87\xf8\x7f\x87\xf8\x7f\x87\xf8'
    local first='1 7680 0100000000000000 11.7%'
    printf "$sheet" | prints "$1" "$first"$'\n2 3584 1000000000000000 5.47%
3 512 1100000000000000 1 in 128\nall 3 tested 4 learned 1 unkept 0 trials 15'
    printf "$sheet" | prints "$1" "$first"$'\nenough 1 tested 2 learned 1 unkept 0 trials 13
hidden 1 0\nconflict c000000000000000 0000000000000000' -k 1 -v -c
    printf "$eight" | prints "$1" $'1 17878103347812890625 1000000000000000 96.9%
2 7011020920710937500 0000000000000000 38.0%\nall 2 tested 2 learned 0 unkept 0 trials 0'
    printf "$sheet" | prints "$1" 'refused 1' -k 0
    printf "$sheet" | prints "$1" 'refused 3' -q 4097
    printf "${sheet/02/03}" | prints "$1" 'refused 6'
    printf "${sheet/x10/x48}" | prints "$1" 'refused 7'
    printf "${sheet/f8/80}" | prints "$1" 'refused 20'
}

# the programs of a folder: the test of the header, each list, some refusals
exercise() {
    local host=$1/leading_host name
    "$1/test_leading"
    "$1/test_tables"
    tables_refused "$1/leading_tables"
    for name in "${examples[@]}"; do
        prints "$host" "$(cat "examples/$name.list")" "examples/$name.sheet"
        "$host" < "examples/$name.sheet" | cmp - "examples/$name.list"
    done
    local one=$'1 3 0100000000000000\nenough 1 tested 2 learned 1 unkept 0 trials 13'
    local small=examples/small.sheet
    local conflict='conflict c000000000000000 0000000000000000'
    local nothing_hidden=$'1 0 0000000000000000\n2 2 1000000000000000
all 2 tested 2 learned 0 unkept 0 trials 0\nhidden 1\nhidden 2'
    prints "$host" "$one" -k 1 $small
    prints "$host" "$(cat examples/small.list)" -k 3 $small
    prints "$host" "$one"$'\n'"$conflict" -k 1 -c $small
    prints "$host" "$one"$'\n''hidden 1 0' -v -k 1 $small
    prints "$host" "$one"$'\n''hidden 1 0'$'\n'"$conflict" -c -k 1 -v $small
    prints "$host" 'full 0 tested 0 learned 0 unkept 0 trials 0' -v -q 2 $small
    prints "$host" 'refused 1' -v -k 0 $small
    printf '\x01\x08\0\0\x80\0\0\x01\0' | prints "$host" "$nothing_hidden" -v
    prints "$host" "${one/learned 1 unkept 0 trials 13/learned 0 unkept 1 trials 3}" \
        -c -k 1 -s 0 $small
    prints "$host" 'full 0 tested 0 learned 0 unkept 0 trials 0' -q 2 $small
    prints "$host" 'spent 0 tested 1 learned 0 unkept 0 trials 5' -l 5 -s 4096 $small
    prints "$host" 'refused 1' -k 0 $small
    prints "$host" 'refused 3' -q 4097 $small
    prints "$host" 'refused 5' /dev/null
    prints "$host" 'refused 6' host/leading_host.c
    weights_listed "$host"
    messages "$host"
}

check_headers() {
    local number
    printf '#include "leading.h"\n#include "leading.h"\n' > "$out/alone.c"
    for ((number = 1; number <= in_header; number++)); do
        from_header code $number > "$out/example$number.c"
        from_header output $number > "$out/example$number.expected"
    done
    for compiler in gcc clang; do have $compiler && header $compiler c c11; done
    for compiler in g++ clang++; do have $compiler && header $compiler c++ c++17; done
    true
}

check_programs() {
    for compiler in gcc clang; do
        have $compiler || continue
        build $compiler "$out/$compiler" -O2
        exercise "$out/$compiler"
        say "leading_host, ${#examples[@]} examples: $compiler"
    done
}

# address and undefined behaviour, where the compiler has them
check_sanitized() {
    local sanitize=(-g -O1 -fsanitize=address,undefined -fno-sanitize-recover=all)
    echo 'int main(void) { return 0; }' > "$out/empty.c"
    for compiler in gcc clang; do
        have $compiler || continue
        if "$compiler" "${sanitize[@]}" "$out/empty.c" -o "$out/empty" 2> /dev/null &&
            "$out/empty" 2> /dev/null; then
            build $compiler "$out/sanitized" "${sanitize[@]}"
            exercise "$out/sanitized"
            say "under address and undefined behaviour sanitizers: $compiler"
            return
        fi
    done
    say "skipped: no compiler with address and undefined behaviour sanitizers"
}

check_stack() {
    "$1" -std=c11 "${strict[@]}" -O2 host/stack.c "$archive" -o "$out/stack"
    "$out/stack"
}

# $1 which block of code or output in the manual, as it is read
from_manual() {
    sed -n '/^\.SH EXAMPLES$/,$p' man/leading.3 > "$out/manual.examples"
    block "$out/manual.examples" .EX .EE "$1" | sed 's/\\e/\\/g'
}

# the manual's declarations
synopsis() {
    sed -n '/^\.SH SYNOPSIS$/,/^\.SH DESCRIPTION$/s/^\.B "\(.*\)"$/\1/p' man/leading.3
}

# $1 a C compiler: the manual's declarations, names and examples are the header's
check_manual() {
    local name number
    synopsis > "$out/synopsis.c"
    "$1" -std=c11 "${strict[@]}" -fsyntax-only "$out/synopsis.c"
    for name in leading_{list,list_weights,held,test,reduce,write,read,version}; do
        grep -q "$name(" "$out/synopsis.c" || fail "manual: no declaration of $name"
    done
    for name in $(grep -o 'LEADING_[A-Z_]*' man/leading.3 | sort -u); do
        grep -qw "$name" include/leading.h || fail "manual: the header has no $name"
    done
    for ((number = 1; number <= in_header; number++)); do
        from_manual $((2 * number - 1)) | cmp - "$out/example$number.c"
        from_manual $((2 * number)) | cmp - "$out/example$number.expected"
    done
    say "manual: declarations, names and $in_header examples are the header's"
}

# $1 a prefix: the pages there format without a word, the links as the page itself
check_pages() {
    local name page=$PWD/$out/page
    have groff || return 0
    for name in leading leading_{list,list_weights,held,test,reduce,write,read,version}; do
        (cd "$1/share/man" && groff -man -ww -Tutf8 "man3/$name.3") > "$page.$name" 2> "$page.said"
        [ ! -s "$page.said" ] || fail "manual: $(cat "$page.said")"
        cmp "$page.$name" "$page.leading"
    done
    grep -q . "$page.leading" || fail "manual: an empty page"
    say "manual: formatted by groff, from each name"
}

# $1 a C compiler: the version that the header has for a program
header_version() {
    printf '#include "leading.h"\nLEADING_VERSION\n' | "$1" -E -P -Iinclude - |
        tail -n 1 | tr -d '"'
}

# $1 a C compiler, $2 a prefix: the header's examples, found by pkg-config alone
check_found() {
    local number flags version
    have pkg-config || return 0
    flags=$(PKG_CONFIG_PATH=$2/lib/pkgconfig pkg-config --cflags --libs leading)
    version=$(PKG_CONFIG_PATH=$2/lib/pkgconfig pkg-config --modversion leading)
    [ "$version" = "$(header_version "$1")" ] || fail "leading.pc is of another version: $version"
    for ((number = 1; number <= in_header; number++)); do
        "$1" -std=c11 "$out/example$number.c" $flags -o "$out/found$number"
        "$out/found$number" | cmp - "$out/example$number.expected"
    done
    say "installed, found by pkg-config: leading $version"
}

# $1 a C compiler: an install to a scratch prefix, and one that is staged
check_installed() {
    local prefix=$PWD/$out/installed staged=$PWD/$out/staged
    bash host/install.sh "$archive" "$prefix" > /dev/null
    cmp "$archive" "$prefix/lib/libleading.a"
    cmp include/leading.h "$prefix/include/leading.h"
    check_found "$1" "$prefix"
    check_pages "$prefix"
    bash host/install.sh "$archive" /usr/local "$staged" > /dev/null
    diff -r "$prefix/include" "$staged/usr/local/include"
    grep -qx 'prefix=/usr/local' "$staged/usr/local/lib/pkgconfig/leading.pc"
    say "installed, to a prefix and staged"
}

check_texts() {
    local name
    python3 -B examples/test_plant_text.py
    python3 -B examples/plant_text.py check examples/*.plant
    for name in "${costs[@]}"; do
        python3 -B outside/listing.py < "examples/$name.sheet" | cmp - "examples/$name.list"
    done
    say "texts, sheets and lists of the examples"
}

# $1 a sheet, $2 its tables as plant_text.py says them: the library writes the one from the other, and reads them
same_tables() {
    "$out/leading_tables" write < "$2" | cmp - "$1"
    "$out/leading_tables" read < "$1" | cmp - "$2"
}

# on all examples with costs and the corpus: the bytes that plant_text.py packs, and its tables
check_tables() {
    local name sheet count=0 text=$out/again.plant tables=$out/tables
    for name in "${costs[@]}"; do
        python3 -B examples/plant_text.py tables "examples/$name.plant" > "$tables"
        same_tables "examples/$name.sheet" "$tables"
    done
    for sheet in bench/corpus/*.sheet; do
        python3 -B examples/plant_text.py text "$sheet" -o "$text"
        python3 -B examples/plant_text.py sheet "$text" -o "$out/again.sheet"
        python3 -B examples/plant_text.py tables "$text" > "$tables"
        same_tables "$out/again.sheet" "$tables"
        cmp "$out/again.sheet" "$sheet"
        count=$((count + 1))
    done
    say "sheets of ${#costs[@]} examples and $count plants of the corpus: written as plant_text.py packs them, and read"
}

# $1 what the command has to print, its words: from a text to a named list
lists() {
    local expected=$1
    shift
    python3 -B examples/plant_text.py list "$@" > "$out/printed"
    printf '%s\n' "$expected" | cmp - "$out/printed"
}

# $1 a README, $2 a mark in it: what is printed there, below the command and a line
in_readme() {
    block "$1" "<!-- $2 -->" '<!-- end -->' 1 | sed '1,2d;s/^    //'
}

# by the host that is left in target/host
check_named() {
    local none=$out/none.plant status=0 said name
    said=$(in_readme examples/README.md list)
    lists "$said" examples/small.plant
    lists "$said" -k 3 examples/small.plant
    lists "$(in_readme examples/README.md enough)" -k 2 examples/small.plant
    lists "$(in_readme examples/README.md hidden)" -v examples/small.plant
    lists "$(in_readme examples/README.md weights)" -k 7 examples/workshop.plant
    lists "$(in_readme README.md weights)" -k 6 examples/workshop.plant
    prints "$out/leading_host" "$(in_readme examples/README.md host)" -k 1 examples/workshop.sheet
    lists $'spent 0 tested 1 learned 0 unkept 0 trials 5\nthere may be more: the limit struck' \
        --limit 5 examples/small.plant
    printf 'part lever: ahead 0, idle 3\nnever\n' > "$none"
    lists $'all 0 tested 1 learned 1 unkept 0 trials 0\nno explanation\nno state fits' "$none"
    python3 -B examples/plant_text.py list -k 30 examples/ties.plant > "$out/printed"
    grep -q '^all 30 ' "$out/printed" || fail "ties -k 30: not all"
    python3 -B examples/plant_text.py list -k 137 examples/workshop.plant > "$out/printed"
    grep -q '^all 137 ' "$out/printed" || fail "workshop -k 137: not all"
    python3 -B examples/plant_text.py list -k 0 "$none" > "$out/printed" 2> "$out/reason" ||
        status=$?
    [ "$status" = 1 ] || fail "list -k 0: status $status"
    grep -q 'k is not 1 to 4096' "$out/reason" || fail "list -k 0: $(cat "$out/reason")"
    for name in "${examples[@]}"; do
        python3 -B examples/plant_text.py names "examples/$name.plant" \
            < "examples/$name.list" > "$out/printed"
    done
    ! python3 -B examples/plant_text.py names examples/small.plant \
        < examples/driveline.list > "$out/printed" 2> "$out/reason" || fail "names of another plant"
    grep -q 'of another plant?' "$out/reason" || fail "names: $(cat "$out/reason")"
    say "from a text to a named list"
}

# $1 an example, further words for the host that is left in target/host
by_name() {
    local name=$1
    shift
    "$out/leading_host" "$@" "examples/$name.sheet" |
        python3 -B examples/plant_text.py names "examples/$name.plant"
}

# hidden values below each state, which plant_text.py holds to the text's clauses; all else as without them
check_hidden() {
    local name states
    for name in "${examples[@]}"; do
        by_name "$name" -c > "$out/printed"
        states=$(grep -c '^[0-9]' "$out/printed")
        by_name "$name" -c -v > "$out/hidden"
        grep -v '^  ' "$out/hidden" | cmp - "$out/printed"
        [ "$(grep -c '^  hidden: ' "$out/hidden")" = "$states" ] || fail "$name: not each state's hidden values"
        [ "$(grep -A 1 '^[0-9]' "$out/hidden" | grep -c '^  hidden: ')" = "$states" ] ||
            fail "$name: hidden values not below their state"
    done
    by_name driveline -v -k 2 | cmp - <(in_readme README.md hidden)
    say "hidden values of ${#examples[@]} examples, below their states"
}

# $1 a status: what .ci/prove shows of a prover that ends so, and that its log is whole
check_run() {
    local prover=$PWD/$out/prover shown=$out/shown log=$out/run.log status=0
    mkdir -p "$prover"
    cat > "$prover/rt" << END
#!/bin/sh
echo 'fn model::any: proved'
echo 'crate model: modules loaded=55 checked=3'
echo 'logic=proved functions=1'
echo "asked to \$* in \${PWD##*/}"
echo 'crate theory: modules loaded=70 checked=2'
echo 'logic=not-proved'
exit $1
END
    chmod +x "$prover/rt"
    PATH=$prover:$PATH bash .ci/prove theory "$log" > "$shown" || status=$?
    [ "$status" = "$1" ] || fail "make run: status $status where rt has $1"
    [ "$(head -n 2 "$shown" | sed 's/([0-9]* s)/(N s)/')" = 'model proved (N s)
theory NOT PROVED' ] || fail "make run shows: $(cat "$shown")"
    grep -qx 'asked to check in theory' "$log" || fail "make run: rt was $(grep asked "$log")"
    { cd crates/theory && "$prover/rt" check || true; } | cmp - "$log"
}

check_make() {
    check_run 0
    check_run 1
    have make || return 0
    make -s --no-print-directory > "$out/shown" 2> /dev/null
    grep -q '^make run ' "$out/shown" || fail "make alone is no help"
    say "make alone, and what make run shows"
}

cc=$(command -v gcc || command -v clang) || { say "no C compiler"; exit 1; }
in_header=$(grep -c '^ \* @code$' include/leading.h)
check_texts
check_make
check_headers
check_manual "$cc"
check_programs
check_sanitized
check_stack "$cc"
check_installed "$cc"
cp "$out/$(basename "$cc")"/leading_{host,tables} "$out"
check_tables
check_named
check_hidden
