# Tells which program of this repository fits: a script sets `here` to the top of the repository and reads this file by `.`.
#
#   $built       the program as it is proved and built here
#   $released    the one in release/ for this system; empty where there is none
#   $system      what `uname` says of this system
#   is_built     whether the first is there, and no source is newer
#   is_released  whether the second is the one of release/MANIFEST, made from just the sources that are here
#   $kit         the kit that the release was proved with, by its manifest
#   $archive     the one in release/ with the library for this system, and for macOS the program too; empty where there is none
#   is_archived  whether that is the one of release/MANIFEST, made from just the sources that are here
#
# The sums of the sources and of the released program are kept in out/sources, with the names, sizes, inodes and times of
# all these files and of their folders. An edit changes one of these, and then all is summed anew.
line_end='
'
built=$here/crates/pigale/out/pigale
system=$(uname -sm)
case $system in
Linux\ *) released=$here/release/pigale-${system#* }-linux archive=$here/release/libpigale-${system#* }-linux.tar.xz ;;
Darwin\ *) released='' archive=$here/release/pigale-${system#* }-macos.tar.xz ;;
*) released='' archive='' ;;
esac
[ -x "$released" ] || released=
[ -f "$archive" ] || archive=

is_built() {
    [ -x "$built" ] && [ -z "$(find "$here/crates.txt" "$here/crates" -name out -prune -o -name must-fail -prune -o -type f \
        \( -name '*.rt' -o -name '*.antt' -o -name crates.txt \) -newer "$built" -print | head -1)" ]
}

# what the manifest has: the kit, and the sums of the sources and of the released program
kit='' named_sources='' named_released=''
while read -r word first rest; do
    case $word in
    kit) kit="$first $rest" ;;
    sources) named_sources=$first ;;
    program) [ "${released##*/}" = pigale-x86_64-linux ] && named_released=${named_released:-$first} ;;
    file) [ "${released##*/}" = "$first" ] && rest=${rest#*sum } && named_released=${rest%% *} ;;
    esac
done <"$here/release/MANIFEST"

sum_of_file() {
    if command -v sha256sum >/dev/null; then sha256sum <"$1"; else shasum -a 256 <"$1"; fi | cut -d ' ' -f 1
}

# what the manifest has for a file of release/ and a word: said_of FILE WORD
said_of() {
    awk -v name="$1" -v word="$2" '$1 == "file" && $2 == name { for (i = 3; i < NF && $i != "verdict"; i += 2) if ($i == word) print $(i + 1) }' \
        "$here/release/MANIFEST"
}

is_archived() {
    [ -n "$archive" ] && [ "$(said_of "${archive##*/}" sum)" = "$(sum_of_file "$archive")" ] &&
        [ "$(said_of "${archive##*/}" sources)" = "$("$here/tools/sources" pigale_c)" ]
}

# runs `find` over all that the sums depend on
find_summed() {
    find "$here/crates.txt" "$here"/crates/*/src "$released" "$here/tools/sources" "$@" 2>/dev/null
}

# sets `sum_sources` and `sum_released` to the sums of what is here: those that are kept, where nothing changed since
sum_all() {
    kept=$here/out/sources
    # where find cannot print these, nothing is kept
    times=$(find_summed -printf '%p %s %i %T@ %C@\n') || times=
    if [ -n "$times" ] && [ -r "$kept" ] && had=$(cat "$kept") && [ "${had#*"$line_end"}" = "$times" ]; then
        had=${had%%"$line_end"*} sum_sources=${had% *} sum_released=${had#* }
        return
    fi
    sum_sources=$("$here/tools/sources")
    sum_released=$(sum_of_file "$released")
    # what changed a moment ago may change again within the same tick of the clock
    if [ -n "$times" ] && [ -z "$(find_summed -newerct '2 seconds ago' -print)" ]; then
        { mkdir -p "$here/out" && echo "$sum_sources $sum_released$line_end$times" >"$kept.$$" && mv -f "$kept.$$" "$kept"; } 2>/dev/null
    fi
}

is_released() {
    [ -n "$released" ] && sum_all && [ "$sum_sources" = "$named_sources" ] && [ "$sum_released" = "$named_released" ]
}
