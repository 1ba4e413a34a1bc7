#!/usr/bin/env bash
# Builds what ships and prints which toolchain built it and the sha256 of each: the three programs and the static library.
#
# usage: tools/hashes.sh            builds here; what is proved already is not proved again
#        tools/hashes.sh --check    compares with docs/TRUST.md, and ends with 1 where a line is not there
#        tools/hashes.sh --write    puts the lines into docs/TRUST.md
#        tools/hashes.sh --twice    builds once more in a clone of HEAD in another folder, and ends with 1 where a byte differs; rt begins there with proofs
#                                   that other copies on this machine kept
set -eu
unset RT_BACKEND # with it rt builds by another compiler
cd "$(dirname "$0")/.."
page=docs/TRUST.md
programs='account historian checker'
ships='crates/account/out/account crates/historian/out/historian crates/checker/out/checker target/staticlib/libdoarpezwim.a'

# Proves and builds in the folder it stands in; only what goes wrong is said.
build() {
    local said
    said=$(mktemp)
    for name in $programs; do (cd "crates/$name" && rt run </dev/null) >>"$said" 2>&1 || { cat "$said" >&2; rm -f "$said"; return 1; }; done
    tools/staticlib.sh >>"$said" 2>&1 || { cat "$said" >&2; rm -f "$said"; return 1; }
    rm -f "$said"
}

hashes() {
    rt version
    # shellcheck disable=SC2086
    sha256sum $ships
}

case ${1:-} in '' | --check | --write | --twice) ;; *) sed -n '2,8s/^# \{0,1\}//p' "$0" >&2; exit 2 ;; esac
build
here=$(hashes)
printf '%s\n' "$here"
case ${1:-} in
--check)
    missing=0
    while IFS= read -r line; do
        grep -qxF "    $line" "$page" || { echo "not in $page: $line" >&2; missing=1; }
    done <<<"$here"
    exit $missing
    ;;
--write)
    # the page has one line for the toolchain and one for each file, indented by four
    kit=$(rt version)
    sed -i "s|^    [^ ]*-kit-[^ ]* logic [0-9a-f]*\$|    $kit|" "$page"
    for f in $ships; do sed -i "s|^    [0-9a-f]\{64\}  $f\$|    $(sha256sum "$f")|" "$page"; done
    ;;
--twice)
    git diff --quiet HEAD -- crates crates.txt || echo "crates/ differs from HEAD, which is what is built in the other folder" >&2
    other=$(mktemp -d)
    trap 'rm -rf "$other"' EXIT
    git clone -q . "$other/a-folder-of-another-length"
    there=$(cd "$other/a-folder-of-another-length" && build && hashes)
    [ "$here" = "$there" ] || { printf 'in another folder:\n%s\n' "$there" >&2; exit 1; }
    echo "the same, byte for byte, in another folder"
    ;;
esac
