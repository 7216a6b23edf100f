# Sourced by the scripts of this folder: the top of the repository is in $top, and a folder in $room that is
# removed at the end.
top=$(cd "$(dirname "$(readlink -f "$0")")/.." && pwd) || exit 1
room=$(mktemp -d) || exit 1
trap 'rm -rf "$room"' EXIT
trap 'exit 1' HUP INT TERM

# Builds the program where it isn't built yet; with no words it answers `usage`, and status 2.
build_pcc() {
    "$top/bin/pcc" 2>/dev/null
    [ $? -eq 2 ] || { echo "$(basename "$0"): bin/pcc can't be built" >&2; exit 1; }
}
