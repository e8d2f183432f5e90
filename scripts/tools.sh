# SPDX-License-Identifier: MIT
# What the scripts share. Sourced at the root of the repository.

# Says which of the commands that are given are missing, each in a line, if some are.
missing_tools() {
    local tool status=1
    for tool in "$@"; do
        if ! command -v "$tool" >/dev/null 2>&1; then
            case $tool in
                rt) echo "missing: rt, the Rattle toolchain ($(head -n 1 TOOLCHAIN)), is not on the PATH" ;;
                cargo) echo "missing: cargo, Rust's build tool, is not on the PATH" ;;
                cc) echo "missing: cc, a C compiler, is not on the PATH" ;;
                python3) echo "missing: python3, Python 3.9 or later, is not on the PATH" ;;
                *) echo "missing: $tool is not on the PATH" ;;
            esac
            status=0
        fi
    done
    return "$status"
}

# The folder of the toolchain.
kit() {
    dirname "$(dirname "$(readlink -f "$(command -v rt)")")"
}

# Every static library of the repository, what C and Rust link and what only tests do: the crates that crates.txt says so of.
static_libraries() {
    sed -n 's/#.*//; s/^\([a-z0-9_]*\) staticlib *:.*/\1/p' crates.txt
}

# The crate of a static library that is named as its archive is: libsframe_test.a is sframe_test_c's, since a crate is a library or
# a static library.
crate_of() {
    if static_libraries | grep -qx "$1"; then echo "$1"; else echo "$1_c"; fi
}

# And the other way: what stands between lib and .a in the archive of a crate.
archive_of() {
    case $1 in
        *_test_c) echo "${1%_c}" ;;
        *) echo "$1" ;;
    esac
}
