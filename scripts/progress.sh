# SPDX-License-Identifier: MIT
# What a run that proves says while it does. Sourced at the root of the repository, behind scripts/tools.sh.

# The crates that are needed to build those that are named, themselves among them: those that depend on nothing first. With no
# name, every crate.
needed_crates() {
    awk -v wanted="$*" '
        function visit(name,    i, n, parts) {
            if (name in seen || !(name in on)) return
            seen[name]
            n = split(on[name], parts, " ")
            for (i = 1; i <= n; i++) visit(parts[i])
            print name
        }
        { sub(/#.*/, "") }
        /:/ { name = $1; sub(/:.*/, "", name); rest = $0; sub(/^[^:]*:/, "", rest); on[name] = rest; list[++count] = name }
        END {
            n = split(wanted, names, " ")
            if (n == 0) for (i = 1; i <= count; i++) visit(list[i])
            for (i = 1; i <= n; i++) visit(names[i])
        }' crates.txt
}

# What an archive is made of, in a word: the toolchain, how it is built, and what its crate and those below it read. It stands beside
# the archive, which is not built again as long as it is the same.
made_of() {
    local crate=$1 target=$2 name
    {
        rt version
        echo "$target"
        for name in $(needed_crates "$crate"); do
            grep "^$name[ :]" crates.txt
            find "crates/$name/src" "crates/$name/specs" "crates/$name/proofs" -type f -exec sha256sum {} + 2>/dev/null | sort
        done
    } | sha256sum | cut -d' ' -f1
}

# One line of progress: in place on a terminal, else a line of its own.
progress() {
    if [ -t 1 ]; then
        printf '\r\033[K%.*s' "$(($(tput cols 2>/dev/null || echo 80) - 1))" "$*"
    else
        printf '%s\n' "$*"
    fi
}

# Ends the line that progress wrote last, where it is in place.
progress_done() {
    [ ! -t 1 ] || printf '\r\033[K'
}

# Runs a command of rt, its output in the file LOG, and says when each crate is done, how many of how many. What was proved before
# is counted in silence.
#     watched LOG MANY COMMAND..
watched() {
    local log=$1 many=$2 statuses
    shift 2
    "$@" 2>&1 | tee "$log" | told "$many" "$2"
    statuses=("${PIPESTATUS[@]}")
    progress_done
    return "${statuses[0]}"
}

# Reads what rt says: `rt ci` has a line of its own for each crate, and `rt all check` the crate's name and behind it the verdict.
told() {
    local many=$1 how=$2 done_crates=0 name='' line
    while IFS= read -r line; do
        case $line in
            '== '*) name=${line#== } ;;
            logic=*)
                # `rt ci` says it in a line of its own
                [ "$how" = all ] || continue
                done_crates=$((done_crates + 1)) line=${line#logic=}
                progress "$done_crates of $many: $name ${line%% *}"
                ;;
            'rt: '*' is kept: '*) done_crates=$((done_crates + 1)) ;;
            'rt: '*': its tests'* | 'rt: '*' its tests are '*) ;;
            'rt: '*' proved' | 'rt: '*' NOT PROVED'*)
                done_crates=$((done_crates + 1))
                progress "$done_crates of $many: ${line#rt: }"
                ;;
            'rt: '*': trying its must-fail edits '*) progress "${line#rt: }" ;;
        esac
    done
}

# How many crates are checked at a time: one for each processor, and as many as memory holds.
jobs_at_a_time() {
    local jobs memory
    jobs=$(nproc 2>/dev/null || echo 1)
    memory=$(awk '/^MemAvailable:/ {print int($2 / 2500000)}' /proc/meminfo 2>/dev/null)
    [ "${memory:-1}" -ge "$jobs" ] || jobs=${memory:-1}
    echo "$((jobs < 1 ? 1 : jobs))"
}
