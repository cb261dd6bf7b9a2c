# shellcheck shell=bash disable=SC2154
# Proves the crates and builds both programs, where sources are newer than one of them. `rt all check` at the top goes over all crates, the
# lowest first and several at once, and builds the libraries of those that others use; `rt run` in a program's crate then links it.
# To run `rt lib` in several crates at once would win nothing: it locks the folders of its crate and of all crates below until it
# ends, as each command of rt in a crate's folder does, and all crates stand on the same low ones, so that one would run at a time.
# It is sourced by the launcher of a checkout, which sets top, for_bytes and for_packages.

log=$top/crates/shrink_app/out/build.log
# What the proof of a crate takes, in KB.
memory_of_a_proof=2097152

is_current() {
    local each newer
    for each in "$for_bytes" "$for_packages"; do
        [ -x "$each" ] || return 1
        newer=$(find "$top/crates.txt" "$top/crates" -path '*/out' -prune -o \
            \( -name '*.rt' -o -name '*.antt' -o -name crates.txt \) -newer "$each" -print -quit)
        [ -z "$newer" ] || return 1
    done
}

# Builds, unless another launcher in this checkout does: then it waits for that. What is started here has the lock too, until it ends.
build() {
    local lock
    command -v rt >/dev/null || complain "the Rattle kit's command rt isn't on the PATH"
    local each
    for each in shrink_app packages_app; do
        [ -f "$top/crates/$each/src/main.rt" ] || complain "$top/crates/$each/src/main.rt is missing"
    done
    { mkdir -p "${log%/*}" && exec {lock}>>"$log"; } || complain "$log can't be written"
    if command -v flock >/dev/null && ! flock -n "$lock"; then
        say_line "another launcher builds the programs: waiting for it"
        flock "$lock"
    fi
    is_current || build_alone
    exec {lock}>&-
}

build_alone() {
    local build='' said='' signal failed
    say_line "proving and building the programs, which takes a while the first time"
    for signal in INT TERM HUP; do
        # shellcheck disable=SC2064
        trap "end_build $signal" "$signal"
    done
    : >"$log"
    # in a process group of its own, so that it can be ended with what it has started
    set -m
    prove_and_link >>"$log" 2>&1 </dev/null &
    build=$!
    set +m
    while kill -0 "$build" 2>/dev/null; do
        say_progress
        sleep 1
    done
    trap - INT TERM HUP
    end_progress
    if ! wait "$build"; then
        failed=$(sed -n 's/^\([a-z0-9_]*\): failed (.*/\1/p' "$log" | paste -sd ' ')
        complain "the build failed${failed:+ in $failed}: see $log"
    fi
    # what is built is current, also where only the times of sources were newer and nothing was written
    touch -c "$for_bytes" "$for_packages"
}

# Without words a program says `words` and touches no file.
prove_and_link() {
    cd "$top" && rt all check --jobs "$(side_by_side)" && link shrink_app && link packages_app
}

link() {
    cd "$top/crates/$1" && [ "$(rt run)" = words ]
}

# How many crates are proved at once: one for each processor, where memory holds them.
side_by_side() {
    awk -v most="$(nproc)" -v each="$memory_of_a_proof" '$1 == "MemAvailable:" { fit = int($2 / each) }
        END { print (fit > most ? most : fit < 1 ? 1 : fit) }' /proc/meminfo
}

# Ends the build, and then this launcher by the same signal. What rt has started in other process groups ends with rt.
end_build() {
    trap '' INT TERM HUP
    [ -z "$build" ] || kill -KILL -- "-$build" 2>/dev/null
    end_progress
    trap - "$1"
    kill -s "$1" $$
}

# How many crates are proved, and the time so far. On a terminal it is written over by the next one, each second; elsewhere it is
# said when the count has changed. The log has a line `== NAME` of each crate that is done, and then what its check has said: nothing
# where its library is current, else at the end a line that begins with logic=proved where all went well.
say_progress() {
    local count time
    count=$(awk '/^== summary$/ { exit }
        /^== / { count += is_proved; is_proved = 1; next }
        { is_proved = /^logic=proved/ }
        END { print count + is_proved }' "$log")
    count="$count of $(grep -c '^[^#]*:' "$top/crates.txt") crates are proved"
    printf -v time '%d:%02d' $((SECONDS / 60)) $((SECONDS % 60))
    if [ -t 2 ]; then
        printf '\r\033[Kmikadocherry: %s (%s)' "$count" "$time" >&2
    elif [ "$count" != "$said" ]; then
        say_line "$count ($time)"
    fi
    said=$count
}

say_line() {
    printf 'mikadocherry: %s\n' "$1" >&2
}

end_progress() {
    [ ! -t 2 ] || printf '\r\033[K' >&2
}
