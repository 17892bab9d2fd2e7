#!/usr/bin/env bash
# Runs dm in the caller's folder. Where the proved program isn't built yet, or a source has changed
# since, it is proved, compiled and linked first: that is told on standard error alone, and kept in
# dm-build.log. With DM_BUILD=only nothing is run afterwards. Status 125: it couldn't be built.
set -u
# Where nothing is built this writes nothing, so that a trace of the calls is the program's alone.
here=${BASH_SOURCE[0]}
[ -L "$here" ] && here=$(readlink -f "$here")
case $here in */*) top=${here%/*} ;; *) top=. ;; esac
crate=$top/crates/dm_main
program=$crate/out/dm_main
mark=$crate/out/dm_main.begun
log=$top/dm-build.log

# The mark is as old as the beginning of the build that made the program. A folder of sources is
# newer where one was removed.
is_built() {
    [ -x "$program" ] && [ -e "$mark" ] &&
        [ -z "$(find "$top/crates.txt" "$top/crates" \( -name out -o -name must-fail \) -prune -o \
            \( -type f ! -name '*.md' -o -type d -path '*/crates/*/*' \) -newer "$mark" -print -quit)" ]
}

# One line that is written over on a terminal, and else one a minute. It ends with this script,
# also where that is killed.
tell() {
    local begun=$SECONDS every=60
    [ -t 2 ] && every=2
    while sleep "$every" >/dev/null 2>&1 && kill -0 $$ 2>/dev/null; do
        local last
        last="dm: building ($((SECONDS - begun)) s), crates done: $(grep -ac '^== dm_' "$log"), $(grep -aE '^(== dm_|rt: |fn |crate |so far)' "$log" | tail -n 1 | sed 's/^== //' | cut -c 1-60)"
        if [ -t 2 ]; then printf '\r\033[K%s' "$last" >&2; else printf '%s\n' "$last" >&2; fi
    done
}

# How many crates are proved side by side: as many as there are processors and room for.
side_by_side() {
    local processors room
    processors=$(nproc) || processors=1
    room=$(awk '/^MemAvailable:/ { print int($2 / 2500000) }' /proc/meminfo)
    [ "${room:-0}" -ge 1 ] || room=1
    echo $((processors < room ? processors : room))
}

build() {
    command -v rt >/dev/null || { echo "dm: rt, which proves and builds it, is not on the PATH" >&2; return 1; }
    echo "dm: proving and building the program, its log is $log" >&2
    mkdir -p "$crate/out" && rm -f "$mark" "$program.stamp" && touch "$mark.new" || return 1
    tell 9>&- &
    local teller=$!
    # First the crates that the program needs are proved side by side, the lowest first, and then the
    # program is built over them. What the first line leaves unproved the second tries again, and that
    # alone decides. The run that ends it has no words, so it writes nothing and ends with status 2.
    (cd "$crate" && { rt all check --jobs "$(side_by_side)"; rt run; } </dev/null) >"$log" 2>&1 9>&-
    local status=$?
    kill "$teller" 2>/dev/null
    wait "$teller" 2>/dev/null
    [ -t 2 ] && printf '\r\033[K' >&2
    [ "$status" = 2 ] && [ -x "$program" ] && [ -e "$program.stamp" ] && mv "$mark.new" "$mark"
}

if ! is_built; then
    exec 9>>"$log" && flock 9 || exit 125
    # Another call may have built it meanwhile.
    if ! is_built && ! build; then
        echo "dm: could not be built: see $log" >&2
        exit 125
    fi
    exec 9>&-
fi
[ "${DM_BUILD:-}" = only ] && exit 0

# Each part that stands: a number of its file's own, its length, and how many blocks of 512 bytes it has.
parts() {
    find dm-files -maxdepth 1 -type f -name '*.crdownload' -printf '%i %s %b\n' 2>/dev/null
}

# Looks at the parts: `came` is how many bytes those have that changed since the start, and `speed` how
# many more a second than at the last look. Slices leave holes in a part, so its length alone isn't
# what came. Once the parts are gone, `came` stays as it was.
look() {
    local file length blocks sum=0 more=0 now=${EPOCHREALTIME/[.,]/} changed=
    while read -r file length blocks; do
        if [ "${stood[$file]:-}" != "$length $blocks" ]; then
            length=$((length < blocks * 512 + 4096 ? length : blocks * 512 + 4096))
            ((more += length > ${seen[$file]:-0} ? length - ${seen[$file]:-0} : 0))
            ((sum += length))
            seen[$file]=$length changed=yes
        fi
    done < <(parts)
    [ -n "$changed" ] && came=$sum
    speed=$((more * 1000000 / (now - looked + 1))) looked=$now
}

# A number of bytes as it is read: 999 bytes, 12.3 MB.
amount() {
    local bytes=$1 unit
    if ((bytes < 1000)); then echo "$bytes bytes"; return; fi
    for unit in kB MB GB TB; do
        if ((bytes < 1000000)); then echo "$((bytes / 1000)).$((bytes % 1000 / 100)) $unit"; return; fi
        bytes=$((bytes / 1000))
    done
}

# Whether this is what the terminal's keys go to; it then doesn't write over what somebody types.
in_front() {
    local about
    read -r about </proc/self/stat
    set -- ${about##*) }
    [ "$6" = -1 ] || [ "$3" = "$6" ]
}

hide() {
    [ -n "$line" ] && in_front && printf '\r\033[K' >&2
    line=
}

# Hands the program's texts on. While none comes it writes one line over, each second, with what has
# come; $1 is what stood at the start. It ends where the texts do, also where all else is killed.
show() {
    trap '' HUP INT QUIT TERM
    local LC_ALL=C text status line='' half='' came=0 speed looked=${EPOCHREALTIME/[.,]/}
    local file length blocks
    local -A stood seen
    while read -r file length blocks; do
        [ -n "$file" ] || continue
        stood[$file]="$length $blocks"
        seen[$file]=$((length < blocks * 512 + 4096 ? length : blocks * 512 + 4096))
    done <<<"$1"
    while :; do
        IFS= read -r -t 1 text
        status=$?
        [ "$status" = 0 ] && text+=$'\n'
        if [ -n "$text" ]; then
            hide
            printf '%s' "$text" >&2
            half=${text%%*$'\n'}
        elif [ "$status" -gt 128 ] && [ -z "$half" ] && in_front; then
            look
            line="dm: $(amount "$came"), $(amount "$speed")/s"
            printf '\r\033[K%s' "$line" >&2
        fi
        [ "$status" = 0 ] || [ "$status" -gt 128 ] || break
    done
    hide
}

# Only for somebody who waits at a terminal for what comes.
case ${1-} in get | resume) waits=yes ;; *) waits= ;; esac
[ -n "$waits" ] && [ -t 2 ] && [ -e /dev/fd/0 ] && [ -e /dev/fd/1 ] && command -v setpriv >/dev/null ||
    exec "$program" "$@"

# The texts go through `show`, so that none of them meets the line: also those on standard output
# where it is the same terminal. The program ends with this script: by each signal that this one is
# told, and where this one is killed.
before=$(parts)
coproc show "$before"
exec 8<&"${COPROC[0]}" 9>&"${COPROC[1]}" {COPROC[0]}<&- {COPROC[1]}>&-
child='' told=''
hand_on() {
    told=$1
    [ -z "$child" ] || kill -s "$1" "$child"
}
for signal in HUP INT QUIT USR1 USR2 ALRM TERM; do trap "hand_on $signal" "$signal"; done
out=1
[ /dev/fd/1 -ef /dev/fd/2 ] && out=9
(trap - INT QUIT; exec setpriv --pdeathsig KILL -- "$program" "$@") <&0 >&"$out" 2>&9 8<&- 9>&- &
child=$!
exec 9>&- 2>/dev/null
[ -z "$told" ] || kill -s "$told" "$child"
# `show` writes nothing here, and ends once the program has. Here and not in a `wait`, since one that
# a signal breaks off may lose the status.
while read -r -u 8; [ $? != 1 ]; do :; done
trap '' HUP INT QUIT USR1 USR2 ALRM TERM
wait "$child"
status=$?
# Where a signal ended the program it ends this script too. bash itself takes no QUIT.
if [ "$status" -gt 128 ]; then
    ulimit -c 0
    trap - HUP INT QUIT USR1 USR2 ALRM TERM
    type -P kill >/dev/null && exec kill "-$((status - 128))" $$
    kill "-$((status - 128))" $$
fi
exit "$status"
