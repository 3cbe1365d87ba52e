#!/usr/bin/env bash
# Tries what stands in desktop/: sessions that are ended in each way leave no process and no file behind; what a session
# has; tests of what is spoken, and what is said of wrong ones. What is not installed is said, and its part left out.
# usage: bench/session.sh PROGRAM [PART..]
# PROGRAM is the built atspi; a PART is statuses, endings, buses, displays, spoken, refused, heard or installed.
# The gate runs no scripts: run it after a change of desktop/. Status 0 where all is as it should be.
# shellcheck disable=SC2016
set -u
top=$(cd "$(dirname "$0")/.." && pwd)
ATSPI=$(readlink -f "${1:?the built program atspi}")
export ATSPI
shift
room=$(mktemp -d)
trap 'rm -rf "$room"' EXIT
mkdir "$room/tmp"
export TMPDIR=$room/tmp SESSION_TEST=$room
unset XDG_RUNTIME_DIR DISPLAY
PATH=$top/desktop:$PATH
cd "$room" || exit 2
failures=0

# run WORDS..: its status, output and standard error
run() {
    timeout 120 "$@" >out 2>err </dev/null
    status=$?
}
# begin_session WORDS..: a session in the background, once its command runs; its process is then in $session
begin_session() {
    rm -f begun
    env --default-signal session "$@" >out 2>err </dev/null &
    session=$!
    for _ in $(seq 400); do [ -e begun ] && return; sleep 0.05; done
}
end_session() {
    wait "$session" 2>/dev/null
    status=$?
}
# left: the processes that a session began and that still run, and its files
left() {
    local file
    env -u SESSION_TEST grep -lz "^SESSION_TEST=$room" /proc/[0-9]*/environ 2>/dev/null | while read -r file; do
        tr '\0' ' ' <"${file%environ}cmdline" 2>/dev/null && echo
    done
    find "$room/tmp" -mindepth 1
}
# want NAME STATUS OUT ERR: compares the last run with a status, its output, and a line of its standard error ('' for
# none); and nothing of it is left
want() {
    local wrong="" rest
    [ "$status" = "$2" ] || wrong+=" status $status"
    [ "$(cat out)" = "$3" ] || wrong+=" output"
    if [ -z "$4" ]; then [ ! -s err ] || wrong+=" stderr"; else grep -qF -- "$4" err || wrong+=" stderr"; fi
    for _ in 1 2 3 4 5; do
        rest=$(left)
        [ -n "$rest" ] || break
        sleep 0.1
    done
    [ -z "$rest" ] || wrong+=" left: $rest"
    if [ -n "$wrong" ]; then
        failures=$((failures + 1))
        echo "WRONG  $1:$wrong"
        tail -n 5 out err | sed 's/^/       /'
    else
        echo "as due $1"
    fi
}
# has NAME PACKAGE: whether that command is here; else that is said
has() {
    command -v "$1" >/dev/null && return
    echo "skipped what needs $1 (Debian: $2)"
    return 1
}
# child_of PROCESS NAME: its child of that name
child_of() { pgrep -P "$1" -x "$2" | head -n 1; }

statuses() {
    run session true
    want "a session ends behind its command" 0 "" ""
    run session sh -c 'exit 7'
    want "its status is the command's" 7 "" ""
    run session sh -c 'kill -9 $$'
    want "128 and the signal's number, where one ended it" 137 "" ""
    run session no-such-command
    want "a command that is not there" 127 "" "session: no-such-command: No such file"
    run session "$room"
    want "a command that cannot be run" 126 "" "Permission denied"
    run sh -c 'echo word | session cat'
    want "the command has the session's streams" 0 word ""
    run session
    want "no command" 125 "" "usage: session"
    run session --registry none true
    want "a registry that is not known" 125 "" "usage: session"
    run env ATSPI=/bin/false session true
    want "a program that is none" 125 "" "session: the bus ended with status 1"
    run env ATSPI=/no/program session true
    want "no program" 125 "" "session: /no/program: No such file"
    run env PATH=/nowhere "$top/desktop/session" true
    want "a tool that is not here is named, with its package" 125 "" "no dbus-daemon here (Debian: dbus-daemon)"
    run session sh -c 'sleep 1000 & setsid sleep 1000 & trap "" TERM; sleep 1000 & exit 3'
    want "what the command left running is ended" 3 "" ""
    run sh -c 'sleep 30 & echo $! >stranger; exec session sh -c "exit 4"'
    kill "$(cat stranger)" || status="the stranger was ended"
    want "what whoever became the session had left running is not" 4 "" ""
}

# each way to end a session while its command runs
endings() {
    local signal part number
    for signal in TERM:143 INT:130 HUP:129 QUIT:131; do
        begin_session sh -c ': >begun; exec sleep 1000'
        kill -"${signal%:*}" "$session"
        end_session
        want "${signal%:*} ends the command, and then the session" "${signal#*:}" "" ""
    done
    begin_session sh -c 'trap "" TERM; : >begun; while :; do sleep 1; done'
    kill "$session"
    end_session
    want "a command that ignores TERM is killed" 137 "" ""
    begin_session sh -c 'trap "exit 9" TERM; : >begun; while :; do sleep 0.1; done'
    kill "$session"
    end_session
    want "a command that answers TERM has its own status" 9 "" ""
    number=0
    for part in "the bus" "the session bus" "the registry" "the launcher"; do
        number=$((number + 1))
        begin_session sh -c ': >begun; exec sleep 1000'
        kill -9 "$(pgrep -P "$(pgrep -P "$session")" | sed -n ${number}p)"
        end_session
        want "a kill of $part ends the session" 125 "" "session: $part ended with status 137"
    done
    begin_session sh -c ': >begun; exec sleep 1000'
    kill -9 "$session"
    end_session
    sleep 1
    want "a kill of the session itself" 137 "" ""
    begin_session sh -c ': >begun; exec sleep 1000'
    kill -9 "$(pgrep -P "$session")"
    end_session
    want "a kill of its process that begins the parts" 125 "" "session: its own process was ended by signal 9"
    env --default-signal session touch begun >out 2>err &
    session=$!
    sleep 0.15
    kill "$session"
    end_session
    want "TERM while it begins" 143 "" ""
}

buses() {
    has gdbus libglib2.0-bin || return
    local call="gdbus call --session -d org.a11y.Bus -o /org/a11y/bus -m"
    run session sh -c "$call org.a11y.Bus.GetAddress | grep -cF \"('unix:path=\$ATSPI_BUS',)\""
    want "org.a11y.Bus tells the address" 0 1 ""
    run session sh -c "$call org.freedesktop.DBus.Properties.GetAll org.a11y.Status"
    want "org.a11y.Status is there" 0 "({'IsEnabled': <true>, 'ScreenReaderEnabled': <true>},)" ""
    run session sh -c "timeout 2 gdbus monitor --session -d org.a11y.Bus >told & sleep 0.5
        $call org.freedesktop.DBus.Properties.Set org.a11y.Status IsEnabled '<false>' >/dev/null; wait
        grep -o \"PropertiesChanged (.*\" told"
    want "a change is told" 0 "PropertiesChanged ('org.a11y.Status', {'IsEnabled': <false>}, @as [])" ""
    run session sh -c 'gdbus call --address "unix:path=$ATSPI_BUS" -d org.freedesktop.DBus -o /org/freedesktop/DBus \
        -m org.freedesktop.DBus.NameHasOwner org.a11y.atspi.Registry'
    want "the registry is on the bus" 0 "(true,)" ""
    if [ -x /usr/libexec/at-spi2-registryd ]; then
        run session --registry stock sh -c 'pgrep -c at-spi2-regist'
        want "the stock registry takes its place" 0 1 ""
    fi
    run session sh -c 'session --here'
    want "org.a11y.Bus of a session is not taken away" 125 "" "org.a11y.Bus has another owner"
    here_on_a_stock_bus
}

# here_begun: a session on the session bus that is there, which answers
here_begun() {
    DBUS_SESSION_BUS_ADDRESS=unix:path=$room/stock session --here >out 2>err &
    session=$!
    for _ in $(seq 200); do [ -s "$(echo "$room"/tmp/*/ready)" ] && break; sleep 0.05; done
}
# sessions on a session bus that is there, with at-spi-bus-launcher on it already, where that is installed
here_on_a_stock_bus() {
    local address=unix:path=$room/stock launcher=/usr/libexec/at-spi-bus-launcher stock stranger=
    env -u SESSION_TEST dbus-daemon --session --nofork --address="$address" >stock-log 2>&1 &
    stock=$!
    for _ in $(seq 100); do [ -S "$room/stock" ] && break; sleep 0.05; done
    if [ -x "$launcher" ]; then
        DBUS_SESSION_BUS_ADDRESS=$address env -u SESSION_TEST "$launcher" >stock-log 2>&1 &
        stranger=$!
        sleep 0.5
    fi
    here_begun
    DBUS_SESSION_BUS_ADDRESS=$address gdbus call --session -d org.a11y.Bus -o /org/a11y/bus \
        -m org.a11y.Bus.GetAddress >told
    kill "$session"
    end_session
    grep -o "$room/tmp/atspi-.*/a11y" told | sed 's/atspi-[^/]*/atspi/' >out
    want "it takes the name where at-spi-bus-launcher has it" 0 "$room/tmp/atspi/a11y" ""
    here_begun
    kill "$stock"
    end_session
    want "and ends with the session bus" 0 "" ""
    [ -z "$stranger" ] || kill "$stranger" 2>/dev/null
}

# the X property, with displays of Xvfb
displays() {
    has Xvfb xvfb && has xprop x11-utils || return
    run session --xvfb sh -c 'xprop -root AT_SPI_BUS | grep -cF "\"unix:path=$ATSPI_BUS\""'
    want "the display tells the bus" 0 1 ""
    run session --xvfb sh -c 'outer=$ATSPI_BUS
        session sh -c '\''xprop -root AT_SPI_BUS | grep -cF "\"unix:path=$ATSPI_BUS\""'\''
        xprop -root AT_SPI_BUS | grep -cF "\"unix:path=$outer\""'
    want "a session on a display that is there gives back what it told" 0 $'1\n1' ""
    run session --xvfb sh -c 'xprop -root -remove AT_SPI_BUS; session true; xprop -root AT_SPI_BUS'
    want "  or removes it" 0 "AT_SPI_BUS:  not found." ""
    begin_session --xvfb sh -c 'echo $DISPLAY >begun; exec sleep 1000'
    kill -9 "$(child_of "$(pgrep -P "$session")" Xvfb)"
    end_session
    want "a kill of Xvfb ends the session" 125 "" "session: Xvfb ended with status 137"
    run ls "/tmp/.X11-unix/X$(tr -d : <begun)"
    want "  and its socket is gone" 2 "" "No such file"
}

# spoken_as NAME: runs a copy of a test of desktop/tests, and stores it anew from its lines without what is expected
spoken_as() {
    local begun=$SECONDS
    cp "$top/desktop/tests/$1".* .
    run speak-test "$1.speak"
    grep -q "^$1.speak: as expected, " out && sed -i 's/, .*//' out
    want "$1 is spoken as expected, in $((SECONDS - begun)) s" 0 "$1.speak: as expected" ""
    grep -v "^say " "$1.speak" >bare.speak
    run speak-test -u bare.speak
    want "  and stored anew" 0 "bare.speak: stored anew" ""
    cmp bare.speak "$1.speak"
}
# shows TEXT: the output has this line; the rest is left out
shows() {
    grep -xF -- "$1" out >line
    mv line out
}
spoken() {
    has Xvfb xvfb && has xdotool xdotool && has xwininfo x11-utils || return
    spoken_as app
    sed 's/typed: d/typed: x/' app.speak >other.speak
    run speak-test other.speak
    shows '-say "typed: x"'
    want "a line that differs is shown" 1 '-say "typed: x"' ""
    printf '%s\n' "window none" "patience 2" "$(grep ^run app.speak)" 'wait spoken "never"' >other.speak
    run speak-test other.speak
    shows "no such line"
    want "a line that is waited for and never spoken" 1 "" 'other.speak:4: "never" was not spoken in 2 s'
    printf '%s\n' "patience 1" "run sh -c 'echo sorry; exit 1'" >other.speak
    run speak-test other.speak
    shows "no such line"
    want "an application that has no window" 1 "" "other.speak:2: no window came in 6 s"
    printf '%s\n' "run no-such-command" >other.speak
    run speak-test other.speak app.speak
    sed -i 's/, .*//' out
    want "one that is not there, beside a good test" 2 $'other.speak: not run\napp.speak: as expected' \
        "other.speak:1: no-such-command: No such file"
    # (once its reader speaks)
    timeout 60 speak-test app.speak >out 2>err &
    session=$!
    sleep 4
    kill "$(pgrep -P "$session" -f speak-test)"
    end_session
    want "TERM ends a test" 143 "" ""
    has zenity zenity && spoken_as zenity
    has zenity zenity && [ -x /usr/libexec/at-spi2-registryd ] && spoken_as typing
    has gtk4-widget-factory gtk-4-examples && spoken_as gtk4
}

# refuses NAME LINES ERR: a test file that is wrong
refuses() {
    printf '%b' "$2" >wrong.speak
    run speak-test wrong.speak
    sed -i 's/, .*//' out
    want "$1" 2 "wrong.speak: not run" "wrong.speak:$3"
}
# what is said of wrong test files, and of tools that are not here
refused() {
    has Xvfb xvfb && has xdotool xdotool && has xwininfo x11-utils || return
    refuses "no application" '# nothing\n' "1: no \`run\`"
    refuses "another word" 'run a\npress Tab\n' "2: no such line as \`press\`"
    refuses "blanks in front" ' run a\n' "1: no such line"
    refuses "a setting behind run" 'run a\nregistry stock\n' "2: \`registry\` stands once, before \`run\`"
    refuses "a setting again" 'patience 2\npatience 3\nrun a\n' "2: \`patience\` stands once"
    refuses "another registry" 'registry none\nrun a\n' "1: \`registry\` has ours or stock behind it"
    refuses "no patience" 'patience 0\nrun a\n' "1: \`patience\` has 1 to 999 behind it"
    refuses "another window" 'window two\nrun a\n' "1: \`window\` has none behind it"
    refuses "another reader" 'reader last\nrun a\n' "1: \`reader\` has first behind it"
    refuses "a key before the application" 'key Tab\nrun a\n' "1: \`run\` stands once, before all else"
    refuses "two applications" 'run a\nrun b\n' "2: \`run\` stands once"
    refuses "no command" 'run \n' "1: \`run\` has a command behind it"
    refuses "a quote that is not closed" 'run a "b\n' "1: words as of a shell"
    refuses "keys without a window" 'window none\nrun a\nkey Tab\n' "3: no \`key\` without a window"
    refuses "two keys" 'run a\nkey Tab Tab\n' "2: \`key\` has one word"
    refuses "nothing to type" 'run a\ntype ""\n' "2: \`type\` has one word"
    refuses "words behind close" 'run a\nclose it\n' "2: \`close\` has nothing behind it"
    refuses "a wait before the application" 'wait 1\nrun a\n' "1: \`wait\` before \`run\`"
    refuses "another wait" 'run a\nwait long\n' "2: \`wait\` has spoken"
    refuses "a text without quotes" 'run a\nsay b\n' "2: a text stands in quotes"
    refuses "an escape that is none" 'run a\nsay "\\n"\n' "2: a text stands in quotes"
    refuses "what is no UTF-8" 'run \xff\n' "1: it is not UTF-8"
    run speak-test no.speak
    sed -i 's/, .*//' out
    want "no file" 2 "no.speak: not run" "no.speak: No such file"
    run speak-test
    want "no words" 2 "" "usage: speak-test"
    run env PATH=/nowhere "$top/desktop/speak-test" wrong.speak
    want "a tool that is not here" 2 "" "speak-test: no xdotool here (Debian: xdotool)"
    printf '%s\n' "window none" "$(grep ^run "$top/desktop/tests/app.speak")" >wrong.speak
    cp "$top/desktop/tests/app.edits" .
    run env ATSPI=/bin/false speak-test wrong.speak
    sed -i 's/, .*//' out
    want "no session" 2 "wrong.speak: not run" "session: the bus ended with status 1"
}

# a command of that name, which writes its words, and ends with a status
stub() { printf '#!/bin/sh\necho %s "$@"\nexit %s\n' "$1" "$2" >"stubs/$1" && chmod +x "stubs/$1"; }
heard() {
    mkdir stubs && ln -s /usr/bin/env stubs/env
    printf '%s\n' 'say :1.2 "OK, push button"' 'show :1.2 0' 'say :1.2 "\x0a\"a\" \\ b\x07c"' >lines
    stub spd-say 0
    stub espeak-ng 0
    run sh -c 'PATH=$PWD/stubs "$0"/desktop/hear -l de <lines | grep -v "^say\|^show"' "$top"
    want "spd-say speaks, with the words that were given" 0 "$(printf '%s\n' 'spd-say --wait -l de -- OK, push button' \
        'spd-say --wait -l de -- "a" \ b c')" ""
    run sh -c 'PATH=$PWD/stubs "$0"/desktop/hear <lines | grep "^say\|^show"' "$top"
    want "what was read is written" 0 "$(cat lines)" ""
    stub spd-say 1
    run sh -c 'PATH=$PWD/stubs "$0"/desktop/hear <lines | grep "^espeak"' "$top"
    want "where it fails, espeak-ng does" 0 "$(printf '%s\n' 'espeak-ng -- OK, push button' 'espeak-ng -- "a" \ b c')" \
        "hear: spd-say ended with status 1"
    rm stubs/spd-say stubs/espeak-ng
    run sh -c 'PATH=$PWD/stubs "$0"/desktop/hear <lines' "$top"
    want "where neither is there, both are named" 2 "" "hear: neither spd-say nor espeak-ng is here (Debian: speech-"
    run sh -c 'HEAR=/no/command "$0"/desktop/hear <lines | tail -n 1; exit "${PIPESTATUS-2}"' "$top"
    want "a command that is not there" 2 'say :1.2 "OK, push button"' "hear: /no/command"
}

# a prefix: its commands, what systemd says of its units, and a session bus that starts it
installed() {
    local prefix=$room/prefix
    run "$top/desktop/install" "$prefix"
    want "no program in the prefix" 73 "" "prefix/bin/atspi is not there"
    mkdir -p "$prefix/bin" "$prefix/share/man/man1" && cp "$ATSPI" "$prefix/bin"
    cp "$top/docs/atspi.1" "$prefix/share/man/man1"
    run "$top/desktop/install" "$prefix"
    want "the commands are installed" 0 "" "installed into $prefix"
    run env -u ATSPI "$prefix/bin/atspi-session" sh -c 'echo "$ATSPI"'
    want "  and have the program of their prefix" 0 "$prefix/bin/atspi" ""
    if has systemd-analyze systemd; then
        mkdir -p runtime
        run env XDG_RUNTIME_DIR="$room/runtime" MANPATH="$prefix/share/man" \
            systemd-analyze verify --user "$prefix"/share/systemd/user/*.service
        want "systemd takes the units" 0 "" ""
    fi
    has gdbus libglib2.0-bin && activated "$prefix"
    run "$top/desktop/install" --remove "$prefix"
    want "they are removed" 0 "" "removed from $prefix"
    run sh -c 'cd "$0" && find . -type f -o -type l | sort' "$prefix"
    want "  to the last one" 0 $'./bin/atspi\n./share/man/man1/atspi.1' ""
}
activated() {
    local address=unix:path=$room/stock stock
    env -u SESSION_TEST -u ATSPI XDG_DATA_HOME="$1/share" TMPDIR="$TMPDIR" \
        dbus-daemon --session --nofork --address="$address" >stock-log 2>&1 &
    stock=$!
    for _ in $(seq 100); do [ -S "$room/stock" ] && break; sleep 0.05; done
    DBUS_SESSION_BUS_ADDRESS=$address run gdbus call --session -d org.a11y.Bus -o /org/a11y/bus \
        -m org.a11y.Bus.GetAddress
    sed -i 's/atspi-[^/]*/atspi/' out
    kill "$stock"
    sleep 2
    want "a session bus starts it where it is asked for" 0 "('unix:path=$room/tmp/atspi/a11y',)" ""
}

for need in dbus-daemon:dbus-daemon pgrep:procps; do
    has "${need%:*}" "${need#*:}" || { echo "nothing was tried"; exit 0; }
done
/usr/bin/python3 -c 'from gi.repository import Gio' 2>/dev/null || {
    echo "no GLib for Python here (Debian: python3-gi): nothing was tried"
    exit 0
}
[ $# -gt 0 ] || set -- statuses endings buses displays spoken refused heard installed
for part; do
    case $part in
    statuses | endings | buses | displays | spoken | refused | heard | installed) "$part" ;;
    *) echo "no part $part" && exit 2 ;;
    esac
done
[ "$failures" -eq 0 ] && echo "all as it should be" || echo "$failures wrong"
[ "$failures" -eq 0 ]
