#!/usr/bin/env bash
# Stock applications on a bus of ours under Xvfb: what a reader holds of each at the end, beside a walk by libatspi. Each application has a session of
# its own: Xvfb, a session bus with org.a11y.Bus, our bus, a registry, the application and the reader. What is not installed is said and left out.
# usage: bench/desktop.sh PROGRAM [OPTION..] [APPLICATION..]     PROGRAM is the built atspi; with no APPLICATION each that is installed
#   --reader PROGRAM   the program whose `read PATH ROUNDS` is the reader (PROGRAM)
#   --registry stock   at-spi2-registryd in place of `atspi registry`
#   --first            the reader is there before the application, else four seconds behind it
#   --capture FILE     what the application's bus carries, as a pcap of dbus-monitor (with --bus stock alone, since ours has no monitors)
#   --bus stock        dbus-daemon in place of `atspi bus`
#   --keep FOLDER      keeps what the reader wrote and what was walked
set -u
here=$(cd "$(dirname "$0")" && pwd)
program=$(readlink -f "${1:?the built program atspi}")
shift
reader=$program registry=ours bus=ours first= capture= keep=
while [ $# -gt 0 ]; do
    case $1 in
        --reader) reader=$(readlink -f "$2"); shift 2 ;;
        --registry) registry=$2; shift 2 ;;
        --bus) bus=$2; shift 2 ;;
        --first) first=yes; shift ;;
        --capture) capture=$(readlink -f "$2"); shift 2 ;;
        --keep) mkdir -p "$2"; keep=$(readlink -f "$2"); shift 2 ;;
        *) break ;;
    esac
done
known="zenity mousepad gedit gtk3-demo gtk3-widget-factory gtk4-widget-factory gnome-calculator assistant designer6 firefox"
for need in Xvfb dbus-daemon xprop xdotool; do
    command -v "$need" >/dev/null || { echo "desktop: no $need here (Debian: xvfb dbus-daemon x11-utils xdotool): nothing was tried"; exit 0; }
done
/usr/bin/python3 -c 'import gi; gi.require_version("Atspi", "2.0")' 2>/dev/null || {
    echo "desktop: no Atspi for Python here (Debian: gir1.2-atspi-2.0 python3-gi): nothing was tried"
    exit 0
}
py() { /usr/bin/python3 "$here/desktop.py" "$@"; }

# begin WORDS..: a program of this session, which lives two minutes at the most; its process is then in $!
begin() {
    timeout 120 "$@" >>"$room/log" 2>&1 &
    started+=("$!")
}
finish() {
    for it in "${started[@]}"; do kill "$it" 2>/dev/null; done
    sleep 0.3
    for it in "${started[@]}"; do kill -9 "$it" 2>/dev/null; done
    wait 2>/dev/null
    rm -rf "$room"
    started=()
}
started=() room=
trap '[ -z "$room" ] || finish' EXIT
trap 'exit 130' INT TERM
# until_there FILE: waits until a socket is there
until_there() { for _ in $(seq 100); do [ -S "$1" ] && return; sleep 0.05; done; }

# words_of APPLICATION: its command, or nothing where it is not installed; and the class of its window
words_of() {
    class=$1
    case $1 in
        zenity) words=(zenity --entry --text "Your name" --entry-text abc) ;;
        assistant) words=(/usr/lib/qt5/bin/assistant) class=assistant ;;
        designer6) words=(/usr/lib/qt6/bin/designer) class=designer ;;
        firefox) words=(firefox-esr --no-remote --profile "$room/profile" "file://$here/desktop.html") class=firefox ;;
        *) words=("$1") ;;
    esac
    command -v "${words[0]}" >/dev/null
}

start_session() {
    room=$(mktemp -d) started=()
    chmod 700 "$room"
    mkdir -p "$room/home" "$room/profile"
    unset AT_SPI_BUS_ADDRESS QT_LINUX_ACCESSIBILITY_ALWAYS_ON
    export HOME=$room/home XDG_RUNTIME_DIR=$room NO_AT_BRIDGE=0 GTK_MODULES=gail:atk-bridge GSK_RENDERER=cairo GNOME_ACCESSIBILITY=1
    export GDK_BACKEND=x11 QT_QPA_PLATFORM=xcb LIBGL_ALWAYS_SOFTWARE=1 DCONF_PROFILE=/dev/null GSETTINGS_BACKEND=memory
    address=unix:path=$room/bus
    exec {shown}<>"$room/display"
    Xvfb -displayfd "$shown" -screen 0 1280x1024x24 -noreset >/dev/null 2>&1 &
    started+=("$!")
    for _ in $(seq 100); do [ -s "$room/display" ] && break; sleep 0.05; done
    DISPLAY=:$(head -1 "$room/display")
    exec {shown}>&-
    export DISPLAY
    begin dbus-daemon --session --nofork --address="unix:path=$room/session"
    until_there "$room/session"
    export DBUS_SESSION_BUS_ADDRESS=unix:path=$room/session
    begin /usr/bin/python3 "$here/desktop.py" launcher "$address"
    if [ "$bus" = stock ]; then begin dbus-daemon --session --nofork --address="$address"; else begin "$program" bus "$room/bus" 1000000000; fi
    the_bus=$!
    until_there "$room/bus"
    if [ "$registry" = stock ]; then
        DBUS_SESSION_BUS_ADDRESS=$address AT_SPI_BUS_ADDRESS=$address begin /usr/libexec/at-spi2-registryd
    else
        begin "$program" registry "$room/bus" 1000000000
    fi
    xprop -root -f AT_SPI_BUS 8s -set AT_SPI_BUS "$address"
    sleep 0.5
}
# the environment that lets a toolkit find our bus
start_application() {
    case $1 in
        designer6 | firefox) begin "${words[@]}" ;;
        assistant) QT_LINUX_ACCESSIBILITY_ALWAYS_ON=1 begin "${words[@]}" ;;
        *) AT_SPI_BUS_ADDRESS=$address begin "${words[@]}" ;;
    esac
    the_application=$!
}
# until there is a window, half a minute at the most
until_shown() { for _ in $(seq 60); do [ -n "$(xdotool search --onlyvisible --class "$class" 2>/dev/null)" ] && return; sleep 0.5; done; }
start_reader() {
    timeout 120 "$reader" read "$room/bus" 1000000000 >"$room/read" 2>>"$room/log" &
    the_reader=$!
    started+=("$the_reader")
}
# a window of the application gets the focus of X, which has no window manager here; then keys
press_keys() {
    local window
    window=$(xdotool search --onlyvisible --class "$class" 2>/dev/null | tail -1)
    [ -n "$window" ] || return
    xdotool windowfocus "$window" 2>/dev/null
    sleep 0.5
    for key in Tab Tab shift+Tab; do xdotool key "$key"; sleep 0.3; done
    xdotool type --delay 60 "42"
    sleep 0.7
}
try_one() {
    start_session
    words_of "$1" || { echo "$1: ${words[0]} is not installed"; finish; return; }
    if [ -n "$capture" ]; then
        DBUS_SESSION_BUS_ADDRESS=$address timeout 120 dbus-monitor --address "$address" --pcap >"$capture" 2>/dev/null &
        started+=("$!")
        sleep 0.5
    fi
    [ -z "$first" ] || { start_reader; sleep 1; }
    start_application "$1"
    until_shown
    sleep 4
    [ -n "$first" ] || start_reader
    sleep 3
    press_keys
    kill -0 "$the_application" 2>/dev/null || echo "$1: the application has ended"
    AT_SPI_BUS_ADDRESS=$address py walk "$room/walk" 60 2>>"$room/log"
    sleep 0.5
    kill "$the_bus" 2>/dev/null
    wait "$the_reader" 2>/dev/null
    printf '%-20s ' "$1"
    py compare "$room/walk" "$room/read"
    if [ -n "$keep" ]; then
        for file in walk read log; do cp "$room/$file" "$keep/$1.$file" 2>/dev/null; done
    fi
    finish
}
[ $# -gt 0 ] || set -- $known
for one in "$@"; do try_one "$one"; done
