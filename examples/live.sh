#!/usr/bin/env bash
# A bus, the registry and a reader in one terminal, and what a stock client sees of them. With zenity and Xvfb installed (Debian packages) a real
# application joins, and the reader speaks it. The bus is dbus-daemon where PROGRAM has no bus. Ends by itself within half a minute.
# usage: examples/live.sh PROGRAM      PROGRAM is the built atspi
set -u
program=${1:?the built program atspi}
room=$(mktemp -d)
started=()
stop() {
    for it in "${started[@]}"; do kill "$it" 2>/dev/null; done
    wait 2>/dev/null
    rm -rf "$room"
}
trap stop EXIT
# start WORDS..: a program that lives at most half a minute
start() {
    timeout 30 "$@" &
    started+=($!)
}
bus=$room/bus
# children: the applications that the registry knows
children() {
    timeout 5 gdbus call --session -d org.a11y.atspi.Registry -o /org/a11y/atspi/accessible/root -m org.a11y.atspi.Accessible.GetChildren
}

echo "== the bus listens"
if "$program" | grep -q ' bus,'; then
    start "$program" bus "$bus" 1000000000
else
    start dbus-daemon --session --nofork --address="unix:path=$bus"
fi
for _ in $(seq 100); do [ -S "$bus" ] && break; sleep 0.1; done

echo "== the registry joins it"
start "$program" registry "$bus" 1000000000
sleep 0.5

export DBUS_SESSION_BUS_ADDRESS=unix:path=$bus AT_SPI_BUS_ADDRESS=unix:path=$bus
if command -v zenity >/dev/null && command -v Xvfb >/dev/null && command -v gdbus >/dev/null; then
    echo "== an application joins: a dialogue of zenity"
    export DISPLAY=:79 NO_AT_BRIDGE=0 GTK_MODULES=gail:atk-bridge XDG_RUNTIME_DIR=$room HOME=$room
    start Xvfb "$DISPLAY" -screen 0 640x480x24 >/dev/null 2>&1
    for _ in $(seq 100); do [ -S /tmp/.X11-unix/X79 ] && break; sleep 0.1; done
    timeout 12 zenity --entry --text "Your name" >/dev/null 2>&1 &
    application=$!
    for _ in $(seq 20); do children | grep -q "':1" && break; sleep 0.3; done
fi

echo "== a reader joins"
start "$program" read "$bus" 1000000000
sleep 1
if command -v gdbus >/dev/null; then
    echo "== names on the bus, as gdbus sees them"
    timeout 5 gdbus call --session -d org.freedesktop.DBus -o /org/freedesktop/DBus -m org.freedesktop.DBus.ListNames
    echo "== the registry's children"
    children
    echo "== the events that the reader asked the registry for"
    timeout 5 gdbus call --session -d org.a11y.atspi.Registry -o /org/a11y/atspi/registry -m org.a11y.atspi.Registry.GetRegisteredEvents
fi
if [ -n "${application-}" ]; then
    echo "== the application ends, and the reader speaks it"
    wait "$application"
    sleep 1
fi
echo "== all of it ends"
