#!/usr/bin/env bash
# Makes the picture docs/waves.png: GTKWave shows what `waves` writes of examples/uart.koika. No screen is needed, but
# gtkwave and Xvfb (Debian's packages gtkwave and xvfb). It is run by hand:
#
#     bench/waves_picture.sh [FILE]
#
# KOIKA names another program than ./koika.
set -eu
cd "$(dirname "$0")/.."
koika=${KOIKA:-./koika}
picture=$(realpath "${1:-docs/waves.png}")

for tool in gtkwave Xvfb; do
    command -v "$tool" >/dev/null || {
        echo "waves_picture.sh: nothing is made, since $tool isn't installed"
        exit 0
    }
done
room=$(mktemp -d)
screen='' viewer=''
leave() {
    [ -z "$viewer" ] || kill "$viewer" 2>/dev/null || :
    [ -z "$screen" ] || kill "$screen" 2>/dev/null || :
    rm -rf "$room"
}
trap leave EXIT

"$koika" waves --cycles 24 <examples/uart.koika >"$room/uart.vcd"

# Without the tree of names; each signal by its own name; then the window as a picture.
cat >"$room/rc" <<'END'
hide_sst 1
initial_window_x 960
initial_window_y 420
initial_window_xpos 0
initial_window_ypos 0
END
cat >"$room/view.tcl" <<'END'
set signals [list]
foreach {scope names} {inputs {send data} registers {state shift count half line} rules {accept wait advance}} {
    foreach name $names { lappend signals design.$scope.$name }
}
gtkwave::addSignalsFromList [linsert $signals 0 design.clk]
gtkwave::/Edit/UnHighlight_All
gtkwave::/Edit/Set_Trace_Max_Hier 1
gtkwave::/Time/Zoom/Zoom_Full
after 2000 { gtkwave::/File/Grab_To_File picture.png; after 500 { exit } }
END

# Xvfb takes a display that is free, and says which.
Xvfb -displayfd 3 -screen 0 1024x540x24 -nolisten tcp 3>"$room/display" 2>"$room/said" &
screen=$!
for _ in $(seq 100); do
    [ ! -s "$room/display" ] || break
    sleep 0.2
done
[ -s "$room/display" ] || {
    cat "$room/said"
    exit 1
}
(cd "$room" && DISPLAY=:$(cat display) exec timeout 120 gtkwave -r rc -T view.tcl uart.vcd >said 2>&1) &
viewer=$!
wait "$viewer" || :
viewer=''
[ -s "$room/picture.png" ] || {
    cat "$room/said"
    echo "waves_picture.sh: GTKWave made no picture"
    exit 1
}
cp "$room/picture.png" "$picture"
echo "$picture: $(wc -c <"$picture") bytes"
