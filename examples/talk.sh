#!/bin/bash
# Talks to the editor through a coprocess of the shell:
#   examples/talk.sh joystick.bin examples/joystick.movie 60 frame60.ppm
# It prints the movie's length, shoots FRAME, replaces frames 30 to 34 by fire alone, shoots FRAME again, writes its picture,
# and lists the kept states.
top=$(CDPATH='' cd -- "$(dirname -- "$0")/.." && pwd) || exit 1
[ $# -eq 4 ] || { echo "usage: $0 CART MOVIE FRAME PICTURE" >&2; exit 2; }
"$top/tas" --version > /dev/null || exit 1
coproc TAS { exec "$top/tas" talk "$1" "$2"; }
editor=$TAS_PID
exec 3<&"${TAS[0]}" 4>&"${TAS[1]}"
# Where the editor has ended, its fault line says why.
trap '' PIPE

# ask LINE: sends a line and prints the first line of its answer
ask() {
    echo "$*" >&4 2> /dev/null
    IFS= read -r answer <&3 || exit 1
    echo "$answer"
}

ask len
ask shot "$3"
ask replace 30 5 ....F ..... .....
ask shot "$3"
ask picture "$3"
case $answer in
    picture*) head -c "${answer##* }" <&3 > "$4" ;;
    *) exit 1 ;;
esac
ask states
echo quit >&4
wait "$editor"
