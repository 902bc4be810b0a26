# Sourced in the repository's root, by the scripts that run proved programs on examples. They need rt and python3.

# there NAME..: ends, and says so, where there is no such example
there() {
    for name in "$@"; do
        [ -f "examples/$name.hex" ] || { echo "there is no examples/$name.hex" >&2; exit 2; }
    done
}

# on_program NAME: proves and builds the program crates/NAME/out/NAME of the present sources, and sets the array `run` to the words that run it.
# What rt has proved and built already, by the gate or by rt run, is not proved again. Else that takes minutes: desk/proving.py says where it is.
on_program() {
    program=crates/$1/out/$1
    if [ ! -x "$program" ] || [ -n "$(find crates crates.txt -name out -prune -o -type f -newer "$program" -print -quit)" ]; then
        for tool in rt python3; do
            command -v "$tool" >/dev/null || { echo "this needs $tool on the PATH" >&2; exit 2; }
        done
        echo "proving and building $program: that takes minutes, the first time" >&2
        python3 desk/proving.py "$1" || exit 1
    fi
    # the program is for x86-64: on another processor it runs under an emulator
    run=("$program")
    if [ "$(uname -m)" != x86_64 ]; then
        emulator=$(command -v qemu-x86_64) ||
            { echo "this machine is $(uname -m): the program needs qemu-x86_64 (Debian packages qemu-user and libc6-amd64-cross)" >&2; exit 2; }
        run=("$emulator" -L /usr/x86_64-linux-gnu "$program")
    fi
}

# bytes NAME: the sheet of examples/NAME.hex, where # starts a comment
bytes() {
    python3 -c '
import sys
text = "".join(line.split("#")[0] for line in open(sys.argv[1], encoding="utf-8"))
sys.stdout.buffer.write(bytes.fromhex(text))' "examples/$1.hex"
}
