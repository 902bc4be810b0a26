# Sourced by the gate and by the scripts of this folder: tools that may have to be installed.

# need COMMAND PACKAGE: install a Debian package where its command is missing
need() {
    command -v "$1" >/dev/null && return
    echo "installing $2 for $1" >&2
    { apt-get update && apt-get install -y --no-install-recommends "$2"; } >/dev/null ||
        { echo "this needs $1 (Debian package $2)" >&2; exit 2; }
}

# asked COMMAND..: tools that cannot be installed here
asked() {
    for tool in "$@"; do
        command -v "$tool" >/dev/null || { echo "this needs $tool on the PATH" >&2; exit 2; }
    done
}
