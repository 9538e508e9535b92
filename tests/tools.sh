# need COMMAND PACKAGE: installs Debian's PACKAGE where COMMAND is missing.
need() {
    command -v "$1" >/dev/null && return
    echo "installing Debian's package $2" >&2
    apt-get update >/dev/null && apt-get install -y --no-install-recommends "$2" >/dev/null
    command -v "$1" >/dev/null || { echo "test: $1 is missing and could not be installed"; exit 1; }
}
command -v rt >/dev/null || { echo "test: Rattle's command rt is missing"; exit 1; }
