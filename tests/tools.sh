#!/bin/sh
# Looks for tools by their names: a line for each that is missing, with the Debian packages that it takes, and status 1.
#   tests/tools.sh rt gcc ..
#   tests/tools.sh --install rt gcc ..   where this is root on Debian, those packages are installed first

# The packages that a tool takes; none where Debian has it not, or not new enough.
packages() {
    case $1 in
    rt | cargo) ;;
    cc | gcc) echo gcc libc6-dev ;;
    nm | objdump) echo binutils ;;
    x86_64-linux-gnu-gcc) echo gcc-x86-64-linux-gnu libc6-dev-amd64-cross ;;
    x86_64-linux-gnu-g++) echo g++-x86-64-linux-gnu ;;
    x86_64-linux-gnu-nm | x86_64-linux-gnu-objdump) echo binutils-x86-64-linux-gnu ;;
    qemu-x86_64) echo qemu-user ;;
    *) echo "$1" ;;
    esac
}

is_missing() {
    ! command -v "$1" > /dev/null
}

if [ "$1" = --install ]; then
    shift
    wanted=
    for tool; do
        if is_missing "$tool"; then wanted="$wanted $(packages "$tool")"; fi
    done
    wanted=$(echo $wanted)
    if [ -n "$wanted" ] && [ -e /etc/debian_version ] && [ "$(id -u)" -eq 0 ]; then
        echo "installing $wanted"
        export DEBIAN_FRONTEND=noninteractive
        install="apt-get install -y -qq --no-install-recommends $wanted"
        $install > /dev/null 2>&1 || { apt-get update -qq && $install > /dev/null; }
    fi
fi

status=0
for tool; do
    is_missing "$tool" || continue
    case $tool in
    rt) has="the Rattle kit rattle-kit-13f, which is no Debian package" ;;
    cargo) has="Rust's own; Debian 12 has one that is too old" ;;
    *) has="Debian: $(packages "$tool")" ;;
    esac
    echo "missing: $tool ($has)" >&2
    status=1
done
exit "$status"
