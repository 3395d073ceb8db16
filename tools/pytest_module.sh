# shellcheck shell=bash
# What the tests by pytest want, for the tools beside this file and the gate, which source it. It is no tool.

# get_packages PACKAGE..: a machine of continuous integration gets these packages of Debian, where it may.
get_packages() {
    if [[ ${CI-} && $EUID -eq 0 ]] && command -v apt-get >/dev/null && ! dpkg -s "$@" >/dev/null 2>&1; then
        DEBIAN_FRONTEND=noninteractive timeout 600 bash -c \
            'apt-get update -qq && apt-get install -y -qq --no-install-recommends "$@"' bash "$@"
    fi >/dev/null 2>&1
}

# find_pytest: sets `python` to the Python that has pytest, or to nothing. Debian's own Python has Debian's packages.
find_pytest() {
    for python in /usr/bin/python3 python3; do
        ! "$python" -c 'import pytest' 2>/dev/null || return 0
    done
    python=
}
