# shellcheck shell=bash
# Read by the script 'windlassow': what the host tests need beside the Rattle kit.

# The Debian packages of what is missing. The host packages are of edition 2024, which cargo knows from 1.85 on; Debian's package with
# that version is cargo-web.
missing_packages() {
    local version missing=
    version=$(cargo --version 2>/dev/null | cut -d ' ' -f 2)
    printf '1.85\n%s\n' "${version:-0}" | sort -V -C || missing="$missing cargo-web"
    command -v cc >/dev/null 2>&1 || missing="$missing gcc"
    [ -e /usr/include/zfp.h ] || has_zfp || missing="$missing libzfp-dev"
    echo "${missing# }"
}

# Whether the C compiler finds libzfp's header.
has_zfp() {
    command -v cc >/dev/null 2>&1 && echo '#include <zfp.h>' | cc -E - >/dev/null 2>&1
}

# Installs what is missing, or says what to install and ends.
need_host_tools() {
    local missing
    missing=$(missing_packages)
    [ -n "$missing" ] || return 0
    echo "windlassow: the host tests need these packages of Debian, which are missing: $missing" >&2
    if [ "$(id -u)" != 0 ] || ! command -v apt-get >/dev/null 2>&1; then
        echo "windlassow: install them, as root: apt-get install $missing" >&2
        exit 2
    fi
    echo "windlassow: installing them" >&2
    # shellcheck disable=SC2086
    in_group install_packages $missing >&2
    missing=$(missing_packages)
    if [ -n "$missing" ]; then
        echo "windlassow: could not install $missing" >&2
        exit 2
    fi
}

install_packages() {
    export DEBIAN_FRONTEND=noninteractive
    apt-get -qq update
    apt-get -qq install -y "$@"
}
