# For `./check` and `./test`: finds the tools that the tests need, and installs what is missing, as root on Debian by apt-get; else
# Python's packages from PyPI, into a virtual environment outside the repository. Sets `python`.
venv=${XDG_CACHE_HOME:-$HOME/.cache}/texting_robots/venv
needed='pytest tomllib xdist' for_python='aiohttp cffi distributed jsonschema mypy pip scrapy setuptools wheel'
packages=(gcc libc6-dev make mypy python3-{aiohttp,cffi,dev,distributed,jsonschema,pip,pytest,pytest-xdist,scrapy,setuptools,venv,wheel})

# Sets `python` to a Python that has these modules, if there is one beside a C compiler.
find_tools() {
    local has='import sys; from importlib.util import find_spec; sys.exit(not all(map(find_spec, sys.argv[1:])))'
    command -v "${CC:-cc}" > /dev/null && command -v make > /dev/null || return
    for python in python3 "$venv/bin/python3" /usr/bin/python3; do
        "$python" -c "$has" "$@" 2> /dev/null && return
    done
    return 1
}

missing=()
for it in cargo chromium musl-gcc:musl-tools wasm-opt:binaryen node:nodejs tsc:node-typescript; do
    command -v "${it%:*}" > /dev/null || missing+=("${it#*:}")
done
for it in anyhow url; do compgen -G "/usr/share/cargo/registry/$it-[0-9]*" > /dev/null || missing+=("librust-$it-dev"); done
packages+=("${missing[@]}")
# shellcheck disable=SC2086 # lists of words
{ [ ${#missing[@]} = 0 ] && find_tools $needed $for_python; } \
    || { [ "$(id -u)" = 0 ] && apt-get -q update && apt-get -qy install --no-install-recommends "${packages[@]}" && find_tools $needed $for_python; } \
    || find_tools $needed $for_python \
    || { python3 -m venv "$venv" && "$venv/bin/pip" install -q --retries 0 pytest pytest-xdist $for_python && find_tools $needed $for_python; } \
    || find_tools $needed \
    || { printf 'pytest, a C compiler or make is missing: apt-get install %s\n0 passed, 1 failed\n' "${packages[*]}"; exit 2; }
