#!/bin/sh
# Makes a release in a temporary folder and builds the C example against it, by pkg-config and by CMake, where these are at hand.
set -eu
here=$(cd "$(dirname "$0")/.." && pwd)
. "$here/tools/platform.sh"
temporary=$(mktemp -d)
trap 'rm -rf "$temporary"' EXIT
release=$temporary/release
"$here/tools/release" "$release" >"$temporary/said"
(cd "$release" && sha256sum --check --quiet SHA256SUMS)

# as_expected HOW
as_expected() {
    "$here/tools/run_x86_64" "$temporary/three_frames" >"$temporary/printed"
    diff "$here/examples/c/three_frames.expected" "$temporary/printed"
    echo "three_frames by $1: as expected"
}

by_pkg_config() {
    flags=$(PKG_CONFIG_PATH=$release/lib/pkgconfig pkg-config --cflags --libs fenhamper)
    # shellcheck disable=SC2086 # flags are words
    "${CC:-gcc}" -std=c11 -O2 "$here/examples/c/three_frames.c" $flags -o "$temporary/three_frames"
    as_expected pkg-config
}

by_cmake() {
    mkdir "$temporary/project"
    cat >"$temporary/project/CMakeLists.txt" <<CMAKE
cmake_minimum_required(VERSION 3.10)
project(three_frames C)
find_package(fenhamper REQUIRED PATHS $release NO_DEFAULT_PATH)
add_executable(three_frames $here/examples/c/three_frames.c)
target_link_libraries(three_frames fenhamper::fenhamper)
CMAKE
    cmake -S "$temporary/project" -B "$temporary/built" -DCMAKE_C_COMPILER="${CC:-gcc}" -DCMAKE_RUNTIME_OUTPUT_DIRECTORY="$temporary" >"$temporary/log" 2>&1 &&
        cmake --build "$temporary/built" >>"$temporary/log" 2>&1 || { cat "$temporary/log"; exit 1; }
    as_expected CMake
}

if command -v pkg-config >/dev/null; then by_pkg_config; else echo "release: no pkg-config here, not tried"; fi
if command -v cmake >/dev/null; then by_cmake; else echo "release: no cmake here, not tried"; fi
if "$here/tools/release" "$release" >"$temporary/said" 2>&1; then
    echo "release: a folder that is there was written over"
    exit 1
fi
