#!/usr/bin/env bash
# `make install`, `make dist` and `make uninstall` in an empty folder. The example in C is built and run there by pkg-config alone, with the shared library and
# with the archive; the header is read by C++; nothing else is installed, and nothing stays. Run at the top of the repository by `make install-test`.
set -eu
version=$(cat VERSION)
series=${version%.*}
work=$(mktemp -d)
trap 'rm -rf "$work"' EXIT
cp examples/c/standby.c examples/c/standby.out "$work"

fail() {
    echo "install-test: $1" >&2
    exit 1
}

# every file of an installed folder, and nothing else
listed() { # PREFIX
    local found expected
    found=$(cd "$1" && find . ! -type d | LC_ALL=C sort)
    expected=$(printf './%s\n' bin/tiedraw-inspect include/tiedraw.h lib/libtiedraw.a lib/libtiedraw.so "lib/libtiedraw.so.$series" "lib/libtiedraw.so.$version" lib/pkgconfig/tiedraw.pc)
    [ "$found" = "$expected" ] || fail "$1 has other files than it should: $found"
}

# the example, compiled with what pkg-config says and run: it prints what is stored
built() { # PREFIX NAME LINK..
    local prefix=$1 name=$2
    shift 2
    (cd "$work" && gcc -std=c99 -Wall -Wextra -pedantic -Werror -O2 $(pkg-config --cflags tiedraw) standby.c "$@" -o "$name" && ./"$name" > "$name.out")
    cmp "$work/$name.out" "$work/standby.out" || fail "the example with $prefix prints something else"
}

tried() { # PREFIX
    export PKG_CONFIG_PATH=$1/lib/pkgconfig
    listed "$1"
    [ "$(pkg-config --modversion tiedraw)" = "$version" ] || fail "pkg-config tells another version than $version"
    built "$1" shared $(pkg-config --libs tiedraw) -Wl,-rpath,"$(pkg-config --variable=libdir tiedraw)"
    readelf -d "$work/shared" | grep -q "NEEDED.*\[libtiedraw.so.$series\]" || fail "a client does not ask for libtiedraw.so.$series"
    built "$1" static $(pkg-config --libs-only-L tiedraw) -l:libtiedraw.a
    g++ -x c++ -std=c++11 -Wall -Wextra -pedantic -Werror -fsyntax-only $(pkg-config --cflags tiedraw) "$work/standby.c"
    [ "$(printf '\x00' | "$1/bin/tiedraw-inspect" | head -n 1)" = "verdict 0" ] || fail "the program does not run"
}

make --no-print-directory --silent install PREFIX=/opt/tie\ draw DESTDIR="$work/root"
mv "$work/root/opt/tie draw" "$work/moved" # pkg-config's file goes by its own place
tried "$work/moved"
mv "$work/moved" "$work/root/opt/tie draw"
make --no-print-directory --silent uninstall PREFIX=/opt/tie\ draw DESTDIR="$work/root"
[ -z "$(find "$work/root" ! -type d)" ] || fail "uninstall leaves files behind"
echo "installed, used from C and C++ by pkg-config, and uninstalled"

make --no-print-directory --silent dist > /dev/null
(cd target/dist && sha256sum --quiet -c ./*.sha256 && tar -C "$work" -xzf ./*.tar.gz)
tried "$work"/tiedraw-"$version"-linux-x86_64
echo "the tar of make dist has its checksum and serves as well"
