#!/bin/sh
# setup.sh: builds the original Rust, unchanged, as a library for x86-64, and runs its smoke test.
#
# HUGINN_SRC      the folder that holds huginn-net-tcp/ and huginn-net-db/ (default ../shared/docs/src,
#                 seen from the root of this repository)
# ORIGINAL_CACHE  where all that is fetched and built goes (default ~/.cache/huginn-original)
#
# For Debian 12. Four packages are installed (as root, if they are missing); everything else is
# unpacked in the cache. Mirrors are those that apt is configured for; nothing is written to /etc.
# What it needs and cannot have is said, with status 2.
set -eu

refuse() {
    echo "tools/original/setup.sh: $1" >&2
    exit 2
}

[ $# = 0 ] || refuse "usage: tools/original/setup.sh, by HUGINN_SRC and ORIGINAL_CACHE"
for command in dpkg apt-get; do command -v $command >/dev/null || refuse "it needs Debian's $command"; done
here=$(cd "$(dirname "$0")" && pwd)
src=${HUGINN_SRC:-$here/../../../shared/docs/src}
cache=${ORIGINAL_CACHE:-${XDG_CACHE_HOME:-$HOME/.cache}/huginn-original}
native=$(dpkg --print-architecture)
keys=/usr/share/keyrings/debian-archive-keyring.gpg
[ -f "$keys" ] || refuse "it needs Debian's keys, $keys (package debian-archive-keyring)"

# 1. The original's text: exactly the files that original.sha256 names.
[ -d "$src" ] || refuse "there is no folder $src: set HUGINN_SRC to the one that holds huginn-net-tcp/ and huginn-net-db/"
src=$(cd "$src" && pwd)
(cd "$src" && sha256sum --quiet -c "$here/original.sha256") || refuse "$src (HUGINN_SRC) is not the text that was compared"
mkdir -p "$cache/bin" "$cache/lib"

# 2. A linker and C library for x86-64, and the emulator.
case $native in
amd64) packages='gcc libc6-dev' ;;
*) packages='gcc gcc-x86-64-linux-gnu libc6-dev-amd64-cross qemu-user' ;;
esac
missing=''
for p in $packages; do
    dpkg -s "$p" 2>/dev/null | grep -q '^Status: install ok installed' || missing="$missing $p"
done
if [ -n "$missing" ]; then
    [ "$(id -u)" = 0 ] || refuse "it needs Debian's packages$missing: let root run 'apt-get install$missing'"
    export DEBIAN_FRONTEND=noninteractive
    apt-get install -y --no-install-recommends $missing || { apt-get update && apt-get install -y --no-install-recommends $missing; } ||
        refuse "$missing could not be installed"
fi

# apt_in FOLDER WORDS..: apt-get with its sources, lists and cache in FOLDER
apt_in() {
    folder=$1
    shift
    mkdir -p "$folder/lists/partial" "$folder/archives/partial"
    apt-get -qq -o Dir::Etc::sourcelist="$folder/sources.list" -o Dir::Etc::sourceparts=- -o Dir::State="$folder" \
        -o Dir::Cache="$folder" -o APT::Sandbox::User=root "$@"
}
# names_in FOLDER WORDS..: the packages that installing WORDS would fetch
names_in() {
    folder=$1
    shift
    apt_in "$folder" install --print-uris -y --no-install-recommends "$@" | sed -n "s/^'[^']*' \([^_]*\)_.*/\1/p"
}
# fetch FOLDER TARGET PACKAGE..: downloads packages and unpacks them into TARGET, all or nothing
fetch() {
    folder=$1 target=$2
    shift 2
    rm -rf "$folder/deb" "$target.part"
    mkdir -p "$folder/deb" "$target.part"
    (cd "$folder/deb" && apt_in "$folder" download "$@")
    for d in "$folder"/deb/*.deb; do dpkg -x "$d" "$target.part"; done
    (cd "$folder/deb" && ls) >"$target.packages"
    mv "$target.part" "$target"
    rm -rf "$folder"
}
mirrors=$(apt-get update --print-uris | sed -n "s,^'\(.*\)/dists/\([^']*\)/InRelease'.*,\1 \2,p")

# 3. rustc and cargo of this release (Debian's web builds, the newest it has), for this machine and x86-64.
if [ ! -d "$cache/rust" ]; then
    apt=$cache/apt-rust
    mkdir -p "$apt"
    echo "$mirrors" | while read -r site suite; do
        echo "deb [arch=$native,amd64 signed-by=$keys] $site $suite main"
    done >"$apt/sources.list"
    apt_in "$apt" update
    closure=$(names_in "$apt" cargo-web)
    fetch "$apt" "$cache/rust" $(printf '%s\n' $closure cargo-web rustc-web libstd-rust-web-dev libstd-rust-web-dev:amd64 | sort -u)
fi

# 4. The crates, as source, from Debian unstable.
if [ ! -d "$cache/crates" ]; then
    apt=$cache/apt-crates
    mkdir -p "$apt"
    site=$(echo "$mirrors" | grep -v security | head -1 | cut -d' ' -f1)
    echo "deb [signed-by=$keys] $site unstable main" >"$apt/sources.list"
    : >"$apt/status"
    apt_in "$apt" update
    closure=$(names_in "$apt" -o Dir::State::status="$apt/status" librust-pnet-packet-dev librust-nom-dev librust-thiserror-dev \
        librust-tracing-dev)
    fetch "$apt" "$cache/crates" librust-pnet-dev $(echo "$closure" | grep '^librust-')
fi
[ -d "$cache/crates/usr/share/cargo/registry/pnet_packet-0.35.0" ] || refuse "unstable gave no pnet_packet 0.35.0"

# 5. rustc and cargo as commands. The cross libm.a is a script that names a folder of another machine,
#    so a link to the library itself stands before it.
ln -sf "$(ls /usr/x86_64-linux-gnu/lib/libm-*.a /usr/lib/x86_64-linux-gnu/libm-*.a 2>/dev/null | head -1)" "$cache/lib/libm.a"
libraries=$cache/rust/usr/lib/$(gcc -print-multiarch)
cat >"$cache/bin/rustc" <<END2
#!/bin/sh
exec env LD_LIBRARY_PATH=$libraries $cache/rust/usr/bin/rustc --sysroot $cache/rust/usr "\$@"
END2
cat >"$cache/bin/cargo" <<END2
#!/bin/sh
exec env -u RUSTFLAGS CARGO_HOME=$cache/cargo LD_LIBRARY_PATH=$libraries $cache/rust/usr/bin/cargo "\$@"
END2
chmod +x "$cache/bin/rustc" "$cache/bin/cargo"

# 6. The project: links to the original's files, to the stand-ins and to the oracle. A stand-in never
#    takes the place of a file of the original: cp refuses a link that is already there.
project=$cache/project
rm -rf "$project"
mkdir -p "$project/.cargo"
cp -rs "$here/standins/." "$here/oracle" "$project/"
cp -rs "$src/huginn-net-tcp" "$src/huginn-net-db" "$project/"
cat >"$project/.cargo/config.toml" <<END2
[source.crates-io]
replace-with = "debian"
[source.debian]
directory = "$cache/crates/usr/share/cargo/registry"
[net]
offline = true
[build]
rustc = "$cache/bin/rustc"
target = "x86_64-unknown-linux-gnu"
target-dir = "$cache/target"
[target.x86_64-unknown-linux-gnu]
linker = "x86_64-linux-gnu-gcc"
rustflags = ["-Ctarget-feature=+crt-static", "-Crelocation-model=static", "-Lnative=$cache/lib"]
END2
[ "$native" = amd64 ] || echo 'runner = "qemu-x86_64"' >>"$project/.cargo/config.toml"

# 7. Build and try.
cd "$project"
"$cache/bin/cargo" build -q --release -j "${JOBS:-1}"
"$cache/bin/cargo" run -q --release --bin smoke
echo "library: $cache/target/x86_64-unknown-linux-gnu/release/liboracle.a, header: $here/oracle/original.h"
