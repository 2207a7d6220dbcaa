#!/bin/sh
# Stages the original plotters 0.3.7 files, this folder's stubs and program,
# and Debian's plotters-backend 0.3.4, then builds offline.
#   sh build.sh PLOTTERS
#   PLOTTERS  folder that holds plotters' src/ tree
#   OUT       staging and build folder (default: target/oracle below the current folder)
set -eu
here=$(cd "$(dirname "$0")" && pwd)
[ $# -eq 1 ] && [ -d "$1/src" ] || { echo "usage: sh build.sh PLOTTERS, a folder with plotters' src/ tree" >&2; exit 2; }
SOURCE=$(cd "$1" && pwd)
OUT=${OUT:-$PWD/target/oracle}
mkdir -p "$OUT"
OUT=$(cd "$OUT" && pwd)
stage=$OUT/stage
rm -rf "$stage"
mkdir -p "$stage"

# plotters-backend: the installed Debian package, else its .deb unpacked in OUT
pkg=librust-plotters-backend-dev
if [ ! -f "$OUT/plotters-backend/src/lib.rs" ]; then
    from=$(dpkg -L $pkg 2>/dev/null | grep '/plotters-backend-[0-9.]*$' || true)
    if [ -z "$from" ]; then
        mkdir -p "$OUT/deb"
        (cd "$OUT/deb" && { [ -n "$(ls $pkg*.deb 2>/dev/null)" ] || apt-get download $pkg >/dev/null 2>&1 ||
            { apt-get update >/dev/null && apt-get download $pkg >/dev/null; } } &&
            dpkg-deb -x $pkg*.deb unpacked)
        from=$(find "$OUT/deb/unpacked" -type d -name 'plotters-backend-[0-9]*' | head -n 1)
    fi
    mkdir -p "$OUT/plotters-backend"
    cp -rL "$from/." "$OUT/plotters-backend/"
    rm -f "$OUT/plotters-backend/.cargo-checksum.json"
fi

# the originals, byte for byte; what else the sources hold is not used
originals="
    chart/builder.rs chart/context.rs chart/context/cartesian2d/draw_impl.rs chart/context/cartesian2d/mod.rs
    chart/mesh.rs coord/mod.rs coord/ranged1d/mod.rs coord/ranged2d/cartesian.rs coord/translate.rs
    drawing/area.rs element/basic_shapes.rs element/mod.rs style/color.rs style/font/font_desc.rs
    style/shape.rs style/size.rs style/text.rs"
for path in $originals; do
    mkdir -p "$stage/src/$(dirname "$path")"
    cp "$SOURCE/src/$path" "$stage/src/$path"
done

# stubs (never over an original) and the program
(cd "$here/stubs" && find . -name '*.rs') | while read -r f; do
    if [ -e "$stage/src/$f" ]; then echo "stub over an original: $f" >&2; exit 1; fi
    mkdir -p "$stage/src/$(dirname "$f")"
    cp "$here/stubs/$f" "$stage/src/$f"
done
cp "$here"/src/*.rs "$stage/src/"
cp "$here/Cargo.toml" "$stage/"

cd "$stage"
CARGO_TARGET_DIR=$OUT/target cargo build --offline --release -q -j 1
echo "$OUT/target/release/oracle"
