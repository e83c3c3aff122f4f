#!/usr/bin/env bash
# Makes a static library over the libraries that stand proved in crates/*/out, and keeps the LLVM module that is made on the way.
# Usage: tests/module.sh NAME FOLDER, in the folder that has crates.txt: leaves FOLDER/libNAME.a, FOLDER/NAME.bc and FOLDER/NAME.o. The archive is that of `rt lib`, byte for byte.
# The crate NAME is proved for it once more, over what `rt lib` kept of that, if it did.
#
# `rattle build` makes one LLVM module of a static library, and the toolchain's clang compiles it. Here it gets a toolchain whose clang keeps the module and the object too. Its links stand
# outside the repository, in which rt ci takes no link.
set -euo pipefail
name="$1"
mkdir -p "$2"
folder="$(realpath "$2")"
kit="$(dirname "$(rt doc)")"
toolchain="$(mktemp -d)"
trap 'rm -rf "$toolchain"' EXIT
mkdir "$toolchain/bin"
for entry in "$kit"/toolchain/* "$kit"/toolchain/bin/*; do
    [ -e "$toolchain/${entry#"$kit"/toolchain/}" ] || ln -s "$entry" "$toolchain/${entry#"$kit"/toolchain/}"
done
rm "$toolchain/bin/clang"
printf '#!/bin/sh\n"%s" "$@" || exit\ncp module.bc "%s"\ncp module.o "%s"\n' "$kit/toolchain/bin/clang" "$folder/$name.bc" "$folder/$name.o" > "$toolchain/bin/clang"
chmod +x "$toolchain/bin/clang"

top="$PWD"
words=(--extern "std=$kit/rlibs/std.rlib" -L "dependency=$kit/rlibs")
for below in $(sed -n "s/#.*//; s/^$name staticlib *://p" crates.txt); do
    if [ -d "crates/$below" ]; then from="$top/crates/$below/out/rlib"; else from="$kit/rlibs"; fi
    words+=(--extern "$below=$from/$below.rlib")
done
for library in "$top"/crates/*/out/rlib; do words+=(-L "dependency=$library"); done
cd "crates/$name"
[ ! -d out/incremental ] || words+=(--incremental out/incremental)
# (the lock that rt takes)
flock . "$kit/bin/rattle" build --crate-name "$name" src/lib.rt --crate-type staticlib --cpu x86-64 --links "$name=" "${words[@]}" --jobs 2 \
    --antt-project "$kit/rattle/logic/antt-project.json" --logic-built "$kit/logic_built" --toolchain "$toolchain" --backend llvm -o "$folder/lib$name.a"
