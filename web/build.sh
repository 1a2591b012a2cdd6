#!/bin/sh
# Builds the page out/page.html, one file that a browser with 64-bit WebAssembly opens, as Debian's Chromium and Firefox have it.
#
#     web/build.sh            from the proved library for C where ./build has proved all below it, else by the quick way
#     web/build.sh --quick    by the quick way, which proves nothing
#
# It takes the toolchain's rt, and of Debian coreutils, grep, sed, tar and python3. The toolchain compiles LLVM bitcode by its own
# clang; a copy of its folder, of links, in which clang is a script, keeps that bitcode. It is made for x86-64, which agrees with
# 64-bit WebAssembly on the sizes and places of all types. So its text is given the other target, and the same clang compiles it.
set -eu
here=$(cd "$(dirname "$0")" && pwd)
top=$(dirname "$here")
name=lw_c_desk
crate=$top/crates/$name
examples="first-fill windows off-screen inner-windows stars two-orders realistic"

rt=$(command -v rt) || { echo "web/build.sh: the command rt isn't there" >&2; exit 1; }
kit=$(dirname "$(dirname "$(realpath "$rt")")")
work=$(mktemp -d)
trap 'rm -rf "$work"' EXIT
trap 'exit 130' INT TERM

# The copy of the toolchain's folder. Its rt is a file of its own, since rt finds its folder by where it lies.
copy_kit() {
    mkdir -p "$work/kit/bin" "$work/kit/toolchain/bin" "$work/kept"
    for it in "$kit"/* "$kit"/bin/* "$kit"/toolchain/* "$kit"/toolchain/bin/*; do
        to=$work/kit/${it#"$kit"/}
        [ -e "$to" ] || ln -s "$it" "$to"
    done
    for it in "$kit"/bin/rt*; do
        rm "$work/kit/bin/${it##*/}"
        cp "$it" "$work/kit/bin/${it##*/}"
    done
    rm "$work/kit/toolchain/bin/clang"
    cat >"$work/kit/toolchain/bin/clang" <<END
#!/bin/sh
for it in "\$@"; do
    case \$it in *.bc) cp "\$it" "$work/kept/\$\$.bc" ;; esac
done
exec "$kit/toolchain/bin/clang" "\$@"
END
    chmod +x "$work/kit/toolchain/bin/clang"
}

# Gives the status 3 where the crates below the library aren't proved and built.
proved() {
    python3 "$here/proved.py" "$crate" "$work/kit/toolchain" >"$work/said" 2>&1
}

# The quick way only makes programs: a copy of the crate becomes one, whose main makes each call once.
quick() {
    echo "web/build.sh: compiles the library with checks, and proves nothing; it takes a minute or more" >&2
    mkdir "$work/tree"
    (cd "$top" && tar cf - --exclude=out crates crates.txt) | tar xf - -C "$work/tree"
    copy=$work/tree/crates/$name
    sed -i "s/^$name staticlib:/$name:/" "$work/tree/crates.txt"
    cat "$copy/src/lib.rt" "$here/quick.rs" >"$copy/src/main.rt"
    rm "$copy/src/lib.rt"
    (cd "$copy" && "$work/kit/bin/rt" try >"$work/said" 2>&1) || { tail -5 "$work/said" >&2; return 1; }
}

# What is made for x86-64 alone goes out of the text. The quick way makes programs, in which the calls lack the names that C has.
retarget() {
    "$clang" -S -emit-llvm -O0 -Xclang -disable-llvm-passes -x ir "$1" -o "$work/native.ll"
    layout=$(sed -n 's/^target datalayout = //p' "$work/runtime.ll")
    sed -e "s/^target datalayout = .*/target datalayout = $layout/" \
        -e 's/^target triple = .*/target triple = "wasm64-unknown-unknown"/' \
        -e '/^attributes/s/ "\(probe-stack\|stack-probe-size\|target-cpu\|target-features\|frame-pointer\)"="[^"]*"//g' \
        -e '/^attributes/s/ sanitize_address/ nounwind/' "$work/native.ll" >"$work/web.ll"
    grep -q "^define [^\"]*@\($calls\)(" "$work/web.ll" ||
        sed -i -e "s/@\"$name::[a-z_:]*::\($calls\)\"/@\1/g" \
            -e "s/^define internal \(.*@\($calls\)(\)/define \1/" "$work/web.ll"
}

copy_kit
clang=$kit/toolchain/bin/clang
calls=$(grep -rho 'extern "C" fn lw_[a-z_]*' "$crate/src" | sed 's/.* //' | sort -u | paste -sd'|' | sed 's/|/\\|/g')
status=3
[ "${1:-}" = --quick ] || { proved && status=0 || status=$?; }
if [ "$status" = 0 ]; then
    built="This copy was built from the library as it is proved, by $("$rt" version)."
elif [ "$status" != 3 ]; then
    tail -5 "$work/said" >&2
    exit 1
else
    quick
    built="This copy was built by the quick way, which proves nothing. After ./build, web/build.sh makes one that is proved."
fi

# (the longest module is the library; the quick way has a short one of its own)
module=$(ls -S "$work"/kept/*.bc | head -1)
target=--target=wasm64-unknown-unknown
# (what the toolchain tells its clang, but for what is of x86-64 alone)
careful="-mllvm -no-trap-after-noreturn -mllvm -trap-unreachable -mllvm -disable-machine-licm \
    -mllvm -disable-postra-machine-licm -mllvm -sink-common-insts=false"
"$clang" $target -O2 -ffreestanding -fno-builtin -Wall -Wextra -Werror -c "$here/runtime.c" -o "$work/runtime.o"
"$clang" $target -S -emit-llvm "$here/runtime.c" -o "$work/runtime.ll" -ffreestanding
retarget "$module"
# shellcheck disable=SC2086
"$clang" $target $careful -O3 -Wno-override-module -c "$work/web.ll" -o "$work/web.o"
ln -s "$clang" "$work/wasm-ld"
exports=$(echo "web_take web_give $calls" | sed 's/\\|/ /g; s/[^ ][^ ]*/--export=&/g')
# shellcheck disable=SC2086
"$work/wasm-ld" -mwasm64 --no-entry --gc-sections --strip-all -z stack-size=4194304 $exports \
    "$work/web.o" "$work/runtime.o" -o "$work/layers.wasm"

mkdir -p "$top/out"
set -- "$work/layers.wasm" "$built"
for it in $examples; do set -- "$@" "$top/examples/$it.layers"; done
python3 "$here/join.py" "$@" >"$work/page"
mv "$work/page" "$top/out/page.html"
echo "web/build.sh: out/page.html has $(wc -c <"$top/out/page.html") bytes, of which the library is $(wc -c <"$work/layers.wasm")"
