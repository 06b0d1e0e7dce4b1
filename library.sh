#!/bin/sh
# Compiles the C library for another target, by the kit's clang, from its LLVM text: that of what was proved, where it was.
#
# usage: library.sh TARGET TEXT ARCHIVE
# TARGET is aarch64-linux-gnu, riscv64-linux-gnu, or x86_64-kernel: without vectors, a red zone and absolute addresses but
# those of a kernel. RT names the kit.
set -eu
target=$1 text=$2 archive=$3
kit=$(dirname "$("${RT:-rt}" doc)")/toolchain/bin

attributes=
case $target in
aarch64-linux-gnu)
    triple=aarch64-unknown-linux-gnu cpu=generic flags='-fPIC -mllvm -aarch64-load-store-renaming=false'
    layout=e-m:e-p270:32:32-p271:32:32-p272:64:64-i8:8:32-i16:16:32-i64:64-i128:128-n32:64-S128-Fn32
    ;;
riscv64-linux-gnu)
    triple=riscv64-unknown-linux-gnu cpu=generic-rv64 flags='-fPIC -march=rv64gc -mabi=lp64d'
    layout=e-m:e-p:64:64-i64:64-i128:128-n32:64-S128
    attributes='"target-features"="+64bit,+m,+a,+f,+d,+c,+zicsr,+zifencei"'
    ;;
x86_64-kernel)
    triple=x86_64-unknown-none-elf cpu=x86-64 flags='-fno-pic -mcmodel=kernel -mllvm -no-x86-call-frame-opt'
    attributes='noredzone "target-features"="-sse,-sse2,-mmx,-x87"'
    layout=e-m:e-p270:32:32-p271:32:32-p272:64:64-i64:64-i128:128-f80:128-n8:16:32:64-S128
    ;;
*)
    echo "no target: $target: there are aarch64-linux-gnu, riscv64-linux-gnu and x86_64-kernel" >&2
    exit 2
    ;;
esac

folder=$(mktemp -d)
trap 'rm -rf "$folder"' EXIT
# The lines of the text that name its target, and no other.
sed -e "s/^target datalayout = .*/target datalayout = \"$layout\"/" -e "s/^target triple = .*/target triple = \"$triple\"/" \
    -e "s/\"target-cpu\"=\"[^\"]*\"/\"target-cpu\"=\"$cpu\" $attributes/" \
    "$text" > "$folder/library.ll"
# By the options with which the kit compiles what was proved.
# shellcheck disable=SC2086 # some options
"$kit/clang" --no-default-config --target=$triple $flags -O3 -ffunction-sections -fdata-sections \
    -mllvm -no-trap-after-noreturn -mllvm -trap-unreachable -mllvm -disable-machine-licm \
    -mllvm -disable-postra-machine-licm -mllvm -sink-common-insts=false -c "$folder/library.ll" -o "$folder/library.o"
"$kit/llvm-ar" rcs "$folder/library.a" "$folder/library.o"
mkdir -p "$(dirname "$archive")"
mv "$folder/library.a" "$archive"
