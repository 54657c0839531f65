#!/bin/sh
# Linux from its source to a verdict, live: linux.sh FOLDER [ROWS] [PROGRAM].
#
# Builds Linux 6.1 of Debian's package linux-source-6.1 in FOLDER, which takes 1.5 GB and some
# minutes, and is done once; then boot.sh judges its run on OpenSBI. linux/config beside this file is
# all that the kernel has, linux/init.S its only program, which tells that it runs and turns the
# machine off. The kernel is told to keep to Sv39: by itself it tries Sv57 and Sv48, which qemu has
# and the judge's hart does not. ROWS, PROGRAM, KEEP and the status are as boot.sh has them.
set -u
boot=$(cd "$(dirname "$(readlink -f "$0")")" && pwd) || exit 68
source=/usr/src/linux-source-6.1.tar.xz
cross=riscv64-linux-gnu-

fail() {
    echo "linux.sh: $*" >&2
    exit 68
}

case ${1:-} in
-h | --help)
    sed -n '2,/^set/s/^# \{0,1\}//p' "$0"
    exit 0
    ;;
'') fail 'which FOLDER?' ;;
esac
missing=
[ -r "$source" ] || missing="$missing linux-source-6.1"
for tool in ${cross}gcc:gcc-riscv64-linux-gnu flex:flex bison:bison bc:bc make:make gcc:gcc \
    xz:xz-utils; do
    command -v "${tool%:*}" >/dev/null || missing="$missing ${tool#*:}"
done
if [ -n "$missing" ]; then
    echo "linux.sh: packages are missing:$missing" >&2
    exit 69
fi
mkdir -p "$1" || fail "$1 cannot be made"
folder=$(cd "$1" && pwd) || exit 68
shift
tree=$folder/linux-source-6.1
built=$folder/built
image=$built/arch/riscv/boot/Image

# The source, unpacked whole, and kept to Sv39.
unpack() {
    rm -rf "$tree" "$tree.part" && mkdir "$tree.part" &&
        tar -xJf "$source" -C "$tree.part" --strip-components=1 &&
        sed -i -e 's/^\tset_satp_mode();$/\tdisable_pgtable_l5();\n\tdisable_pgtable_l4();/' \
            -e 's/^static __init void set_satp_mode(void)$/__maybe_unused &/' \
            "$tree.part/arch/riscv/mm/init.c" &&
        grep -q '^__maybe_unused static __init void set_satp_mode' "$tree.part/arch/riscv/mm/init.c" &&
        mv "$tree.part" "$tree"
}

build() {
    rm -rf "$built"
    mkdir -p "$built/rootfs" && cp "$boot/linux/config" "$built/config" &&
        ${cross}gcc -march=rv64imac -mabi=lp64 -nostdlib -static -Wl,--build-id=none \
            -o "$built/rootfs/init" "$boot/linux/init.S" &&
        printf '%s\n' 'dir /dev 0755 0 0' 'nod /dev/console 0600 0 0 c 5 1' \
            'file /init rootfs/init 0755 0 0' >"$built/rootfs/list" &&
        make -s -C "$tree" O="$built" ARCH=riscv CROSS_COMPILE=$cross \
            KCONFIG_ALLCONFIG="$built/config" allnoconfig &&
        make -s -C "$tree" O="$built" ARCH=riscv CROSS_COMPILE=$cross \
            KBUILD_BUILD_TIMESTAMP=2023-01-01 KBUILD_BUILD_USER=none KBUILD_BUILD_HOST=none \
            -j "${JOBS:-$(nproc)}" Image
}

if [ ! -f "$image" ] || [ -n "$(find "$boot/linux" -newer "$image" -type f)" ]; then
    if [ ! -d "$tree" ]; then
        echo "linux.sh: unpacking the source" >&2
        unpack >&2 || fail 'the source was not unpacked'
    fi
    echo "linux.sh: building the kernel, by as many jobs as JOBS says, or as there are processors" >&2
    build >&2 || fail 'the kernel was not built'
fi
export KERNEL="$image" LAST='init: the kernel runs'
exec sh "$boot/boot.sh" "$@"
