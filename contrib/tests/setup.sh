#!/bin/sh
# Installs from Debian what the tests of contrib/ need, so that none is left out: as root.
set -eu
apt-get update
DEBIAN_FRONTEND=noninteractive apt-get install -y --no-install-recommends \
    python3 python3-pyelftools gzip zstd make g++ git procps parallel shellcheck man-db \
    iverilog verilator qemu-system-misc gcc-riscv64-unknown-elf binutils-riscv64-unknown-elf \
    binutils-riscv64-linux-gnu opensbi u-boot-qemu
