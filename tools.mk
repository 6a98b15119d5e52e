# The tools by machine. Rattle compiles for x86-64 only, so on Arm programs are cross-compiled and run under an emulator.
MACHINE := $(shell uname -m)

ifeq ($(MACHINE),x86_64)
CC       := cc
RUSTC    := rustc
NM       := nm
RUN      :=
STATIC   :=
SANITIZE := -fsanitize=address,undefined -fno-sanitize-recover=all
ON       := natively on x86-64
else
CC       := x86_64-linux-gnu-gcc
RUSTC    := /usr/bin/rustc --target x86_64-unknown-linux-gnu -C linker=$(CC)
NM       := x86_64-linux-gnu-nm
RUN      := qemu-x86_64
STATIC   := -static
# the address sanitizer does not run under the emulator
SANITIZE := -fsanitize=undefined -fno-sanitize-recover=all
ON       := under $(RUN) on $(MACHINE), so a time says little
# Debian's packages for the lines above
DEBIAN   := gcc-x86-64-linux-gnu libc6-dev-amd64-cross rustc libstd-rust-dev libstd-rust-dev:amd64 zlib1g-dev:amd64 qemu-user
endif
