# What a newcomer runs: `make run` and `make test`. `make help` lists the rest.
SHELL := bash
.SHELLFLAGS := -euo pipefail -c
.PHONY: help run test checks soak bench lib install try tools ready

include tools.mk

PREFIX  ?= /usr/local
VERSION := 0.1
CARD    := build/libam79c960.a
CFLAGS  := -std=c11 -O2 -Wall -Wextra -Wpedantic -Werror -Iinclude
# builds a C program with the card's archive: $(call C,source,output,more flags)
C = mkdir -p $(dir $(2)) && $(CC) $(CFLAGS) $(3) $(1) $(CARD) $(STATIC) -o $(2)
# builds a Rust program with an archive: $(call R,source,output,folder,archive,more flags)
R = mkdir -p $(dir $(2)) && $(RUSTC) --edition 2021 -O -L native=$(3) -l static=$(4) $(5) $(1) -o $(2)

help: ## list the targets
	@sed -n 's/^\([a-z]*\):.*## /make \1	/p' $(firstword $(MAKEFILE_LIST))

run: ready lib ## stream a sector through the card (FILE=.. for one of your own)
	@$(call C,examples/runtime.c,target/examples/runtime)
	@$(RUN) target/examples/runtime $(FILE)

test: ready ## the gate: layout, every proof, must-fail edits, programs, cross-checks
	@mkdir -p target
	@rt ci 2>&1 | tee target/gate.log
	@if grep -E '^rt: ok.*, [1-9][0-9]* bad' target/gate.log; then echo 'gate: an edit could not be applied'; exit 1; fi
	@$(MAKE) --no-print-directory checks
	@tail -n 1 target/gate.log | grep -xE '[0-9]+ passed, 0 failed'

checks: ready lib ## compare the archives with independent programs
	@cd crates/fcs_c && rt lib
	@$(call R,checks/fcs.rs,target/checks/fcs,crates/fcs_c/out,fcs_c)
	@$(RUN) target/checks/fcs
	@$(NM) -g --defined-only $(CARD) | awk 'NF == 3 { print $$3 }' | sort > target/checks/names
	@printf 'am79c960_entry_%s\n' arrive read reset turn write | diff - target/checks/names || { \
	  echo 'door: the archive has other names than the five entries'; exit 1; }
	@if $(NM) $(CARD) | grep -E ' [bBcCdD] '; then echo 'door: the archive has data of its own'; exit 1; fi
	@$(NM) -u $(CARD) | awk 'NF == 2 { print $$2 }' | sort -u | diff <(echo memset) - || { \
	  echo 'door: the archive wants other names than memset'; exit 1; }
	@$(CC) -std=c99 -Wall -Wextra -Wpedantic -Werror -fsyntax-only -x c include/am79c960.h
	@if command -v c++ > /dev/null; then c++ -std=c++11 -Wall -Wextra -Wpedantic -Werror -fsyntax-only -x c++ include/am79c960.h; \
	  else echo 'door: no C++ compiler here, so the header was not tried in C++'; fi
	@$(call C,examples/small.c,target/examples/small,$(SANITIZE))
	@$(RUN) target/examples/small
	@$(call C,examples/runtime.c,target/checks/runtime,$(SANITIZE))
	@$(RUN) target/checks/runtime > target/checks/runtime.out || { cat target/checks/runtime.out; exit 1; }
	@$(call C,checks/door.c,target/checks/door,$(SANITIZE))
	@$(RUN) target/checks/door
	@$(call C,checks/stack.c,target/checks/stack)
	@$(RUN) target/checks/stack
	@$(call R,checks/model.rs,target/checks/model,build,am79c960)
	@$(RUN) target/checks/model

soak: ready lib ## the comparison with the second model on 2,000,000 calls, from another seed (SEED=..)
	@$(call R,checks/model.rs,target/checks/model,build,am79c960)
	@$(RUN) target/checks/model 2000000 $${SEED:-20261115}

bench: ready lib ## time the FCS beside zlib, a bytewise table and slicing-by-8, and arrivals through the C entries
	@cd crates/fcs_c && rt lib
	@mkdir -p target/bench
	@zlib=; if echo 'int main(void) { return 0; }' | $(CC) -x c - -lz -o target/bench/zlib 2>/dev/null; then zlib='--cfg zlib -l z'; fi; \
	  $(call R,bench/fcs.rs,target/bench/fcs,crates/fcs_c/out,fcs_c,$$zlib)
	@$(RUN) target/bench/fcs "$(ON)"
	@$(call C,bench/arrive.c,target/bench/arrive)
	@$(RUN) target/bench/arrive "$(ON)"

lib: ## prove the C entries and write build/libam79c960.a, beside its header
	@cd crates/am79c960 && rt lib
	@mkdir -p build
	@cp crates/am79c960/out/libam79c960.a include/am79c960.h build/

install: lib ## put archive, header and pkg-config file under PREFIX
	@install -d $(DESTDIR)$(PREFIX)/lib/pkgconfig $(DESTDIR)$(PREFIX)/include
	@install -m 644 build/libam79c960.a $(DESTDIR)$(PREFIX)/lib/
	@install -m 644 include/am79c960.h $(DESTDIR)$(PREFIX)/include/
	@sed -e 's|@PREFIX@|$(PREFIX)|' -e 's|@VERSION@|$(VERSION)|' am79c960.pc.in > $(DESTDIR)$(PREFIX)/lib/pkgconfig/am79c960.pc

try: ## try the checks over the second model as a stand-in for the archive, on any machine; this proves nothing
	@mkdir -p target/try
	@rustc --edition 2021 -O --crate-type staticlib checks/stand_in.rs -o target/try/libam79c960.a
	@rustc --edition 2021 -O -L native=target/try -l static=am79c960 checks/model.rs -o target/try/model
	@for p in examples/small examples/runtime checks/door checks/stack; do \
	  cc $(CFLAGS) $$p.c target/try/libam79c960.a -lpthread -ldl -lm -o target/try/$$(basename $$p); \
	  target/try/$$(basename $$p); done
	@target/try/model

tools: ## on Arm, install the cross compiler and the emulator (Debian, as root); on x86-64, nothing
ifdef DEBIAN
	@dpkg-query -W -f '$${db:Status-Status}\n' $(DEBIAN) 2>/dev/null | grep -cx installed | grep -qx $(words $(DEBIAN)) || { \
	  dpkg --add-architecture amd64; apt-get update; \
	  DEBIAN_FRONTEND=noninteractive apt-get install -y --no-install-recommends $(DEBIAN); }
endif

# says at once, and not after minutes of proofs, that the tools are missing
ready:
	@for tool in rt $(firstword $(CC)) $(firstword $(RUSTC)) $(NM) $(RUN); do command -v $$tool > /dev/null || { \
	  echo "no $$tool here: the README says what is needed"; exit 1; }; done
