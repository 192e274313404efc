# Two targets for a newcomer: `make run` and `make test`. `make` alone prints all.

.PHONY: help run test test-target lib salvage figures install install-programs uninstall compare compare-faults linux bench \
	bench-capture bench-figures clean

# One prover at a time: one waits for another in the same crate.
.NOTPARALLEL:

help: ## this list
	@awk -F ':.*## ' '/^[a-z-]+:.*## / { printf "make %-16s%s\n", $$1, $$2 }' Makefile

# A guest moves from one card to another, and nothing of it stays behind; a torn capture of it is salvaged. The first run
# proves the crates, in minutes.
run: ## a guest moves from one card to another, and nothing of it stays behind; minutes the first time
	@scripts/prove migrate
	@./target/bin/migrate

# Formatting, proofs, must-fail edits, programs, and the tests outside the proof.
test: ## all: formatting, every proof from nothing, the must-fail edits, and the tests outside the proof
	@scripts/test

ARCHIVE := target/staticlib/libkajurnat.a

# What a crate is made of; folders too, so that a file which is gone counts as a change.
sources = crates.txt $(shell find $(wildcard $(foreach part,src specs proofs,$(patsubst %,crates/%/$(part),$(shell scripts/crates $1)))))

# The processor that the library is for: x86_64, or one of TARGETS, for which it is compiled from the same module.
TARGET := x86_64
TARGETS := $(shell sed -n 's/^targets="\(.*\)"/\1/p' scripts/targets.sh)
$(if $(filter $(TARGET),x86_64 $(TARGETS)),,$(error TARGET=$(TARGET) is none of x86_64 $(TARGETS)))
LIBRARY := $(if $(filter x86_64,$(TARGET)),$(ARCHIVE),target/$(TARGET)/libkajurnat.a)

# The archive, proved and built where a crate of it has changed.
lib: $(LIBRARY) ## proves the library, and writes the archive to link; TARGET=aarch64, riscv64 or x86_64-kernel for others
	@echo $(LIBRARY)

$(ARCHIVE): $(call sources,kajurnat_c)
	@scripts/prove kajurnat_c

MODULE := target/module/kajurnat.ll

$(MODULE): $(ARCHIVE) scripts/module
	@scripts/module

$(TARGETS:%=target/%/libkajurnat.a): target/%/libkajurnat.a: $(MODULE) include/kajurnat.h scripts/cross scripts/targets.sh
	@scripts/cross $*

# The C programs and a stream of calls with the library for TARGET, under an emulator where the machine is another.
test-target: $(LIBRARY) ## the C programs and a stream of calls with the library for TARGET: SEED, CALLS
	@scripts/archive $(TARGET)
	@scripts/target $(TARGET) $(SEED) $(CALLS)

SALVAGE := target/bin/salvage_file

# The program for a torn capture; scripts/kajurnat-salvage runs it.
salvage: $(SALVAGE) ## proves and builds the program for a torn capture, scripts/kajurnat-salvage
	@echo scripts/kajurnat-salvage

$(SALVAGE): $(call sources,salvage_file)
	@scripts/prove salvage_file

FIGURES := target/bin/yearly_figures

# The program for a year of captures; scripts/kajurnat-figures runs it.
figures: $(FIGURES) ## proves and builds the program for a year of captures, scripts/kajurnat-figures
	@echo scripts/kajurnat-figures

$(FIGURES): $(call sources,yearly_figures)
	@scripts/prove yearly_figures

PREFIX ?= /usr/local
LIBDIR ?= $(PREFIX)/lib
INCLUDEDIR ?= $(PREFIX)/include
DESTDIR ?=
INSTALLED_HEADER := $(DESTDIR)$(INCLUDEDIR)/kajurnat.h
INSTALLED_ARCHIVE := $(DESTDIR)$(LIBDIR)/libkajurnat.a
INSTALLED_PC := $(DESTDIR)$(LIBDIR)/pkgconfig/kajurnat.pc
INSTALLED_BIN := $(DESTDIR)$(PREFIX)/bin
INSTALLED_LIBEXEC := $(DESTDIR)$(PREFIX)/libexec/kajurnat
INSTALLED_MAN := $(DESTDIR)$(PREFIX)/share/man/man1
COMMANDS := kajurnat-salvage kajurnat-figures
VERSION := $(shell sed -n 's/^\#define KAJURNAT_VERSION_STRING "\(.*\)"/\1/p' include/kajurnat.h)
below_prefix = $(patsubst $(PREFIX)/%,$${prefix}/%,$1)

# Archive, header, pkg-config file, and on x86-64 the two programs with their pages; PREFIX is where they are used, with LIBDIR and
# INCLUDEDIR below it if not said otherwise, DESTDIR a folder to pack them from.
install: $(LIBRARY) $(if $(filter x86_64,$(TARGET)),install-programs) ## library, header, programs and manual pages, in PREFIX below DESTDIR
	install -D -m 644 include/kajurnat.h '$(INSTALLED_HEADER)'
	install -D -m 644 $(LIBRARY) '$(INSTALLED_ARCHIVE)'
	install -d '$(dir $(INSTALLED_PC))'
	@printf '%s\n' 'prefix=$(PREFIX)' 'libdir=$(call below_prefix,$(LIBDIR))' \
		'includedir=$(call below_prefix,$(INCLUDEDIR))' '' 'Name: kajurnat' \
		'Description: verified control plane of a virtio card' 'Version: $(VERSION)' \
		'Cflags: -I$${includedir}' 'Libs: -L$${libdir} -lkajurnat' >'$(INSTALLED_PC)'

install-programs: $(SALVAGE) $(FIGURES)
	install -d '$(INSTALLED_BIN)' '$(INSTALLED_LIBEXEC)' '$(INSTALLED_MAN)'
	install $(COMMANDS:%=scripts/%) '$(INSTALLED_BIN)'
	install $(SALVAGE) $(FIGURES) '$(INSTALLED_LIBEXEC)'
	install -m 644 scripts/front.sh '$(INSTALLED_LIBEXEC)'
	install -m 644 $(COMMANDS:%=docs/man/%.1) '$(INSTALLED_MAN)'

uninstall: ## removes them
	rm -f '$(INSTALLED_HEADER)' '$(INSTALLED_ARCHIVE)' '$(INSTALLED_PC)'
	rm -f $(COMMANDS:%='$(INSTALLED_BIN)/%') $(COMMANDS:%='$(INSTALLED_MAN)/%.1')
	rm -f $(patsubst %,'$(INSTALLED_LIBEXEC)/%',front.sh $(notdir $(SALVAGE) $(FIGURES)))
	@rmdir '$(INSTALLED_LIBEXEC)' 2>/dev/null || true

COMPARE := cargo run --offline --quiet --manifest-path docs/src/Cargo.toml --package compare
SEED ?= 1
CALLS ?= 2000000

# The archive against the independent card: SEED and CALLS choose the run.
compare: $(ARCHIVE) ## the archive against an independent card, on random calls: SEED, CALLS
	@$(COMPARE) --release --bin compare -- --seed $(SEED) --calls $(CALLS)

# Faults planted in the independent card, and the calls it takes to find each.
compare-faults: $(ARCHIVE) ## faults planted in that card, and the calls it takes to find each
	@$(COMPARE) --release --bin compare -- --planted-faults

TRIALS ?= 3000

# Linux's own drivers as the hosts of two cards; LINUX is a folder with the sources of Linux 6.13 or later.
linux: ## Linux's own driver as a host of two cards: LINUX, SEED, TRIALS
	@scripts/linux '$(LINUX)' $(SEED) $(TRIALS)

BENCH := $(COMPARE) --profile timing --bin bench --

# The time of a capture, against two plain Rust programs.
bench-capture: $(ARCHIVE) ## the time of a capture
	@$(BENCH) capture

# The time of every call that is made often, and how it grows: the table and the plot of docs/PERFORMANCE.md.
bench: $(ARCHIVE) ## the time of every call that is made often
	@$(BENCH) calls
	@$(BENCH) growth >target/bench.svg && mv target/bench.svg docs/bench.svg

# The time of a year of captures: the program, the plain one, and reading alone. Two streams of 1 GB, one after the other, stand
# in TMPDIR meanwhile.
bench-figures: $(ARCHIVE) $(FIGURES) ## the time of a year of captures
	@cargo build --offline --quiet --release --manifest-path docs/src/Cargo.toml --package plain-card --bin plain-figures
	@$(COMPARE) --release --bin bench-figures -- $(FIGURES) docs/src/target/release/plain-figures

clean: ## removes what was built
	rm -rf target crates/*/out docs/src/target bindings/rust/target examples/c/target
