# make run: the programs, on the worked example's delivery and on a catalogue.  make test: everything that is proved, run and tried.
# make bench: measured speed.  make deps: what these install.  make crate NAME=x: one crate and its edits.
SHELL := /bin/bash
.SHELLFLAGS := -eu -o pipefail -c
CATALOGUE := crates/kept_ntriples/catalogue.nt
.PHONY: run test crate trial tried trial-of-binding trial-of-programs trial-of-needs bench bench-docs library programs deps jena rapper serdi prolog postgres valgrind cargo toolchain

run: programs
	@echo "families, on the worked example's delivery (crates/families/stdin):" >&2
	@target/bin/families <crates/families/stdin
	@echo "kept_ntriples, on a maker's catalogue ($(CATALOGUE)):" >&2
	@target/bin/kept_ntriples <$(CATALOGUE)

# Standard error shows how far it is; all that the gate prints goes to test.log, and what the trial prints to target/trial/. The last line is
# that of the toolchain's gate, which is held back until the trial of the library has passed too.
test: toolchain
	@tools/gate test.log
	@tail -n 1 test.log

# One crate and its own edits, as `make crate NAME=table`.
crate: toolchain
	@tools/crate "$(NAME)"

# The exported library beside an independent model, on stores and on N-Triples read and written, beside Apache Jena, and under valgrind; and
# library and model on N-Triples beside the readers of Jena, of raptor and of serd. Each part has one processor and a log of its own.
TRIED := model files writing jena memory readers
TRIAL := CARGO_TARGET_DIR=target/tests cargo run --release --offline --quiet --manifest-path tests/Cargo.toml --
LOGS := target/trial

# The example of the binding for Rust, and what it must print.
SHELF := CARGO_TARGET_DIR=target/tests cargo run --release --offline --quiet --manifest-path bindings/rust/Cargo.toml --example shelf
SHELF_STDOUT := bindings/rust/examples/shelf.stdout

# What tools/programs must print.
PROGRAMS_STDOUT := tests/cases/programs.stdout

# What the exported library calls that whoever links it must have.
NEEDS := tests/cases/needs.stdout

trial: library programs
	@$(MAKE) --no-print-directory tried

# The same with the library and the programs as they are in target/.
tried: cargo jena rapper serdi valgrind
	@mkdir -p $(LOGS) && tools/chain >$(LOGS)/chain.log || exit 1
	@CARGO_TARGET_DIR=target/tests cargo build --release --offline --quiet --manifest-path tests/Cargo.toml
	@$(MAKE) --no-print-directory -j$$(nproc) $(TRIED:%=trial-%) trial-of-binding trial-of-programs trial-of-needs

$(TRIED:%=trial-%): trial-%:
	@echo "trial, part $*: its log is $(LOGS)/$*.log" >&2; $(TRIAL) --part $* >$(LOGS)/$*.log 2>&1 \
		|| { tail -n 40 $(LOGS)/$*.log >&2; echo "the trial's part $* failed: $(LOGS)/$*.log has all that it printed" >&2; exit 1; }

trial-of-binding:
	@echo "trial, the example of bindings/rust" >&2; $(SHELF) | diff $(SHELF_STDOUT) - || { echo "the example of bindings/rust does not print $(SHELF_STDOUT)" >&2; exit 1; }

trial-of-programs:
	@echo "trial, the programs" >&2; tools/programs | diff $(PROGRAMS_STDOUT) - || { echo "tools/programs does not print $(PROGRAMS_STDOUT)" >&2; exit 1; }

trial-of-needs:
	@echo "trial, what the exported library needs" >&2; nm -u target/staticlib/libcapi.a | awk '$$1 == "U" { print $$2 }' | sort -u | diff $(NEEDS) - \
		|| { echo "the exported library does not need from outside what $(NEEDS) has" >&2; exit 1; }

# The exported library beside the peers named, and alone: target/bench/report.md and target/bench/plot.svg. `make bench BENCH_PEERS=` runs
# it alone; `make bench BENCH_OPTIONS=--quick` takes a small workload, `make bench BENCH_OPTIONS=--only=reading` measures one part of the
# tables (stores, alone, reading, writing, stack).
BENCH_PEERS ?= prolog postgres jena rapper serdi
BENCH_OPTIONS ?=

bench: library cargo $(BENCH_PEERS)
	@CARGO_TARGET_DIR=target/bench cargo run --release --offline --quiet --manifest-path bench/Cargo.toml -- $(BENCH_PEERS) $(BENCH_OPTIONS)

# The same, and the tables in docs/BENCHMARKS.md and docs/benchmarks.svg are those of this run.
bench-docs:
	@$(MAKE) --no-print-directory bench BENCH_OPTIONS=--docs

library: toolchain
	@tools/build capi

programs: toolchain
	@tools/build families read_ntriples kept_ntriples

# All that the other targets install: each also installs what it needs by itself.
deps: cargo jena rapper serdi valgrind prolog postgres

# Apache Jena as a server on standard input and output, for comparisons (peers/jena); `java @target/jena/server` starts it. Debian's
# package has Xerces' texts under another path than its classes, so they are laid out again in front of the class path.
JAVA := /usr/share/java
JENA := target/jena
JENA_JARS := jena-arq jena-core jena-base jena-iri slf4j-api slf4j-nop commons-lang3 commons-compress guava jsonld-java thrift
NONE :=
JENA_PATH := $(subst $(NONE) $(NONE),:,$(JENA)/classes $(JENA)/texts $(JENA_JARS:%=$(JAVA)/%.jar))

jena: $(JENA)/server

$(JENA)/server: peers/jena/rdfs.rules $(wildcard peers/jena/peer/*.java)
	@command -v javac >/dev/null || $(call install,openjdk-17-jdk-headless,the Java compiler)
	@test -e $(JAVA)/jena-arq.jar || $(call install,libapache-jena-java,Apache Jena)
	@rm -rf $(JENA) && mkdir -p $(JENA)/classes $(JENA)/texts
	@cd $(JENA)/texts && jar xf $(JAVA)/jena-core.jar org/apache/jena/ext/xerces && mv org/apache/jena/ext/xerces . && rm -r org
	@javac -Xlint:all,-path -cp $(JENA_PATH) -d $(JENA)/classes peers/jena/peer/*.java
	@echo "-cp $(JENA_PATH) peer.Server peers/jena/rdfs.rules" >$@

# Raptor's and serd's readers and writers of N-Triples, for comparisons.
rapper:
	@command -v rapper >/dev/null || $(call install,raptor2-utils,raptor's program rapper)

serdi:
	@command -v serdi >/dev/null || $(call install,serdi,serd's program serdi)

# The two other peers of the bench.
prolog:
	@command -v swipl >/dev/null || $(call install,swi-prolog-nox,SWI-Prolog)

postgres:
	@test -x /usr/lib/postgresql/15/bin/initdb || $(call install,postgresql-15,PostgreSQL 15)

# Installs a Debian package, and says what it is for where that fails.
install = { echo "installing $(1), for $(2)" >&2; mkdir -p target; \
	{ apt-get update -qq && apt-get install -y -qq --no-install-recommends $(1); } >target/install.log 2>&1; } \
	|| { cat target/install.log >&2; echo "$(2) is missing, and apt-get could not install Debian's package $(1)" >&2; exit 1; }

# Rust's compiler and its build tool; no crate from a registry is used. Debian 12 has a later one under another name.
cargo:
	@command -v cargo >/dev/null || $(call install,cargo-web,Rust's build tool cargo)

valgrind:
	@command -v valgrind >/dev/null || $(call install,valgrind,valgrind)

# What all need: the Rattle toolchain's command `rt`, and a place for what it makes.
toolchain:
	@command -v rt >/dev/null || { echo "the Rattle toolchain's command 'rt' is not on the PATH" >&2; exit 1; }
	@mkdir -p target
