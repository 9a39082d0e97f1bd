# Meshpigeon from a fresh checkout: `make run` judges the samples, `make test` proves and tries everything.
# Needs the Rattle kit (rt), cargo and git; test also a C compiler.

PREFIX = /usr/local
DESTDIR =
CARGO = cargo
LIBRARY = target/staticlib/libmeshpigeon.a
MANIFEST = rust/Cargo.toml
TOOL = rust/target/release/meshpigeon

all: tool

# The library is proved and built where it is missing, or older than a crate: one line for each crate.
$(LIBRARY): crates.txt $(shell find crates -name out -prune -o '(' -name '*.rt' -o -name '*.antt' ')' -print)
	@scripts/prove

tool: $(LIBRARY)
	@$(CARGO) build --quiet --offline --release --manifest-path $(MANIFEST) -p tool

# Some samples are bad on purpose: the tool's exit status is shown, and does not fail make.
run: tool
	@status=0; $(TOOL) judge samples/*.wad || status=$$?; echo "exit status $$status"

test:
	.ci/run

bench: $(LIBRARY)
	$(CARGO) run --offline --release --manifest-path $(MANIFEST) -p compare --bin bench -- docs/benchmark.svg

# Makes the files of samples/ again; a test holds them to the generator.
samples:
	$(CARGO) run --offline --release --manifest-path $(MANIFEST) -p generator --bin samples -- samples

install: tool
	mkdir -p $(DESTDIR)$(PREFIX)/bin $(DESTDIR)$(PREFIX)/include $(DESTDIR)$(PREFIX)/lib
	cp $(TOOL) $(DESTDIR)$(PREFIX)/bin/meshpigeon
	cp include/meshpigeon.h $(DESTDIR)$(PREFIX)/include/meshpigeon.h
	cp $(LIBRARY) $(DESTDIR)$(PREFIX)/lib/libmeshpigeon.a

clean:
	rm -rf target rust/target

.PHONY: all tool run test bench samples install clean
