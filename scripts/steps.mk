# The steps of `make test` and `make check`. Each is a target: the steps that it waits for, the tools without which it is
# NOT RUN, and its command (scripts/gate runs it). `make NAME` runs one, with those that it waits for. Steps that begin
# with `python` keep python/out to themselves.
step = @nice -n 15 scripts/gate --step $@ '$^'
python = flock out/python.lock

# Without the kit, over what cargo builds: what others wait for, and then the longest first.
TEST = tools library definitions rust rust-others programs mlsign-rust lint fuzzers c-gcc c-clang c-sanitized js erasing python \
	vectors-wasm vectors-rust vectors-c vectors-mlsign alike alike-wasm refusals pages typed js-page erased tokens tokens-tested sets results \
	installs
# With the kit: `rt ci`, and what is native, over what it left.
CHECK = proof tools-check archives secrets ledger mlsign growths native-c native-c-v3 native-c-aarch64 native-c-musl \
	native-c-clang native-c-sanitized native-c-valgrind native-python native-vectors-v2 native-vectors-v3 \
	native-vectors-aarch64 native-vectors-mlsign native-alike native-fuzzers rust-aarch64 rust-armv7 rust-i686 rust-riscv64 \
	rust-s390x c-valgrind secrets-rust module examples packages
# Without these nothing shows that the Rust is what was proved: `make check` fails where one of them is not run.
BRIDGE = erased erasing tokens tokens-tested alike native-alike
.PHONY: $(TEST) $(CHECK) list-test list-check list-bridge

list-test: ; @echo $(TEST)
# (the proof is the longest, and most others wait for it)
list-check: ; @echo $(CHECK) $(TEST)
list-bridge: ; @echo $(BRIDGE)

tools: ; $(step) -- scripts/tools
definitions: ; $(step) -- tools/definitions/run --short
pages: ; $(step) -- scripts/pages
# (over what these build)
typed: library programs mlsign-rust ; $(step) cargo cc -- $(python) tests/pages
installs: library ; $(step) cc make -- packaging/test_install.py
tokens: ; $(step) -- tools/tokens
tokens-tested: ; $(step) -- tools/test_tokens.py
sets: ; $(step) -- tools/sets --check
results: ; $(step) -- c/exports.py --check
erased: ; $(step) -- tools/erase --check
erasing: ; $(step) -- tools/test_erase.py
programs: tools ; $(step) cargo -- scripts/programs test
rust: tools ; $(step) cargo -- rust/test --own
rust-others: tools ; $(step) cargo -- rust/test --others
library: tools ; $(step) cargo -- scripts/archive rust
c-gcc: library ; $(step) gcc g++ nm -- c/test --processor rust
c-clang: library ; $(step) clang clang++ nm -- env CC=clang CXX=clang++ c/test --processor rust
c-sanitized: library ; $(step) gcc -- c/test --processor rust --sanitize
alike: library ; $(step) gcc nm objcopy -- c/test --alike --processor rust
fuzzers: tools ; $(step) cargo clang -- c/fuzz/run
c-valgrind: library ; $(step) gcc valgrind -- c/test --processor rust --valgrind
vectors-c: library ; $(step) gcc -- vectors/run c rust --changes
mlsign-rust: tools ; $(step) cargo cc -- tests/mlsign/run --rust
vectors-mlsign: mlsign-rust ; $(step) -- vectors/run mlsign out/archive/mlsign/mlsign
vectors-rust: tools ; $(step) cargo -- vectors/run rust
vectors-wasm: tools ; $(step) node -- vectors/run wasm
alike-wasm: library ; $(step) node gcc -- vectors/run alike
js: tools ; $(step) node -- js/test --package
js-page: tools ; $(step) node -- js/test --page
python: library ; $(step) cargo -- $(python) python/test --processor rust
lint: tools ; $(step) -- scripts/lint
refusals: tools ; $(step) git gcc -- packaging/test_release.py

# What `rt check` left goes first, since `rt ci` puts it back in the place of what it proved itself.
proof: ; @scripts/gate --step $@ '' -- sh -c 'rm -rf crates/*/out/rlib && exec rt ci'
tools-check: tools ; $(step) -- scripts/tools --check
# (which wants the source of Rust's standard library)
module: tools-check ; $(step) cargo node -- js/module
archives: proof tools-check ; $(step) -- scripts/archive x86-64-v2 x86-64-v3 x86-64 aarch64
native-c: archives ; $(step) gcc g++ nm -- c/test --processor x86-64 x86-64-v2
native-c-v3: archives ; $(step) gcc g++ nm -- c/test --processor x86-64-v3
native-c-aarch64: archives ; $(step) aarch64-linux-gnu-gcc aarch64-linux-gnu-g++ qemu-aarch64 -- c/test --processor aarch64
# Another C library and another compiler; and what watches memory.
native-c-musl: archives ; $(step) musl-gcc g++ nm -- env CC=musl-gcc c/test --processor x86-64-v2
native-c-clang: archives ; $(step) clang clang++ nm -- env CC=clang CXX=clang++ c/test --processor x86-64-v2
native-c-sanitized: archives ; $(step) gcc -- c/test --processor x86-64 --sanitize
native-c-valgrind: archives ; $(step) gcc valgrind -- c/test --processor x86-64-v2 --valgrind
native-python: archives ; $(step) gcc -- $(python) python/test --processor x86-64 x86-64-v2 aarch64
native-vectors-v2: archives ; $(step) gcc -- vectors/run c x86-64-v2
native-vectors-v3: archives ; $(step) gcc -- vectors/run c x86-64-v3
native-vectors-aarch64: archives ; $(step) aarch64-linux-gnu-gcc qemu-aarch64 -- vectors/run c aarch64
# (what the kit compiles, and what cargo does: equal results and bytes)
native-alike: archives alike ; $(step) gcc nm objcopy -- c/test --alike --processor x86-64-v2 x86-64-v3 rust
native-fuzzers: archives fuzzers ; $(step) clang -- c/fuzz/run --native
native-vectors-mlsign: proof ; $(step) -- vectors/run mlsign
growths: proof ; $(step) cc -- tools/refused-growths --programs 44
rust-aarch64: tools-check ; $(step) cargo -- rust/test --processor aarch64
# (32 bits twice, a third 64 bits, and big-endian)
rust-armv7: tools-check ; $(step) cargo -- rust/test --processor armv7
rust-i686: tools-check ; $(step) cargo -- rust/test --processor i686
rust-riscv64: tools-check ; $(step) cargo -- rust/test --processor riscv64
rust-s390x: tools-check ; $(step) cargo -- rust/test --processor s390x
secrets: archives ; $(step) gcc valgrind -- bench/secrets/run
secrets-rust: library ; $(step) gcc valgrind -- bench/secrets/run --rust
ledger: archives ; $(step) gcc readelf -- $(python) examples/ledger/test
# (beside the other, where both are there)
mlsign: proof tools-check mlsign-rust ; $(step) cc -- tests/mlsign/run
examples: proof ; $(step) -- examples/test
packages: archives ; $(step) -- $(python) scripts/release --try --short
