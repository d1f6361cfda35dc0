# make run    the March night replayed from its night log: a line for each record, the ending, and every number that occurred in words;
#             NIGHT=NAME for another of nights/, NIGHT=FILE.log POSTS=FILE for a recording of your own
# make test   what .ci/run runs: the tables against the maker's documents, the gate (rt ci, which holds the files to their layout too), the C tests, nightlog,
#             replay, compare and the desk against the second program, recordings of candump, exit statuses, the pages of the nights; its last line is
#             'N passed, 0 failed'
# make check  the proofs, of the crates and of the programs, without the must-fail edits
# make lib    librokemaipu.a and rokemaipu.pc in target/lib/x86_64 and target/lib/aarch64, and rokemaipu.h and rokemaipu_pages.h in target/lib, for C and Rust
# make programs  desk, nightlog, replay and compare for both processors: target/bin and target/bin/aarch64
# make install    programs with their wrappers, the library, manual pages: PREFIX (/usr/local), DESTDIR, PROCESSOR and PROGRAM_PREFIX as packaging/install says
# make uninstall  what make install installed, by the same words
# make deb        target/deb/rokemaipu_VERSION_ARCH.deb for amd64 and arm64, of the same install
# make bench  the library and the replay beside plain C in one run, and the panel beside the replay; BEFORE=REVISION, the library beside that
#             revision of itself too
# make panel  the panel over a scratch log, to which the March night is appended at its own pace: NIGHT and POSTS as above, PORT (8600); Ctrl-C ends it
# make report a night as a page, target/report/NAME.html: NIGHT and POSTS as above; PICTURE=FILE.png takes a picture of it too

NIGHT ?= march
night = $(basename $(notdir $(NIGHT)))
LOG ?= $(or $(filter %.log,$(NIGHT)),nights/$(night).log)
POSTS ?= $(basename $(LOG)).posts

.PHONY: run test check lib programs install uninstall deb bench panel report replay

run: replay
	@tools/replay $(POSTS) $(LOG)

replay:
	@[ -x target/bin/replay ] || echo "proving and building the replay: once" >&2
	@tools/build --own replay >/dev/null

test:
	@tests/run

check:
	@tools/check

lib:
	@tools/lib

programs:
	@tools/build

export PREFIX DESTDIR PROCESSOR PROGRAM_PREFIX

install:
	@packaging/install

uninstall:
	@packaging/install --remove

deb:
	@packaging/deb

bench: lib replay
	@mkdir -p target/bench
	@. tests/machine; set -e; \
	[ -z "$(BEFORE)" ] || bench/before $(BEFORE); \
	bench/larger; \
	$$cc -O2 -Wall -Wextra $(if $(BEFORE),-DBEFORE) -Itarget/lib -Ibench bench/bench.c bench/peer.c bench/peer_log.c bench/peer_batch.c bench/peer_compare.c target/lib/librokemaipu.a $(if $(BEFORE),target/before/libbefore.a) -o target/lib/bench; \
	$$cc -O2 -Wall -Wextra -Itarget/lib -Ibench bench/larger.c target/lib/librokemaipu.a target/larger/liblarger.a -o target/larger/larger; \
	$$cc -O2 -Wall -Wextra -Itarget/lib -Wl,--wrap=memcpy,--wrap=memmove bench/copied.c target/lib/librokemaipu.a -o target/lib/copied; \
	$$cc -O2 -Wall -Wextra -Itarget/lib -Ibench bench/peer_replay.c bench/peer.c bench/peer_log.c -o target/lib/peer_replay; \
	$$cc -O2 -Wall -Wextra -Itarget/lib -Ibench bench/replay.c bench/peer_log.c -o target/lib/bench_replay; \
	[ -z "$$run" ] || echo "emulated: times and ratios are the emulator's"; \
	$$run target/lib/bench; \
	$$run target/larger/larger; \
	$$run target/lib/copied; \
	$$run target/lib/bench_replay target/bench $(CURDIR)/target/bin/replay $(CURDIR)/target/lib/peer_replay $$run; \
	[ -n "$$run" ] || { cargo build --release --offline --quiet --manifest-path panel/Cargo.toml; bench/panel; }

PORT ?= 8600
archive = target/lib/$(shell uname -m)/librokemaipu.a

# the archives, where a source is newer than they are
panel:
	@[ -f $(archive) ] && [ -z "$$(find crates include \( -name '*.rt' -o -name '*.antt' -o -name '*.h' \) -newer $(archive) -print -quit)" ] || \
		{ echo "proving and building the library: once" >&2; tools/lib; }
	@tools/build --own nightlog >/dev/null
	@panel/night $(POSTS) $(LOG) --port $(PORT)

report: replay
	@mkdir -p target/report
	@tools/replay --lines $(POSTS) $(LOG) > target/report/$(night).lines || [ $$? -eq 1 ]
	@tools/report $(if $(PICTURE),--screenshot $(PICTURE)) --name $(night) $(POSTS) $(LOG) target/report/$(night).lines target/report/$(night).html
	@echo target/report/$(night).html
