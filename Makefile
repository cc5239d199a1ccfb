# The two commands of the README: `make demo` shows the library at work, `make test` runs every test.
CC ?= cc
OBJCOPY ?= objcopy
CFLAGS ?= -O2
WARN = -std=c11 -Wall -Wextra -Werror
ARCHIVE = target/staticlib/libbatman.a
SEARCH = target/staticlib/libbench_search.a
BUILD = target/c
SANITIZE = -fsanitize=address,undefined -fno-sanitize-recover=all
YARD = demo/main.c demo/options.c demo/run.c demo/routes.c demo/yard.c demo/reader.c demo/radio.c demo/picture.c demo/plot.c demo/svg.c filter/relay_filter.c
PLAYER = tests/player/play.c tests/player/script.c tests/player/words.c tests/player/lent.c
TESTED = $(CC) $(CFLAGS) $(WARN) $(SANITIZE) -Iinclude -Ifilter

.PHONY: demo routes test archive c-tests bench

# A yard of readers over lossy radio: prints how their routes form, and draws those to the reader in the middle.
demo: $(BUILD)/demo
	@$(BUILD)/demo --svg target/yard.svg

# The experiment of docs/ROUTES.md, some four minutes: every setting, loss and seed. docs/routes has what it writes; a difference is shown and fails.
routes: $(BUILD)/demo
	@$(BUILD)/demo --routes target/routes
	@diff -r docs/routes target/routes && echo "routes: what docs/routes shows" || { echo "error: docs/routes shows other figures; if these are meant, copy target/routes there and mend docs/ROUTES.md"; exit 1; }

.PHONY: $(BUILD)/demo
$(BUILD)/demo: archive
	@mkdir -p $(BUILD)
	@$(CC) $(CFLAGS) $(WARN) -Iinclude -Ifilter $(YARD) $(ARCHIVE) -o $@

# The archive that a C program links, and that of the benchmark: proved first, then compiled (tools/archive). PROVED=proved is for tools/test alone, right after its `rt ci`.
archive: $(ARCHIVE)

$(ARCHIVE): CRATE = batman_c
$(SEARCH): CRATE = bench_search

.PHONY: $(ARCHIVE) $(SEARCH)
$(ARCHIVE) $(SEARCH): target/staticlib/lib%.a:
	@mkdir -p target
	@OBJCOPY='$(OBJCOPY)' tools/archive $(CRATE) $@ $(PROVED) > target/staticlib-$*.log 2>&1 || { cat target/staticlib-$*.log; exit 1; }

test:
	@tools/test

# The tests in C and C++, over an archive that stands already. Their own side is built with sanitizers; the archive is as a daemon links it.
# `tools/compare player` then holds the player that is built here beside the peer.
c-tests:
	@mkdir -p $(BUILD)
	@$(TESTED) tests/packet_check.c $(ARCHIVE) -o $(BUILD)/packet_check
	@$(BUILD)/packet_check tests/outside/batmand-0.3.2.txt tests/outside/batmand-as-draft.txt
	@$(TESTED) tests/calls.c $(ARCHIVE) -o $(BUILD)/calls
	@$(BUILD)/calls
	@$(TESTED) tests/strangers.c $(ARCHIVE) -o $(BUILD)/strangers
	@$(BUILD)/strangers
	@$(TESTED) $(PLAYER) $(ARCHIVE) -o $(BUILD)/player
	@$(BUILD)/player < crates/replay/stdin > $(BUILD)/player.out && diff crates/replay/stdout $(BUILD)/player.out && echo "player: prints what replay prints"
	@$(CXX) $(CFLAGS) $(SANITIZE) -std=c++17 -Wall -Wextra -Werror -pedantic -Iinclude tests/cplusplus.cpp $(ARCHIVE) -o $(BUILD)/cplusplus
	@$(BUILD)/cplusplus
	@$(TESTED) examples/check.c $(ARCHIVE) -o $(BUILD)/check
	@$(BUILD)/check | diff tests/check.expected - && echo "example: prints what it should"
	@$(BUILD)/check 04003200012c00000a010007 04C0fF07FFFF10D2C0A80901C0a8090018 04003200012c00000a0100 05003000000510d20a4e0003 04003200012c00000a01000701 \
	    04003200012c00000a010007000000000000000000ff 04003200012c00000a0100070a01000710 | diff tests/check-arguments.expected - && echo "example: reads packets in hex"
	@$(BUILD)/check 04003200012g 2> /dev/null; [ $$? -eq 2 ] || { echo "error: the example took a bad argument"; exit 1; }
	@$(TESTED) tests/relay_filter.c filter/relay_filter.c $(ARCHIVE) -o $(BUILD)/relay_filter
	@$(BUILD)/relay_filter
	@$(TESTED) $(YARD) $(ARCHIVE) -o $(BUILD)/yard
	@$(BUILD)/yard --columns 3 --rows 3 --rounds 12 --seed 7 | diff tests/yard.expected - && echo "yard: prints what it should"
	@$(BUILD)/yard --columns 3 --rows 3 --rounds 12 --seed 7 --poll 20 | diff tests/yard-poll.expected - && echo "yard: prints what it should, with radios read every 20 ms"
	@$(BUILD)/yard --svg $(BUILD)/yard.svg > $(BUILD)/yard.out && diff docs/yard.svg $(BUILD)/yard.svg
	@$(BUILD)/yard --svg $(BUILD)/yard.svg --filter 0 > $(BUILD)/yard.out && diff docs/yard-without-filter.svg $(BUILD)/yard.svg && echo "yard: draws what README shows"
	@$(BUILD)/yard --routes $(BUILD)/routes --advised 1 2> $(BUILD)/routes.log || { cat $(BUILD)/routes.log; exit 1; }
	@grep '^| present stays, filter' docs/routes/table.md > $(BUILD)/routes/shown
	@grep '^| present' $(BUILD)/routes/table.md | diff $(BUILD)/routes/shown - && echo "routes: the advised settings give what docs/ROUTES.md shows" \
	    || { echo "error: docs/routes/table.md has other figures; make routes writes all of them anew"; exit 1; }
	@tools/readme-example README.md > $(BUILD)/readme.c
	@$(TESTED) $(BUILD)/readme.c $(ARCHIVE) -o $(BUILD)/readme
	@$(BUILD)/readme | diff tests/readme.expected - && echo "README: its example compiles as printed and prints what it says"

# Speed beside independent versions in C, as a ratio; no test depends on it.
bench: archive $(SEARCH)
	@bench/calls/run
