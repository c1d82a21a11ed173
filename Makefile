# `rt` is the Rattle kit's command: it proves a crate, and builds only what is proved.

# The main job, before any proof: a record, a frame and a trace are answered within some two minutes.
.PHONY: try
try:
	@tests/try

# The main job, proved: a record and a listing from crates/gw/stdin, one verdict out; and a stored trace, forwarded by a gateway
# of two ports.
.PHONY: run
run:
	@./prove gw
	@crates/gw/out/gw < crates/gw/stdin
	@crates/gw/out/gw run --ports 2 --table 0=examples/diagnostics-port.toml --table 1=examples/display.toml \
		< examples/traces/diagnostics.pcap

# Puts the program that `make run` built, its manual page, bash's completion and the examples below PREFIX, and that below DESTDIR
# where it is given. The library for C goes there too where `make capi` built it.
PREFIX ?= /usr/local
TO = $(abspath $(DESTDIR)$(PREFIX))
.PHONY: install
install: crates/gw/out/gw
	@install -D -m 755 $< $(TO)/bin/gw
	@install -D -m 644 share/man/man1/gw.1 $(TO)/share/man/man1/gw.1
	@install -D -m 644 share/bash-completion/completions/gw $(TO)/share/bash-completion/completions/gw
	@cd examples && find . -type f -exec install -D -m 644 {} $(TO)/share/doc/gw/examples/{} ';'
	@if test -e out/libj1939gw.a; then $(MAKE) --no-print-directory install-capi; fi

crates/gw/out/gw:
	@$(MAKE) --no-print-directory run

# libj1939gw for C, proved and built into out/ (docs/C.md), and put into PREFIX with its header.
.PHONY: capi install-capi
capi:
	@$(MAKE) --no-print-directory -C capi

install-capi:
	@$(MAKE) --no-print-directory -C capi install TO=$(TO) PREFIX=$(abspath $(PREFIX))

# The gate: every proof from nothing, the wrong bodies, the tests and the programs, each growth refused in turn, the examples,
# and the pages.
.PHONY: test
test:
	@tests/gate

# For whoever works on it. The layout, the pages, and the tests and examples before any proof: minutes.
.PHONY: quick
quick:
	@tests/quick

# One crate, as `make crate NAME=gw_table`: its proof over what is kept, its wrong bodies, and its tests.
.PHONY: crate
crate:
	@tests/crate $(NAME)

# A soak of the running threads: ten million offers at four ports, with a replacement after each 10000 of them. Then 400000
# offers at each of two gateways: one takes no copy out before the last, and one holds offers back until there is room.
.PHONY: soak
soak: crates/test_soak/out/test_soak
	@$< 2500000 10000

crates/test_soak/out/test_soak:
	@./prove test_soak

# Our loop beside libpcap's on the same programs and records, and the times of tables, scripts, traces and threads
# (docs/BENCHMARKS.md). Debian: libpcap-dev, and can-utils for log2asc.
.PHONY: bench
bench:
	@$(MAKE) --no-print-directory -C bench
