# morphq: `make demo` proves and builds the program and asks the example database, `make test` is the gate, `make bench` times
# the program and its parts, and `make install PREFIX=/usr/local` installs the program.

PREFIX ?= /usr/local
QUERY := select sum(revenue) from sales where discount between 1 and 3
MORPHQ := crates/morphq/out/morphq
COLUMN_TOOL := crates/column_tool/out/column_tool

# A processor with AVX2 decodes blocks in about half the time if the program may use it.
PROCESSOR := $(if $(shell grep -m1 -w avx2 /proc/cpuinfo 2>/dev/null),x86-64-v3,x86-64-v2)

# The libraries that a crate stands on, lowest first, as crates.txt has them: each line stands below the lines that it names.
below = $(shell tac crates.txt | awk -F': *' -v top=$(1) \
	'BEGIN { needed[top] } $$1 in needed { if ($$1 != top) print $$1; count = split($$2, names, " "); \
	while (count) needed[names[count--]] }' | tac)
sources = $(shell find $(patsubst %,crates/%,$(1) $(call below,$(1))) -name '*.rt' -o -name '*.antt' | grep -v /out/)

# Proves the libraries of a program one by one, each with a line that says so, and then proves and builds the program. What rt
# says of a crate stands in its out/make.log, and is shown if the crate is not proved.
define build
	@command -v rt > /dev/null || { echo "rt, the toolchain's command, is not on the path" >&2; exit 1; }
	@all="$(call below,$(1)) $(1)"; at=0; \
	for crate in $$all; do \
		at=$$((at + 1)); begin=$$(date +%s); log=crates/$$crate/out/make.log; \
		printf '%2d of %d  proving %-22s' $$at $(words $(call below,$(1)) $(1)) $$crate; \
		mkdir -p crates/$$crate/out; \
		if [ $$crate = $(1) ]; then rm -f $@; (cd crates/$$crate && rt run --cpu $(PROCESSOR)) > $$log 2>&1 < /dev/null; [ -x $@ ]; \
		else (cd crates/$$crate && rt lib) > $$log 2>&1 < /dev/null; fi || { echo failed; cat $$log >&2; exit 1; }; \
		echo "$$(($$(date +%s) - begin)) s"; \
	done
endef

.PHONY: demo test bench install

demo: $(MORPHQ)
	@echo "$$ echo '$(QUERY)' | morphq query"
	@cd crates/morphq/data && echo '$(QUERY)' | $(CURDIR)/$(MORPHQ) query

test:
	bash .ci/run

bench: $(MORPHQ) $(COLUMN_TOOL)
	bench/codec $(PROCESSOR)
	bench/formats $(PROCESSOR)
	bench/columns $(PROCESSOR)
	bench/sizes $(PROCESSOR)
	bench/auto $(PROCESSOR)
	bench/dictionaries $(PROCESSOR)
	bench/queries $(PROCESSOR)
	bench/plans
	bench/read_column
	bench/first_query
	bench/imports

install:
	@[ -x $(MORPHQ) ] || { echo "morphq is not built yet: run 'make demo' first" >&2; exit 1; }
	install -D -m 755 $(MORPHQ) $(DESTDIR)$(PREFIX)/bin/morphq

$(MORPHQ): crates.txt $(call sources,morphq)
	$(call build,morphq)

$(COLUMN_TOOL): crates.txt $(call sources,column_tool)
	$(call build,column_tool)
