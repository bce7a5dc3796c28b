# The tests of docs/host.md: on each pack of the companion's tests, under the sanitizers; once more under valgrind, and on a processor of
# the least level, if these are installed. A library for another architecture is run by qemu-user, without sanitizers.
PACKS = $(wildcard ../tlutflow/tests/data/*.ppc)
FIRST_PACK = ../tlutflow/tests/data/coder.ppc
RUN ?= $(if $(filter-out $(HOST),$(ARCH)),qemu-$(ARCH) -L /usr/$(CROSS:%-=%))
SANITIZERS ?= $(if $(RUN),,-fsanitize=address,undefined)
STRICT = -std=c99 -Wall -Wextra -Wpedantic -Werror -g -I.
WRAP = -Wl,--wrap=malloc,--wrap=calloc,--wrap=realloc,--wrap=free
HEADERS = tlut_host.h tests/counted.h tests/tests.mk

# Every 61st spoilt pack where a run is slow.
FEW = 61
VALGRIND = valgrind -q --leak-check=full --show-leak-kinds=all --error-exitcode=1
# An x86-64 processor without any later instruction.
OLDEST = qemu-x86_64 -cpu qemu64,-sse3,-cx16,-lahf-lm,-popcnt

$B/spoilt: tests/spoilt.c $B/libtlut_host.a $(HEADERS)
	$(CC) $(STRICT) $(SANITIZERS) tests/spoilt.c $B/libtlut_host.a -o $@

$B/spoilt_plain: tests/spoilt.c $B/libtlut_host.a $(HEADERS)
	$(CC) $(STRICT) -O1 tests/spoilt.c $B/libtlut_host.a -o $@

$B/filter: ../examples/host/filter.c $B/libtlut_host.a $(HEADERS)
	$(CC) $(STRICT) -O1 ../examples/host/filter.c $B/libtlut_host.a -o $@

$B/%: tests/%.c tests/counted.c $B/libtlut_host.a $(HEADERS)
	$(CC) $(STRICT) $(SANITIZERS) $(WRAP) $< tests/counted.c $B/libtlut_host.a -o $@

test: all $B/spoilt $B/spoilt_plain $B/allocations $B/no_memory $B/filter
	for pack in $(PACKS); do \
	    $(RUN) $B/allocations $$pack && $(RUN) $B/no_memory $$pack && $(RUN) $B/spoilt $$pack || exit 1; \
	done
	$(RUN) $B/filter ../tlutflow/tests/data/fir.ppc 5 7 6 2 4 1
	if [ -n "$(RUN)" ]; then echo "left out: valgrind, for another architecture"; \
	elif ! command -v valgrind >/dev/null; then echo "left out: valgrind isn't installed"; \
	else $(VALGRIND) $B/filter ../tlutflow/tests/data/fir.ppc 5 7 6 2 4 1 >/dev/null && \
	    for pack in $(PACKS); do $(VALGRIND) $B/spoilt_plain $$pack $(FEW) || exit 1; done; fi
	if [ "$(ARCH) $(CPU)" != "x86_64 x86-64" ]; then echo "left out: the least x86-64 processor, since the library is for $(ARCH) $(CPU)"; \
	elif ! command -v qemu-x86_64 >/dev/null; then echo "left out: qemu-user isn't installed"; \
	else $(OLDEST) $B/spoilt_plain $(FIRST_PACK) $(FEW); fi
