# Maps many netlists side by side, a process each; the jobs share nothing.
#
#     make -f examples/many.mk -j 4 K=4 NETLISTS="one.blif parts/two.blif"
#
# NAME.par stands beside NAME.blif. OUT gets NAME.t.blif and NAME.ppc, the template and its pack, and NAME.txt, the header line, which
# is there once the job is done. With -k the others go on where one is refused. Names have to differ, from whatever folders they are.

TLUT ?= ./tlut
OUT ?= mapped
K ?= 4
NAMES := $(basename $(notdir $(NETLISTS)))

vpath %.blif $(sort $(dir $(NETLISTS)))
vpath %.par $(sort $(dir $(NETLISTS)))

.PHONY: all built
all: $(NAMES:%=$(OUT)/%.txt)
	@for name in $(NAMES); do echo "$$name: $$(cat $(OUT)/$$name.txt)"; done

# One call without words, which ends with status 2, builds the program before the jobs begin.
built:
	@$(TLUT) > /dev/null 2>&1; test $$? -eq 2

$(OUT)/%.txt: %.blif %.par | built
	@mkdir -p $(OUT)
	@$(TLUT) map $(K) $(filter %.blif,$^) $(filter %.par,$^) $(OUT)/$*.t.blif $(OUT)/$*.ppc > $@.new && mv $@.new $@
