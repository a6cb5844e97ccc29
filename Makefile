# Proves and builds the program. The crates and what each one uses come from crates.txt.
#   make         builds crates/goodlockd/out/goodlockd, several crates at a time (make -jN: at most N)
#   make test    runs the merge gate, `rt ci`, and then the tests of the user side
#   make bench   runs the benchmarks; make clean removes everything that was built
#   make install PREFIX=DIR, make dist   installs the program, agents and tools, or packs them: see tools/install --help
# A crate is built again if one of its files, its line of crates.txt, the toolchain or a crate below it has changed.
.DELETE_ON_ERROR .SECONDEXPANSION:
.PHONY: test bench install dist clean
tools := $(if $(filter clean,$(MAKECMDGOALS)),,rt python3 $(if $(filter test bench install dist,$(MAKECMDGOALS)),cc))
$(foreach it,$(tools),$(if $(shell command -v $(it)),,$(error there is no command $(it): README.md lists the requirements)))
# One job for each processor, if there are 5 GB of memory for each.
MAKEFLAGS += -j$(shell awk -v most=$$(nproc) '/^MemTotal/ {n = int($$2 / 5e6); print n < 1 ? 1 : n < most ? n : most}' /proc/meminfo)

kit := $(if $(tools),$(patsubst %/,%,$(dir $(shell rt doc))))
kit_id := $(if $(kit),$(shell cat $(kit)/KIT-ID))
names := $(shell sed -nE 's/^([a-z0-9_]+)[^:]*:.*/\1/p' crates.txt)
$(foreach it,$(names),$(eval uses.$(it) := $(shell sed -nE 's/^$(it)( [^:]*)?:(.*)/\2/p' crates.txt)))
own = $(filter $(names),$(uses.$1))
$(foreach it,$(names),$(eval below.$(it) := $(sort $(call own,$(it)) $(foreach use,$(call own,$(it)),$(below.$(use))))))
crates := $(below.goodlockd) goodlockd
# out/NAME.uses has the toolchain and the line of the crate. It is written only if they have changed.
line = echo '$(kit_id): $(uses.$1)'
$(if $(tools),$(shell mkdir -p out; $(foreach it,$(crates),$(call line,$(it)) | cmp -s - out/$(it).uses || $(call line,$(it)) >out/$(it).uses;)))
above = $(foreach it,$(crates),$(if $(filter $1,$(below.$(it))),$(it)))
stamps = $(patsubst %,crates/%/out/rlib/built,$1)
rlib = $(CURDIR)/crates/$1/out/rlib
words = --crate-name $* --jobs 2 --antt-project $(kit)/rattle/logic/antt-project.json --logic-built $(kit)/logic_built \
    $(foreach it,std $(filter-out $(names),$(uses.$*)),--extern $(it)=$(kit)/rlibs/$(it).rlib) -L dependency=$(kit)/rlibs \
    $(foreach it,$(call own,$*),--extern $(it)=$(call rlib,$(it))/$(it).rlib) --links $*= \
    $(foreach it,$(below.$*),-L dependency=$(call rlib,$(it))) $(if $(filter goodlockd,$*),\
    src/main.rt --toolchain $(kit)/toolchain --backend llvm,src/lib.rt --statements) \
    -o $(call rlib,$*)/$*.$(if $(filter goodlockd,$*),o,rlib)

crates/goodlockd/out/goodlockd: crates/goodlockd/out/rlib/built
	@$(kit)/bin/rattle-link --target x86_64-unknown-linux-gnu --toolchain $(kit)/toolchain -o $@.new \
	    $(call rlib,goodlockd)/goodlockd.o $(kit)/c/libos_c.a $(kit)/c/liblibc_c.a >out/link.log 2>&1 || { cat out/link.log >&2; exit 1; }; mv $@.new $@; touch -r $< $@
test: ; rt ci && tests/run
bench: crates/goodlockd/out/goodlockd ; bench/run
install dist: crates/goodlockd/out/goodlockd ; tools/install $@ $(if $(filter install,$@),'$(PREFIX)')
clean: ; rm -rf out crates/*/out
$(call stamps,$(crates)): crates/%/out/rlib/built: out/%.uses $$(call stamps,$$(call own,$$*)) \
        $$(shell find $$(wildcard $$(addprefix crates/$$*/,src specs proofs)))
	@rm -rf $(@D) $(call stamps,$(call above,$*)); mkdir -p $(@D); touch out/$*.begun
	@(cd crates/$* && exec $(kit)/bin/rattle build $(words)) >out/$*.log 2>&1 & trap "kill $$!; exit 1" INT TERM; \
	    wait $$! || { { echo "goodlockd: $* failed:"; cat out/$*.log; } >&2; exit 1; }
	@touch -r out/$*.begun $@; echo "goodlockd: $* is done after $$(($$(date +%s) - $$(stat -c %Y $@))) s," \
	    "$$(ls $(call stamps,$(crates)) 2>/dev/null | wc -l) of $(words $(crates)) crates" >&2
