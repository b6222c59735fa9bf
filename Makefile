# Fronts for the scripts that do the work; `make` alone lists them. Variables:
#   ARCHIVE   a libgorbihesh.a that was handed over, in place of the one that is proved and built here
#   PREFIX    where install puts things, /usr/local unless said;  DESTDIR  stands before it where a package is made
.PHONY: help test edits run bench archive install uninstall

ARCHIVE ?= target/lib/libgorbihesh.a
export ARCHIVE PREFIX DESTDIR

help: ## this list
	@echo 'What there is to make:'
	@sed -n 's/^\([a-z]*\):.*## /  make \1	/p' Makefile | expand -t 20
	@sed -n 's/^#   /  /p' Makefile

test: ## the gate: every proof, wrong programs, every run beside the Rust
	.ci/run

edits: ## wrong versions of the code, each of which the prover must refuse; make edits CRATE.. for some crates
	tests/edits/run $(filter-out $@,$(MAKECMDGOALS))

run: $(ARCHIVE) ## a first look: the command on a sample site
	command/run

bench: $(ARCHIVE) ## times beside Rust, room and stack
	tests/rust/bench
	tests/selection/bench

archive: ## the libraries, proved and built into target/lib: minutes the first time
	library/build

install: $(ARCHIVE) ## headers, libraries, man pages and the command, under PREFIX
	library/install

uninstall: ## take away what install put there
	library/install --remove

target/lib/libgorbihesh.a: archive

# the words behind `make edits` are crates, and nothing to make
ifeq ($(firstword $(MAKECMDGOALS)),edits)
$(filter-out edits,$(MAKECMDGOALS)):
	@:
.PHONY: $(filter-out edits,$(MAKECMDGOALS))
endif
