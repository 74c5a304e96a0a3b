# What each command does stands behind ## in its line, where make help reads it. Without a name make does what make run does.
.PHONY: run test help deps lib install uninstall clean worked report bench bench-deps peers peers-deps soak

PREFIX = /usr/local

run: ## makes a pipe's key at the rack and in the module, at sixteen offsets, on the example of FIPS 197
	@tools/kit >&2
	@tools/run

test: ## runs every check of the project, the gate last
	@tools/kit
	@tools/ready
	@tools/lib-test
	@tools/sources-test
	@tools/sources
	@tools/cites-test
	@tools/cites
	@tools/trace-test
	@tools/trace
	@tools/header-test
	@tools/header
	@tools/replies-test
	@tools/replies
	@tools/pages-test
	@tools/pages
	@tools/gate

help: ## lists these commands
	@awk -F ':[^#]*## ' '/^[a-z-]+:.*## / { printf "make %-12s%s\n", $$1, $$2 }' Makefile

deps: ## installs what make run, make test and make install need beside the Rattle kit, or says what it is
	@tools/kit
	@tools/ready && echo 'Everything that make run, make test and make install need is here.'

lib: ## proves the library and leaves it in build/libslipgrease.a
	@tools/kit >&2
	@tools/lib && echo build/libslipgrease.a

install: ## installs library, header, both programs, manual pages and completion under PREFIX, /usr/local unless named; DESTDIR too
	@tools/kit >&2
	@tools/put '$(PREFIX)' '$(DESTDIR)'

uninstall: ## removes what make install installed under PREFIX
	@tools/put --remove '$(PREFIX)' '$(DESTDIR)'

clean: ## removes all that was proved and built
	@rm -rf build host/target crates/*/out

worked: ## shows worked examples of the field and the rack's rounds, by a proved program
	@tools/kit >&2
	@tools/worked

report: ## proves the program that reports on the masks of a sheet, before it is shipped, and leaves it in build/report
	@tools/kit >&2
	@tools/report && echo build/report

bench: ## measures the library beside C translations of its steps, other libraries and the desk tool
	@tools/kit >&2
	@tools/bench

bench-deps: ## installs what make bench compares with
	@tools/bench-deps

peers: ## compares key wrap and packets with other implementations, on COUNT cases of each size from a SEED
	@tools/kit >&2
	@tools/peers '$(SEED)' '$(COUNT)'

peers-deps: ## installs the other implementations for make peers
	@tools/peers-deps

soak: ## compares the library with the second program, seed after seed, for so many MINUTES or without end
	@tools/kit >&2
	@tools/soak $(MINUTES)
