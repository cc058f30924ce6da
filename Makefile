.PHONY: help run prove test archive host scale bench install
PREFIX = /usr/local
DESTDIR =
ARCHIVE = target/lib/libleading.a

help:
	@echo 'make run       proves and builds the program leading, and runs it on the small plant'
	@echo 'make prove     proves every crate, and runs each program'
	@echo 'make test      the whole gate'
	@echo 'make archive   proves the code and writes $(ARCHIVE) for C programs'
	@echo 'make host      the archive, the host over it (target/host/leading_host), and their checks'
	@echo 'make scale     the archive against the outside program at scale, some minutes'
	@echo 'make bench     figures: ours, a plain and a same-design implementation in C'
	@echo 'make install   header, archive, leading.pc and manual to PREFIX ($(PREFIX)), under DESTDIR'

# what rt says at length is in target/run.log; the program is left in target/bin
run:
	@bash .ci/prove leading target/run.log
	@./target/bin/leading < crates/leading/stdin

prove:
	rt all test

test:
	bash .ci/run

# what rt says at length is in target/lib/archive.log
archive:
	@mkdir -p target/lib
	cd crates/leading_c && rt lib > ../../target/lib/archive.log 2>&1 || { cat ../../target/lib/archive.log; exit 1; }
	cp crates/leading_c/out/libleading_c.a $(ARCHIVE)

host: archive
	bash host/check.sh $(ARCHIVE)

# the gate has a short run of it
scale: archive
	bash outside/scale.sh $(ARCHIVE)

# figures, once all three were found to answer alike
bench: archive
	$(MAKE) -C bench check run LIB="$(CURDIR)/$(ARCHIVE)"

install: archive
	bash host/install.sh $(ARCHIVE) "$(PREFIX)" "$(DESTDIR)"
