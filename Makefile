# make demo                       runs gobblin on a copy of examples/ and shows its report and what it published
# make build                      proves the program and what it stands on, and builds it
# make test                       the gate: every proof, wrong body, test and program, then the command line
# make bench MEGABYTES=100        measures the proved program beside cp and awk, on so much data that it makes
# make install PREFIX=/usr/local  copies the proved program to PREFIX/bin; DESTDIR goes in front
#
# build and test, and a demo with no program built, need the kit's rt.

PREFIX = /usr/local
PROGRAM = crates/gobblin/out/gobblin
MEGABYTES = 100

.PHONY: demo build test bench install

demo:
	@examples/demo

# Only a proved program is built. It is run once, with no words, so what rt run ends with is the status of the usage.
build:
	rm -f $(PROGRAM)
	cd crates/gobblin && { rt run > /dev/null || test -x out/gobblin; }
	@echo "proved and built: $(PROGRAM)"

test:
	.ci/run

bench:
	@tests/bench $(MEGABYTES)

install:
	@test -x $(PROGRAM) || { echo "there is no $(PROGRAM): make build first" >&2; exit 1; }
	mkdir -p $(DESTDIR)$(PREFIX)/bin
	cp $(PROGRAM) $(DESTDIR)$(PREFIX)/bin/gobblin
	chmod 755 $(DESTDIR)$(PREFIX)/bin/gobblin
