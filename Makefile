# make: proves and links the program, telling a line a crate, and runs an example. make test: the gate. make check: the
# checks of the built program alone.
.PHONY: all test check

all:
	tools/build.sh

test:
	.ci/run

check:
	for check in checks/*.sh; do bash "$$check" || exit 1; done
