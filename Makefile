# The C library: make, make check, make install PREFIX=/usr/local DESTDIR=, make uninstall; make programs: the proved programs, in target/bin.
# embed/Makefile does the work and says what can be set. The gate is .ci/run.
all check install uninstall programs:
	$(MAKE) -C embed $@

.PHONY: all check install uninstall programs
