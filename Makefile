# The usual rules, over the scripts in tools/, which say at their heads what they do. LEVEL, PREFIX, DESTDIR and LIBDIR
# are theirs: what make is told of them goes on to the script, and nothing where it is told none.
.POSIX:
.PHONY: all lib check install uninstall

all:
	tools/build $${LEVEL:+"$$LEVEL"}

lib:
	tools/build lib $${LEVEL:+"$$LEVEL"}

check:
	tools/test

install uninstall:
	tools/$@ $${PREFIX:+"$$PREFIX"}
