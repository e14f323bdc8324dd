# The library for the machine at hand and for others, the checks of it from outside, and where it is installed.
NATIVE := target/native/libholzmotte.a

.PHONY: native targets rust same compare ctest examples bench soak install uninstall

native: $(NATIVE)

$(NATIVE): tools/native crates.txt $(shell find crates -path 'crates/*/out' -prune -o \( -name '*.rt' -o -name '*.antt' \) -print)
	tools/native

targets rust same: $(NATIVE)
	tools/$@

compare ctest examples bench soak: $(NATIVE)
	tools/outside $@

# PREFIX and DESTDIR are handed on as they are; tools/install knows what they are where nobody says.
install: $(NATIVE)
	tools/install

uninstall:
	tools/install uninstall
