# make            lists these
# make demo       a small capture is sent, damaged and read back, also in bursts, in plain words
# make test       the gate: every proof, every must-fail edit, every program and every outside check
# make native     target/native/libholzmotte.a for the machine at hand
# make targets    the same for 64-bit Arm, Linux, Android and Apple: target/native/TARGET/libholzmotte.a, compiled and not run
# make install    header, archive, shared library and pkg-config file, below $DESTDIR$PREFIX (PREFIX: /usr/local)
# make uninstall  takes them away
# make compare, make ctest, make examples, make rust, make same: one outside check alone
# make bench      the library beside two hand-written versions, in bursts, in short and in long calls, timed in one run: target/bench/speed.md
# make soak       comparisons with the second program from a new seed, until stopped
.PHONY: help test demo

help:
	@sed -n '/^#/!q; s/^# //p' $(firstword $(MAKEFILE_LIST))

# exec, so that a signal to make's child is one to the gate or to the demonstration itself
test:
	@tools/needs python3 && exec tools/gate

demo:
	@tools/needs python3 && exec tools/demo

include tools/outside.mk
