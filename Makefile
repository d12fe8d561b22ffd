# demo: prove and build the reader, and show what it does. test: the whole gate. clean: remove what was built.

.PHONY: demo test clean

# The reader stops at the end of its input, which is empty here.
demo:
	@mkdir -p target/bin
	@echo "Proving and building the reader; the first time this takes some minutes. The log is target/demo.log."
	@cd crates/reader && rt run > ../../target/demo.log 2>&1 < /dev/null || { tail -n 40 ../../target/demo.log; exit 1; }
	@cp crates/reader/out/reader target/bin/reader
	@demo/run.sh

# The last line is that of `rt ci`: how many passed, and how many failed.
test:
	@scripts/stands-alone.sh
	@scripts/gate.sh

clean:
	rm -rf target crates/*/out
