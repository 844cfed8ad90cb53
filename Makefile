# `make` builds the program that lists a journal and runs it on an example; `make test` is the gate. `make archive` builds the C library, as
# target/staticlib/libreserve.a, and `make NAME` one of the programs, as target/bin/NAME.
programs := calls_check convert_pages journal_check layouts listing
.PHONY: run archive test $(programs)

run: listing
	@target/bin/listing <examples/most-moves.journal

archive $(programs):
	@mkdir -p target && tools/build $(@:archive=reserve) >target/build.log 2>&1 || { cat target/build.log; exit 1; }

test:
	@bash .ci/run
