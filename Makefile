# `make run` starts the server with a small configuration, until Ctrl-C, and `make replay` the replay on its stored example: the proved programs where they were
# built, else the same code compiled without a proof, as `make try` runs the replay in any case. `make build` proves and builds both, and `make install` puts
# them into PREFIX/bin. `make test` is what each commit must pass: the edits can be applied, each crate has a verdict that holds, and all tests pass. It takes
# minutes where the verdicts hold. `make prove` proves everything from nothing, and writes every verdict anew. `make verdicts` says which hold. `make clients`
# tours the server, with boto3 and the AWS command line; `make polls` shows what becomes of receives that wait, of dead letters and of clients that make faults,
# and behind that what 1,000 quiet queues take, as `make rest` does alone: both fail beyond their limits. `make limits` shows what becomes of large bodies, too
# many queues, connections that stand still and want of memory. `make clock` shows what a wall clock does that is put back; `make rate` times the proved one
# beside nginx, `make many` with 1,000 queues, and `make watched` while its statistics are read; `make bench` times the proved replay; `make checkpoints` makes
# 10,000,000 cycles, tells what its checkpoints take of time and memory, and fails where a cycle costs more than 1.2 times what it costs at first. `make
# wrong-bodies` tries the edits that the gate leaves out; with CRATE=name those of one crate. `make test-edits` tries those that tests alone refuse, without a
# proof. `make refuse` refuses each allocation in turn to the tests of refused memory, and to the replay on its stored runs, and `make refuse-server` to the
# server while it serves. `make page` shows the statistics page with numbers that were made up, and `make page-test` tries it in a browser, and behind it that
# of the server. `make using` does what docs/USING.md says, and compares. `make table` puts what the verdicts say into docs/bench/verdicts.md.
.PHONY: run replay try build install test prove verdicts table clients polls limits clock rate rest many watched wrong-bodies test-edits refuse refuse-server bench checkpoints page page-test using
PREFIX ?= /usr/local

run:
	@tools/run sqs_server crates/sqs_server/example.toml

replay:
	@tools/run sqs_replay < crates/sqs_replay/stdin

try:
	@program=$$(tools/compile sqs_replay) && "$$program" < crates/sqs_replay/stdin

build:
	tools/build

install: build
	install -d $(DESTDIR)$(PREFIX)/bin
	install -m 755 crates/sqs_server/out/sqs_server crates/sqs_replay/out/sqs_replay $(DESTDIR)$(PREFIX)/bin

test:
	tools/test

prove:
	tools/gate --all

verdicts:
	tools/gate --list

table:
	tools/gate --paste

clients:
	clients/run.sh

polls:
	clients/run.sh polls

limits:
	clients/limits.py

clock:
	clients/clock.py

rate:
	clients/rate.py

rest:
	clients/rate.py --rest

many:
	clients/run.sh many

watched:
	clients/run.sh watched

wrong-bodies:
	tools/wrong-bodies $(CRATE)

test-edits:
	tools/test-edits $(CRATE)

refuse:
	tools/refuse-allocations

refuse-server:
	clients/refused.py

bench:
	clients/bench.py

checkpoints:
	clients/checkpoints.py

page:
	clients/stand_in.py

page-test:
	clients/page_test.py

using:
	clients/using_test.py
