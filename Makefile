# The targets. README.md, 'What it needs', has what each needs and takes.
#
#   try      looks at ledgerd in minutes, with checks in place of proofs.
#   play     leaves that program served on a new file.
#   test     runs all tests so, or STEPS="session trials" alone; no proof; BASE=REV for the look at English.
#   run      proves and builds ledgerd, and plays the worked session on a new file.
#   prove    the gate: every crate of the product from nothing, and wrong bodies; BASE=REV tries more.
#   prove-tests, must-fail    the proofs of the tests, and every wrong body; of all crates or CRATES=.
#   session  plays the worked session and compares it with the expected one.
#   faults   tries what may go wrong; faults-long all of it; soak all at once, for MINUTES=60.
#   bench    measures; alloc runs the tests on want of memory with each allocation refused in turn.
#   python   tests the client for Python; console the page for the browser, in chromium.
#   fleet    as root, plays two machines on a replicated volume.
#
# `try`, `play` and `run` take a free port, or PORT=8080.
.PHONY: run try play ledgerd session test prove prove-tests must-fail python console fleet faults \
    faults-long soak bench alloc

LEDGERD = crates/ledgerd/out/ledgerd
UNPROVED = out/checked/ledgerd-unproved
PLAY = examples/session/play.sh $(LEDGERD) out/session $(PORT)
export STAY

# What a target calls. One that is lacking is told at once, before anything is built.
try-calls = rt python3 curl
play-calls = $(try-calls)
run-calls = rt python3 curl sqlite3
session-calls = $(run-calls)
ledgerd-calls = rt python3
python-calls = rt python3
console-calls = rt python3 curl chromium chromedriver faketime
fleet-calls = rt python3 unshare nsenter setpriv ip glusterd gluster mount.glusterfs haproxy
faults-calls = rt python3 cc
faults-long-calls = $(faults-calls)
soak-calls = $(faults-calls)
prove-calls = rt python3 git
prove-tests-calls = $(prove-calls)
must-fail-calls = $(prove-calls)
test-calls = rt python3 curl sqlite3 cc
lacks = $(if $(shell command -v $(1) 2>/dev/null),,$(1))
refused = $(shell python3 examples/session/port.py '$(PORT)' >/dev/null 2>&1 || echo $(PORT))
goals = $(or $(MAKECMDGOALS),run)
$(foreach goal,$(goals),$(foreach it,$($(goal)-calls),$(if $(call lacks,$(it)),\
    $(error make $(goal) needs $(it): see "What it needs" in README.md))))
$(if $(PORT),$(if $(filter try play run session,$(goals)),$(if $(refused),\
    $(error port $(PORT) cannot be served: with no PORT= a free one is taken))))

run: ledgerd
	$(PLAY)

# At -O0 it is built in half the time. Where the toolchain keeps no program, `rt try` builds one.
try:
	@python3 build/checked.py -O0 ledgerd || echo 'make try: on with rt try'
	@examples/session/try.sh $(UNPROVED) out/try $(PORT)

play:
	@python3 build/checked.py ledgerd
	@examples/session/serve.sh $(UNPROVED) out/play $(PORT)

# All tests, the session, the client for Python and a sample of the trials, without a proof.
test:
	@BASE=$(BASE) python3 build/test.py $(STEPS)

# Crates are proved side by side, with as many jobs as `-jN` says, else as there are processors.
ledgerd:
	+@python3 build/prove.py

session: ledgerd
	test "$$($(LEDGERD) --version | tail -n 1)" = "$$(rt version | sed 's/^[^ ]*/rattle/')"
	mkdir -p out
	$(PLAY) > out/session.txt
	python3 examples/session/compare.py out/session.txt
	python3 examples/session/compare.py examples/session/README.md
	python3 examples/session/compare.py --blocks README.md

# The gate proves every crate of the product from nothing, and builds the program by both compilers. Then
# it tries a wrong body of each file, and with BASE=REV more of each crate that differs from REV.
prove:
	+@BASE=$(BASE) python3 build/gate.py prove

# The proofs of the tests, of each crate of tests or of CRATES.
prove-tests:
	+@python3 build/gate.py tests $(CRATES)

# All wrong bodies, of each crate or of CRATES.
must-fail:
	+@python3 build/gate.py must-fail $(CRATES)

# The client for Python: its own tests, and the program killed under it. Then the examples that
# follow a ledger, post its transfers, sum it up, and keep wallets on it.
python: ledgerd
	LEDGERD=$(LEDGERD) python3 -m unittest discover clients/python
	python3 examples/following/try_following.py $(LEDGERD)
	python3 examples/trial-balance/try_trial_balance.py $(LEDGERD)
	python3 examples/webhooks/try_webhooks.py $(LEDGERD)
	python3 examples/wallet/try_wallet.py $(LEDGERD)

# The page for the browser, in chromium; the pictures in docs/ are made anew.
console: ledgerd
	python3 console/try_console.py $(LEDGERD) docs

# Two machines, each with a network and mounts of its own, three bricks and a proxy: as root.
fleet: ledgerd
	python3 examples/fleet/try_fleet.py $(LEDGERD)

faults: ledgerd
	python3 faults/campaign.py $(LEDGERD) $(if $(SEED),--seed $(SEED)) $(if $(JOBS),--jobs $(JOBS))

faults-long: ledgerd
	python3 faults/campaign.py $(LEDGERD) --long $(if $(SEED),--seed $(SEED)) \
	    --jobs $(or $(JOBS),$(shell nproc)) $(if $(MINUTES),--minutes $(MINUTES))

soak: ledgerd
	python3 faults/soak.py $(LEDGERD) --minutes $(or $(MINUTES),60) $(if $(SEED),--seed $(SEED))

bench:
	bench/run
	bench/messages
	bench/storage

alloc:
	bench/alloc

include build/packages.mk clients/clients.mk
