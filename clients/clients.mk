# `make clients` tests the clients whose languages are installed, and names the others first.
# `make clients CLIENTS=go SECONDS=30` tests one, with half a minute of kills. LEDGERD= is the program.
.PHONY: clients
clients:
	@command -v python3 > /dev/null || { echo "make clients needs python3" >&2; exit 1; }
	python3 clients/harness/all.py --seconds $(or $(SECONDS),60) $(LEDGERD) $(CLIENTS)
