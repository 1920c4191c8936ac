# Packages (build/packages.py): `make install` installs below DESTDIR and PREFIX, `make dist` builds a tar
# with its sums, and `make deb` a Debian package. `dist` and `deb` build the program of a package first, whose
# `version` names the commit (build/packaged.py), and `install` takes the proved program. Each takes the one in
# LEDGERD= instead, and the manifest says which it was. GATE= is a file with the output of `make prove`.
.PHONY: install dist deb

PREFIX ?= /usr/local
GATE ?= out/gate.txt
PACKAGES = python3 build/packages.py --gate $(GATE) \
    $(if $(filter file,$(origin LEDGERD)),,--program $(LEDGERD))

install-calls = python3
dist-calls = rt python3 git
deb-calls = rt python3 git dpkg-deb
$(foreach goal,$(filter install dist deb,$(MAKECMDGOALS)),$(foreach it,$($(goal)-calls),\
    $(if $(shell command -v $(it) 2>/dev/null),,$(error make $(goal) needs $(it)))))

install:
	$(PACKAGES) install --destdir "$(DESTDIR)" --prefix "$(PREFIX)"

dist:
	$(PACKAGES) dist

deb:
	$(PACKAGES) deb
