# Thin targets over the scripts of this repository. `make` lists them. docs/CONTRIBUTING.md#tests has what each test
# does.
help: ## list the targets
	@awk -F ':.*## ' '/^[a-z]+:.*## / { printf "make %-7s %s\n", $$1, $$2 }' $(MAKEFILE_LIST)

try: rt ## run a first script before any proof: needs rt
	cd crates/xa_script && rt try -- run < ../../examples/branch.script

build: rt ## prove and build the program: needs rt
	scripts/build

test: rt ## run the whole gate, proofs and tests: needs rt, a C compiler, Python, apt-get
	@echo 'From nothing the whole gate took 70 to 111 minutes on 4 cores. Shorter: make try, about a minute.'
	.ci/run

release: rt ## make and try a package of Debian, a tarball and a wheel of what is committed: needs rt, cargo, gcc, root
	scripts/build
	scripts/build nigbaru_c
	scripts/release --test

server: ## serve MySQL's protocol on 127.0.0.1:3306: over a build, an installed release, or else proofs
	@scripts/start server

page: ## serve the classroom on http://127.0.0.1:8400/: likewise
	@scripts/start page

bench: ## break a small transaction manager at every point: likewise; needs python3-pymysql
	@scripts/start bench

rt:
	@command -v rt > /dev/null || \
		{ printf '%s\n' "there is no rt on the path: README.md says in 'Quick start' where it comes from." \
			'To use a release you need none: docs/INSTALL.md says what to ask for.' >&2; exit 1; }

.PHONY: help try build test release server page bench rt
