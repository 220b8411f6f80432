# `make help` lists the targets.
.DEFAULT_GOAL = build
PYTEST = /usr/bin/python3 -m pytest
TASK ?= run
INPUT ?= examples/first.txt
ARCHIVES = crates/node_c/out/libnode_c.a crates/volume_c/out/libvolume_c.a

$(ARCHIVES) &:
	tools/build.py node_c volume_c

.PHONY: build help try sqlite test bench prove pictures dist

build: ## prove and build fleet and fleet-node (half an hour or more from nothing)
	tools/build.py fleet fleet_node

help: ## this page
	@awk -F ':.*## ' '/^[a-z]+:.*## / { printf "make %-9s %s\n", $$1, $$2 }' Makefile

try: ## run an example without proofs: make try TASK=run|check|inspect|node INPUT=FILE
	@tools/try.sh $(TASK) $(INPUT)

sqlite: $(ARCHIVES) ## SQLite's shell over six storage servers in a folder; sqlite/demo --help shows more
	cd store && cargo build --quiet --release --offline --locked
	$(MAKE) -s -C sqlite
	sqlite/demo

test: build ## every test from outside; builds what is missing
	$(PYTEST) tests

bench: build ## measure the programs: make bench PEER=PROGRAM writes bench/RESULTS.md
	bench/measure.py $(if $(PEER),--peer $(PEER)) | tee bench/RESULTS.new
	echo >> bench/RESULTS.new && bench/guards.py | tee -a bench/RESULTS.new
	sed -n '/^## SQLite/,$$p' bench/RESULTS.md >> bench/RESULTS.new && mv bench/RESULTS.new bench/RESULTS.md

prove: ## prove one crate and those below it: make prove CRATE=segment_core
	tools/build.py $(CRATE)

pictures: ## draw docs/pictures again
	tools/draw.py --documents

dist: build ## pack the proved programs, the archive and the help into one file
	tools/dist.py
