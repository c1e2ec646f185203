# What is done most: `make` alone prints what there is, and how long it takes.
.POSIX:
.PHONY: help try test gate prove pages

help:
	@echo 'make try    builds the program without proof, as out/xsv: three to ten minutes'
	@echo 'make test   tries out/xsv on all streams of examples/streams, and the tools: under a minute'
	@echo 'make prove  proves the program and builds it, as out/xsv: one to three hours, minutes where the kit kept what it proved'
	@echo 'make pages  makes the pages anew that tools make: the rooms of crates, the table of sizes in docs/MAP.md, and docs/chapters'
	@echo 'make gate   proves and tests everything, as .ci/run does: one to three hours, minutes where the kit kept what it proved'

# tools/build keeps a program that is newer than all sources.
try:
	tools/build out/xsv

test:
	tools/streams out/xsv
	XSV=out/xsv tools/test

prove:
	cd crates/xsv && rt run -- session < ../../examples/session.pyx
	mkdir -p out && cp -f crates/xsv/out/xsv out/xsv

gate:
	.ci/run

pages:
	tools/rooms --write
	tools/sizes --write
	tools/chapters --write
