# make         builds the proved heap_tool and says where it lies
# make library  builds the dictionary's library for C and Python, proved: bin/libheap.a, libheap.so, heap.h, heap.py and heap.pc (docs/C.md)
# make test    runs the tests and the stored runs but those of slow_tests and stopped_run, and proves nothing
# make demo    a first session with a program that was not proved, in a minute or two
# make check   every check: the gate
# make bench   times the program beside the system's tools and other stores, runs of traces, and the heaps, and draws it
# make faults  has calls of all commands fail: each get, put, read and write, and each request for memory, in turn; and real files, inputs and outputs; it says how they ended
# make schedules  runs the schedules of docs/ALGORITHM.md, and compares their answers
# make compare  holds the program against a second reading of the format, over damaged images, random traces and schedules, for a minute
# make readings  checks the second readings of traces and runs by small cases that were worked out by hand; make compare and make soak begin with it
# make pages   types the commands of README, docs/GUIDE.md and docs/IMAGE.md, and holds what is printed against these pages
# make stops   stops a short run with moves at every step, and judges each image by the second reading (ten minutes)
# make kills   kills the program at random moments of a run, and counts which images and temporaries that leaves
# make soak    runs random traces with one to eight workers for ten minutes (MINUTES), and holds each answer against a second reading; then threads that allocate and free at random, and threads that hand blocks round, for one minute each
# make explore  makes out/explore.html: the put of docs/GUIDE.md that is cut off, with a slider over its stops, and why each leaves what it leaves
# make explore-test  opens such a page in chromium, where there is one, and holds it against what the program prints
# make clean   removes what these made
.PHONY: all library test demo check bench faults schedules readings compare pages stops kills soak explore explore-test clean

all: bin/heap_tool

# The gate leaves the program there too, so nothing is proved again behind `make check`.
crates/heap_tool/out/heap_tool: crates.txt $(wildcard crates/*/src/*.rt crates/*/specs/*.antt crates/*/proofs/*.antt)
	mkdir -p bin
	# (what is proved is built, and then run once: it makes an example)
	cd crates/heap_tool && rt run -- format ../../bin/example.img 1

bin/heap_tool: crates/heap_tool/out/heap_tool
	mkdir -p bin
	cp crates/heap_tool/out/heap_tool bin/heap_tool
	@echo "the program is bin/heap_tool"

library: bin/libheap.a

bin/libheap.a: crates.txt $(wildcard library/* crates/*/src/*.rt crates/*/specs/*.antt crates/*/proofs/*.antt)
	cd crates/c_dictionary && rt lib
	tools/c_library

test:
	tools/run_tests
	tools/c_door

demo:
	tools/demo

check:
	.ci/run

bench: bin/heap_tool
	bench/all

faults: bin/heap_tool
	tools/faults

schedules: bin/heap_tool
	tools/schedules

readings:
	tools/check_readings

compare: bin/heap_tool readings
	tools/compare

pages: bin/heap_tool
	tools/check_pages

stops: bin/heap_tool readings
	tools/stops

kills: bin/heap_tool
	tools/kills

MINUTES = 10

soak: bin/heap_tool readings
	tools/soak $(MINUTES)
	tools/seats 1
	tools/hands 1

explore: bin/heap_tool
	mkdir -p out
	tools/explore -o out/explore.html

explore-test: bin/heap_tool
	tools/explore_test

clean:
	rm -rf bin out crates/*/out
