.PHONY: help test run try bench report damage spread untouched filter neighbours stack soak library install uninstall python pictures catalogue deps clean

# What can be made, and how long it takes. "Proving first": what the target needs is proved where it has changed, up to 10 minutes on two cores.
help:
	@echo "make try        starline's example without a proof: seconds"
	@echo "make run        starline proved, built and run: 8 minutes the first time, then at once"
	@echo "make test       every test: half an hour on four cores where rt has kept nothing; ends with 'N passed, 0 failed'"
	@echo "make bench      times of the calls: three minutes, proving first (OLD=lib.a: an older library beside them)"
	@echo "make report     pages read and written for each star entered, beside the report's Table 1: 2 minutes, proving first"
	@echo "make damage     which single wrong bits are noticed, and by what: half a minute, proving first"
	@echo "make spread     which star numbers spread well, and how full a file gets: 3 minutes, proving first"
	@echo "make untouched  how many pages a growth leaves untouched: 20 seconds, proving first"
	@echo "make filter     how often the tray's filter says yes of a star that no report names: seconds, proving first"
	@echo "make neighbours the other methods of the source documents on the same stars: a minute or two, proving first"
	@echo "make stack      the stack that each call from C needs, and the size of the code: seconds, proving first"
	@echo "make soak       random histories for as long as you like, proving first"
	@echo "make library    the library for C, static and shared: seconds, proving first"
	@echo "make install    library, header, programs, Python package and command, manual, examples below PREFIX (/usr/local); make uninstall"
	@echo "make python     the library for the Python package and command (docs/GUIDE.md): seconds, proving first"
	@echo "make catalogue  41,673 stars of Debian's kstars-data through a file's life: ten seconds, proving first; apt installs them"
	@echo "make pictures   the pictures of docs/pictures/"
	@echo "make deps       install what only some machines have: numpy, astropy, matplotlib, fitsverify, cfitsio, valgrind, clang (Debian)"
	@echo "make clean      remove everything that was made"

# Every test; ends with 'N passed, 0 failed'.
test:
	@tools/test-all

# Proves and builds starline, and runs it on the example of its crate.
run:
	@tools/run

# The same example in seconds, without a proof.
try:
	@tools/try

# Times of the calls; with OLD=target/archives/COMMIT.a those of an older library beside them (bench/archive makes one).
bench:
	@bench/run $(if $(OLD),--old $(OLD))

# Pages read and written for each star entered by a cascade, beside the figures of the report's Table 1.
report:
	@bench/report

# Which single wrong bits are noticed, and by what.
damage:
	@bench/damage

# Which star numbers spread well, and how full a file gets.
spread:
	@bench/spread

# How many pages a growth leaves untouched.
untouched:
	@bench/untouched

# How often the tray's filter says "yes" of a star that no report names.
filter:
	@bench/filter

# The other methods of the source documents beside this one, on the same stars.
neighbours:
	@bench/neighbours

# The stack that each call from C needs, and the size of the code.
stack:
	@bench/stack

soak:
	@tests/soak

# The library for C, static and shared, proved and built where its sources changed.
library:
	@tools/shared

# Library, header, programs, Python package, man pages and examples below DESTDIR and PREFIX (/usr/local).
install:
	@PREFIX=$(PREFIX) DESTDIR=$(DESTDIR) tools/install

uninstall:
	@PREFIX=$(PREFIX) DESTDIR=$(DESTDIR) tools/install --remove

# The library that the Python package loads (docs/GUIDE.md): the shared one.
python:
	@tools/shared

# The pictures of docs/pictures/.
pictures:
	@python/pictures

# A real catalogue, that of Debian's kstars-data, through a file's life (docs/CATALOGUE.md).
catalogue:
	@python/catalogue

# What the gate tests only where it is installed.
deps:
	apt-get update
	apt-get install -y python3-numpy python3-astropy python3-matplotlib fitsverify libcfitsio-dev valgrind clang

clean:
	rm -rf target crates/*/out
