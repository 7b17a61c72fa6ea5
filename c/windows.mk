# Builds the library for Windows programs with MinGW's compiler, in the plain edition: out/windows/nic82599.dll with its
# import library libnic82599.dll.a, and libnic82599.a. The explorer, the report card and the server for virtual machines
# aren't built: they depend on Linux's stacks, threads and processes.
#
#   make -C c -f windows.mk              with x86_64-w64-mingw32-gcc, on Linux (Debian: gcc-mingw-w64-x86-64, rustc,
#                                        libstd-rust-dev-windows); also out/windows/nicbench.exe
#   make -C c -f windows.mk install PREFIX=FOLDER
#   make -C c -f windows.mk clean

HERE    := $(patsubst %/,%,$(dir $(lastword $(MAKEFILE_LIST))))
OUT     ?= $(HERE)/out/windows
CROSS   ?= x86_64-w64-mingw32-
TARGET  ?= x86_64-pc-windows-gnu
TOOLS   := CC=$(CROSS)gcc AR=$(CROSS)ar NM=$(CROSS)nm OBJCOPY=$(CROSS)objcopy
PLAIN    = $(TOOLS) PLAIN_TARGET=$(TARGET) PLAIN_FLAGS='-C linker=$(CROSS)gcc' PLAIN_OUT='$(abspath $(OUT)/plain)' \
    $(HERE)/../dev/plain
VERSION := $(shell cat $(HERE)/../VERSION)
AROUND   = $(patsubst $(HERE)/%.c,$(OUT)/%.o,$(wildcard $(HERE)/library/*.c $(HERE)/in_place/*.c $(HERE)/why/*.c))
SYMS    := $(HERE)/library/calls.syms $(HERE)/heap.syms
HEADERS := $(wildcard $(foreach it,library in_place why include,$(HERE)/$(it)/*.h $(HERE)/$(it)/*.inc)) \
    $(HERE)/explore/engine/names.inc
WORDS   := -std=c99 -O2 -Wall -Wextra -pedantic -I$(HERE)/include -I$(OUT)
# The Windows libraries that the library needs beyond the compiler's defaults; threads are linked statically.
SYSTEM  := -static-libgcc -Wl,-Bstatic -lpthread -Wl,-Bdynamic -lws2_32 -luserenv -lbcrypt

all: $(OUT)/nic82599.dll $(OUT)/libnic82599.a $(OUT)/nicbench.exe

include $(HERE)/quiet.mk

ifeq ($(shell command -v $(CROSS)gcc),)
ifeq ($(filter clean,$(MAKECMDGOALS)),)
$(error there is no $(CROSS)gcc, which compiles for Windows: install gcc-mingw-w64-x86-64, or name another by CROSS)
endif
endif

$(OUT)/crate.a: FORCE
	@mkdir -p $(OUT)
	@made=$$($(PLAIN) library) && for it in crate heap; do cmp -s "$$made/$$it.a" $(OUT)/$$it.a || \
	    cp "$$made/$$it.a" $(OUT); done

$(OUT)/heap.a: $(OUT)/crate.a ;

$(OUT)/nicbench.exe: FORCE
	@mkdir -p $(OUT)
	@made=$$($(PLAIN) program).exe && $(CROSS)strip -o $@ "$$made"

$(OUT)/proved.h:
	@mkdir -p $(OUT)
	@echo '#define NIC_PROVED 0' >$@

$(OUT)/about.o: $(HERE)/about.c $(OUT)/proved.h $(HEADERS)
	$Q$(CROSS)gcc $(WORDS) -c -o $@ $<

$(AROUND): $(OUT)/%.o: $(HERE)/%.c $(HEADERS)
	@mkdir -p $(@D)
	$Q$(CROSS)gcc $(WORDS) -c -o $@ $<

# As in the Makefile: one object that exports only the calls. (The symbol without a section is left over from an unused
# initializer in Rust's library.)
$(OUT)/device.o: $(OUT)/crate.a $(OUT)/about.o $(AROUND) $(SYMS) $(HERE)/windows.mk
	$Q$(CROSS)objcopy -D --redefine-syms=$(HERE)/library/calls.syms --wildcard \
	    --strip-unneeded-symbol='*INIT_TABLE_ENTRY*' $< $(OUT)/renamed.a
	$Q$(CROSS)ld -r -o $@ $(OUT)/about.o $(AROUND) --whole-archive $(OUT)/renamed.a
	$Q$(CROSS)objcopy -D --redefine-syms=$(HERE)/heap.syms --wildcard --keep-global-symbol='nic_*' $@

$(OUT)/heap.o: $(OUT)/heap.a $(SYMS)
	$Q$(CROSS)ld -r -o $@ --whole-archive $<
	$Q$(CROSS)objcopy -D --redefine-syms=$(HERE)/heap.syms $@

$(OUT)/libnic82599.a: $(OUT)/device.o $(OUT)/heap.o
	$(call SAY,$(@F))
	$Qrm -f $@
	$Q$(CROSS)ar rcsD $@ $^

$(OUT)/nic82599.def: $(OUT)/device.o
	$Q{ echo EXPORTS; $(CROSS)nm -g --defined-only $< | sed -n 's/^.* T \(nic_\)/    \1/p'; } >$@

$(OUT)/nic82599.dll: $(OUT)/device.o $(OUT)/heap.o $(OUT)/nic82599.def
	$(call SAY,$(@F))
	$Q$(CROSS)gcc -shared -o $@ $^ -Wl,--out-implib,$(OUT)/libnic82599.dll.a -Wl,--no-insert-timestamp -s $(SYSTEM)

$(OUT)/libnic82599.dll.a: $(OUT)/nic82599.dll ;

install: all
	$(call SAY,installing to $(PREFIX))
	$Qinstall -d "$(PREFIX)/include" "$(PREFIX)/lib" "$(PREFIX)/bin"
	$Qinstall -m 644 $(filter-out %_explore.h %_drive.h,$(wildcard $(HERE)/include/*.h)) "$(PREFIX)/include"
	$Qinstall -m 644 $(OUT)/libnic82599.a $(OUT)/libnic82599.dll.a "$(PREFIX)/lib"
	$Qinstall -m 755 $(OUT)/nic82599.dll $(OUT)/nicbench.exe "$(PREFIX)/bin"

clean:
	rm -rf $(OUT)

FORCE:

.DELETE_ON_ERROR:

.PHONY: all install clean FORCE
