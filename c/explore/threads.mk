# The explorer for the threads that a driver creates, out/libnic82599_threads.a: the engine, the library and the link
# form. Comes with linker options (out/nic82599_threads.opts; nic82599_program.opts for a whole program) and
# nic82599_threads.ld. Included by ../Makefile.

THREADS_SOURCES := $(wildcard $(HERE)/explore/threads/*.c)
THREADS_HEADERS := $(wildcard $(HERE)/explore/threads/*.h)
THREADS_OBJECTS := $(patsubst $(HERE)/explore/threads/%.c,$(OUT)/threads/%.o,$(THREADS_SOURCES))
THREADS_ALL     := $(patsubst $(OUT)/%.o,$(OUT)/threads/not-intercepted/%.o,$(EXPLORE_OBJECTS) $(THREADS_OBJECTS))
THREADS_FORM    := $(addprefix $(OUT)/nic82599_,threads.opts program.opts threads.ld)

$(OUT)/threads/%.o: $(HERE)/explore/threads/%.c $(THREADS_HEADERS) $(EXPLORE_HEADERS)
	@mkdir -p $(OUT)/threads
	$Q$(CC) -std=c99 $(EXPLORE_FLAGS) -Wall -Wextra -pedantic -fPIC -I$(HERE)/include -I$(OUT)/threads -c -o $@ $<

# The intercepted calls are the functions __wrap_NAME, which the linker calls instead of NAME. Calls made by the
# engine itself, in this archive too, still go to NAME. (outside.c contains the list of names, so an object made without
# the list provides its own names.)
$(OUT)/threads/intercepted: $(filter-out %/outside.o,$(THREADS_OBJECTS)) $(OUT)/threads/outside-names.o
	$Qnm -g --defined-only $^ | sed -n 's/.* T __wrap_//p' | LC_ALL=C sort -u >$@

$(OUT)/threads/outside-names.o: $(HERE)/explore/threads/outside.c $(THREADS_HEADERS) $(EXPLORE_HEADERS)
	@mkdir -p $(OUT)/threads
	$Q$(CC) -std=c99 $(EXPLORE_FLAGS) -fPIC -DNICX_NAMES_ONLY -I$(HERE)/include -c -o $@ $<

$(OUT)/threads/intercepted.inc: $(OUT)/threads/intercepted
	$Qsed -e 's/.*/"&",/' $< >$@

$(OUT)/threads/outside.o: $(OUT)/threads/intercepted.inc

$(OUT)/threads/names.syms: $(OUT)/threads/intercepted
	$Qsed -e 's/.*/& __real_&/' $< >$@

$(OUT)/threads/not-intercepted/%.o: $(OUT)/%.o $(OUT)/threads/names.syms
	@mkdir -p $(@D)
	$Q$(OBJCOPY) --redefine-syms=$(OUT)/threads/names.syms $< $@

# The archive contains the library itself for the same reason: the library's own calls aren't intercepted.
$(OUT)/threads/not-intercepted/device.o: $(OUT)/device.o $(OUT)/threads/names.syms
	$Qgrep -v '^nic_' $(OUT)/threads/names.syms >$(OUT)/threads/others.syms
	$Q$(OBJCOPY) --redefine-syms=$(OUT)/threads/others.syms $< $@

$(OUT)/libnic82599_threads.a: $(THREADS_ALL) $(OUT)/threads/not-intercepted/device.o
	$(call SAY,$(@F))
	$Qrm -f $@
	$Q$(AR) rcs $@ $^

$(OUT)/nic82599_threads.opts: $(OUT)/threads/intercepted
	$Q{ sed -n '/^main$$/!s/.*/-Wl,--wrap=&,-u,__wrap_&/p' $<; \
	  echo '-Wl,-u,nicxi_threads_form -Wl,-T,nic82599_threads.ld -l:libnic82599_threads.a'; } >$@

$(OUT)/nic82599_program.opts: $(OUT)/threads/intercepted
	$Q{ sed 's/.*/-Wl,--wrap=&,-u,__wrap_&/' $<; \
	  echo '-Wl,-u,nicxi_threads_form -Wl,-T,nic82599_threads.ld -l:libnic82599_threads.a'; } >$@

$(OUT)/nic82599_threads.ld: $(HERE)/explore/threads/nic82599_threads.ld
	@mkdir -p $(OUT)
	$Qcp $< $@
