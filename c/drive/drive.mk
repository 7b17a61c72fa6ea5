# The report card's library for drivers in C. Link libnic82599_drive.a before libnic82599_explore.a and libnic82599.a.
# Included by ../Makefile, which defines HERE, OUT and CC.

DRIVE_FLAGS   ?= -O2 -g
DRIVE_SOURCES := $(wildcard $(HERE)/drive/engine/*.c $(HERE)/drive/scenarios/*.c)
DRIVE_HEADERS := $(wildcard $(HERE)/drive/engine/*.h) $(EXPLORE_HEADERS)
DRIVE_OBJECTS := $(patsubst $(HERE)/drive/%.c,$(OUT)/drive/%.o,$(DRIVE_SOURCES))

# No sibling calls: schedules locate a step by its call stack, which begins with the card's own functions.
$(OUT)/drive/%.o: $(HERE)/drive/%.c $(DRIVE_HEADERS)
	@mkdir -p $(@D)
	$Q$(CC) -std=c99 $(DRIVE_FLAGS) -fno-optimize-sibling-calls -Wall -Wextra -pedantic -fPIC -I$(HERE)/include -c -o $@ $<

$(OUT)/libnic82599_drive.a: $(DRIVE_OBJECTS)
	$(call SAY,$(@F))
	$Qrm -f $@
	$Q$(AR) rcs $@ $^

# The library for drivers whose memory accesses are observed: the card's own calls aren't redirected
# (../explore/threads.mk). Link libnic82599_threads.a after it. Pass the linker @c/out/nic82599_drive.opts.
DRIVE_NOT_INTERCEPTED := $(patsubst $(OUT)/%.o,$(OUT)/threads/not-intercepted/%.o,$(DRIVE_OBJECTS))

$(OUT)/libnic82599_drive_threads.a: $(DRIVE_NOT_INTERCEPTED)
	$(call SAY,$(@F))
	$Qrm -f $@
	$Q$(AR) rcs $@ $^

$(OUT)/nic82599_drive.opts: $(OUT)/nic82599_threads.opts
	$Qsed 's/-l:libnic82599_threads.a/-l:libnic82599_drive_threads.a &/' $< >$@

# The shared library for drivers in Python, in which fibers are threads (../explore/python/fiber.c).
$(OUT)/drive/python/%.o: $(PYTHON_HEADERS)

$(OUT)/libnic82599_drive.so: $(DRIVE_OBJECTS) $(OUT)/drive/python/calls.o $(PYTHON_BOTH) $(EXPLORE_OBJECTS) \
    $(OUT)/libnic82599.a $(HERE)/drive/python/exports.map
	$(call SAY,$(@F))
	$Q$(CC) -shared -o $@ $(DRIVE_OBJECTS) $(OUT)/drive/python/calls.o $(PYTHON_ENGINE) $(OUT)/libnic82599.a \
	    -Wl,--version-script=$(HERE)/drive/python/exports.map -Wl,-z,defs -Wl,-z,relro -Wl,-z,now -lpthread
