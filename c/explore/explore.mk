# The explorer's library, out/libnic82599_explore.a. Programs link it before libnic82599.a. Included by ../Makefile,
# which defines HERE, OUT and CC.

EXPLORE_FLAGS   ?= -O2 -g
EXPLORE_SOURCES := $(wildcard $(HERE)/explore/engine/*.c)
EXPLORE_HEADERS := $(wildcard $(HERE)/explore/*.h $(HERE)/explore/engine/*.h $(HERE)/explore/engine/*.inc \
    $(HERE)/library/*.h $(HERE)/include/*.h)
EXPLORE_OBJECTS := $(patsubst $(HERE)/explore/engine/%.c,$(OUT)/explore/%.o,$(EXPLORE_SOURCES))

# The lines of a failure's page as C string literals.
$(OUT)/explore/page.inc: $(HERE)/explore/engine/page.html
	@mkdir -p $(OUT)/explore
	$Qsed -e 's/[\\"]/\\&/g' -e 's/.*/"&\\n",/' $< >$@

$(OUT)/explore/page.o: $(OUT)/explore/page.inc

$(OUT)/explore/%.o: $(HERE)/explore/engine/%.c $(EXPLORE_HEADERS)
	@mkdir -p $(OUT)/explore
	$Q$(CC) -std=c99 $(EXPLORE_FLAGS) -Wall -Wextra -pedantic -fPIC -I$(HERE)/include -I$(OUT)/explore -c -o $@ $<

$(OUT)/libnic82599_explore.a: $(EXPLORE_OBJECTS)
	$(call SAY,$(@F))
	$Qrm -f $@
	$Q$(AR) rcs $@ $^

# The engine for code in Python: its stacks are threads (python/fiber.c), because the interpreter keeps per-thread
# state.
PYTHON_HEADERS := $(wildcard $(HERE)/explore/python/*.h) $(EXPLORE_HEADERS)
PYTHON_BOTH    := $(OUT)/explore/python/fiber.o $(OUT)/explore/python/calls.o
PYTHON_ENGINE  := $(PYTHON_BOTH) $(filter-out %/fiber.o,$(EXPLORE_OBJECTS))

$(OUT)/explore/python/%.o: $(HERE)/explore/python/%.c $(PYTHON_HEADERS)
	@mkdir -p $(@D)
	$Q$(CC) -std=c99 $(EXPLORE_FLAGS) -Wall -Wextra -pedantic -fPIC -I$(HERE)/include -c -o $@ $<

# The engine of the module nic82599.explore, with the device's calls.
$(OUT)/libnic82599_python.so: $(OUT)/explore/python/explore.o $(PYTHON_ENGINE) $(OUT)/device.o \
    $(HERE)/explore/python/exports.map
	$(call SAY,$(@F))
	$Q$(CC) -shared -o $@ $(OUT)/explore/python/explore.o $(PYTHON_ENGINE) $(OUT)/device.o \
	    -Wl,--version-script=$(HERE)/explore/python/exports.map -Wl,-Bsymbolic -Wl,-z,defs -Wl,-z,relro -Wl,-z,now \
	    -lpthread
