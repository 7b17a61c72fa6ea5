# Output of builds: a line for each product; `make V=1` prints the commands. A recipe begins with $(call SAY,PRODUCT),
# and each further line of it with $Q.

V ?= 0

ifeq ($(V),0)
Q   := @
SAY  = @echo 'c: $(1)'
else
Q   :=
SAY  = @:
endif
