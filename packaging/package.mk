# The library as it is installed and handed on.
PREFIX ?= /usr/local
DIST := target/dist/moult-$(VERSION)-x86_64-linux.tar

.PHONY: install dist

install: $(MOULT_LIB) $(MOULT_SO) $(MOULT_LIST)
	packaging/install.sh "$(DESTDIR)$(PREFIX)" $^

dist: $(MOULT_LIB) $(MOULT_SO) $(MOULT_LIST)
	@mkdir -p $(dir $(DIST))
	packaging/dist.sh $(DIST) $^ "$(notdir $(GIVEN))"
	@sha256sum $(DIST)
