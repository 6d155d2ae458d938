# The usual names for what the scripts here do: ./build, ./test, ./install and ./dist say more.
PREFIX = /usr/local

all:
	./build
test:
	./test
install:
	./install --prefix "$(PREFIX)" $(if $(DESTDIR),--destdir "$(DESTDIR)")
dist:
	./dist
.PHONY: all test install dist
