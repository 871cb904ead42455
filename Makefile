# make: builds ember. make test: every test that needs no proof. make check: the whole gate. make install PREFIX=/usr: puts ember into
# PREFIX/bin, and its man page, documents, examples and completions into PREFIX/share. make uninstall PREFIX=/usr: removes them. make mesh,
# install-mesh, uninstall-mesh: the same for ember-mesh, which the other goals neither build nor remove. make library, install-library,
# uninstall-library: the same for the C library, which goes into PREFIX/lib and PREFIX/include. make deb, make tar: put packages of all into OUT.
PREFIX ?= /usr/local
OUT ?= out
# The folder of the library before it is installed.
LIBRARY ?= out/library

bin = $(DESTDIR)$(PREFIX)/bin
lib = $(DESTDIR)$(PREFIX)/lib
include = $(DESTDIR)$(PREFIX)/include
share = $(DESTDIR)$(PREFIX)/share
man = $(share)/man/man1
doc = $(share)/doc/ember
mesh_doc = $(share)/doc/ember-mesh
library_doc = $(share)/doc/libember-dev
bash = $(share)/bash-completion/completions
zsh = $(share)/zsh/site-functions
# Pages keep the folders that they have in docs. tools/pages puts them beside the examples, without links to what isn't there.
documents = trust/DEFINITIONS.md trust/TRUST.md use/FORMATS.md use/LIMITS.md use/REFUSALS.md
mesh_documents = trust/TRUST.md use/EMBED.md use/FORMATS.md use/LIBRARY.md use/MESHES.md use/PYTHON.md use/before-after.png
library_documents = trust/DEFINITIONS.md $(mesh_documents)
examples = cube.obj tetra.obj tetra.txt wedge.obj
mesh_examples = export.obj label.stl plate.stl
library_examples = arrays.c arrays.rs difference.c difference.cpp difference.rs

build:
	tools/build

mesh:
	tools/build --program mesh_program

library:
	tools/library $(LIBRARY)

install: build
	install -d $(bin) $(man) $(doc)/examples $(doc)/trust $(doc)/use $(bash) $(zsh)
	install crates/ember/out/ember $(bin)/ember
	install -m 644 docs/use/man/ember.1 $(man)/ember.1
	install -m 644 $(examples:%=examples/%) $(doc)/examples
	tools/pages $(doc) $(documents)
	install -m 644 completions/ember.bash $(bash)/ember
	install -m 644 completions/_ember $(zsh)/_ember

install-mesh: mesh
	install -d $(bin) $(man) $(mesh_doc)/examples $(mesh_doc)/trust $(mesh_doc)/use $(bash) $(zsh)
	install crates/mesh_program/out/mesh_program $(bin)/ember-mesh
	install -m 644 docs/use/man/ember-mesh.1 $(man)/ember-mesh.1
	install -m 644 $(mesh_examples:%=examples/%) $(mesh_doc)/examples
	tools/pages $(mesh_doc) $(mesh_documents)
	install -m 644 completions/ember-mesh.bash $(bash)/ember-mesh
	install -m 644 completions/_ember-mesh $(zsh)/_ember-mesh

install-library: library
	install -d $(lib)/pkgconfig $(include) $(library_doc)/examples $(library_doc)/trust $(library_doc)/use
	install -m 644 $(LIBRARY)/lib/libember.a $(LIBRARY)/lib/libember.so.1 $(lib)
	install -m 644 $(LIBRARY)/lib/pkgconfig/ember.pc $(lib)/pkgconfig
	install -m 644 $(LIBRARY)/include/ember.h $(include)
	install -m 644 $(library_examples:%=examples/library/%) $(library_doc)/examples
	tools/pages $(library_doc) $(library_documents)

uninstall:
	rm -f $(bin)/ember $(man)/ember.1 $(documents:%=$(doc)/%) $(examples:%=$(doc)/examples/%) $(bash)/ember $(zsh)/_ember
	rmdir $(doc)/examples $(doc)/trust $(doc)/use $(doc) 2>/dev/null || true

uninstall-mesh:
	rm -f $(bin)/ember-mesh $(man)/ember-mesh.1 $(mesh_documents:%=$(mesh_doc)/%) $(mesh_examples:%=$(mesh_doc)/examples/%)
	rm -f $(bash)/ember-mesh $(zsh)/_ember-mesh
	rmdir $(mesh_doc)/examples $(mesh_doc)/trust $(mesh_doc)/use $(mesh_doc) 2>/dev/null || true

uninstall-library:
	rm -f $(lib)/libember.a $(lib)/libember.so.1 $(lib)/pkgconfig/ember.pc $(include)/ember.h
	rm -f $(library_documents:%=$(library_doc)/%) $(library_examples:%=$(library_doc)/examples/%)
	rmdir $(library_doc)/examples $(library_doc)/trust $(library_doc)/use $(library_doc) 2>/dev/null || true

deb:
	tools/deb "$(OUT)"

tar:
	tools/tar "$(OUT)"

test:
	tools/test

check:
	.ci/run

.PHONY: build mesh library install install-mesh install-library uninstall uninstall-mesh uninstall-library deb tar test check
