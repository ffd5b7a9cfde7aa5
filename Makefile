list:     ; @sed -nE 's/^([a-z]+): .*[#]# (.*)/make \1\t\2/p' Makefile | expand -t 16
gate:     ; @./gate --help ## proves and builds the program where something changed; ./gate --unproved only builds
library:  ; @./prove c_api && python3 -m tools.library --to out/lib ## proves and builds the library for C
proof:    ; @./prove $(CRATE) ## CRATE=NAME: proves one crate with what it needs; ./prove NAME --estimate says how long
quick:    ; @./test --quick ## files through the program; ./test --list has the parts, and each runs by its name
test:     ; @./test ## all that decides whether a change lands: every proof, test and wrong body
release:  ; @packaging/release ## proves, builds and packs a release, which its install.sh installs
word:     ; @python3 -m tools.where $(NAME) ## NAME=WORD: a word of a contract, with its definition and who speaks of it
recipe:   ; @python3 -m tools.recipe $(NAME) ## NAME=NAME: whether a new instruction is in every place
.PHONY: list gate library proof quick test release word recipe
