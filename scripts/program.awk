# Edits the LLVM text of a program between its proof and the compiler. generated/README.md lists all of its edits.
# Usage: awk -f program.awk

# The C `main` of the toolchain is no longer exported, so clang removes it. crates/fhex/fhex.c has one in its place.
/^define .*@main\(/ { sub(/^define /, "define internal ") }

# That `main` of C calls the `main` of the Rattle source, which is therefore exported.
/^define internal .*@"[a-z_]+::main\+start"\(/ { edits += sub(/ internal /, " ") }

{ print }

# If the toolchain writes another text one day, it must not pass without the edit.
END { if (edits != 1) { print "program.awk: " edits + 0 " functions main, and not one" >"/dev/stderr"; exit 1 } }
