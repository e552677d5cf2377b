# Edits the LLVM text of faster_hex_c between its proof and the compiler. generated/README.md lists all of its edits.
# Usage: awk -v level=LEVEL -f library.awk, where LEVEL is the number that `level` of faster_hex_c returns in this
# build.

# The callers of `level` are proved for every number that it could return. The number of this build replaces the one
# call, so that no code reaches the plans for other numbers.
{ edits += gsub(/call i8 @"faster_hex_c::level"\(\)/, "add i8 0, " level) }

# Levels 4 and 5 were proved for the processor of level 3, because `rattle` knows no processor with AVX-512. From here
# on clang may use AVX-512, and at level 5 also AVX-512 VBMI. Some calls are slower with AVX-512, so these calls are no
# longer exported, and clang removes them.
BEGIN { wide = "\"target-cpu\"=\"x86-64-v4\"" (level == 5 ? " \"target-features\"=\"+avx512vbmi\"" : "") }
level >= 4 { sub(/"target-cpu"="x86-64-v3"/, wide) }
level >= 4 && /^define .*@faster_hex_(encode|decode_grouped|first_invalid)/ { sub(/^define /, "define internal ") }

# At level 5, one function becomes the instruction `vpermb`, which does the same: it replaces each lane of the second
# vector by the lane of the first one at its low six bits.
level == 5 && /^define .*@"hex_core::widths::look_up_row_of_64"\(/ {
    print
    print "  %row = load <64 x i8>, ptr %a1, align 1"
    print "  %at = load <64 x i8>, ptr %a2, align 1"
    print "  %found = call <64 x i8> @llvm.x86.avx512.permvar.qi.512(<64 x i8> %row, <64 x i8> %at)"
    print "  store <64 x i8> %found, ptr %a0, align 1"
    print "  ret void"
    look_ups++
    is_replaced = 1
}
# At level 5, `look_up_long` (in three instances), `check_by_long_rows` and `decode_by_long_rows` are inlined, as
# `look_up`, `check_by_length` and `decode_by_length` are in the other builds. They have no `inline` in the source,
# because `Backend::check` would then be too long to be inlined.
level == 5 && /^define internal .*@"hex_core::(plain::(check|decode)_by_long_rows|widths::look_up_long.*)"\(/ {
    hints += sub(/ #[0-9]+ \{$/, " alwaysinline&")
}
is_replaced { if (/^}/) is_replaced = 0; else next }
END { if (level == 5) print "declare <64 x i8> @llvm.x86.avx512.permvar.qi.512(<64 x i8>, <64 x i8>)" }

# Unwind tables let a debugger walk out of each function. Only x86-64 gets them, because on aarch64 they would change
# instructions.
/^target triple = "x86_64/ { unwinds = 1 }
/^attributes / && unwinds { sub(/ nounwind /, " nounwind uwtable ") }

{ print }

# Clang marks the places where indirect branches may arrive: for IBT on x86-64, and for BTI on aarch64.
END {
    mark = unwinds ? "cf-protection-branch" : "branch-target-enforcement"
    print "!llvm.module.flags = !{!9999}\n!9999 = !{i32 8, !\"" mark "\", i32 1}"
}

# If the toolchain writes another text one day, it must not pass without the edits.
END {
    found = "calls of `level`: " edits + 0 ", functions `look_up_row_of_64`: " look_ups + 0 ", inlined: " hints + 0
    wanted = "calls of `level`: 1, functions `look_up_row_of_64`: " (level == 5 ? "1, inlined: 5" : "0, inlined: 0")
    if (found != wanted) {
        print "library.awk: the LLVM text has " found ", but must have " wanted >"/dev/stderr"
        exit 1
    }
}
