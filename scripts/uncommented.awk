# Prints sources without their comments: of each file its name, and then its lines behind a tab. A comment is left out
# only where it has a line of its own and certainly is a comment. All else stays, so that sources with different
# meanings never give the same text.
# Usage: awk -f uncommented.awk FILE..

# leaves_open CODE: whether a macro call in this line of Rattle may end in a later one. A closed call becomes `name!_`.
function leaves_open(code) {
    if (!sub(/^[^!]*!/, "!", code)) return 0
    while (gsub(/[(][^][(){}']*[)]|[[][^][(){}']*[]]|[{][^][(){}']*[}]/, "_", code)) continue
    return code ~ /![^=A-Za-z0-9_]|!$/
}

FNR == 1 {
    print FILENAME
    is_rattle = FILENAME ~ /[.]rt$/
    is_unclear = in_text = in_clause = depth = has_documents = 0
    held = ""
}

# antt: a string ends on its line, so a line that begins with `--` is a comment, except within `{- -}`.
!is_rattle && !is_unclear && /^ *--( |$)/ { next }
!is_rattle {
    if (/[{]-/) is_unclear = 1
    print "\t" $0
    next
}

# Rattle. Doc comments are held back until it is known whether they stay.
!is_unclear && !in_text && !in_clause && /^[ \t]*\/\// {
    if (/^[ \t]*\/\/(\/|!)/) held = held "\t" $0 "\n"
    next
}
{
    # The line with a mark in place of each text.
    code = in_text ? "\"" $0 : $0
    gsub(/"[^"]*"/, "`", code)
    sub(/".*/, "`", code)
    # Macros and derives see doc comments. So all doc comments stay that follow a call of several lines, or a derive
    # that is not of the language.
    names = "((Clone|Copy|Debug|Drop|Eq|Hash|PartialEq)(, )?)+"
    if (leaves_open(code) || code ~ /derive/ && code !~ "^ *#[[]derive[(]" names "[)][]]$") has_documents = 1
    if (has_documents) printf "%s", held
    held = ""
    print "\t" $0
    # In a line without these, each quotation mark begins or ends a text, each brace counts, and no comment goes on
    # behind the line. After a line with one of them, no further comment of the file is left out.
    if (/'"'|\\"/ || code ~ /\/\/|\/[*]|r`|r#|--|[{]-/) is_unclear = 1
    in_text = (in_text + gsub(/"/, "")) % 2
    # What stands in the braces of a clause is antt, in which `//` may be a name.
    if (!in_clause && match(code, /(^|[^A-Za-z0-9_])(ghost|requires|ensures)([^A-Za-z0-9_]|$)/)) {
        code = substr(code, RSTART)
        ends = code ~ /^.?ghost/ ? "[;,]$" : "[;,}]$"
        in_clause = 1
        depth = 0
    }
    if (in_clause) {
        depth += gsub(/[{]/, "{", code) - gsub(/[}]/, "}", code)
        in_clause = depth > 0 || depth == 0 && code !~ ends
    }
}
