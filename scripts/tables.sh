# Tables in pages: what a run printed, put between two marks.

# put_table PAGE NAME: standard input becomes the lines of the page between
# '<!-- NAME: begin -->' and '<!-- NAME: end -->'.
put_table() {
    local page=$1 name=$2 text
    text=$(cat)
    grep -qF "<!-- $name: begin -->" "$page" || { echo "$page has no place for $name" >&2; return 1; }
    TEXT=$text awk -v begin="<!-- $name: begin -->" -v end="<!-- $name: end -->" '
        $0 == end { inside = 0 }
        !inside { print }
        $0 == begin { inside = 1; print ENVIRON["TEXT"] }
    ' "$page" >"$page.new"
    mv "$page.new" "$page"
}
