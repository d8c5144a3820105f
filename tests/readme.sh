# shellcheck shell=sh
# What README shows, for scripts that source it and hold it to what is there. `root` is the repository.

# Prints the first fenced block of a kind in a section of README.
readme_block() { # SECTION KIND
    awk -v section="## $1" -v kind="$2" '/^## / { inside = ($0 == section) } inside && $0 == "```" kind { taking = 1; next }
        taking && /^```/ { exit } taking { print }' "$root/README.md"
}
