# For the scripts of this folder, which run at the repository's root.

archive=target/staticlib/librelay.a
warnings=(-std=c11 -Wall -Wextra -Wpedantic -Wconversion -Werror)

require_archive() {
    if [[ ! -e $archive ]]; then
        echo "$archive is missing: run \`make library\` at the root" >&2
        exit 1
    fi
}

# The fuzzer takes what is no number, and 0, for no limit.
require_seconds() {
    if [[ ! $1 =~ ^[1-9][0-9]*$ ]]; then
        echo "SECONDS is to be a whole number from 1, not \"$1\"" >&2
        exit 2
    fi
}

# The first text that README shows below a heading.
readme_text() {
    sed -n "/^## $1\$/,/^## /{/^\`\`\`text\$/,/^\`\`\`\$/{/^\`\`\`\$/q;/^\`\`\`/!p}}" README.md
}
