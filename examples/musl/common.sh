# What the scripts of this folder share: `name` is the script's, and $here their folder.
name=$(basename "$0")

fail() {
    printf '%s: %s\n' "$name" "$1" >&2
    exit 1
}

say() { printf '%s: %s\n' "$name" "$1" >&2; }

# A line that is written over on a terminal.
progress() { if [ -t 2 ]; then printf '\r%s: %s ' "$name" "$1" >&2; fi; }
progress_end() { if [ -t 2 ]; then printf '\n' >&2; fi; }

# need PROGRAM PACKAGE
need() { command -v "$1" >/dev/null || fail "$1 is not installed: apt-get install $2"; }

# The folder that build-musl fills.
musl_folder() { printf '%s\n' "${RRV_MUSL:-${XDG_DATA_HOME:-$HOME/.local/share}/rrv/musl}"; }

# fetch PACKAGE SUITE FOLDER FILE LINE: has apt-get fetch a source package of Debian into a folder, from the places that
# apt has already, whatever suites it takes from there. FILE is what has to be in the package, and LINE how to do
# without. Nothing of the system's own lists changes.
fetch() {
    need apt-get apt
    mkdir -p "$3/apt/lists/partial" "$3/apt/cache/archives/partial"
    places=$(apt-get indextargets --format '$(ORIGIN) $(COMPONENT) $(REPO_URI) $(RELEASE)' 2>/dev/null |
        sed -n 's/^Debian main \([^ ]*\) .*/\1/p' | grep -v -e security | sort -u | head -n 1)
    [ -n "$places" ] || fail "apt has no list of Debian's packages: apt-get update brings it. With the files at hand: $5"
    say "fetching the source of $1 from Debian's $2"
    key=/usr/share/keyrings/debian-archive-keyring.gpg
    {
        printf 'Types: deb-src\nURIs: %s\nSuites: %s\nComponents: main\n' "$places" "$2"
        if [ -f $key ]; then printf 'Signed-By: %s\n' $key; fi
    } >"$3/apt/$2.sources"
    set -- "$@" -o Dir::Etc::sourcelist="$3/apt/$2.sources" -o Dir::Etc::sourceparts=/dev/null -o Dir::State::lists="$3/apt/lists" \
        -o Dir::Cache="$3/apt/cache" -o APT::Sandbox::User=root -o APT::Update::Error-Mode=any -o Acquire::Retries=2
    fetched=$1 suite_of=$2 into=$3 wanted=$4 without=$5
    shift 5
    (
        cd "$into"
        apt-get "$@" -q update && apt-get "$@" -q source --download-only --tar-only "$fetched"
    ) >"$into/apt.log" 2>&1 || fail "apt-get can't fetch the source of $fetched from $suite_of ($into/apt.log). With its files at hand: $without"
    [ -e "$into/$wanted" ] || fail "$suite_of has no $wanted, but $(cd "$into" && echo "$fetched"_*.orig.tar.*): $without"
}

# need_room WORDS: the section that start.c reads is a page.
need_room() {
    bytes=$(wc -c <"$1")
    [ "$bytes" -lt 4096 ] || fail "the arguments and the environment have $bytes bytes, and there is room for 4095"
}

# put_words WORDS IN OUT: writes a guest with these words.
put_words() {
    need_room "$1"
    truncate -s 4096 "$1"
    riscv64-unknown-elf-objcopy --update-section guest_words="$1" "$2" "$3" 2>/dev/null || fail "$2 is no guest that cc linked"
}
