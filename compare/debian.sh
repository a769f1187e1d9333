# What scripts share that want Debian's packages; they source it after rust/net-tcp/examples/endpoint/namespace.sh.

# Makes sure that a file of Debian's packages is here.
want() {
    file=$1; shift
    if [ ! -e "$file" ] && [ "$(id -u)" = 0 ] && command -v apt-get > /dev/null; then
        apt="guarded apt-get -qq -o DPkg::Lock::Timeout=120"
        { $apt update && $apt install -y --no-install-recommends "$@"; } > "$out/apt" 2>&1 || :
    fi
    [ -e "$file" ] || not_run "no $file: apt-get install -y $*"
}

# Runs apt-get, which checks all signatures, with $out/apt.lists and no package installed, for this run alone.
apt_apart() {
    mkdir -p "$out/apt.state/partial" "$out/apt.cache"
    guarded apt-get -qq -o Dir::Etc::SourceList=/dev/null -o Dir::Etc::SourceParts="$out/apt.lists" \
        -o Dir::State::Status=/dev/null -o Dir::State::Lists="$out/apt.state" -o Dir::Cache="$out/apt.cache" \
        -o APT::Sandbox::User=root "$@"
}

# Unpacks the sources of a package, or of its version that is named, into a folder. They come from where the machine has
# its packages: lists of this run alone ask there for sources too.
unpack() {
    package=$1 folder=$2
    mkdir -p "$out/apt.lists" "$folder"
    for list in /etc/apt/sources.list /etc/apt/sources.list.d/*.list /etc/apt/sources.list.d/*.sources; do
        [ ! -f "$list" ] || sed 's/^deb /deb-src /; s/^Types:.*/Types: deb-src/' "$list" > "$out/apt.lists/${list##*/}"
    done
    cd "$out"
    { apt_apart update || :; apt_apart source --download-only "$package"; } > apt 2>&1 || :
    cd - > /dev/null
    tar -xf "$out/${package%%=*}"_*.orig.tar.* -C "$folder" --strip-components 1 2> /dev/null ||
        not_run "no sources of ${package%%=*}: apt-get source $package"
}

# Sets $registry: a folder of the crates that Debian 13 has in these packages, and in all that they depend on. Any
# Debian downloads and unpacks them, and installs nothing. They stay in $CARGO_TARGET_DIR, if that is set.
crates() {
    kept=${CARGO_TARGET_DIR:-$out}
    mkdir -p "$out/apt.lists" "$out/debs" "$kept"
    kept=$(cd "$kept" && pwd) registry=$kept/debian13/usr/share/cargo/registry
    [ ! -d "$registry" ] || return 0
    keys=/usr/share/keyrings/debian-archive-keyring.gpg
    want "$keys" debian-archive-keyring
    echo "deb [signed-by=$keys] http://deb.debian.org/debian trixie main" > "$out/apt.lists/trixie.list"
    cd "$out/debs"
    {
        apt_apart --error-on=any update && apt_apart --print-uris --no-install-recommends install "$@" &&
            apt_apart download $(sed -n "s/^'[^ ]* \(librust-[^_]*\)_.*/\1/p" "$out/apt")
    } > "$out/apt" 2>&1 || not_run "no $1 of Debian 13: $(tail -n 1 "$out/apt")"
    for package in *; do guarded dpkg -x "$package" "$out/unpacked"; done
    cd - > /dev/null
    mv "$out/unpacked" "$kept/debian13"
}
