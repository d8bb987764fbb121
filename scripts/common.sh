# What the scripts share. Sourced, with the name of the script in $script.

# cargo where it is installed for one user, beside the PATH
command -v cargo >/dev/null 2>&1 || PATH=$PATH:${CARGO_HOME:-${HOME:-/root}/.cargo}/bin

say() {
    echo "$script: $*" >&2
}

# Says of each program that is not there what it is; whether all are there.
needs() { # PROGRAM...
    all=0
    for program; do
        ! command -v "$program" >/dev/null 2>&1 || continue
        all=1
        case $program in
        rt) say "rt is missing: the Rattle toolchain has to be on the PATH" ;;
        cargo) say "cargo is missing: Rust's build tool has to be on the PATH or in ~/.cargo/bin" ;;
        *) say "$program is missing: a C compiler has to be on the PATH" ;;
        esac
    done
    return $all
}

# Runs rt in a crate's folder, with all that it prints in a log. Of each crate that it proves a line with its time goes to standard error as it
# comes. Where rt fails, so does the whole log.
proving() { # LOG CRATE WORD...
    whole=$1
    crate=$2
    shift 2
    { (cd "crates/$crate" && rt "$@") </dev/null 2>&1 && echo 0 >"$whole.status" || echo $? >"$whole.status"; } | tee "$whole" | crates >&2
    status=$(cat "$whole.status")
    rm -f "$whole.status"
    [ "$status" = 0 ] || cat "$whole" >&2
    return "$status"
}

# Of what rt lib and rt run print a line for each crate. They prove one after the other, and have no times of their own.
crates() {
    began=$(date +%s)
    while IFS= read -r line; do
        case $line in
        'crate '*': modules '*)
            proved=${line#crate }
            proved=${proved%%:*}
            continue
            ;;
        # what is built for this machine is a program or a static library
        'logic=proved '*' target='*) ended="proved and compiled" ;;
        'logic=proved '*) ended=proved ;;
        'logic=not-proved'*) ended="NOT PROVED" ;;
        *) continue ;;
        esac
        echo "$script: $proved $ended ($(($(date +%s) - began)) s)"
        began=$(date +%s)
    done
}

# Adds to rt ci's lines of crates the time since it began: it proves several at once.
timed() {
    began=$(date +%s)
    while IFS= read -r line; do
        case $line in
        'rt: '*' proved' | 'rt: '*' NOT PROVED'*) line="$line (after $(($(date +%s) - began)) s)" ;;
        esac
        printf '%s\n' "$line"
    done
}

# Puts what rt leaves in the folders of crates to where callers look for it: a program into target/bin, the library into target/staticlib.
put() { # CRATE...
    for crate; do
        case $crate in
        api) made=libapi.a folder=target/staticlib ;;
        *) made=$crate folder=target/bin ;;
        esac
        mkdir -p "$folder" && cp -f "crates/$crate/out/$made" "$folder/" || return
    done
}

# Proves and builds the static library.
library() { # LOG
    proving "$1" api lib && put api
}
