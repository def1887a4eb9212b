# need COMMAND PACKAGE: where the command isn't there, installs the Debian package that has it. For the scripts in tests/ to source.
need() {
    if ! command -v "$1" >/dev/null; then
        echo "installing $2, for $1"
        {
            apt-get install -y -q "$2" || { apt-get update -q && apt-get install -y -q "$2"; }
        } >/dev/null 2>&1 || {
            echo "$2 can't be installed"
            exit 1
        }
    fi
}
