# Read by the scripts here: finds the proved program and python3, and the folder of the logs. `here` is this folder.
program=$here/../crates/dejavu_cli/out/dejavu_cli
if [ ! -x "$program" ]; then
    echo 'the proved program is not built: run .ci/run first' >&2
    exit 1
fi
if ! command -v python3 >/dev/null; then
    echo 'python3 is missing' >&2
    exit 1
fi
mkdir -p "$here/data"
