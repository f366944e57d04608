# Builds the programs of this folder; the scripts beside it source it with their arguments. Without --model it makes libnas.a
# first (library.sh) and links it.

# The families of calls that libnas.a has besides the pieces and reading, of linked-editing, linked-writing,
# linked-mandatory, linked-findings (Cargo.toml), with blanks between them. A family is added when libnas.a has its calls; the
# cases of one that is not here are left out, and the comparison says how many.
families="linked-editing linked-writing linked-findings linked-mandatory"

if ! command -v cargo > /dev/null; then
  echo "cargo is not there: the comparison is a Rust project and needs a Rust toolchain (1.88 or later)." >&2
  exit 2
fi
if [[ " $* " == *" --model "* ]]; then
  cargo build --release --offline --quiet
else
  source ./library.sh
  cargo build --release --offline --quiet --features "linked $families"
fi
