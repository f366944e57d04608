# Makes libnas.a and names it in `library`; the scripts beside it source it. Where NAS_LIB names a library, that one is taken and
# nothing is made.

if [[ -n ${NAS_LIB:-} ]]; then
  # The scripts have changed to this folder; a name is seen from where they were called.
  [[ $NAS_LIB == /* ]] || NAS_LIB=$OLDPWD/$NAS_LIB
  export NAS_LIB
  library=$NAS_LIB
else
  if ! command -v rt > /dev/null; then
    echo "rt is not there: it makes libnas.a. NAS_LIB names one that is made, and compare/run --model needs none." >&2
    exit 2
  fi
  if [[ $(uname -m) != x86_64 ]]; then
    echo "rt makes libnas.a for x86-64, and this machine is $(uname -m). NAS_LIB names one that is made for it, and compare/run --model needs none." >&2
    exit 2
  fi
  (cd ../crates/nas && rt lib)
  library=../crates/nas/out/libnas.a
fi
if [[ ! -f $library ]]; then
  echo "$library is not there." >&2
  exit 2
fi
