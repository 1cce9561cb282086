# What several tests stand on: the oracle and the static libraries. Each is built where it is missing or a source has changed, so
# that tests which run one after another, or side by side, build it once. Source it in the repository's root.

# Builds the oracle, and sets its path.
build_oracle() {
  export CARGO_TARGET_DIR=$PWD/target/oracle
  oracle=$CARGO_TARGET_DIR/release/oracle
  cargo build --quiet --release --offline --manifest-path oracle/Cargo.toml
}

# samples N: the requests of the samples of seeds 1 to N, each once. That of seed 1 is the stored one.
samples() {
  local seed
  for ((seed = 1; seed <= $1; seed++)); do
    "$oracle" sample "$seed" || return
  done | awk '!met[$0]++'
}

# used_by CRATE: the crates that crates.txt names for a static library.
used_by() {
  sed -n "s/^$1 staticlib://p" crates.txt
}

# compile_over_proved CRATE: a static library, over the libraries that `rt ci` has just proved and left in crates/*/out, as it compiles
# programs; and checks its crate. `rt lib` proves each crate below once more, since it takes no library of `rt ci`'s.
compile_over_proved() {
  local top=$1 kit crate words=()
  kit=$(dirname "$(rt doc)")
  for crate in $(used_by "$top"); do
    words+=(--extern "$crate=../$crate/out/rlib/$crate.rlib")
  done
  for crate in crates/*/out/rlib; do
    words+=(-L "dependency=../../$crate")
  done
  (cd "crates/$top" && mkdir -p out &&
    "$kit/bin/rattle" build --crate-name "$top" src/lib.rt --crate-type staticlib --links "$top=" \
      --extern std="$kit/rlibs/std.rlib" -L dependency="$kit/rlibs" "${words[@]}" \
      --antt-project "$kit/rattle/logic/antt-project.json" --logic-built "$kit/logic_built" --toolchain "$kit/toolchain" \
      --backend llvm -o "out/lib$top.a.new" &&
    touch -r ../../target/proved "out/lib$top.a.new" && mv "out/lib$top.a.new" "out/lib$top.a")
}

# is_proved CRATE: whether `rt ci` has passed here, of which .ci/run leaves a note, no source has changed since, and what the crate
# stands on is there.
is_proved() {
  local changed crate
  for crate in $(used_by "$1"); do
    [ -e "crates/$crate/out/rlib/$crate.rlib" ] || return
  done
  [ -e target/proved ] && [ target/proved -nt crates.txt ] &&
    changed=$(find crates -mindepth 2 -name out -prune -o -newer target/proved -print -quit) && [ -z "$changed" ]
}

# build_static CRATE FILE: builds the static library of a crate, and puts it in a file of this name.
build_static() {
  local crate=$1 compiled='' made=crates/$1/out/lib$1.a file=$GATEWAY_LIBRARY_DIR/$2 log=$GATEWAY_LIBRARY_DIR/$1.log
  # A folder is newer where a file in it was added or removed.
  if ! [ "$made" -nt crates.txt ] || find crates -mindepth 2 -name out -prune -o -newer "$made" -print -quit | grep -q .; then
    if is_proved "$crate"; then
      if compile_over_proved "$crate" >"$log" 2>&1; then
        compiled=1
      else
        echo "$crate is not compiled over what is proved, so rt lib makes it:"
        tail -n 5 "$log"
      fi
    fi
    if [ -z "$compiled" ] && ! (cd "crates/$crate" && rt lib) >"$log" 2>&1; then
      cat "$log"
      return 1
    fi
    tail -n 1 "$log"
  fi
  cmp -s "$made" "$file" || cp "$made" "$file"
}

# Builds the static libraries, that of the gateway and the one of the benchmarks, and puts them where C and Rust look for them.
build_library() {
  export GATEWAY_LIBRARY_DIR=$PWD/target/staticlib
  local lock
  mkdir -p "$GATEWAY_LIBRARY_DIR"
  exec {lock}>"$GATEWAY_LIBRARY_DIR/lock"
  flock "$lock"
  build_static gateway_c libgateway.a && build_static bit_walks libbit_walks.a || return
  exec {lock}>&-
}
