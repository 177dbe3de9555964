# A kit whose rt try leaves the program that it has built. A script says '. scripts/keeping_kit.sh'.

# linked FOLDER TARGET: a folder of links to what another one has
linked() {
  rm -f "$2"
  mkdir "$2"
  ln -s "$1"/* "$2"
}

# keeping_kit FOLDER [ARGUMENT..]: makes FOLDER/kit, whose rt try leaves its program in FOLDER/program, linked with
# these arguments too. The toolchain's own rt try deletes what it has built and run; so this is a folder of links to the
# toolchain, with another linker, and rt copied, since it looks for the rest next to itself.
keeping_kit() {
  kept=$1
  shift
  page=$(rt doc)
  toolchain=${page%/*}
  for folder in '' /bin /toolchain /toolchain/bin; do
    linked "$toolchain$folder" "$kept/kit$folder"
  done
  rm "$kept/kit/bin/rt" "$kept/kit/bin/rtlib.py" "$kept/kit/toolchain/bin/ld.lld"
  cp "$toolchain/bin/rt" "$toolchain/bin/rtlib.py" "$kept/kit/bin/"
  # it is run without an environment
  cat > "$kept/kit/toolchain/bin/ld.lld" << END
#!/bin/sh
'$toolchain/toolchain/bin/ld.lld' "\$@" $* && '$(command -v cp)' program '$kept/program'
END
  chmod +x "$kept/kit/toolchain/bin/ld.lld"
}
