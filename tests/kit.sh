# What a test in C takes of the kit, for a script to read in by `. tests/kit.sh`, once it has its function `stop` and stands at the top of the repository:
# $tools (clang, llvm-ar, lib), $own (bin/rattle-link), $loader, and $emulator, which is empty on x86-64.
command -v rt >/dev/null || stop "the kit's command rt is not on the PATH"
guide=$(rt doc) || stop "rt doc failed, so the kit is not found"
machine=$(uname -m)
own=${guide%/*}
tools=$own/toolchain
loader=$tools/lib/ld-linux-x86-64.so.2
# the programs are for x86-64
case $machine in
x86_64) emulator='' ;;
aarch64) emulator=$tools/bin/qemu-x86_64 ;;
*) stop "the kit has no tools for this machine, $machine" ;;
esac
for tool in "$tools/bin/clang" "$tools/bin/llvm-ar" "$own/bin/rattle-link" "$loader" $emulator; do
    [ -x "$tool" ] || stop "the kit lacks $tool"
done
# an emulator's own settings would change the run
for word in $(env | sed -n 's/^\(QEMU_[A-Za-z0-9_]*\)=.*/\1/p'); do unset "$word"; done
