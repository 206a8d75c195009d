# Read by the scripts that link the port's library, which is for x86-64 alone: sets `compiler` to a C compiler for x86-64 and `emulator` to what its programs run in, nothing
# on x86-64 and QEMU, or qemu-x86_64, elsewhere. It calls the script's own `missing` where there is none, and leaves its trial in $out.
if [ "$(uname -m)" = x86_64 ]; then
    compiler=${CC:-cc} emulator=
else
    compiler="x86_64-linux-gnu-gcc -static" emulator=${QEMU:-qemu-x86_64}
    command -v "$emulator" > /dev/null || missing "this is no x86-64 machine, and there is no $emulator to run the port in (QEMU=path names one)"
fi
echo 'int main(void) { return 0; }' > "$out/empty.c"
$compiler "$out/empty.c" -o "$out/empty" 2> /dev/null || missing "no ${compiler%% *} that compiles a C program for x86-64"
