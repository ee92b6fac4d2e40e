# Lines on the machine for the results, in shell functions; the benchmarks' scripts read this file.

machine() {
    printf 'machine\tCPU\t%s, family %s, model %s\n' "$(lscpu | sed -n 's/^Model name: *//p')" \
        "$(lscpu | sed -n 's/^CPU family: *//p')" "$(lscpu | sed -n 's/^Model: *//p')"
    printf 'machine\tcores\t%s\n' "$(nproc)"
    lscpu | sed -n 's/^\(L[123]d\?\) cache: *\(.*\)/machine\t\1 cache\t\2/p'
    printf 'machine\thypervisor\t%s\n' "$(lscpu | sed -n 's/^Hypervisor vendor: *//p')"
    printf 'machine\thuge pages\t%s\n' "$(sed 's/.*\[\(.*\)\].*/\1/' /sys/kernel/mm/transparent_hugepage/enabled)"
    printf 'machine\tRattle\t%s\n' "$(rt --version | head -n 1)"
    printf 'machine\trustc\t%s\n' "$(rustc --version)"
    printf 'machine\tg++\t%s\n' "$(g++ --version | head -n 1)"
}

load() { printf 'machine\tload average %s\t%s\n' "$1" "$(cut -d ' ' -f 1-3 /proc/loadavg)"; }
